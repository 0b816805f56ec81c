// Links the project's C library where the feature asks for it; else there is nothing to do.
fn main() {
    println!("cargo:rerun-if-env-changed=CREDITS_LIB");
    println!("cargo:rerun-if-changed=build.rs");
    if std::env::var_os("CARGO_FEATURE_LIBRARY").is_none() {
        return;
    }
    let folder = std::env::var("CREDITS_LIB").expect("CREDITS_LIB: the folder of libcredits.a");
    let file = std::path::Path::new(&folder).join("libcredits.a");
    assert!(file.is_file(), "no libcredits.a in the folder that CREDITS_LIB names");
    println!("cargo:rerun-if-changed={}", file.display());
    println!("cargo:rustc-link-search=native={}", folder);
    println!("cargo:rustc-link-lib=static=credits");
}
