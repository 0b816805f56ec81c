// Shared by the build scripts: finds statechronicle's source tree and writes the module
// declarations that name its files by path. Nothing of the tree is copied into the repository.
use std::path::{Path, PathBuf};
use std::{env, fs};

// The folder that has crates/statechronicle-core/src/amount.rs below it: where ORACLE_SRC points.
fn tree() -> PathBuf {
    println!("cargo:rerun-if-env-changed=ORACLE_SRC");
    let tree = PathBuf::from(env::var_os("ORACLE_SRC").unwrap_or_default());
    let mark = tree.join("crates/statechronicle-core/src/amount.rs");
    if !mark.is_file() {
        eprintln!(
            "oracle: {} is not there; set ORACLE_SRC to the folder of statechronicle's sources that has \
             crates/statechronicle-core/src/amount.rs below it",
            mark.display()
        );
        std::process::exit(1);
    }
    tree.canonicalize().expect("the source tree's full path")
}

// One module of the tree, compiled where it lies.
#[allow(dead_code)]
fn beside(krate: &str, module: &str) -> String {
    let file = tree().join("crates").join(krate).join("src").join(format!("{module}.rs"));
    println!("cargo:rerun-if-changed={}", file.display());
    assert!(file.is_file(), "{} is missing from the source tree", file.display());
    format!("#[path = {:?}]\npub mod {module};\n", file)
}

// One module of the tree with a private part that the oracle has to reach: a file below
// target/ that holds the module's bytes, unchanged, and after them one line that declares
// the child module `oracle_access` (a child sees its parent's private names).
#[allow(dead_code)]
fn with_access(krate: &str, module: &str, access: &str) -> String {
    let file = tree().join("crates").join(krate).join("src").join(format!("{module}.rs"));
    println!("cargo:rerun-if-changed={}", file.display());
    let child = Path::new(&env::var_os("CARGO_MANIFEST_DIR").unwrap()).join("src").join(access);
    println!("cargo:rerun-if-changed={}", child.display());
    let original = fs::read(&file).unwrap_or_else(|e| panic!("{}: {e}", file.display()));
    let mut text = original.clone();
    text.extend_from_slice(format!("\n#[path = {:?}]\npub mod oracle_access;\n", child).as_bytes());
    let made = Path::new(&env::var_os("OUT_DIR").unwrap()).join(format!("{module}.rs"));
    fs::write(&made, &text).expect("writing below target");
    assert!(fs::read(&made).unwrap().starts_with(&original));
    format!("#[path = {:?}]\npub mod {module};\n", made)
}

fn write_modules(text: String) {
    println!("cargo:rerun-if-changed=../source.rs");
    println!("cargo:rerun-if-changed=build.rs");
    let made = Path::new(&env::var_os("OUT_DIR").unwrap()).join("modules.rs");
    fs::write(made, text).expect("writing below target");
}
