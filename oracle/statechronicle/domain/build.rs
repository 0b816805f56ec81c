include!("../source.rs");

fn main() {
    write_modules(beside("statechronicle-domain", "resource_state"));
}
