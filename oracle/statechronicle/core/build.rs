include!("../source.rs");

fn main() {
    write_modules(with_access("statechronicle-core", "amount", "amount_access.rs"));
}
