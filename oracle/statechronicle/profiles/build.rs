include!("../source.rs");

fn main() {
    let mut text = String::new();
    for module in ["error", "registry", "consumable_stack", "fungible_balance", "meter"] {
        text.push_str(&beside("statechronicle-profiles", module));
    }
    text.push_str(&with_access("statechronicle-profiles", "transition", "transition_access.rs"));
    write_modules(text);
}
