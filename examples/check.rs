// The same as check.c, in Rust.
#[path = "../include/credits.rs"]
#[allow(dead_code)]
mod credits;
use credits::*;

fn main() {
    let (mut state, mut input) = ([0; SHEET_MAX], [0; INPUT_MAX]);
    let held = [Field::Text(FIELD_SUBJECT, b"N1"), Field::Text(FIELD_UNIT, b"rd"), Field::Whole(FIELD_BALANCE, 5)];
    let state = build_state(&held, &mut state).expect("a sound state");
    let input = build_input(&[Field::Whole(FIELD_AMOUNT, 3)], &mut input).expect("a sound input");

    let a = check(PROFILE_BALANCE, BALANCE_SPEND, state, input);
    println!("number {}: {}", a.number, word(a.number));
}
