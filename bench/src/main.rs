//! The program that tools/bench measures: each call as a function of its own, on the same inputs, of libcredits.a
//! (`_library`), the Rust original with the sheets' decoding (`_decoded`) and without (`_original`), and the version
//! written by hand (`_hand`).
mod book;
#[path = "../../oracle/src/case.rs"]
#[allow(dead_code)]
mod case;
#[path = "../../include/credits.rs"]
#[allow(dead_code)]
mod credits;
#[allow(dead_code)]
mod direct;
#[path = "../../oracle/src/layer.rs"]
#[allow(dead_code)]
mod layer;

use credits::*;
use statechronicle_core::amount::oracle_access::amount as original;
use statechronicle_domain::intent::Operation;
use statechronicle_domain::state::StateProjection;
use statechronicle_profiles::fungible_balance::FungibleBalanceRules;
use statechronicle_profiles::registry::ProfileRules;
use statechronicle_profiles::transition::{oracle_access::apply_balance, transfer_after_state};
use std::hint::black_box;
use std::time::{Duration, Instant};

// ---- Inputs ----

const SUBJECT: u8 = 1;
const UNIT: u8 = 2;
const BALANCE: u8 = 4;
const AMOUNT: u8 = 7;
const TO_SUBJECT: u8 = 8;

const DIGITS: &str = "340282366920938463463374607431768211455";
const FINE: (u128, u8) = (12345678901234567890123456789012345678, 30);
const COARSE: (u128, u8) = (1234567890, 2);
const PRINTED: (u128, u8) = (12345678901234567890123456789012345678, 7);

fn input_sheet(fields: &[(u8, &str)]) -> Vec<u8> {
    let mut sheet = vec![fields.len() as u8];
    let mut offset = 1 + 6 * fields.len();
    for (name, text) in fields {
        sheet.extend([*name, 1, offset as u8, (offset >> 8) as u8, text.len() as u8, (text.len() >> 8) as u8]);
        offset += text.len();
    }
    fields.iter().for_each(|(_, text)| sheet.extend(text.bytes()));
    sheet
}

fn state_sheet(subject: &str, balance: u128) -> Vec<u8> {
    let s = subject.len() as u8;
    let mut sheet = vec![3, SUBJECT, 1, 19, 0, s, 0, UNIT, 1, 19 + s, 0, 2, 0, BALANCE, 3, 21 + s, 0, 17, 0];
    sheet.extend(subject.bytes());
    sheet.extend(b"rd");
    sheet.extend(balance.to_le_bytes());
    sheet.push(0);
    sheet
}

fn opening() -> Vec<u8> {
    input_sheet(&[(SUBJECT, "N1"), (UNIT, "rd"), (BALANCE, "100000")])
}

fn asking(amount: &str) -> Vec<u8> {
    input_sheet(&[(AMOUNT, amount)])
}

// Up to 16 opens, then acts, begins and finishes in turn.
fn session(steps: usize) -> Vec<u8> {
    let (open, three) = (opening(), asking("3"));
    let mut table = Vec::new();
    let mut bodies = Vec::new();
    let mut offset = 2 + 8 * (steps + 1);
    let mut entry = |head: [u8; 4], body: &[u8]| {
        table.extend(head);
        table.extend([offset as u8, (offset >> 8) as u8, body.len() as u8, (body.len() >> 8) as u8]);
        bodies.extend(body);
        offset += body.len();
    };
    entry([0; 4], b"rd");
    for k in 0..steps {
        let p = (k / 4 % 15) as u8;
        match k {
            0..=15 => entry([1, k as u8, 0, 0], &open),
            _ if k % 4 == 0 => entry([2, p, 18, 0], &three),
            _ if k % 4 == 1 => entry([3, p, p + 1, p % 8], &three),
            _ if k % 4 == 2 => entry([2, p, 13, 0], &three),
            _ => entry([4, 0, 0, p % 8], &[]),
        }
    }
    let n = steps + 1;
    [&[n as u8, (n >> 8) as u8], table.as_slice(), bodies.as_slice()].concat()
}

pub struct Bench {
    size: usize,
    state: Vec<u8>,
    destination: Vec<u8>,
    spending: Vec<u8>,
    sending: Vec<u8>,
    opening: Vec<u8>,
    session: Vec<u8>,
    out: [u8; LISTING_MAX],
    written: Vec<u8>,
    spend: Operation,
    transfer: Operation,
    before: (Option<StateProjection>, Option<StateProjection>, layer::Inputs, layer::Inputs),
    fresh: (Book, book::Book),
    book: Book,
    hand: book::Book,
    grown: Vec<u8>,
    answered: (u8, u8, u16),
}

impl Bench {
    // `size` is what the growth rows go by: entries, steps or digits.
    fn new(size: usize) -> Bench {
        let (state, destination) = (state_sheet("N1", 5), state_sheet("N2", 7));
        let (spending, sending) = (asking("3"), input_sheet(&[(AMOUNT, "3"), (TO_SUBJECT, "N2")]));
        let decoded = |s: &[u8]| layer::state_of(s).ok().expect("a sound state");
        let inputs = |s: &[u8]| layer::inputs_of(s, 0).ok().expect("a sound input");
        let before = (decoded(&state), decoded(&destination), inputs(&spending), inputs(&sending));
        let mut b = Bench {
            size,
            state,
            destination,
            spending,
            sending,
            opening: opening(),
            session: session(255),
            out: [0; LISTING_MAX],
            written: Vec::new(),
            spend: Operation::new("balance.spend").expect("a name"),
            transfer: Operation::new("balance.transfer").expect("a name"),
            before,
            fresh: books(),
            book: books().0,
            hand: books().1,
            grown: Vec::new(),
            answered: (0, 0, 0),
        };
        // the amount, and then other names that the operation does not read
        let mut names: Vec<u8> = [7, 8, 9, 10, 1, 2, 3, 4, 5, 6].into_iter().take(size.clamp(1, 10)).collect();
        names.sort_unstable();
        let texts: Vec<(u8, &str)> = names.into_iter().map(|n| (n, "3")).collect();
        b.grown = input_sheet(&texts);
        b
    }

    fn reset(&mut self) {
        self.book = self.fresh.0;
        self.hand = self.fresh.1;
    }

    fn took(&mut self, a: Answer) {
        self.answered = (a.number, a.detail, a.length);
    }
    fn took_hand(&mut self, a: direct::Answer) {
        self.answered = (a.number, a.detail, a.length);
    }
}

// Both books with eight places open, the last of them empty, so that it may be closed, the one before it with 3 reserved, so that
// they may be released, and transfers 0, 1 and 2 under way.
fn books() -> (Book, book::Book) {
    let (open, three, all) = (opening(), asking("3"), asking("100000"));
    let mut c = unsafe { credits_book_start(b"rd".as_ptr(), 2) }.book;
    let mut h = book::Book::start(b"rd").expect("a unit");
    for p in 0..8 {
        unsafe { credits_book_open(&mut c, p, open.as_ptr(), open.len() as u64) };
        h.open(p, &open);
    }
    unsafe { credits_book_act(&mut c, 7, 18, all.as_ptr(), all.len() as u64) };
    h.act(7, 18, &all);
    unsafe { credits_book_act(&mut c, 6, 16, three.as_ptr(), three.len() as u64) };
    h.act(6, 16, &three);
    for t in 0..3 {
        unsafe { credits_book_begin(&mut c, t, t + 1, t, three.as_ptr(), three.len() as u64) };
        h.begin(t, t + 1, t, &three);
    }
    (c, h)
}

fn lent((m, scale): (u128, u8)) -> Amount {
    Amount { mantissa: Uint128 { hi: (m >> 64) as u64, lo: m as u64 }, scale }
}

fn native((mantissa, scale): (u128, u8)) -> direct::Amount {
    direct::Amount { mantissa, scale }
}

// ---- What is measured ----

macro_rules! cells {
    ($($name:ident $b:ident $body:block)*) => {
        $(#[no_mangle] #[inline(never)] pub extern "C" fn $name($b: &mut Bench) $body)*
        const CELLS: &[(&str, extern "C" fn(&mut Bench))] = &[$((stringify!($name), $name)),*];
    };
}

cells! {
    read_library b { b.answered.0 = unsafe { credits_amount_read(DIGITS.as_ptr(), DIGITS.len() as u64) }.number; }
    read_decoded b { b.answered.0 = read_original_text(black_box(DIGITS.as_bytes())); }
    read_original b { b.answered.0 = u8::from(black_box(statechronicle_core::amount::Amount::try_from_str(black_box(DIGITS))).is_err()); }
    read_hand b { b.answered.0 = u8::from(black_box(direct::read(black_box(DIGITS.as_bytes()))).is_none()); }

    compare_library b { b.answered.1 = unsafe { credits_amount_compare(lent(black_box(FINE)), lent(black_box(COARSE))) }; }
    compare_original b {
        let (fine, coarse) = (black_box(FINE), black_box(COARSE));
        b.answered.1 = (original(fine.0, fine.1).cmp(&original(coarse.0, coarse.1)) as i8 + 1) as u8;
    }
    compare_hand b { b.answered.1 = (direct::compare(native(black_box(FINE)), native(black_box(COARSE))) as i8 + 1) as u8; }

    text_library b { b.answered.2 = black_box(unsafe { credits_amount_text(lent(black_box(PRINTED))) }).len; }
    text_original b {
        let printed = black_box(PRINTED);
        b.answered.2 = black_box(original(printed.0, printed.1).to_canonical_string()).len() as u16;
    }
    text_hand b { b.answered.2 = black_box(direct::text(native(black_box(PRINTED)))).len; }

    check_library b {
        let a = unsafe { credits_check(2, 18, b.state.as_ptr(), b.state.len() as u64, b.spending.as_ptr(), b.spending.len() as u64) };
        b.took(a);
    }
    check_decoded b {
        let state = layer::state_of(&b.state).ok().expect("sound");
        let inputs = layer::inputs_of(&b.spending, 0).ok().expect("sound");
        b.answered.0 = u8::from(FungibleBalanceRules.check(&b.spend, state.as_ref(), &inputs).is_err());
    }
    check_original b {
        b.answered.0 = u8::from(FungibleBalanceRules.check(&b.spend, b.before.0.as_ref(), &b.before.2).is_err());
    }
    check_hand b { let a = direct::check(black_box(2), black_box(18), &b.state, &b.spending); b.took_hand(a); }

    apply_library b {
        let a = unsafe {
            credits_apply(2, 15, b.state.as_ptr(), b.state.len() as u64, b.sending.as_ptr(), b.sending.len() as u64, b.out.as_mut_ptr(), 600)
        };
        b.took(a);
    }
    apply_decoded b {
        let state = layer::state_of(&b.state).ok().expect("sound");
        let inputs = layer::inputs_of(&b.sending, 0).ok().expect("sound");
        let next = apply_balance(state.as_ref(), &b.transfer, &inputs).expect("accepted");
        layer::sheet_of(&next, &mut b.written);
        b.answered.2 = b.written.len() as u16;
    }
    apply_original b { black_box(apply_balance(b.before.0.as_ref(), &b.transfer, &b.before.3).expect("accepted")); }
    apply_hand b { let a = direct::apply(black_box(2), black_box(15), &b.state, &b.sending, &mut b.out[..600]); b.took_hand(a); }

    credit_library b {
        let a = unsafe {
            credits_credit(
                15, b.state.as_ptr(), b.state.len() as u64, b.destination.as_ptr(), b.destination.len() as u64,
                b.sending.as_ptr(), b.sending.len() as u64, b.out.as_mut_ptr(), 600,
            )
        };
        b.took(a);
    }
    credit_decoded b {
        let source = layer::state_of(&b.state).ok().expect("sound").expect("there");
        let destination = layer::state_of(&b.destination).ok().expect("sound");
        let inputs = layer::inputs_of(&b.sending, 0).ok().expect("sound");
        let next = transfer_after_state(&source, destination.as_ref(), &b.transfer, &inputs).expect("accepted");
        layer::sheet_of(&next, &mut b.written);
        b.answered.2 = b.written.len() as u16;
    }
    credit_original b {
        let source = b.before.0.as_ref().expect("there");
        black_box(transfer_after_state(source, b.before.1.as_ref(), &b.transfer, &b.before.3).expect("accepted"));
    }
    credit_hand b {
        let a = direct::credit(black_box(15), &b.state, &b.destination, &b.sending, &mut b.out[..600]);
        b.took_hand(a);
    }

    open_library b { let a = unsafe { credits_book_open(&mut b.book, 8, b.opening.as_ptr(), b.opening.len() as u64) }; b.took(a); }
    open_hand b { let a = b.hand.open(black_box(8), &b.opening); b.took_hand(a); }
    act_library b { let a = unsafe { credits_book_act(&mut b.book, 4, 18, b.spending.as_ptr(), b.spending.len() as u64) }; b.took(a); }
    act_hand b { let a = b.hand.act(black_box(4), black_box(18), &b.spending); b.took_hand(a); }
    reserve_library b { let a = unsafe { credits_book_act(&mut b.book, 4, 16, b.spending.as_ptr(), b.spending.len() as u64) }; b.took(a); }
    reserve_hand b { let a = b.hand.act(black_box(4), black_box(16), &b.spending); b.took_hand(a); }
    release_library b { let a = unsafe { credits_book_act(&mut b.book, 6, 17, b.spending.as_ptr(), b.spending.len() as u64) }; b.took(a); }
    release_hand b { let a = b.hand.act(black_box(6), black_box(17), &b.spending); b.took_hand(a); }
    begin_library b {
        let a = unsafe { credits_book_begin(&mut b.book, 4, 5, 3, b.spending.as_ptr(), b.spending.len() as u64) };
        b.took(a);
    }
    begin_hand b { let a = b.hand.begin(black_box(4), black_box(5), black_box(3), &b.spending); b.took_hand(a); }
    finish_library b { let a = unsafe { credits_book_finish(&mut b.book, 1) }; b.took(a); }
    finish_hand b { let a = b.hand.finish(black_box(1)); b.took_hand(a); }
    cancel_library b { let a = unsafe { credits_book_cancel(&mut b.book, 1) }; b.took(a); }
    cancel_hand b { let a = b.hand.cancel(black_box(1)); b.took_hand(a); }
    close_library b { let a = unsafe { credits_book_close(&mut b.book, 7) }; b.took(a); }
    close_hand b { let a = b.hand.close(black_box(7)); b.took_hand(a); }

    run_library b { b.answered.2 = black_box(unsafe { credits_session_run(b.session.as_ptr(), b.session.len() as u64) }).count; }
    run_hand b { b.answered.2 = black_box(book::run(&b.session)).map_or(0, |r| r.count as u16); }
    listing_library b {
        b.answered.2 = unsafe { credits_session_listing(b.session.as_ptr(), b.session.len() as u64, b.out.as_mut_ptr(), LISTING_MAX as u64) };
    }
    listing_hand b { b.answered.2 = book::listing(&b.session, &mut b.out) as u16; }

    check_growth b {
        let a = unsafe { credits_check(2, 18, b.state.as_ptr(), b.state.len() as u64, b.grown.as_ptr(), b.grown.len() as u64) };
        b.took(a);
    }
    text_growth b {
        let a = lent((DIGITS[..b.size.clamp(1, 39)].parse().expect("digits"), 0));
        b.answered.2 = grown_text(a).len;
    }
}

fn read_original_text(text: &[u8]) -> u8 {
    match std::str::from_utf8(text) {
        Ok(text) => u8::from(black_box(statechronicle_core::amount::Amount::try_from_str(text)).is_err()),
        Err(_) => 10,
    }
}

#[no_mangle]
#[inline(never)]
pub extern "C" fn grown_text(a: Amount) -> Text {
    black_box(unsafe { credits_amount_text(a) })
}

// ---- Running ----

// Every version of a call gives the same answer, and writes the same bytes.
fn agree(b: &mut Bench) {
    let mut said: Vec<(&str, (u8, u8, u16), Vec<u8>)> = Vec::new();
    for (name, cell) in CELLS {
        let (call, version) = name.rsplit_once('_').expect("a version");
        if version == "growth" {
            continue;
        }
        b.reset();
        b.answered = (0, 0, 0);
        b.out = [0; LISTING_MAX];
        cell(b);
        // the original's values without their sheets have no length
        let length = if b.answered.2 == 0 { None } else { Some(b.answered.2) };
        if matches!(version, "decoded") {
            b.out[..b.written.len()].copy_from_slice(&b.written);
        }
        match said.iter().find(|s| s.0 == call) {
            None => said.push((call, b.answered, b.out.to_vec())),
            Some((_, first, bytes)) => {
                assert_eq!((first.0, first.1), (b.answered.0, b.answered.1), "{name} answers otherwise");
                assert!(length.map_or(true, |n| n == first.2), "{name}: another length");
                assert!(version == "original" || *bytes == b.out, "{name} writes otherwise");
            }
        }
        b.written.clear();
    }
}

fn cell(name: &str) -> extern "C" fn(&mut Bench) {
    match CELLS.iter().find(|c| c.0 == name) {
        Some(c) => c.1,
        None => panic!("no cell {name}"),
    }
}

// Nanoseconds a turn: the least of 15 rounds.
fn time(mut turn: impl FnMut()) -> f64 {
    let mut turns = 64;
    let mut least = f64::INFINITY;
    for _ in 0..15 {
        loop {
            let began = Instant::now();
            (0..turns).for_each(|_| turn());
            let took = began.elapsed();
            if took >= Duration::from_millis(4) {
                least = least.min(took.as_nanos() as f64 / turns as f64);
                break;
            }
            turns *= 2;
        }
    }
    least
}

fn main() {
    let args: Vec<String> = std::env::args().skip(1).collect();
    let number = |at: usize| args.get(at).and_then(|w| w.parse::<usize>().ok());
    let mut b = Bench::new(number(3).unwrap_or(0));
    match args.first().map(String::as_str) {
        Some("agree") => agree(&mut b),
        // count CELL TURNS [SIZE], below callgrind
        Some("count") => {
            if let Some(steps) = number(3) {
                b.session = session(steps.min(255));
            }
            let measured = cell(&args[1]);
            for _ in 0..number(2).unwrap_or(1) {
                b.reset();
                measured(&mut b);
            }
        }
        // Nanoseconds of each call. What a reset takes, the least of a timing beside each call's, is taken off.
        Some("time") => {
            let mut reset = f64::INFINITY;
            let mut both = Vec::new();
            for (name, measured) in CELLS.iter().filter(|c| !c.0.ends_with("_growth")) {
                reset = reset.min(time(|| black_box(&mut b).reset()));
                both.push((name, time(|| {
                    b.reset();
                    measured(black_box(&mut b));
                })));
            }
            both.iter().for_each(|(name, took)| println!("{name} {:.1}", took - reset));
        }
        // Listings a second on one core, by the number of steps
        Some("sessions") => {
            for steps in [4, 16, 64, 255] {
                let s = session(steps);
                let ns = time(|| {
                    black_box(unsafe { credits_session_listing(s.as_ptr(), s.len() as u64, b.out.as_mut_ptr(), LISTING_MAX as u64) });
                });
                println!("{steps} {} {:.0}", s.len(), 1e9 / ns);
            }
        }
        _ => {
            eprintln!("usage: bench agree | count CELL TURNS [SIZE] | time | sessions");
            std::process::exit(2);
        }
    }
}
