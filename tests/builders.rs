// The builders and the calls of include/credits.rs, as tests/builders.c has those of the C headers: bytes written out by hand, what is
// refused, and that nothing else is written. Each claim ends the program where it does not hold. tests/header-test builds and runs it.
#[path = "../include/credits.rs"]
#[allow(dead_code)]
mod credits;
use credits::Field::*;
use credits::*;

const FILL: u8 = 0xA5;
const STATE: [u8; 40] = [
    3, 1, 1, 19, 0, 2, 0, 2, 1, 21, 0, 2, 0, 4, 3, 23, 0, 17, 0, b'N', b'1', b'r', b'd', 5, 0, 0, 0, 0, 0, 0, 0, 0, 0, 0, 0, 0, 0,
    0, 0, 0,
];
const LISTING: &[u8] = b"1 0 0\n2 0 0\n3 0 0\n4 15 0\n5 0 0\nplace 0 0 0\nplace 1 5 0\nheld 2 way 0 total 5\n";

fn amount(hi: u64, lo: u64, scale: u8) -> credits::Amount {
    credits::Amount { mantissa: Uint128 { hi, lo }, scale }
}

// In every shorter buffer there is nothing, and nothing is written; else these bytes, and nothing behind them.
fn gives(bytes: &[u8], build: impl Fn(&mut [u8]) -> Option<Vec<u8>>) {
    for room in 0..bytes.len() + 4 {
        let mut out = vec![FILL; room];
        let built = build(&mut out);
        let fits = room >= bytes.len();
        assert_eq!(built.as_deref(), if fits { Some(bytes) } else { None }, "in a buffer of {} bytes", room);
        let written = if fits { bytes.len() } else { 0 };
        assert_eq!(&out[..written], &bytes[..written]);
        assert!(out[written..].iter().all(|&b| b == FILL), "bytes behind were written, or those of a short buffer");
    }
}

fn refuses(build: impl Fn(&mut [u8]) -> Option<Vec<u8>>) {
    let mut out = vec![FILL; 20000];
    assert_eq!(build(&mut out), None);
    assert!(out.iter().all(|&b| b == FILL));
}

fn gives_input(bytes: &[u8], fields: &[Field]) {
    gives(bytes, |out| build_input(fields, out).map(Vec::from));
}

fn refuses_input(fields: &[Field]) {
    refuses(|out| build_input(fields, out).map(Vec::from));
}

fn gives_state(bytes: &[u8], fields: &[Field]) {
    gives(bytes, |out| build_state(fields, out).map(Vec::from));
}

fn refuses_state(fields: &[Field]) {
    refuses(|out| build_state(fields, out).map(Vec::from));
}

fn refuses_session(entries: &[Entry]) {
    refuses(|out| build_session(entries, out).map(Vec::from));
}

fn sheets() {
    gives_input(&[1, 7, 1, 7, 0, 1, 0, b'3'], &[Whole(FIELD_AMOUNT, 3)]);
    gives_input(&[1, 7, 1, 7, 0, 1, 0, b'3'], &[Text(FIELD_AMOUNT, b"3")]);
    gives_input(&[1, 7, 1, 7, 0, 1, 0, b'5'], &[Amount(FIELD_AMOUNT, amount(0, 50, 1))]);
    gives_input(&[0], &[]);
    gives_input(
        &[3, 1, 1, 19, 0, 2, 0, 7, 2, 21, 0, 0, 0, 10, 1, 21, 0, 1, 0, b'N', b'1', b'o'],
        &[Text(FIELD_SUBJECT, b"N1"), Other(FIELD_AMOUNT), Text(FIELD_AUTHORIZED_BY, b"o")],
    );
    let most = b"340282366920938463463374607431768211455";
    gives_input(&[&[1, 7, 1, 7, 0, 39, 0][..], most].concat(), &[Amount(FIELD_AMOUNT, amount(u64::MAX, u64::MAX, 0))]);
    let names: Vec<u8> = (FIELD_SUBJECT..=FIELD_AUTHORIZED_BY).collect();
    let longest: Vec<Field> = names.iter().map(|&name| Text(name, &[b'x'; TEXT_MAX])).collect();
    assert_eq!(build_input(&longest, &mut [0; INPUT_MAX]).map(<[u8]>::len), Some(INPUT_MAX));
    assert!(build_input(&longest, &mut [0; INPUT_MAX - 1]).is_none());
    refuses_input(&[Text(FIELD_UNIT, b"rd"), Text(FIELD_SUBJECT, b"N1")]);
    refuses_input(&[Text(FIELD_UNIT, b"rd"), Text(FIELD_UNIT, b"rd")]);
    refuses_input(&[Text(0, b"N1")]);
    refuses_input(&[Text(FIELD_AUTHORIZED_BY + 1, b"N1")]);
    refuses_input(&[Text(FIELD_AMOUNT, &[b'x'; TEXT_MAX + 1])]);
    refuses_input(&[Amount(FIELD_AMOUNT, amount(0, 15, 1))]);

    let held = [Text(FIELD_SUBJECT, b"N1"), Text(FIELD_UNIT, b"rd"), Whole(FIELD_BALANCE, 5)];
    gives_state(&STATE, &held);
    let bytes: [u8; 17] = [0x28, 0x27, 0x26, 0x25, 0x24, 0x23, 0x22, 0x21, 0x18, 0x17, 0x16, 0x15, 0x14, 0x13, 0x12, 0x11, 9];
    let quantity = Amount(FIELD_QUANTITY, amount(0x1112131415161718, 0x2122232425262728, 9));
    let stack = [&[3, 1, 1, 19, 0, 2, 0, 2, 1, 21, 0, 2, 0, 3, 3, 23, 0, 17, 0, b'N', b'1', b'r', b'd'][..], &bytes].concat();
    gives_state(&stack, &[held[0], held[1], quantity]);
    let meter = [Text(FIELD_SUBJECT, b"N1"), Whole(FIELD_REMAINING, 5), Whole(FIELD_MAXIMUM, 9)];
    let mut bytes = [0; 55];
    bytes[..22].copy_from_slice(&[3, 1, 1, 19, 0, 2, 0, 5, 3, 21, 0, 17, 0, 6, 3, 38, 0, 17, 0, b'N', b'1', 5]);
    bytes[38] = 9;
    gives_state(&bytes, &meter);
    refuses_state(&held[..2]);
    refuses_state(&[]);
    refuses_state(&[held[0], held[1], Text(FIELD_BALANCE, b"5")]);
    refuses_state(&[held[0], Other(FIELD_UNIT), held[2]]);
    refuses_state(&[held[0], meter[1], held[2]]);
    refuses_state(&[held[0], held[1], meter[2]]);
    refuses_state(&[held[1], held[0], held[2]]);
    refuses_state(&[held[0], Text(FIELD_UNIT, &[b'x'; TEXT_MAX + 1]), held[2]]);
}

fn calls() {
    let mut room = [[0; SHEET_MAX]; 4];
    let [a, b, next, far] = &mut room;
    let spend = build_input(&[Whole(FIELD_AMOUNT, 3)], a).expect("an input");
    let send = build_input(&[Whole(FIELD_AMOUNT, 3), Text(FIELD_TO_SUBJECT, b"N2")], b).expect("an input");
    assert_eq!(check(PROFILE_BALANCE, BALANCE_SPEND, &STATE, spend).number, ACCEPTED);
    assert_eq!(check(PROFILE_BALANCE, BALANCE_SPEND, &[], spend).number, UNBORN);
    let done = apply(PROFILE_BALANCE, BALANCE_TRANSFER, &STATE, send, next);
    assert_eq!((done.number, done.length, next[23]), (ACCEPTED, 40, 2));
    let done = credit(BALANCE_TRANSFER, &STATE, &[], send, far);
    assert_eq!((done.number, done.length, &far[19..24]), (ACCEPTED, 40, &[b'N', b'2', b'r', b'd', 3][..]));
    let short = check(PROFILE_BALANCE, BALANCE_SPEND, &next[..40], spend);
    assert_eq!((short.number, short.available, short.requested), (SHORT, amount(0, 2, 0), amount(0, 3, 0)));
    let written = *far;
    assert_eq!(check_then_apply(PROFILE_BALANCE, BALANCE_SPEND, &next[..40], spend, far).number, SHORT);
    assert_eq!(*far, written);
    let done = check_then_apply(PROFILE_BALANCE, BALANCE_SPEND, &STATE, spend, far);
    assert_eq!((done.number, &far[..40]), (ACCEPTED, &next[..40]));

    let five = amount_read(b"5").amount;
    assert_eq!((five, amount_read(b"x").number), (amount(0, 5, 0), NOT_WHOLE));
    assert_eq!(amount_compare(five, amount(0, 50, 1)), EQUAL);
    assert_eq!(amount_compare(five, amount(0, 51, 1)), LESS);
    assert_eq!(amount_add(five, five).amount, amount(0, 10, 0));
    assert_eq!(amount_sub(five, amount(0, 6, 0)).number, UNDERFLOW);
    let text = amount_text(amount(0, 5, 3));
    assert_eq!(&text.bytes[..text.len as usize], b"0.005");
}

fn books_and_sessions() {
    let mut room = [[0; 64]; 3];
    let [a, b, c] = &mut room;
    let one = [Text(FIELD_SUBJECT, b"N1"), Text(FIELD_UNIT, b"rd"), Whole(FIELD_BALANCE, 5)];
    let two = [Text(FIELD_SUBJECT, b"N2"), Text(FIELD_UNIT, b"rd"), Whole(FIELD_BALANCE, 0)];
    let one = build_input(&one, a).expect("an input");
    let two = build_input(&two, b).expect("an input");
    let five = build_input(&[Whole(FIELD_AMOUNT, 5)], c).expect("an input");

    assert_eq!(book_start(b"").answer.number, EMPTY);
    let mut book = book_start(b"rd").book;
    assert_eq!(book_open(&mut book, 0, one).number, ACCEPTED);
    assert_eq!(book_open(&mut book, 1, two).number, ACCEPTED);
    assert_eq!(book_begin(&mut book, 0, 1, 7, five).number, ACCEPTED);
    assert_eq!(book_act(&mut book, 1, BALANCE_SPEND, five).number, SHORT);
    assert_eq!(book_finish(&mut book, 7).number, ACCEPTED);
    assert_eq!(book_act(&mut book, 1, BALANCE_SPEND, five).number, ACCEPTED);
    assert_eq!(book_finish(&mut book, 7).number, IDLE);
    assert_eq!(book_act(&mut book, 0, BALANCE_CREDIT, five).number, ACCEPTED);
    assert_eq!(book_begin(&mut book, 0, 1, 7, five).number, ACCEPTED);
    assert_eq!(book_act(&mut book, 0, BALANCE_SPEND, five).number, SHORT);
    assert_eq!(book_cancel(&mut book, 7).number, ACCEPTED);
    assert_eq!((book.places[0].balance, book.places[1].balance, book.pending), (amount(0, 5, 0), amount(0, 0, 0), 0));
    assert_eq!(book_cancel(&mut book, 7).number, IDLE);
    assert_eq!(book_cancel(&mut book, 8).number, OFF_THE_BOOK);
    assert_eq!(book_act(&mut book, 0, BALANCE_RELEASE, five).number, NOT_RESERVED);
    assert_eq!(book_act(&mut book, 0, BALANCE_RESERVE, five).number, ACCEPTED);
    assert_eq!((book.places[0].balance, book.places[0].reserved), (amount(0, 0, 0), amount(0, 5, 0)));
    assert_eq!(book_close(&mut book, 0).number, NOT_EMPTY);
    assert_eq!(book_act(&mut book, 0, BALANCE_RELEASE, five).number, ACCEPTED);
    assert_eq!((book.places[0].balance, book.places[0].reserved), (amount(0, 5, 0), amount(0, 0, 0)));
    assert_eq!(book_close(&mut book, 0).number, NOT_EMPTY);
    assert_eq!(book_begin(&mut book, 0, 1, 7, five).number, ACCEPTED);
    assert_eq!((book_close(&mut book, 0).number, book_close(&mut book, 1).number), (AWAITED, AWAITED));
    assert_eq!(book_finish(&mut book, 7).number, ACCEPTED);
    assert_eq!(book_close(&mut book, 0).number, ACCEPTED);
    assert_eq!((book.opened, book.places[0].subject.bytes, book.places[0].subject.len), (2, [0; NAME_MAX], 0));
    assert_eq!(book_close(&mut book, 0).number, UNBORN);
    assert_eq!(book_close(&mut book, 16).number, OFF_THE_BOOK);
    assert_eq!(book_open(&mut book, 0, two).number, ACCEPTED);
    assert_eq!((book.opened, &book.places[0].subject.bytes[..2]), (3, &b"N2"[..]));

    let start = Entry::Start { unit: b"rd" };
    let entries = [
        start,
        Entry::Open { place: 0, sheet: one },
        Entry::Open { place: 1, sheet: two },
        Entry::Begin { from: 0, to: 1, transfer: 0, sheet: five },
        Entry::Begin { from: 1, to: 0, transfer: 1, sheet: five },
        Entry::Finish { transfer: 0 },
    ];
    let kept = include_bytes!("../examples/overlap.session");
    gives(kept, |out| build_session(&entries, out).map(Vec::from));
    let mut out = [0; LISTING_MAX];
    assert_eq!(session_listing(kept, &mut out) as usize, LISTING.len());
    assert_eq!(&out[..LISTING.len()], LISTING);
    assert_eq!(session_run(kept).steps[3].number, SHORT);
    let act = Entry::Act { place: 9, operation: BALANCE_SPEND, sheet: five };
    let bytes = [2, 0, 0, 0, 0, 0, 18, 0, 2, 0, 2, 9, 18, 0, 20, 0, 8, 0, b'r', b'd', 1, 7, 1, 7, 0, 1, 0, b'5'];
    gives(&bytes, |out| build_session(&[start, act], out).map(Vec::from));
    let bytes = [2, 0, 0, 0, 0, 0, 18, 0, 2, 0, 5, 0, 0, 6, 20, 0, 0, 0, b'r', b'd'];
    gives(&bytes, |out| build_session(&[start, Entry::Cancel { transfer: 6 }], out).map(Vec::from));
    let bytes = [2, 0, 0, 0, 0, 0, 18, 0, 2, 0, 6, 9, 0, 0, 20, 0, 0, 0, b'r', b'd'];
    gives(&bytes, |out| build_session(&[start, Entry::Close { place: 9 }], out).map(Vec::from));

    refuses_session(&[]);
    refuses_session(&entries[1..]);
    refuses_session(&[start, start]);
    refuses_session(&[start, Entry::Open { place: 0, sheet: &[] }]);
    refuses_session(&[Entry::Start { unit: b"" }]);
    refuses_session(&[Entry::Start { unit: &[b'u'; NAME_MAX + 1] }]);
    refuses_session(&[start, Entry::Open { place: 0, sheet: &[0; SESSION_MAX - 19] }]);
    refuses_session(&[&[start][..], &[Entry::Finish { transfer: 0 }; STEPS_MAX + 1]].concat());
    let mut out = vec![0; SESSION_MAX];
    for most in [vec![start, Entry::Open { place: 0, sheet: &[0; SESSION_MAX - 20] }], [&[start][..], &[entries[5]; STEPS_MAX]].concat()] {
        let session = build_session(&most, &mut out).expect("a session");
        assert_eq!(session_run(session).count as usize, most.len() - 1);
    }
}

fn main() {
    assert_eq!(unsafe { credits_book_size() } as usize, std::mem::size_of::<Book>());
    sheets();
    calls();
    books_and_sessions();
    println!("the builders and calls of include/credits.rs hold");
}
