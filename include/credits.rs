//! credits.h and credits_sheet.h in Rust: what is said there of each call, name and size holds here. A name of C's is the same
//! here without `CREDITS_`, a call without `credits_`: `check`, `apply` and the others take slices, and Rust's own rules see to
//! it that nothing overlaps. Needs nothing but `core`; Debian's rustc, 1.63, compiles it.

/// Goes up when a struct, a call or the meaning of a number changes.
pub const VERSION: u32 = 2;

// What an answer's number says, by the words of README.md's table.
pub const ACCEPTED: u8 = 0;
pub const TORN_STATE: u8 = 1;
pub const TORN_INPUT: u8 = 2;
pub const PROFILE: u8 = 3;
pub const OPERATION: u8 = 4;
pub const BORN: u8 = 5;
pub const UNBORN: u8 = 6;
pub const MISSING: u8 = 7;
pub const NOT_TEXT: u8 = 8;
pub const EMPTY: u8 = 9;
pub const NOT_WHOLE: u8 = 10;
pub const FRACTION: u8 = 11;
pub const NO_FIELD: u8 = 12;
pub const BLANK: u8 = 13;
pub const NOT_POSITIVE: u8 = 14;
pub const SHORT: u8 = 15;
pub const OVER_MAXIMUM: u8 = 16;
pub const OVERFLOW: u8 = 17;
pub const UNDERFLOW: u8 = 18;
pub const NO_CREDIT: u8 = 19;
pub const NARROW: u8 = 20;
pub const UNDER_WAY: u8 = 21;
pub const OFF_THE_BOOK: u8 = 22;
pub const IDLE: u8 = 23;
pub const ITSELF: u8 = 24;
pub const TOO_MUCH: u8 = 25;
pub const OTHER_UNIT: u8 = 26;
pub const LONG_NAME: u8 = 27;
pub const BAD_BOOK: u8 = 28;
pub const NOT_EMPTY: u8 = 29;
pub const AWAITED: u8 = 30;
pub const NOT_RESERVED: u8 = 31;

// The detail of `TORN_STATE`.
pub const DETAIL_SOURCE: u8 = 1;
pub const DETAIL_DESTINATION: u8 = 2;

// The profiles.
pub const PROFILE_STACK: u8 = 1;
pub const PROFILE_BALANCE: u8 = 2;
pub const PROFILE_METER: u8 = 3;

// The operations of each profile.
pub const STACK_CREATE: u8 = 1;
pub const STACK_CREDIT: u8 = 2;
pub const STACK_DEBIT: u8 = 3;
pub const STACK_CONSUME: u8 = 4;
pub const STACK_TRANSFER: u8 = 5;
pub const STACK_RESERVE: u8 = 6;
pub const STACK_RELEASE: u8 = 7;
pub const STACK_EXPIRE: u8 = 8;
pub const STACK_ADJUST: u8 = 9;
pub const BALANCE_CREATE: u8 = 11;
pub const BALANCE_MINT: u8 = 12;
pub const BALANCE_CREDIT: u8 = 13;
pub const BALANCE_DEBIT: u8 = 14;
pub const BALANCE_TRANSFER: u8 = 15;
pub const BALANCE_RESERVE: u8 = 16;
pub const BALANCE_RELEASE: u8 = 17;
pub const BALANCE_SPEND: u8 = 18;
pub const BALANCE_BURN: u8 = 19;
pub const BALANCE_CONVERT: u8 = 20;
pub const METER_CREATE: u8 = 21;
pub const METER_CONSUME: u8 = 22;
pub const METER_REFILL: u8 = 23;
pub const METER_SET_MAXIMUM: u8 = 24;
pub const METER_RESET: u8 = 25;
pub const METER_EXPIRE: u8 = 26;

// The names of a sheet's fields, which are also the details that name one.
pub const FIELD_SUBJECT: u8 = 1;
pub const FIELD_UNIT: u8 = 2;
pub const FIELD_QUANTITY: u8 = 3;
pub const FIELD_BALANCE: u8 = 4;
pub const FIELD_REMAINING: u8 = 5;
pub const FIELD_MAXIMUM: u8 = 6;
pub const FIELD_AMOUNT: u8 = 7;
pub const FIELD_TO_SUBJECT: u8 = 8;
pub const FIELD_TO_UNIT: u8 = 9;
pub const FIELD_AUTHORIZED_BY: u8 = 10;

// The kinds of a sheet's fields; other is a value that is no string.
pub const KIND_TEXT: u8 = 1;
pub const KIND_OTHER: u8 = 2;
pub const KIND_AMOUNT: u8 = 3;

// The kinds of a session's entries.
pub const ENTRY_START: u8 = 0;
pub const ENTRY_OPEN: u8 = 1;
pub const ENTRY_ACT: u8 = 2;
pub const ENTRY_BEGIN: u8 = 3;
pub const ENTRY_FINISH: u8 = 4;
pub const ENTRY_CANCEL: u8 = 5;
pub const ENTRY_CLOSE: u8 = 6;

// What `amount_compare` gives.
pub const LESS: u8 = 0;
pub const EQUAL: u8 = 1;
pub const GREATER: u8 = 2;

/// Of a book, counted from 0.
pub const PLACES: usize = 16;
/// Of a book at once, counted from 0.
pub const TRANSFERS: usize = 8;
/// Bytes of a book's unit, and of a subject in it.
pub const NAME_MAX: usize = 32;
/// Bytes of an amount's text that is read.
pub const DIGITS_MAX: usize = 39;
/// Bytes of an amount's text that is printed.
pub const PRINTED_MAX: usize = 257;
/// Bytes of a text in a sheet.
pub const TEXT_MAX: usize = 256;
/// Bytes of a state: no apply and no credit writes more.
pub const SHEET_MAX: usize = 548;
/// Bytes of an input: all ten fields, each a text of 256 bytes.
pub const INPUT_MAX: usize = 2621;
/// Steps of a session; its start is an entry more.
pub const STEPS_MAX: usize = 255;
/// Bytes of a session.
pub const SESSION_MAX: usize = 16384;
/// Bytes that always hold a session's listing.
pub const LISTING_MAX: usize = 4608;

#[repr(C)]
#[derive(Clone, Copy, PartialEq, Eq, Debug)]
pub struct Uint128 {
    pub hi: u64,
    pub lo: u64,
}

#[repr(C)]
#[derive(Clone, Copy, PartialEq, Eq, Debug)]
pub struct Amount {
    pub mantissa: Uint128,
    pub scale: u8,
}

#[repr(C)]
#[derive(Clone, Copy)]
pub struct Given {
    pub number: u8,
    pub detail: u8,
    pub amount: Amount,
}

#[repr(C)]
#[derive(Clone, Copy)]
pub struct Text {
    pub bytes: [u8; PRINTED_MAX],
    pub len: u16,
}

#[repr(C)]
#[derive(Clone, Copy, PartialEq, Eq, Debug)]
pub struct Answer {
    pub number: u8,
    pub detail: u8,
    pub available: Amount,
    pub requested: Amount,
    pub length: u16,
}

#[repr(C)]
#[derive(Clone, Copy)]
pub struct Name {
    pub bytes: [u8; NAME_MAX],
    pub len: u8,
}

#[repr(C)]
#[derive(Clone, Copy)]
pub struct Place {
    pub subject: Name,
    pub balance: Amount,
    pub reserved: Amount,
}

#[repr(C)]
#[derive(Clone, Copy)]
pub struct Transfer {
    pub from: u8,
    pub to: u8,
    pub amount: Amount,
}

#[repr(C)]
#[derive(Clone, Copy)]
pub struct Book {
    pub unit: Name,
    pub opened: u16,
    pub pending: u8,
    pub places: [Place; PLACES],
    pub transfers: [Transfer; TRANSFERS],
}

#[repr(C)]
#[derive(Clone, Copy)]
pub struct Started {
    pub answer: Answer,
    pub book: Book,
}

#[repr(C)]
#[derive(Clone, Copy)]
pub struct Step {
    pub number: u8,
    pub detail: u8,
}

#[repr(C)]
#[derive(Clone, Copy)]
pub struct Run {
    pub number: u8,
    pub count: u16,
    pub steps: [Step; STEPS_MAX],
    pub book: Book,
}

// ---- the calls as C has them; lengths are of 64 bits on every machine

extern "C" {
    pub fn credits_amount_read(text: *const u8, n: u64) -> Given;
    pub fn credits_amount_compare(a: Amount, b: Amount) -> u8;
    pub fn credits_amount_add(a: Amount, b: Amount) -> Given;
    pub fn credits_amount_sub(a: Amount, b: Amount) -> Given;
    pub fn credits_amount_text(a: Amount) -> Text;
    pub fn credits_check(profile: u8, operation: u8, state: *const u8, state_n: u64, input: *const u8, input_n: u64) -> Answer;
    pub fn credits_apply(
        profile: u8,
        operation: u8,
        state: *const u8,
        state_n: u64,
        input: *const u8,
        input_n: u64,
        out: *mut u8,
        out_n: u64,
    ) -> Answer;
    pub fn credits_credit(
        operation: u8,
        source: *const u8,
        source_n: u64,
        destination: *const u8,
        destination_n: u64,
        input: *const u8,
        input_n: u64,
        out: *mut u8,
        out_n: u64,
    ) -> Answer;
    pub fn credits_book_start(unit: *const u8, n: u64) -> Started;
    pub fn credits_book_open(book: *mut Book, place: u8, sheet: *const u8, n: u64) -> Answer;
    pub fn credits_book_act(book: *mut Book, place: u8, operation: u8, sheet: *const u8, n: u64) -> Answer;
    pub fn credits_book_begin(book: *mut Book, from: u8, to: u8, transfer: u8, sheet: *const u8, n: u64) -> Answer;
    pub fn credits_book_finish(book: *mut Book, transfer: u8) -> Answer;
    pub fn credits_book_cancel(book: *mut Book, transfer: u8) -> Answer;
    pub fn credits_book_close(book: *mut Book, place: u8) -> Answer;
    pub fn credits_session_run(session: *const u8, n: u64) -> Run;
    pub fn credits_session_listing(session: *const u8, n: u64, out: *mut u8, out_n: u64) -> u16;
    pub fn credits_book_size() -> u32;
}

// ---- layouts, as credits.h asserts them. A struct is made of bytes that count from 0 to 250 again and again, which also takes
// its size, and each field must begin with the byte of its offset. (Debian's Rust has no offset_of! yet.)

const fn counting<const N: usize>() -> [u8; N] {
    let mut bytes = [0; N];
    let mut i = 0;
    while i < N {
        bytes[i] = (i % 251) as u8;
        i += 1;
    }
    bytes
}

const fn at(first: u8, offset: usize) -> bool {
    first as usize == offset % 251
}

const fn first16(n: u16) -> u8 {
    n.to_ne_bytes()[0]
}

const fn first64(n: u64) -> u8 {
    n.to_ne_bytes()[0]
}

const _: () = {
    let x: Uint128 = unsafe { core::mem::transmute(counting::<16>()) };
    assert!(at(first64(x.hi), 0) && at(first64(x.lo), 8));
    let x: Amount = unsafe { core::mem::transmute(counting::<24>()) };
    assert!(at(first64(x.mantissa.hi), 0) && at(x.scale, 16));
    let x: Given = unsafe { core::mem::transmute(counting::<32>()) };
    assert!(at(x.number, 0) && at(x.detail, 1) && at(first64(x.amount.mantissa.hi), 8));
    let x: Text = unsafe { core::mem::transmute(counting::<260>()) };
    assert!(at(x.bytes[0], 0) && at(first16(x.len), 258));
    let x: Answer = unsafe { core::mem::transmute(counting::<64>()) };
    assert!(at(x.number, 0) && at(x.detail, 1) && at(first64(x.available.mantissa.hi), 8));
    assert!(at(first64(x.requested.mantissa.hi), 32) && at(first16(x.length), 56));
    let x: Name = unsafe { core::mem::transmute(counting::<33>()) };
    assert!(at(x.bytes[0], 0) && at(x.len, 32));
    let x: Place = unsafe { core::mem::transmute(counting::<88>()) };
    assert!(at(x.subject.bytes[0], 0) && at(first64(x.balance.mantissa.hi), 40) && at(first64(x.reserved.mantissa.hi), 64));
    let x: Transfer = unsafe { core::mem::transmute(counting::<32>()) };
    assert!(at(x.from, 0) && at(x.to, 1) && at(first64(x.amount.mantissa.hi), 8));
    let x: Book = unsafe { core::mem::transmute(counting::<1704>()) };
    assert!(at(x.unit.bytes[0], 0) && at(first16(x.opened), 34) && at(x.pending, 36));
    assert!(at(x.places[0].subject.bytes[0], 40) && at(x.transfers[0].from, 1448));
    let x: Started = unsafe { core::mem::transmute(counting::<1768>()) };
    assert!(at(x.answer.number, 0) && at(x.book.unit.bytes[0], 64));
    let x: Step = unsafe { core::mem::transmute(counting::<2>()) };
    assert!(at(x.number, 0) && at(x.detail, 1));
    let x: Run = unsafe { core::mem::transmute(counting::<2224>()) };
    assert!(at(x.number, 0) && at(first16(x.count), 2) && at(x.steps[0].number, 4) && at(x.book.unit.bytes[0], 520));
};

// ---- the calls, of slices. A book that a step is lent is any bytes, so all of them are safe.

pub fn amount_read(text: &[u8]) -> Given {
    unsafe { credits_amount_read(text.as_ptr(), text.len() as u64) }
}

pub fn amount_compare(a: Amount, b: Amount) -> u8 {
    unsafe { credits_amount_compare(a, b) }
}

pub fn amount_add(a: Amount, b: Amount) -> Given {
    unsafe { credits_amount_add(a, b) }
}

pub fn amount_sub(a: Amount, b: Amount) -> Given {
    unsafe { credits_amount_sub(a, b) }
}

pub fn amount_text(a: Amount) -> Text {
    unsafe { credits_amount_text(a) }
}

pub fn check(profile: u8, operation: u8, state: &[u8], input: &[u8]) -> Answer {
    unsafe {
        credits_check(profile, operation, state.as_ptr(), state.len() as u64, input.as_ptr(), input.len() as u64)
    }
}

pub fn apply(profile: u8, operation: u8, state: &[u8], input: &[u8], out: &mut [u8]) -> Answer {
    let (state_n, input_n, out_n) = (state.len() as u64, input.len() as u64, out.len() as u64);
    unsafe {
        credits_apply(
            profile, operation, state.as_ptr(), state_n, input.as_ptr(), input_n, out.as_mut_ptr(), out_n,
        )
    }
}

pub fn check_then_apply(profile: u8, operation: u8, state: &[u8], input: &[u8], out: &mut [u8]) -> Answer {
    let checked = check(profile, operation, state, input);
    if checked.number != ACCEPTED {
        return checked;
    }
    apply(profile, operation, state, input, out)
}

pub fn credit(operation: u8, source: &[u8], destination: &[u8], input: &[u8], out: &mut [u8]) -> Answer {
    let (source_n, destination_n) = (source.len() as u64, destination.len() as u64);
    let (input_n, out_n) = (input.len() as u64, out.len() as u64);
    unsafe {
        credits_credit(
            operation, source.as_ptr(), source_n, destination.as_ptr(), destination_n, input.as_ptr(), input_n,
            out.as_mut_ptr(), out_n,
        )
    }
}

pub fn book_start(unit: &[u8]) -> Started {
    unsafe { credits_book_start(unit.as_ptr(), unit.len() as u64) }
}

pub fn book_open(book: &mut Book, place: u8, sheet: &[u8]) -> Answer {
    unsafe { credits_book_open(book, place, sheet.as_ptr(), sheet.len() as u64) }
}

pub fn book_act(book: &mut Book, place: u8, operation: u8, sheet: &[u8]) -> Answer {
    unsafe { credits_book_act(book, place, operation, sheet.as_ptr(), sheet.len() as u64) }
}

pub fn book_begin(book: &mut Book, from: u8, to: u8, transfer: u8, sheet: &[u8]) -> Answer {
    unsafe { credits_book_begin(book, from, to, transfer, sheet.as_ptr(), sheet.len() as u64) }
}

pub fn book_finish(book: &mut Book, transfer: u8) -> Answer {
    unsafe { credits_book_finish(book, transfer) }
}

pub fn book_cancel(book: &mut Book, transfer: u8) -> Answer {
    unsafe { credits_book_cancel(book, transfer) }
}

pub fn book_close(book: &mut Book, place: u8) -> Answer {
    unsafe { credits_book_close(book, place) }
}

pub fn session_run(session: &[u8]) -> Run {
    unsafe { credits_session_run(session.as_ptr(), session.len() as u64) }
}

pub fn session_listing(session: &[u8], out: &mut [u8]) -> u16 {
    unsafe { credits_session_listing(session.as_ptr(), session.len() as u64, out.as_mut_ptr(), out.len() as u64) }
}

/// The word of a number in README.md's table; "unknown" for a number that is none.
pub fn word(number: u8) -> &'static str {
    const WORDS: [&str; 32] = [
        "accepted", "torn state", "torn input", "profile", "operation", "born", "unborn", "missing", "not text", "empty",
        "not whole", "fraction", "no field", "blank", "not positive", "short", "over maximum", "overflow", "underflow",
        "no credit", "narrow", "under way", "off the book", "idle", "itself", "too much", "other unit", "long name",
        "bad book", "not empty", "awaited", "not reserved",
    ];
    WORDS.get(number as usize).copied().unwrap_or("unknown")
}

// ---- building sheets and sessions. Each builder gives the bytes that it wrote; or nothing, and no byte is written, where the
// buffer is too short or what was given makes no sound sheet or session.

/// A field, by its name. An amount stands in a state as it is; in an input it stands as its text, which must have no point.
#[derive(Clone, Copy)]
pub enum Field<'a> {
    Text(u8, &'a [u8]),
    Other(u8),
    Amount(u8, Amount),
    Whole(u8, u64),
}

/// What stands in a sheet of a field.
enum Body<'a> {
    Part(&'a [u8]),
    Amount(Amount),
    Printed(Text),
}

impl Body<'_> {
    fn len(&self) -> usize {
        match self {
            Body::Part(part) => part.len(),
            Body::Amount(_) => 17,
            Body::Printed(text) => text.len as usize,
        }
    }

    fn put(&self, to: &mut [u8]) {
        match self {
            Body::Part(part) => to.copy_from_slice(part),
            Body::Amount(a) => {
                to[..8].copy_from_slice(&a.mantissa.lo.to_le_bytes());
                to[8..16].copy_from_slice(&a.mantissa.hi.to_le_bytes());
                to[16] = a.scale;
            }
            Body::Printed(text) => to.copy_from_slice(&text.bytes[..text.len as usize]),
        }
    }
}

impl<'a> Field<'a> {
    fn name(&self) -> u8 {
        match *self {
            Field::Text(name, _) | Field::Other(name) | Field::Amount(name, _) | Field::Whole(name, _) => name,
        }
    }

    fn kind(&self) -> u8 {
        match self {
            Field::Text(..) => KIND_TEXT,
            Field::Other(_) => KIND_OTHER,
            Field::Amount(..) | Field::Whole(..) => KIND_AMOUNT,
        }
    }

    // The kind and the body; none for a long text, and for an amount in an input that is not whole.
    fn body(&self, in_state: bool) -> Option<(u8, Body<'a>)> {
        let amount = match *self {
            Field::Text(_, text) if text.len() > TEXT_MAX => return None,
            Field::Text(_, text) => return Some((KIND_TEXT, Body::Part(text))),
            Field::Other(_) => return Some((KIND_OTHER, Body::Part(&[]))),
            Field::Amount(_, amount) => amount,
            Field::Whole(_, lo) => Amount { mantissa: Uint128 { hi: 0, lo }, scale: 0 },
        };
        if in_state {
            return Some((KIND_AMOUNT, Body::Amount(amount)));
        }
        let text = amount_text(amount);
        if text.bytes.contains(&b'.') {
            return None;
        }
        Some((KIND_TEXT, Body::Printed(text)))
    }
}

fn build<'a>(fields: &[Field], out: &'a mut [u8], in_state: bool) -> Option<&'a [u8]> {
    let mut end = 1 + 6 * fields.len();
    let mut before = 0;
    for field in fields {
        if field.name() <= before || field.name() > FIELD_AUTHORIZED_BY {
            return None;
        }
        before = field.name();
        end += field.body(in_state)?.1.len();
    }
    let out = out.get_mut(..end)?;
    out[0] = fields.len() as u8;
    let mut offset = 1 + 6 * fields.len();
    for (k, field) in fields.iter().enumerate() {
        let (kind, body) = field.body(in_state)?;
        let entry = &mut out[1 + 6 * k..7 + 6 * k];
        entry[..2].copy_from_slice(&[field.name(), kind]);
        entry[2..4].copy_from_slice(&(offset as u16).to_le_bytes());
        entry[4..].copy_from_slice(&(body.len() as u16).to_le_bytes());
        body.put(&mut out[offset..offset + body.len()]);
        offset += body.len();
    }
    Some(out)
}

/// An input sheet: fields whose names rise. `INPUT_MAX` bytes are always enough.
pub fn build_input<'a>(fields: &[Field], out: &'a mut [u8]) -> Option<&'a [u8]> {
    build(fields, out, false)
}

/// A state sheet: the fields of a stack, a balance or a meter. `SHEET_MAX` bytes are always enough.
pub fn build_state<'a>(fields: &[Field], out: &'a mut [u8]) -> Option<&'a [u8]> {
    const SUBJECT: (u8, u8) = (FIELD_SUBJECT, KIND_TEXT);
    const UNIT: (u8, u8) = (FIELD_UNIT, KIND_TEXT);
    if fields.len() != 3 {
        return None;
    }
    match [0, 1, 2].map(|k| (fields[k].name(), fields[k].kind())) {
        [SUBJECT, UNIT, (FIELD_QUANTITY | FIELD_BALANCE, KIND_AMOUNT)] => {}
        [SUBJECT, (FIELD_REMAINING, KIND_AMOUNT), (FIELD_MAXIMUM, KIND_AMOUNT)] => {}
        _ => return None,
    }
    build(fields, out, true)
}

/// An entry of a session, with its unit or its sheet.
#[derive(Clone, Copy)]
pub enum Entry<'a> {
    Start { unit: &'a [u8] },
    Open { place: u8, sheet: &'a [u8] },
    Act { place: u8, operation: u8, sheet: &'a [u8] },
    Begin { from: u8, to: u8, transfer: u8, sheet: &'a [u8] },
    Finish { transfer: u8 },
    Cancel { transfer: u8 },
    Close { place: u8 },
}

impl<'a> Entry<'a> {
    fn parts(&self) -> ([u8; 4], &'a [u8]) {
        match *self {
            Entry::Start { unit } => ([ENTRY_START, 0, 0, 0], unit),
            Entry::Open { place, sheet } => ([ENTRY_OPEN, place, 0, 0], sheet),
            Entry::Act { place, operation, sheet } => ([ENTRY_ACT, place, operation, 0], sheet),
            Entry::Begin { from, to, transfer, sheet } => ([ENTRY_BEGIN, from, to, transfer], sheet),
            Entry::Finish { transfer } => ([ENTRY_FINISH, 0, 0, transfer], &[]),
            Entry::Cancel { transfer } => ([ENTRY_CANCEL, 0, 0, transfer], &[]),
            Entry::Close { place } => ([ENTRY_CLOSE, place, 0, 0], &[]),
        }
    }
}

/// A session: a start and up to `STEPS_MAX` steps, `SESSION_MAX` bytes at most.
pub fn build_session<'a>(entries: &[Entry], out: &'a mut [u8]) -> Option<&'a [u8]> {
    let (_, unit) = entries.first()?.parts();
    if entries.len() > STEPS_MAX + 1 || unit.len() > NAME_MAX {
        return None;
    }
    let mut end = 2 + 8 * entries.len();
    for (k, entry) in entries.iter().enumerate() {
        let ([kind, ..], body) = entry.parts();
        // an empty sheet is taken for one that was not built
        let has_body = !matches!(kind, ENTRY_FINISH | ENTRY_CANCEL | ENTRY_CLOSE);
        if (kind == ENTRY_START) != (k == 0) || body.is_empty() == has_body {
            return None;
        }
        end = end.checked_add(body.len())?;
    }
    if end > SESSION_MAX {
        return None;
    }
    let out = out.get_mut(..end)?;
    out[..2].copy_from_slice(&(entries.len() as u16).to_le_bytes());
    let mut offset = 2 + 8 * entries.len();
    for (k, entry) in entries.iter().enumerate() {
        let (head, body) = entry.parts();
        let to = &mut out[2 + 8 * k..10 + 8 * k];
        to[..4].copy_from_slice(&head);
        to[4..6].copy_from_slice(&(offset as u16).to_le_bytes());
        to[6..].copy_from_slice(&(body.len() as u16).to_le_bytes());
        out[offset..offset + body.len()].copy_from_slice(body);
        offset += body.len();
    }
    Some(out)
}
