//! Document 01's amounts, sheets, check, apply and credit, written by hand from the document
//! with native 128-bit numbers: nothing is allocated or copied, every text is a part of a sheet.
//! It is not made from the Rust original. It serves as the second opinion of `compare --model`
//! and as the limit that tools/bench measures against. This file stands alone.
use std::cmp::Ordering;

#[derive(Clone, Copy, PartialEq, Eq, Debug)]
pub struct Amount {
    pub mantissa: u128,
    pub scale: u8,
}

pub const ZERO: Amount = Amount { mantissa: 0, scale: 0 };

const fn powers() -> [u128; 39] {
    let mut p = [1u128; 39];
    let mut i = 1;
    while i < 39 {
        p[i] = p[i - 1] * 10;
        i += 1;
    }
    p
}
static POWERS: [u128; 39] = powers();

// ---- Amount ----

// At most 19 digits.
#[inline]
fn digits(text: &[u8]) -> Option<u64> {
    let mut n = 0;
    for &c in text {
        let d = c.wrapping_sub(b'0');
        if d > 9 {
            return None;
        }
        n = n * 10 + u64::from(d);
    }
    Some(n)
}

/// Reading: 1 to 39 digits, value at most 2^128-1, scale 0.
#[inline]
pub fn read(text: &[u8]) -> Option<Amount> {
    let n = text.len();
    if n == 0 || n > 39 {
        return None;
    }
    let mantissa = if n <= 19 { u128::from(digits(text)?) } else { read_long(text)? };
    Some(Amount { mantissa, scale: 0 })
}

// 20 to 39 digits.
#[inline(never)]
fn read_long(text: &[u8]) -> Option<u128> {
    let (head, rest) = text.split_at(19);
    let (middle, last) = rest.split_at(rest.len().min(19));
    let m = u128::from(digits(head)?) * POWERS[middle.len()] + u128::from(digits(middle)?);
    if last.is_empty() {
        return Some(m);
    }
    m.checked_mul(10)?.checked_add(u128::from(digits(last)?))
}

// m times 10^by, where it stays within 128 bits; zero does at every scale.
#[inline]
fn rescaled(m: u128, by: u8) -> Option<u128> {
    if by == 0 || m == 0 {
        return Some(m);
    }
    if by > 38 {
        return None;
    }
    m.checked_mul(POWERS[by as usize])
}

/// Order by exact value. A product that leaves 128 bits is above every mantissa.
#[inline]
pub fn compare(a: Amount, b: Amount) -> Ordering {
    if a.scale <= b.scale {
        match rescaled(a.mantissa, b.scale - a.scale) {
            Some(m) => m.cmp(&b.mantissa),
            None => Ordering::Greater,
        }
    } else {
        match rescaled(b.mantissa, a.scale - b.scale) {
            Some(m) => a.mantissa.cmp(&m),
            None => Ordering::Less,
        }
    }
}

#[inline]
fn aligned(a: Amount, b: Amount) -> Option<(u128, u128, u8)> {
    if a.scale <= b.scale {
        Some((rescaled(a.mantissa, b.scale - a.scale)?, b.mantissa, b.scale))
    } else {
        Some((a.mantissa, rescaled(b.mantissa, a.scale - b.scale)?, a.scale))
    }
}

#[inline]
pub fn add(a: Amount, b: Amount) -> Option<Amount> {
    let (x, y, scale) = aligned(a, b)?;
    Some(Amount { mantissa: x.checked_add(y)?, scale })
}

#[inline]
pub fn sub(a: Amount, b: Amount) -> Option<Amount> {
    let (x, y, scale) = aligned(a, b)?;
    Some(Amount { mantissa: x.checked_sub(y)?, scale })
}

/// The lesser; on a tie the second.
pub fn min(a: Amount, b: Amount) -> Amount {
    if compare(a, b) == Ordering::Less {
        a
    } else {
        b
    }
}

pub struct Text {
    pub bytes: [u8; 257],
    pub len: u16,
}

// The last `count` digits of n, written before the place `at`.
#[inline]
fn put_digits(bytes: &mut [u8], at: usize, count: usize, mut n: u64) {
    for b in bytes[at - count..at].iter_mut().rev() {
        *b = b'0' + (n % 10) as u8;
        n /= 10;
    }
}

/// Canonical text: no trailing zero after the point, no bare point, `0` before a leading point.
pub fn text(a: Amount) -> Text {
    const CHUNK: u128 = 10_000_000_000_000_000_000;
    let mut t = Text { bytes: [0; 257], len: 0 };
    let (mut m, mut scale) = (a.mantissa, a.scale as usize);
    if m == 0 {
        scale = 0;
    }
    while scale > 0 && m % 10 == 0 {
        m /= 10;
        scale -= 1;
    }
    // all 39 digits, 19 at a time: few divisions of 128 bits
    let mut all = [b'0'; 39];
    put_digits(&mut all, 39, 19, (m % CHUNK) as u64);
    if m >= CHUNK {
        let high = m / CHUNK;
        put_digits(&mut all, 20, 19, (high % CHUNK) as u64);
        all[0] = b'0' + (high / CHUNK) as u8;
    }
    let n = 39 - all.iter().position(|&c| c != b'0').unwrap_or(38);
    let (whole, zeros) = if n > scale { (n - scale, 0) } else { (0, scale - n) };
    let point = whole.max(1);
    t.bytes[0] = b'0';
    t.bytes[..whole].copy_from_slice(&all[39 - n..][..whole]);
    t.len = point as u16;
    if scale > 0 {
        let fraction = &mut t.bytes[point..=point + scale];
        fraction[0] = b'.';
        fraction[1..=zeros].fill(b'0');
        fraction[1 + zeros..].copy_from_slice(&all[39 - (scale - zeros)..]);
        t.len = (point + 1 + scale) as u16;
    }
    t
}

// ---- Answer ----

#[derive(Clone, Copy, PartialEq, Eq, Debug)]
pub struct Answer {
    pub number: u8,
    pub detail: u8,
    pub available: Amount,
    pub requested: Amount,
    pub length: u16,
}

#[inline]
pub fn plain(number: u8, detail: u8, length: u16) -> Answer {
    Answer { number, detail, available: ZERO, requested: ZERO, length }
}

// A refusal on its way out: number and detail (15 is made where the amounts are at hand).
#[derive(Clone, Copy)]
pub struct No(pub u8, pub u8);

// ---- Sheets ----

pub const SUBJECT: u8 = 1;
pub const UNIT: u8 = 2;
const QUANTITY: u8 = 3;
pub const BALANCE: u8 = 4;
const REMAINING: u8 = 5;
const MAXIMUM: u8 = 6;
pub const AMOUNT: u8 = 7;
const TO_SUBJECT: u8 = 8;
const TO_UNIT: u8 = 9;
const AUTHORIZED_BY: u8 = 10;

const STACK: u8 = 1;
const METER: u8 = 3;

#[inline]
fn word(s: &[u8], at: usize) -> usize {
    s[at] as usize | (s[at + 1] as usize) << 8
}

#[inline]
fn stored(body: &[u8]) -> Amount {
    let mut m = [0u8; 16];
    m.copy_from_slice(&body[..16]);
    Amount { mantissa: u128::from_le_bytes(m), scale: body[16] }
}

// A sound state sheet, or none. For a stack or a balance `first` is its amount; for a meter
// `first` is remaining and `second` maximum.
#[derive(Clone, Copy)]
pub struct State<'a> {
    kind: u8, // 0 absent, 1 stack, 2 balance, 3 meter
    subject: &'a [u8],
    unit: &'a [u8],
    first: Amount,
    second: Amount,
}

impl<'a> State<'a> {
    #[inline]
    fn decode(s: &'a [u8]) -> Option<State<'a>> {
        if s.is_empty() {
            return Some(State { kind: 0, subject: s, unit: s, first: ZERO, second: ZERO });
        }
        if s.len() < 19 || s[0] != 3 || s[1] != SUBJECT || s[2] != 1 {
            return None;
        }
        let a = word(s, 5);
        let b = word(s, 11);
        let c = word(s, 17);
        if a > 256 || c != 17 || s[14] != 3 || word(s, 3) != 19 || word(s, 9) != 19 + a || word(s, 15) != 19 + a + b {
            return None;
        }
        if s.len() != 19 + a + b + c {
            return None;
        }
        let subject = &s[19..19 + a];
        let middle = &s[19 + a..19 + a + b];
        let last = stored(&s[19 + a + b..]);
        match (s[7], s[8], s[13]) {
            (UNIT, 1, QUANTITY) | (UNIT, 1, BALANCE) if b <= 256 => {
                Some(State { kind: s[13] - 2, subject, unit: middle, first: last, second: ZERO })
            }
            (REMAINING, 3, MAXIMUM) if b == 17 => {
                Some(State { kind: METER, subject, unit: &s[..0], first: stored(middle), second: last })
            }
            _ => None,
        }
    }

    /// A place of a book, as a balance.
    pub fn of_balance(subject: &'a [u8], unit: &'a [u8], balance: Amount) -> State<'a> {
        State { kind: 2, subject, unit, first: balance, second: ZERO }
    }

    #[inline]
    fn born(&self) -> Result<(), No> {
        if self.kind == 0 {
            return Err(No(6, 0));
        }
        Ok(())
    }
    #[inline]
    fn subject(&self) -> Result<&'a [u8], No> {
        if self.subject.is_empty() {
            return Err(No(13, SUBJECT));
        }
        Ok(self.subject)
    }
    #[inline]
    fn unit(&self) -> Result<&'a [u8], No> {
        if self.kind == METER {
            return Err(No(12, UNIT));
        }
        if self.unit.is_empty() {
            return Err(No(13, UNIT));
        }
        Ok(self.unit)
    }
    // quantity, balance, remaining or maximum
    #[inline]
    fn amount(&self, name: u8) -> Result<Amount, No> {
        let kind = if name >= REMAINING { METER } else { name - 2 };
        if self.kind != kind {
            return Err(No(12, name));
        }
        Ok(if name == MAXIMUM { self.second } else { self.first })
    }
}

// A sound input sheet; fields are found by walking its table.
#[derive(Clone, Copy)]
pub struct Input<'a> {
    sheet: &'a [u8],
}

enum Field<'a> {
    Absent,
    Text(&'a [u8]),
    Other,
}

impl<'a> Input<'a> {
    #[inline]
    pub fn decode(s: &'a [u8]) -> Option<Input<'a>> {
        let n = *s.first()? as usize;
        let mut end = 1 + 6 * n;
        if s.len() < end {
            return None;
        }
        let mut last = 0;
        let mut at = 1;
        for _ in 0..n {
            let (name, kind, length) = (s[at], s[at + 1], word(s, at + 4));
            if name <= last || name > AUTHORIZED_BY || word(s, at + 2) != end {
                return None;
            }
            if !(kind == 1 && length <= 256 || kind == 2 && length == 0) {
                return None;
            }
            last = name;
            end += length;
            at += 6;
        }
        if s.len() != end {
            return None;
        }
        Some(Input { sheet: s })
    }

    #[inline]
    fn find(&self, name: u8) -> Field<'a> {
        let s = self.sheet;
        let mut at = 1;
        for _ in 0..s[0] {
            if s[at] == name {
                if s[at + 1] != 1 {
                    return Field::Other;
                }
                let from = word(s, at + 2);
                return Field::Text(&s[from..from + word(s, at + 4)]);
            }
            at += 6;
        }
        Field::Absent
    }

    #[inline]
    pub fn text(&self, name: u8) -> Result<&'a [u8], No> {
        match self.find(name) {
            Field::Absent => Err(No(7, name)),
            Field::Other => Err(No(8, name)),
            Field::Text(t) if t.is_empty() => Err(No(9, name)),
            Field::Text(t) => Ok(t),
        }
    }

    // An absent amount is 7; 11 precedes 10.
    #[inline]
    pub fn amount(&self, name: u8) -> Result<Amount, No> {
        match self.find(name) {
            Field::Absent => Err(No(7, name)),
            Field::Other => Err(No(10, name)),
            Field::Text(t) => match read(t) {
                Some(a) => Ok(a),
                None if t.iter().any(|c| matches!(c, b'.' | b'e' | b'E')) => Err(No(11, name)),
                None => Err(No(10, name)),
            },
        }
    }
}

// ---- Check ----

#[inline]
fn known(profile: u8, operation: u8) -> Result<(), No> {
    match (profile, operation) {
        (1, 1..=9) | (2, 11..=20) | (3, 21..=26) => Ok(()),
        (1..=3, _) => Err(No(4, 0)),
        _ => Err(No(3, 0)),
    }
}

#[inline]
fn positive(a: Amount) -> Result<(), No> {
    if a.mantissa == 0 {
        return Err(No(14, 0));
    }
    Ok(())
}

// The tests of every operation; what is to be held against a request comes back.
#[inline(always)]
pub fn tests(operation: u8, state: &State, input: &Input) -> Result<Option<(Amount, Amount)>, No> {
    if matches!(operation, 1 | 11 | 21) {
        if state.kind != 0 {
            return Err(No(5, 0));
        }
        input.text(SUBJECT)?;
        if operation == 21 {
            let remaining = input.amount(REMAINING)?;
            let maximum = input.amount(MAXIMUM)?;
            if remaining.mantissa > maximum.mantissa {
                return Err(No(16, 0));
            }
            return Ok(None);
        }
        input.text(UNIT)?;
        input.amount(if operation == 1 { QUANTITY } else { BALANCE })?;
        return Ok(None);
    }
    state.born()?;
    match operation {
        2 | 9 => {
            input.amount(QUANTITY)?;
        }
        7 => positive(input.amount(QUANTITY)?)?,
        3 | 4 | 5 | 6 => {
            if operation == 5 {
                input.text(TO_SUBJECT)?;
            }
            let held = state.amount(QUANTITY)?;
            let asked = input.amount(QUANTITY)?;
            positive(asked)?;
            return Ok(Some((held, asked)));
        }
        12 | 13 | 17 => {
            if operation == 12 {
                input.text(AUTHORIZED_BY)?;
            }
            let asked = input.amount(AMOUNT)?;
            state.amount(BALANCE)?;
            positive(asked)?;
        }
        14 | 15 | 16 | 18 | 19 | 20 => {
            match operation {
                15 => {
                    input.text(TO_SUBJECT)?;
                }
                19 => {
                    input.text(AUTHORIZED_BY)?;
                }
                20 => {
                    input.text(TO_UNIT)?;
                }
                _ => {}
            }
            let held = state.amount(BALANCE)?;
            let asked = input.amount(AMOUNT)?;
            positive(asked)?;
            return Ok(Some((held, asked)));
        }
        22 => {
            let held = state.amount(REMAINING)?;
            let asked = input.amount(AMOUNT)?;
            positive(asked)?;
            return Ok(Some((held, asked)));
        }
        23 => {
            state.amount(REMAINING)?;
            state.amount(MAXIMUM)?;
        }
        24 => {
            input.amount(MAXIMUM)?;
        }
        _ => {} // 8, 25, 26
    }
    Ok(None)
}

pub fn check(profile: u8, operation: u8, state: &[u8], input: &[u8]) -> Answer {
    let state = match State::decode(state) {
        Some(s) => s,
        None => return plain(1, 1, 0),
    };
    let input = match Input::decode(input) {
        Some(i) => i,
        None => return plain(2, 0, 0),
    };
    if let Err(No(number, detail)) = known(profile, operation) {
        return plain(number, detail, 0);
    }
    match tests(operation, &state, &input) {
        Err(No(number, detail)) => plain(number, detail, 0),
        Ok(Some((available, requested))) if compare(requested, available) == Ordering::Greater => {
            Answer { number: 15, detail: 0, available, requested, length: 0 }
        }
        Ok(_) => plain(0, 0, 0),
    }
}

// ---- Apply and credit ----

// What is to be written: a stack or balance, or a meter.
enum Next<'a> {
    Held { kind: u8, subject: &'a [u8], unit: &'a [u8], amount: Amount },
    Meter { subject: &'a [u8], remaining: Amount, maximum: Amount },
}

#[inline]
fn put_entry(out: &mut [u8], at: usize, name: u8, kind: u8, offset: usize, length: usize) {
    out[at] = name;
    out[at + 1] = kind;
    out[at + 2] = offset as u8;
    out[at + 3] = (offset >> 8) as u8;
    out[at + 4] = length as u8;
    out[at + 5] = (length >> 8) as u8;
}

#[inline]
fn put_amount(out: &mut [u8], at: usize, a: Amount) {
    out[at..at + 16].copy_from_slice(&a.mantissa.to_le_bytes());
    out[at + 16] = a.scale;
}

// Writes the first bytes of `out`, or refuses with 20 and writes none.
#[inline]
fn write(next: &Next, out: &mut [u8]) -> Answer {
    match *next {
        Next::Held { kind, subject, unit, amount } => {
            let (a, b) = (subject.len(), unit.len());
            let n = 19 + a + b + 17;
            if out.len() < n {
                return plain(20, 0, 0);
            }
            let out = &mut out[..n];
            out[0] = 3;
            put_entry(out, 1, SUBJECT, 1, 19, a);
            put_entry(out, 7, UNIT, 1, 19 + a, b);
            put_entry(out, 13, kind + 2, 3, 19 + a + b, 17);
            out[19..19 + a].copy_from_slice(subject);
            out[19 + a..19 + a + b].copy_from_slice(unit);
            put_amount(out, 19 + a + b, amount);
            plain(0, 0, n as u16)
        }
        Next::Meter { subject, remaining, maximum } => {
            let a = subject.len();
            let n = 19 + a + 34;
            if out.len() < n {
                return plain(20, 0, 0);
            }
            let out = &mut out[..n];
            out[0] = 3;
            put_entry(out, 1, SUBJECT, 1, 19, a);
            put_entry(out, 7, REMAINING, 3, 19 + a, 17);
            put_entry(out, 13, MAXIMUM, 3, 36 + a, 17);
            out[19..19 + a].copy_from_slice(subject);
            put_amount(out, 19 + a, remaining);
            put_amount(out, 36 + a, maximum);
            plain(0, 0, n as u16)
        }
    }
}

#[inline]
fn sum(a: Amount, b: Amount) -> Result<Amount, No> {
    add(a, b).ok_or(No(17, 0))
}

#[inline]
fn rest(a: Amount, b: Amount) -> Result<Amount, No> {
    sub(a, b).ok_or(No(18, 0))
}

#[inline]
fn next<'a>(operation: u8, state: &State<'a>, input: &Input<'a>) -> Result<Next<'a>, No> {
    match operation {
        1 | 11 => {
            let subject = input.text(SUBJECT)?;
            let unit = input.text(UNIT)?;
            let name = if operation == 1 { QUANTITY } else { BALANCE };
            return Ok(Next::Held { kind: name - 2, subject, unit, amount: input.amount(name)? });
        }
        21 => {
            let subject = input.text(SUBJECT)?;
            let remaining = input.amount(REMAINING)?;
            return Ok(Next::Meter { subject, remaining, maximum: input.amount(MAXIMUM)? });
        }
        _ => {}
    }
    state.born()?;
    match operation {
        2..=9 => {
            if operation == 5 {
                input.text(TO_SUBJECT)?;
            }
            let subject = state.subject()?;
            let unit = state.unit()?;
            let amount = match operation {
                8 => ZERO,
                9 => input.amount(QUANTITY)?,
                2 | 7 => {
                    let held = state.amount(QUANTITY)?;
                    sum(held, input.amount(QUANTITY)?)?
                }
                _ => {
                    let held = state.amount(QUANTITY)?;
                    rest(held, input.amount(QUANTITY)?)?
                }
            };
            Ok(Next::Held { kind: STACK, subject, unit, amount })
        }
        20 => {
            let subject = state.subject()?;
            let unit = input.text(TO_UNIT)?;
            let held = state.amount(BALANCE)?;
            Ok(Next::Held { kind: 2, subject, unit, amount: rest(held, input.amount(AMOUNT)?)? })
        }
        12..=19 => {
            if operation == 15 {
                input.text(TO_SUBJECT)?;
            }
            let subject = state.subject()?;
            let unit = state.unit()?;
            let held = state.amount(BALANCE)?;
            let asked = input.amount(AMOUNT)?;
            let amount = match operation {
                12 | 13 | 17 => sum(held, asked)?,
                _ => rest(held, asked)?,
            };
            Ok(Next::Held { kind: 2, subject, unit, amount })
        }
        24 => {
            let subject = state.subject()?;
            let remaining = state.amount(REMAINING)?;
            let maximum = input.amount(MAXIMUM)?;
            // the lesser; remaining's own scale on a tie
            Ok(Next::Meter { subject, remaining: min(maximum, remaining), maximum })
        }
        _ => {
            let subject = state.subject()?;
            let maximum = state.amount(MAXIMUM)?;
            let remaining = match operation {
                22 => {
                    let held = state.amount(REMAINING)?;
                    rest(held, input.amount(AMOUNT)?)?
                }
                23 => maximum,
                _ => ZERO, // 25, 26
            };
            Ok(Next::Meter { subject, remaining, maximum })
        }
    }
}

pub fn apply(profile: u8, operation: u8, state: &[u8], input: &[u8], out: &mut [u8]) -> Answer {
    let state = match State::decode(state) {
        Some(s) => s,
        None => return plain(1, 1, 0),
    };
    let input = match Input::decode(input) {
        Some(i) => i,
        None => return plain(2, 0, 0),
    };
    if let Err(No(number, detail)) = known(profile, operation) {
        return plain(number, detail, 0);
    }
    match next(operation, &state, &input) {
        Err(No(number, detail)) => plain(number, detail, 0),
        Ok(next) => write(&next, out),
    }
}

#[inline]
fn credited<'a>(operation: u8, source: &State<'a>, destination: &State<'a>, input: &Input<'a>) -> Result<Next<'a>, No> {
    let (asked_name, held_name) = match operation {
        5 => (QUANTITY, QUANTITY),
        15 => (AMOUNT, BALANCE),
        _ => return Err(No(19, 0)),
    };
    source.born()?;
    let subject = input.text(TO_SUBJECT)?;
    let unit = source.unit()?;
    let asked = input.amount(asked_name)?;
    let held = if destination.kind == 0 { ZERO } else { destination.amount(held_name)? };
    Ok(Next::Held { kind: held_name - 2, subject, unit, amount: sum(held, asked)? })
}

pub fn credit(operation: u8, source: &[u8], destination: &[u8], input: &[u8], out: &mut [u8]) -> Answer {
    let source = match State::decode(source) {
        Some(s) => s,
        None => return plain(1, 1, 0),
    };
    let destination = match State::decode(destination) {
        Some(s) => s,
        None => return plain(1, 2, 0),
    };
    let input = match Input::decode(input) {
        Some(i) => i,
        None => return plain(2, 0, 0),
    };
    match credited(operation, &source, &destination, &input) {
        Err(No(number, detail)) => plain(number, detail, 0),
        Ok(next) => write(&next, out),
    }
}
