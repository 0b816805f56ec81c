//! The book, session and listing of documents 01 and 02, written by hand from them over `direct`: native 128-bit numbers,
//! the book altered in place, nothing allocated. The limit that the proved library is measured against.
use crate::direct::{self, compare, plain, tests, Amount, Answer, Input, No, State, AMOUNT, BALANCE, SUBJECT, UNIT};
use std::cmp::Ordering;

#[derive(Clone, Copy)]
pub struct Name {
    bytes: [u8; 32],
    len: u8,
}

#[derive(Clone, Copy)]
pub struct Place {
    subject: Name,
    balance: Amount,
    reserved: Amount,
}

#[derive(Clone, Copy)]
pub struct Transfer {
    from: u8,
    to: u8,
    amount: Amount,
}

#[derive(Clone, Copy)]
pub struct Book {
    unit: Name,
    opened: u16,
    pending: u8,
    places: [Place; 16],
    transfers: [Transfer; 8],
}

impl Name {
    // At most 32 bytes.
    fn new(text: &[u8]) -> Name {
        let mut bytes = [0; 32];
        bytes[..text.len()].copy_from_slice(text);
        Name { bytes, len: text.len() as u8 }
    }
    fn text(&self) -> &[u8] {
        &self.bytes[..usize::from(self.len)]
    }
    fn is_sound(&self) -> bool {
        (1..=32).contains(&self.len)
    }
}

const BLANK: Name = Name { bytes: [0; 32], len: 0 };
const CLOSED: Place = Place { subject: BLANK, balance: direct::ZERO, reserved: direct::ZERO };
const FREE: Transfer = Transfer { from: 0, to: 0, amount: direct::ZERO };

fn whole(mantissa: u128) -> Amount {
    Amount { mantissa, scale: 0 }
}

fn refused(number: u8) -> No {
    No(number, 0)
}

impl Book {
    pub fn start(unit: &[u8]) -> Option<Book> {
        if !(1..=32).contains(&unit.len()) {
            return None;
        }
        Some(Book { unit: Name::new(unit), opened: 0, pending: 0, places: [CLOSED; 16], transfers: [FREE; 8] })
    }

    fn is_open(&self, p: u8) -> bool {
        p < 16 && self.opened >> p & 1 == 1
    }

    // The total of a book that passes test 28.
    fn total(&self) -> Result<u128, No> {
        let mut sound = self.unit.is_sound();
        let mut sum = Some(0u128);
        for (p, place) in self.places.iter().enumerate() {
            sound &= (place.balance.scale | place.reserved.scale) == 0;
            if self.opened >> p & 1 == 1 {
                sound &= place.subject.is_sound();
                sum = sum.and_then(|s| s.checked_add(place.balance.mantissa)?.checked_add(place.reserved.mantissa));
            }
        }
        for (t, transfer) in self.transfers.iter().enumerate() {
            sound &= transfer.amount.scale == 0;
            if self.pending >> t & 1 == 1 {
                sound &= self.is_open(transfer.from) && self.is_open(transfer.to);
                sum = sum.and_then(|s| s.checked_add(transfer.amount.mantissa));
            }
        }
        match sum {
            Some(sum) if sound => Ok(sum),
            _ => Err(refused(28)),
        }
    }

    fn open_at(&mut self, total: u128, p: u8, sheet: &[u8]) -> Result<(), No> {
        if p > 15 {
            return Err(refused(22));
        }
        if self.is_open(p) {
            return Err(refused(5));
        }
        let input = Input::decode(sheet).ok_or(refused(2))?;
        let subject = input.text(SUBJECT)?;
        let unit = input.text(UNIT)?;
        let balance = input.amount(BALANCE)?.mantissa;
        if unit != self.unit.text() {
            return Err(refused(26));
        }
        if subject.len() > 32 {
            return Err(No(27, SUBJECT));
        }
        total.checked_add(balance).ok_or(refused(25))?;
        self.places[usize::from(p)] = Place { subject: Name::new(subject), balance: whole(balance), reserved: direct::ZERO };
        self.opened |= 1 << p;
        Ok(())
    }

    fn act_at(&mut self, total: u128, p: u8, operation: u8, sheet: &[u8]) -> Result<Option<(Amount, Amount)>, No> {
        if p > 15 {
            return Err(refused(22));
        }
        if !self.is_open(p) {
            return Err(refused(6));
        }
        let input = Input::decode(sheet).ok_or(refused(2))?;
        let place = &mut self.places[usize::from(p)];
        let adds = match operation {
            12 | 13 | 17 => true,
            14 | 16 | 18 | 19 => false,
            _ => return Err(refused(4)),
        };
        let state = State::of_balance(place.subject.text(), self.unit.text(), place.balance);
        let short = tests(operation, &state, &input)?.filter(|(held, asked)| compare(*asked, *held) == Ordering::Greater);
        if short.is_some() {
            return Ok(short);
        }
        let amount = input.amount(AMOUNT)?.mantissa;
        if adds {
            if operation == 17 {
                place.reserved.mantissa = place.reserved.mantissa.checked_sub(amount).ok_or(refused(31))?;
            } else {
                total.checked_add(amount).ok_or(refused(25))?;
            }
            place.balance.mantissa += amount;
        } else {
            place.balance.mantissa -= amount;
            if operation == 16 {
                place.reserved.mantissa += amount;
            }
        }
        Ok(None)
    }

    fn begin_at(&mut self, from: u8, to: u8, t: u8, sheet: &[u8]) -> Result<Option<(Amount, Amount)>, No> {
        if from > 15 || to > 15 || t > 7 {
            return Err(refused(22));
        }
        if from == to {
            return Err(refused(24));
        }
        if self.pending >> t & 1 == 1 {
            return Err(refused(21));
        }
        if !self.is_open(from) || !self.is_open(to) {
            return Err(refused(6));
        }
        let input = Input::decode(sheet).ok_or(refused(2))?;
        let amount = input.amount(AMOUNT)?;
        if amount.mantissa == 0 {
            return Err(refused(14));
        }
        let held = &mut self.places[usize::from(from)].balance;
        if held.mantissa < amount.mantissa {
            return Ok(Some((*held, amount)));
        }
        held.mantissa -= amount.mantissa;
        self.transfers[usize::from(t)] = Transfer { from, to, amount };
        self.pending |= 1 << t;
        Ok(None)
    }

    // Frees the number of a transfer under way.
    fn free(&mut self, t: u8) -> Result<Transfer, No> {
        if t > 7 {
            return Err(refused(22));
        }
        if self.pending >> t & 1 == 0 {
            return Err(refused(23));
        }
        self.pending &= !(1 << t);
        Ok(std::mem::replace(&mut self.transfers[usize::from(t)], FREE))
    }

    fn finish_at(&mut self, t: u8) -> Result<(), No> {
        let transfer = self.free(t)?;
        self.places[usize::from(transfer.to)].balance.mantissa += transfer.amount.mantissa;
        Ok(())
    }

    fn cancel_at(&mut self, t: u8) -> Result<(), No> {
        let transfer = self.free(t)?;
        self.places[usize::from(transfer.from)].balance.mantissa += transfer.amount.mantissa;
        Ok(())
    }

    // Whether a transfer under way names the place, at either end.
    fn is_awaited(&self, p: u8) -> bool {
        let names = |t: &Transfer| t.from == p || t.to == p;
        self.transfers.iter().enumerate().any(|(t, transfer)| self.pending >> t & 1 == 1 && names(transfer))
    }

    fn close_at(&mut self, p: u8) -> Result<(), No> {
        if p > 15 {
            return Err(refused(22));
        }
        if !self.is_open(p) {
            return Err(refused(6));
        }
        let place = &self.places[usize::from(p)];
        if (place.balance.mantissa | place.reserved.mantissa) != 0 {
            return Err(refused(29));
        }
        if self.is_awaited(p) {
            return Err(refused(30));
        }
        self.places[usize::from(p)] = CLOSED;
        self.opened &= !(1 << p);
        Ok(())
    }

    pub fn open(&mut self, p: u8, sheet: &[u8]) -> Answer {
        answer(self.total().and_then(|total| self.open_at(total, p, sheet)).map(|()| None))
    }
    pub fn act(&mut self, p: u8, operation: u8, sheet: &[u8]) -> Answer {
        answer(self.total().and_then(|total| self.act_at(total, p, operation, sheet)))
    }
    pub fn begin(&mut self, from: u8, to: u8, t: u8, sheet: &[u8]) -> Answer {
        answer(self.total().and_then(|_| self.begin_at(from, to, t, sheet)))
    }
    pub fn finish(&mut self, t: u8) -> Answer {
        answer(self.total().and_then(|_| self.finish_at(t)).map(|()| None))
    }
    pub fn cancel(&mut self, t: u8) -> Answer {
        answer(self.total().and_then(|_| self.cancel_at(t)).map(|()| None))
    }
    pub fn close(&mut self, p: u8) -> Answer {
        answer(self.total().and_then(|_| self.close_at(p)).map(|()| None))
    }
}

// 15 carries its two amounts.
fn answer(r: Result<Option<(Amount, Amount)>, No>) -> Answer {
    match r {
        Ok(None) => plain(0, 0, 0),
        Ok(Some((available, requested))) => Answer { number: 15, detail: 0, available, requested, length: 0 },
        Err(No(number, detail)) => plain(number, detail, 0),
    }
}

// ---- Session and listing ----

pub struct Run {
    pub count: usize,
    pub steps: [(u8, u8); 255],
    pub book: Book,
}

fn word(s: &[u8], at: usize) -> usize {
    usize::from(s[at]) | usize::from(s[at + 1]) << 8
}

fn is_sound(s: &[u8]) -> bool {
    if s.len() < 2 || s.len() > 16384 {
        return false;
    }
    let n = word(s, 0);
    let mut at = 2 + 8 * n;
    if !(1..=256).contains(&n) || s.len() < at {
        return false;
    }
    for (k, row) in s[2..at].chunks_exact(8).enumerate() {
        let (kind, a, b, t) = (row[0], row[1], row[2], row[3]);
        let fits = match kind {
            0 => k == 0 && a == 0 && b == 0 && t == 0,
            1 => k > 0 && b == 0 && t == 0,
            2 => k > 0 && t == 0,
            3 => k > 0,
            4 | 5 => k > 0 && a == 0 && b == 0 && word(row, 6) == 0,
            6 => k > 0 && b == 0 && t == 0 && word(row, 6) == 0,
            _ => false,
        };
        if !fits || word(row, 4) != at {
            return false;
        }
        at += word(row, 6);
    }
    at == s.len()
}

/// None for a bad session. No step of a run meets 28, so the total is kept and not summed again.
pub fn run(s: &[u8]) -> Option<Run> {
    if !is_sound(s) {
        return None;
    }
    let n = word(s, 0);
    let body = |row: &[u8]| &s[word(row, 4)..word(row, 4) + word(row, 6)];
    let mut r = Run { count: n - 1, steps: [(0, 0); 255], book: Book::start(body(&s[2..10]))? };
    let mut total = 0u128;
    for (k, row) in s[10..2 + 8 * n].chunks_exact(8).enumerate() {
        let (a, b, t, sheet) = (row[1], row[2], row[3], body(row));
        let before = r.book.places[usize::from(a & 15)].balance.mantissa;
        let done = match row[0] {
            1 => r.book.open_at(total, a, sheet).map(|()| None),
            2 => r.book.act_at(total, a, b, sheet),
            3 => r.book.begin_at(a, b, t, sheet),
            4 => r.book.finish_at(t).map(|()| None),
            5 => r.book.cancel_at(t).map(|()| None),
            _ => r.book.close_at(a).map(|()| None),
        };
        if matches!(done, Ok(None)) {
            let after = r.book.places[usize::from(a & 15)].balance.mantissa;
            match row[0] {
                1 => total += after,
                2 if !matches!(b, 16 | 17) => total = total - before + after,
                _ => {}
            }
        }
        r.steps[k] = match done {
            Ok(None) => (0, 0),
            Ok(Some(_)) => (15, 0),
            Err(No(number, detail)) => (number, detail),
        };
    }
    Some(r)
}

struct Writer<'a> {
    out: &'a mut [u8],
    at: usize,
}

impl Writer<'_> {
    fn put(&mut self, text: &[u8]) {
        if let Some(room) = self.out.get_mut(self.at..self.at + text.len()) {
            room.copy_from_slice(text);
        }
        self.at += text.len();
    }
    fn small(&mut self, n: usize) {
        let mut digits = [b'0'; 3];
        digits[0] += (n / 100) as u8;
        digits[1] += (n / 10 % 10) as u8;
        digits[2] += (n % 10) as u8;
        let skip = if n >= 100 { 0 } else if n >= 10 { 1 } else { 2 };
        self.put(&digits[skip..]);
    }
    fn amount(&mut self, n: u128) {
        let text = direct::text(whole(n));
        self.put(&text.bytes[..usize::from(text.len)]);
    }
}

/// The listing's length; it must fit, which 4,608 bytes always do.
pub fn listing(s: &[u8], out: &mut [u8]) -> usize {
    let mut w = Writer { out, at: 0 };
    let r = match run(s) {
        Some(r) => r,
        None => {
            w.put(b"bad session\n");
            return w.at;
        }
    };
    for (k, &(number, detail)) in r.steps[..r.count].iter().enumerate() {
        w.small(k + 1);
        w.put(b" ");
        w.small(usize::from(number));
        w.put(b" ");
        w.small(usize::from(detail));
        w.put(b"\n");
    }
    for (p, place) in r.book.places.iter().enumerate() {
        if r.book.opened >> p & 1 == 1 {
            w.put(b"place ");
            w.small(p);
            w.put(b" ");
            w.amount(place.balance.mantissa);
            w.put(b" ");
            w.amount(place.reserved.mantissa);
            w.put(b"\n");
        }
    }
    w.put(b"held ");
    w.small(r.book.opened.count_ones() as usize);
    w.put(b" way ");
    w.small(r.book.pending.count_ones() as usize);
    w.put(b" total ");
    w.amount(r.book.total().unwrap_or(0));
    w.put(b"\n");
    w.at
}
