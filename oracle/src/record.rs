//! The recorded list: a fixed choice of the Rust's answers, in a form that is easy to replay.
//! crates/replay/stdin is what `tools/oracle record 2026 6000` writes; the same command checks it:
//! `tools/oracle record 2026 6000 | cmp - crates/replay/stdin`. The gate replays it by crates/replay.
//!
//! A sequence of records to the end of the file, multi-byte numbers little-endian:
//!
//!   call (1 check, 2 apply, 3 credit), profile, operation                     1 byte each
//!   lengths of state or source, destination, input, output buffer             2 bytes each
//!   the state or source, the destination, the input                           their bytes
//!   the expected number, detail                                               1 byte each
//!   the expected available, requested (mantissa 16 bytes, scale 1)            17 bytes each
//!   the expected length written                                               2 bytes
//!   the expected bytes written                                                that many
//!   flag: 0 the Rust's answer, 1 the layer's over it, 2 a recorded difference  1 byte
//!
//! (For flag 2 the expected answer is document 01's. An output buffer holds nothing in
//! particular before the call; bytes past the length written must stay as they were.)
use crate::case::{Call, Case, Outcome, Pair};
use crate::gen;
use crate::layer::{From, Oracle};
use crate::library::{Model, Side};
use std::collections::BTreeMap;
use std::io::Write;

fn put_pair(out: &mut Vec<u8>, (m, s): Pair) {
    out.extend_from_slice(&m.to_le_bytes());
    out.push(s);
}

fn put(out: &mut Vec<u8>, case: &Case, outcome: &Outcome, flag: u8) {
    out.extend_from_slice(&[case.call as u8, case.profile, case.operation]);
    for n in [case.state.len(), case.destination.len(), case.input.len(), case.room] {
        out.extend_from_slice(&(n as u16).to_le_bytes());
    }
    out.extend_from_slice(&case.state);
    out.extend_from_slice(&case.destination);
    out.extend_from_slice(&case.input);
    out.extend_from_slice(&[outcome.number, outcome.detail]);
    put_pair(out, outcome.available);
    put_pair(out, outcome.requested);
    out.extend_from_slice(&outcome.length.to_le_bytes());
    out.extend_from_slice(&outcome.out[..usize::from(outcome.length)]);
    out.push(flag);
}

// 0 absent, 1 stack, 2 balance, 3 meter, 4 none of them, by the names in its table (for the coverage table alone).
fn kind(sheet: &[u8]) -> u8 {
    match (sheet.len(), sheet.get(7), sheet.get(13)) {
        (0, _, _) => 0,
        (_, Some(2), Some(3)) => 1,
        (_, Some(2), Some(4)) => 2,
        (_, Some(5), Some(6)) => 3,
        _ => 4,
    }
}

#[derive(Default)]
struct Coverage {
    calls: BTreeMap<(u8, u8), u32>,      // call, operation
    numbers: BTreeMap<(u8, u8), u32>,    // number, flag
    kinds: BTreeMap<(u8, u8), u32>,      // call, kind of state
    edges: BTreeMap<&'static str, u32>,
    flags: [u32; 3],
    accepted: BTreeMap<(u8, u8), u32>,   // call, operation
    longest: usize,
}

// A share of records for each sort, so that none crowds out the others.
fn sort(case: &Case, outcome: &Outcome, from: From, rough: bool) -> (u8, u8, u8, u8, u8, bool) {
    let operation = if matches!(outcome.number, 1 | 2 | 3 | 4 | 19) { 0 } else { case.operation };
    (case.call as u8, operation, outcome.number, outcome.detail, from as u8, rough)
}

// Cases of the first pass.
const RARE: u64 = 300_000;

pub fn record(seed: u64, count: usize) {
    let mut oracle = Oracle::new();
    let mut gen = gen::Gen::new(seed, true);
    let mut edges = gen::edges().into_iter();
    let (mut outcome, mut model) = (Outcome::default(), Outcome::default());
    let mut file = Vec::new();
    let mut cover = Coverage::default();
    let mut shares: BTreeMap<(u8, u8, u8, u8, u8, bool), u32> = BTreeMap::new();
    let mut records = 0;
    let mut case = Case::new();
    let mut tried = 0u64;
    while records < count {
        tried += 1;
        let edge = match edges.next() {
            Some((word, edge)) => {
                case = edge;
                word
            }
            None => {
                gen.next(&mut case);
                ""
            }
        };
        if !case.call.on_sheets() {
            continue;
        }
        let from = oracle.ask(&case, &mut outcome);
        let flag = match from {
            From::Rust => 0,
            From::Layer => 1,
            From::Recorded => 2,
            From::Nobody => continue,
        };
        // The edges stand in whole, but of the grid only each sort's share.
        let share = shares.entry(sort(&case, &outcome, from, gen.rough)).or_insert(0);
        let whole = !matches!(edge, "" | "grid");
        // A first pass takes three of every sort, however rare; then the shares are filled.
        let limit = match outcome.number {
            _ if tried < RARE => 3,
            1 | 2 => 40,
            3 | 4 | 19 => 20,
            20 => 4,
            16 => 60,
            15 | 17 | 18 => 18,
            0 if gen.rough => 6,
            0 => 30,
            _ => 8,
        };
        if !whole && *share >= limit {
            if tried > 10 * RARE {
                crate::fail("COUNT is more than the shares of all sorts hold");
            }
            continue;
        }
        *share += 1;
        Model.answer(&case, &mut model);
        assert!(model == outcome, "the model differs from the Rust: {case}\n{outcome}\n{model}");
        put(&mut file, &case, &outcome, flag);
        records += 1;
        let call = case.call as u8;
        *cover.calls.entry((call, case.operation)).or_insert(0) += 1;
        *cover.numbers.entry((outcome.number, flag)).or_insert(0) += 1;
        *cover.kinds.entry((call, kind(&case.state))).or_insert(0) += 1;
        if outcome.number == 0 {
            *cover.accepted.entry((call, case.operation)).or_insert(0) += 1;
        }
        if !edge.is_empty() {
            *cover.edges.entry(edge).or_insert(0) += 1;
        }
        cover.flags[usize::from(flag)] += 1;
        cover.longest = cover.longest.max(case.state.len()).max(case.input.len()).max(case.destination.len());
    }
    table(seed, records, tried, file.len(), shares.len(), &cover);
    let written = std::io::stdout().write_all(&file);
    if let Err(e) = written {
        crate::fail(&format!("writing the list: {e}"));
    }
}

fn table(seed: u64, records: usize, tried: u64, bytes: usize, sorts: usize, cover: &Coverage) {
    eprintln!(
        "seed {seed}: {records} records of {tried} cases tried, {bytes} bytes, \
         {sorts} sorts (call, operation, number, detail, who answered, one fault or many)"
    );
    eprintln!(
        "flags: {} the Rust's, {} the layer's over it, {} recorded differences; longest sheet {}",
        cover.flags[0], cover.flags[1], cover.flags[2], cover.longest
    );
    eprintln!("edges: {:?}", cover.edges);
    for number in 0..=20 {
        let cell = |flag| cover.numbers.get(&(number, flag)).copied().unwrap_or(0);
        eprintln!("number {number:2}: {:5} Rust {:4} layer {:3} recorded", cell(0), cell(1), cell(2));
    }
    for (call, word) in [(1, "check"), (2, "apply"), (3, "credit")] {
        let known: Vec<String> = (1..=26)
            .filter(|o| *o != 10)
            .filter_map(|o| {
                let all = cover.calls.get(&(call, o))?;
                Some(format!("{o}: {all} ({})", cover.accepted.get(&(call, o)).copied().unwrap_or(0)))
            })
            .collect();
        eprintln!("{word} by operation (accepted): {}", known.join(", "));
        let kinds: Vec<String> = ["absent", "stack", "balance", "meter", "none of them"]
            .iter()
            .enumerate()
            .map(|(k, w)| format!("{w} {}", cover.kinds.get(&(call, k as u8)).copied().unwrap_or(0)))
            .collect();
        eprintln!("{word} by state: {}", kinds.join(", "));
    }
}

// ---- Replaying: the same reading that a Rattle program has to do ----

struct Reader<'a> {
    bytes: &'a [u8],
    at: usize,
}

impl<'a> Reader<'a> {
    fn take(&mut self, n: usize) -> &'a [u8] {
        if self.at + n > self.bytes.len() {
            crate::fail("the list ends inside a record");
        }
        self.at += n;
        &self.bytes[self.at - n..self.at]
    }
    fn byte(&mut self) -> u8 {
        self.take(1)[0]
    }
    fn word(&mut self) -> usize {
        let b = self.take(2);
        usize::from(b[0]) | usize::from(b[1]) << 8
    }
    fn pair(&mut self) -> Pair {
        let mut m = [0; 16];
        m.copy_from_slice(self.take(16));
        (u128::from_le_bytes(m), self.byte())
    }
}

pub fn replay(file: &str) {
    let bytes = match std::fs::read(file) {
        Ok(bytes) => bytes,
        Err(e) => crate::fail(&format!("{file}: {e}")),
    };
    let mut sides: Vec<Box<dyn Side>> = vec![Box::new(Model)];
    #[cfg(feature = "library")]
    sides.push(Box::new(crate::library::Library::new()));
    let mut unequal = 0;
    for side in &mut sides {
        let mut reader = Reader { bytes: &bytes, at: 0 };
        let mut numbers: BTreeMap<u8, u32> = BTreeMap::new();
        let (mut equal, mut recorded, mut wrong) = (0, 0, 0);
        let mut got = Outcome::default();
        while reader.at < bytes.len() {
            let mut case = Case::new();
            case.call = match reader.byte() {
                1 => Call::Check,
                2 => Call::Apply,
                3 => Call::Credit,
                _ => crate::fail("a record of an unknown call"),
            };
            case.profile = reader.byte();
            case.operation = reader.byte();
            let (a, b, c) = (reader.word(), reader.word(), reader.word());
            case.room = reader.word();
            case.fill = 0x3c;
            case.state = reader.take(a).to_vec();
            case.destination = reader.take(b).to_vec();
            case.input = reader.take(c).to_vec();
            let mut expected = Outcome::default();
            expected.number = reader.byte();
            expected.detail = reader.byte();
            expected.available = reader.pair();
            expected.requested = reader.pair();
            expected.length = reader.word() as u16;
            case.filled(&mut expected.out);
            let n = usize::from(expected.length);
            let written = reader.take(n);
            if n > expected.out.len() {
                crate::fail("a record with more written than its buffer has");
            }
            expected.out[..n].copy_from_slice(written);
            let flag = reader.byte();
            let also = side.answer(&case, &mut got);
            *numbers.entry(expected.number).or_insert(0) += 1;
            if got != expected || also.is_some() {
                wrong += 1;
                println!("UNEQUAL {case}\n  expected {expected}\n  got {got}");
            } else if flag == 2 {
                recorded += 1;
            } else {
                equal += 1;
            }
        }
        println!("{}: equal {equal}, recorded differences {recorded}, unequal {wrong}; by number {numbers:?}", side.word());
        unequal += wrong;
    }
    if unequal > 0 {
        std::process::exit(1);
    }
}
