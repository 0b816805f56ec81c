//! The oracle's command line; tools/oracle and tools/compare build and call it.
mod case;
#[cfg(feature = "library")]
#[path = "../../include/credits.rs"]
#[allow(dead_code)]
mod credits;
#[path = "../../bench/src/direct.rs"]
mod direct;
mod gen;
mod layer;
mod library;
mod record;

use case::{unhex, Call, Case, Outcome, CALLS};
use layer::{From, Oracle};
use library::{Model, Side};
use std::time::Instant;

const USAGE: &str = "usage:
  oracle compare [--model] SEED COUNT   the Rust against libcredits.a (or the model) on COUNT cases
  oracle record SEED COUNT > FILE       COUNT of the Rust's answers, with a table of what they cover
                                        on standard error
  oracle replay FILE                    a recorded list against the model (and libcredits.a if linked)
  oracle ask CALL ARGUMENTS             one case, the Rust's answer and the model's:
      ask check|apply|credit PROFILE OPERATION STATE DESTINATION INPUT ROOM    bytes in hex, - for none
      ask read TEXT                                                            bytes in hex
      ask compare|add|sub|text|min MANTISSA SCALE [MANTISSA SCALE]";

fn fail(message: &str) -> ! {
    eprintln!("oracle: {message}");
    std::process::exit(2);
}

fn number<T: std::str::FromStr>(word: Option<&String>, what: &str) -> T {
    match word.and_then(|w| w.parse().ok()) {
        Some(n) => n,
        None => fail(&format!("{what} is missing or no number\n{USAGE}")),
    }
}

fn main() {
    let args: Vec<String> = std::env::args().skip(1).collect();
    match args.first().map(String::as_str) {
        Some("compare") => {
            let model = args.get(1).map_or(false, |w| w == "--model");
            let at = if model { 2 } else { 1 };
            let seed = number(args.get(at), "SEED");
            let count = number(args.get(at + 1), "COUNT");
            if model {
                compare(&mut Model, seed, count);
            } else {
                compare_library(seed, count);
            }
        }
        Some("record") => record::record(number(args.get(1), "SEED"), number(args.get(2), "COUNT")),
        Some("replay") => match args.get(1) {
            Some(file) => record::replay(file),
            None => fail(USAGE),
        },
        Some("ask") => ask(&args[1..]),
        _ => fail(USAGE),
    }
}

#[cfg(feature = "library")]
fn compare_library(seed: u64, count: u64) {
    compare(&mut library::Library::new(), seed, count);
}

#[cfg(not(feature = "library"))]
fn compare_library(_: u64, _: u64) {
    fail("built without libcredits.a; run tools/compare, or compare --model");
}

fn ask(args: &[String]) {
    let mut case = Case::new();
    case.call = match args.first().and_then(|w| Call::from_word(w)) {
        Some(call) => call,
        None => fail(USAGE),
    };
    let bytes = |at: usize| match args.get(at).and_then(|w| unhex(w)) {
        Some(bytes) => bytes,
        None => fail(&format!("argument {at} of ask: not bytes in hex\n{USAGE}")),
    };
    match case.call {
        Call::Check | Call::Apply | Call::Credit => {
            case.profile = number(args.get(1), "PROFILE");
            case.operation = number(args.get(2), "OPERATION");
            case.state = bytes(3);
            case.destination = bytes(4);
            case.input = bytes(5);
            case.room = usize::from(number::<u16>(args.get(6), "ROOM"));
        }
        Call::Read => case.input = bytes(1),
        _ => {
            case.a = (number(args.get(1), "MANTISSA"), number(args.get(2), "SCALE"));
            if case.call != Call::Text {
                case.b = (number(args.get(3), "MANTISSA"), number(args.get(4), "SCALE"));
            }
        }
    }
    let (mut rust, mut other) = (Outcome::default(), Outcome::default());
    let mut oracle = Oracle::new();
    let from = oracle.ask(&case, &mut rust);
    Model.answer(&case, &mut other);
    if from == From::Nobody {
        println!("the Rust can't be asked: a text isn't UTF-8");
    } else {
        println!("{from:?}: {rust}");
    }
    if from == From::Recorded {
        println!("the Rust itself writes {}", case::hex(&oracle.theirs));
    }
    println!("model: {other}");
}

struct Counts {
    calls: [u64; 10],
    numbers: [[u64; 32]; 4], // by the number: Rust, layer, recorded, nobody
    equal: u64,
    recorded: u64,
    nobody: u64,
    absent: u64,
    unequal: u64,
}

fn compare(side: &mut dyn Side, seed: u64, count: u64) {
    let start = Instant::now();
    let mut oracle = Oracle::new();
    let mut gen = gen::Gen::new(seed, false);
    let mut edges = gen::edges().into_iter();
    let mut case = Case::new();
    let (mut rust, mut other) = (Outcome::default(), Outcome::default());
    let mut n = Counts {
        calls: [0; 10],
        numbers: [[0; 32]; 4],
        equal: 0,
        recorded: 0,
        nobody: 0,
        absent: 0,
        unequal: 0,
    };
    for index in 0..count {
        match edges.next() {
            Some((_, edge)) => case = edge,
            None => gen.next(&mut case),
        }
        n.calls[case.call as usize] += 1;
        let from = oracle.ask(&case, &mut rust);
        if from == From::Nobody {
            // The Rust has no answer where a text isn't UTF-8: the model stands in.
            Model.answer(&case, &mut rust);
        }
        n.numbers[from as usize][usize::from(rust.number & 31)] += 1;
        if !side.has(case.call) {
            n.absent += 1;
            continue;
        }
        let also = side.answer(&case, &mut other);
        if also.is_none() && rust == other {
            match from {
                From::Recorded => n.recorded += 1,
                From::Nobody => n.nobody += 1,
                _ => n.equal += 1,
            }
            continue;
        }
        n.unequal += 1;
        if n.unequal <= 20 {
            println!("UNEQUAL case {index}: {case}");
            println!("  {from:?}: {rust}");
            println!("  {}: {other}{}", side.word(), also.map(|t| format!(" ({t})")).unwrap_or_default());
        }
    }
    print_counts(side.word(), seed, count, &n);
    let seconds = start.elapsed().as_secs_f64();
    println!("time      {seconds:.1} s, {:.0} cases a second", count as f64 / seconds);
    if n.unequal > 0 {
        std::process::exit(1);
    }
}

fn print_counts(word: &str, seed: u64, count: u64, n: &Counts) {
    println!("the Rust against {word}, seed {seed}, {count} cases");
    let calls: Vec<String> = CALLS.iter().map(|c| format!("{} {}", c.word(), n.calls[*c as usize])).collect();
    println!("by call   {}", calls.join(", "));
    let words = ["the Rust", "the layer over it", "recorded", "not UTF-8"];
    for (row, word) in n.numbers.iter().zip(words) {
        let cells: Vec<String> =
            row.iter().enumerate().filter(|(_, c)| **c > 0).map(|(i, c)| format!("{i}: {c}")).collect();
        println!("by number {word}: {}", if cells.is_empty() { String::from("none") } else { cells.join(", ") });
    }
    println!("equal     {} with the Rust or the layer over it", n.equal);
    println!("recorded  {} where document 01 differs from the Rust (set_maximum on a tie), equal to the document", n.recorded);
    let held = if word == "the model" { "so not compared" } else { "equal to the model" };
    println!("not UTF-8 {} where the Rust can't be asked, {held}", n.nobody);
    if n.absent > 0 {
        println!("not asked {} calls that the other side hasn't", n.absent);
    }
    println!("unequal   {}", n.unequal);
}
