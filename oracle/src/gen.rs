//! Cases: a fixed list of edges, then random ones from a seed.
use crate::case::{Call, Case, Pair};

/// xoshiro256**, seeded by splitmix64.
pub struct Rng([u64; 4]);

impl Rng {
    pub fn new(seed: u64) -> Rng {
        let mut x = seed;
        let mut s = [0; 4];
        for word in &mut s {
            x = x.wrapping_add(0x9e37_79b9_7f4a_7c15);
            let mut z = x;
            z = (z ^ (z >> 30)).wrapping_mul(0xbf58_476d_1ce4_e5b9);
            z = (z ^ (z >> 27)).wrapping_mul(0x94d0_49bb_1331_11eb);
            *word = z ^ (z >> 31);
        }
        Rng(s)
    }
    pub fn next(&mut self) -> u64 {
        let s = &mut self.0;
        let result = s[1].wrapping_mul(5).rotate_left(7).wrapping_mul(9);
        let t = s[1] << 17;
        s[2] ^= s[0];
        s[3] ^= s[1];
        s[1] ^= s[2];
        s[0] ^= s[3];
        s[2] ^= t;
        s[3] = s[3].rotate_left(45);
        result
    }
    /// 0 to n-1.
    pub fn below(&mut self, n: u32) -> u32 {
        (((self.next() >> 32) * u64::from(n)) >> 32) as u32
    }
    /// True in `n` of a thousand.
    pub fn permille(&mut self, n: u32) -> bool {
        self.below(1000) < n
    }
    fn one<T: Copy>(&mut self, of: &[T]) -> T {
        of[self.below(of.len() as u32) as usize]
    }
    /// A number of random length.
    fn wide(&mut self) -> u128 {
        let full = u128::from(self.next()) << 64 | u128::from(self.next());
        full >> self.below(128)
    }
}

pub const MAX: u128 = u128::MAX;

fn power(k: u32) -> u128 {
    10u128.pow(k)
}

// ---- Sheets ----

#[derive(Clone, PartialEq, Debug)]
enum Body {
    Text(Vec<u8>),
    Other,
    Whole(Pair),
}

/// Fields to be written as a sheet, names rising.
#[derive(Clone, Default, Debug)]
struct Fields(Vec<(u8, Body)>);

impl Fields {
    fn put(&mut self, name: u8, body: Body) {
        match self.0.iter().position(|f| f.0 >= name) {
            Some(at) if self.0[at].0 == name => self.0[at].1 = body,
            Some(at) => self.0.insert(at, (name, body)),
            None => self.0.push((name, body)),
        }
    }
    fn text_len(&self, name: u8) -> usize {
        match self.0.iter().find(|f| f.0 == name) {
            Some((_, Body::Text(t))) => t.len(),
            _ => 0,
        }
    }
    fn write(&self, sheet: &mut Vec<u8>) {
        sheet.clear();
        sheet.push(self.0.len() as u8);
        let mut offset = 1 + 6 * self.0.len();
        for (name, body) in &self.0 {
            let (kind, length) = match body {
                Body::Text(t) => (1, t.len()),
                Body::Other => (2, 0),
                Body::Whole(_) => (3, 17),
            };
            sheet.push(*name);
            sheet.push(kind);
            sheet.extend_from_slice(&(offset as u16).to_le_bytes());
            sheet.extend_from_slice(&(length as u16).to_le_bytes());
            offset += length;
        }
        for (_, body) in &self.0 {
            match body {
                Body::Text(t) => sheet.extend_from_slice(t),
                Body::Other => {}
                Body::Whole((m, s)) => {
                    sheet.extend_from_slice(&m.to_le_bytes());
                    sheet.push(*s);
                }
            }
        }
    }
}

fn text(t: &str) -> Body {
    Body::Text(t.as_bytes().to_vec())
}

fn stack(subject: &str, unit: &str, quantity: Pair) -> Fields {
    Fields(vec![(1, text(subject)), (2, text(unit)), (3, Body::Whole(quantity))])
}

fn balance(subject: &str, unit: &str, amount: Pair) -> Fields {
    Fields(vec![(1, text(subject)), (2, text(unit)), (4, Body::Whole(amount))])
}

fn meter(subject: &str, remaining: Pair, maximum: Pair) -> Fields {
    Fields(vec![(1, text(subject)), (5, Body::Whole(remaining)), (6, Body::Whole(maximum))])
}

/// The inputs that an operation reads.
fn needs(operation: u8) -> &'static [u8] {
    match operation {
        1 => &[1, 2, 3],
        2 | 3 | 4 | 6 | 7 | 9 => &[3],
        5 => &[3, 8],
        11 => &[1, 2, 4],
        12 | 19 => &[7, 10],
        13 | 14 | 16 | 17 | 18 | 22 => &[7],
        15 => &[7, 8],
        20 => &[7, 9],
        21 => &[1, 5, 6],
        24 => &[6],
        _ => &[],
    }
}

fn is_amount(name: u8) -> bool {
    (3..=7).contains(&name)
}

// ---- Edges ----

/// Document 01's marked edges and four mistakes, the limits, and every profile and operation
/// over every kind of state. The same in every run; the names are those of the coverage table.
pub fn edges() -> Vec<(&'static str, Case)> {
    let mut list: Vec<(&'static str, Case)> = Vec::new();
    let sheet = |fields: &Fields| {
        let mut bytes = Vec::new();
        fields.write(&mut bytes);
        bytes
    };
    let inputs = |given: &[(u8, &str)]| {
        let mut fields = Fields::default();
        for (name, t) in given {
            fields.put(*name, text(t));
        }
        sheet(&fields)
    };
    let case = |call: Call, profile: u8, operation: u8, state: Vec<u8>, input: Vec<u8>, room: usize| {
        let mut case = Case::new();
        case.call = call;
        case.profile = profile;
        case.operation = operation;
        case.state = state;
        case.input = input;
        case.room = room;
        case.fill = 0xa5;
        case
    };
    let limit = MAX.to_string();
    let above = "340282366920938463463374607431768211456";
    let fifty = "1".repeat(49) + ".";
    let five = "5".to_string() + &"0".repeat(48) + "e";

    // the four mistakes
    for (held, asked) in [
        ((1, 255), limit.as_str()),
        ((1, 255), "1"),
        ((MAX, 0), "1"),
        ((MAX, 255), "1"),
        ((MAX, 39), "1"),
        ((MAX, 38), "3"),
        ((MAX, 38), "4"),
        ((10, 1), "1"),
        ((19, 1), "2"),
        ((power(38), 38), "1"),
        ((power(38) - 1, 38), "1"),
    ] {
        for call in [Call::Check, Call::Apply] {
            let word = "comparing by rescaling";
            list.push((word, case(call, 2, 14, sheet(&balance("N1", "rd", held)), inputs(&[(7, asked)]), 64)));
            list.push((word, case(call, 1, 3, sheet(&stack("N1", "rd", held)), inputs(&[(3, asked)]), 64)));
            list.push((word, case(call, 3, 22, sheet(&meter("N1", held, held)), inputs(&[(7, asked)]), 64)));
        }
    }
    for asked in [fifty.as_str(), five.as_str(), "1.", ".", "e", "1E3", "1e3"] {
        for call in [Call::Check, Call::Apply] {
            let word = "length before the point";
            list.push((word, case(call, 2, 13, sheet(&balance("N1", "rd", (5, 0))), inputs(&[(7, asked)]), 64)));
            list.push((word, case(call, 1, 1, Vec::new(), inputs(&[(1, "N1"), (2, "rd"), (3, asked)]), 64)));
            list.push((word, case(call, 3, 21, Vec::new(), inputs(&[(1, "N"), (5, "1"), (6, asked)]), 64)));
            list.push((word, case(call, 3, 21, Vec::new(), inputs(&[(1, "N"), (5, asked), (6, asked)]), 64)));
        }
    }
    for operation in [2, 7, 8, 9] {
        for call in [Call::Check, Call::Apply] {
            let state = sheet(&meter("N1", (5, 0), (5, 0)));
            list.push(("stack.credit over a meter", case(call, 1, operation, state, inputs(&[(3, "1")]), 64)));
        }
    }
    for (remaining, asked) in [
        ((50, 1), "5"),
        ((0, 1), "0"),
        ((0, 255), "0"),
        ((5, 0), "5"),
        ((500, 2), "5"),
        ((51, 1), "5"),
        ((49, 1), "5"),
        ((power(38), 38), "1"),
        ((MAX, 0), limit.as_str()),
    ] {
        let state = sheet(&meter("N1", remaining, (9, 0)));
        list.push(("set_maximum on a tie", case(Call::Apply, 3, 24, state, inputs(&[(6, asked)]), 60)));
    }

    // the marked edges and their like
    let zeros38 = "0".repeat(38) + "1";
    let zeros39 = "0".repeat(39) + "1";
    let digits40 = "1".repeat(40);
    let nines = "9".repeat(39);
    let texts = [
        "0", "00", "1", "7", &zeros38, &zeros39, &limit, above, "1e3", "1.5", "", "-1", "+1", " 1", "1 ", "0x1",
        "\u{661}", &digits40, &nines, &fifty,
    ];
    for t in texts {
        let mut read = Case::new();
        read.call = Call::Read;
        read.input = t.as_bytes().to_vec();
        list.push(("marked", read));
        let state = sheet(&stack("N1", "rd", (5, 0)));
        list.push(("marked", case(Call::Check, 1, 2, state.clone(), inputs(&[(3, t)]), 0)));
        list.push(("marked", case(Call::Apply, 1, 2, state, inputs(&[(3, t)]), 64)));
        let state = sheet(&balance("N1", "rd", (5, 0)));
        list.push(("marked", case(Call::Check, 2, 13, state.clone(), inputs(&[(7, t)]), 0)));
        list.push(("marked", case(Call::Apply, 2, 18, state, inputs(&[(7, t)]), 64)));
        list.push(("marked", case(Call::Check, 3, 21, Vec::new(), inputs(&[(1, "N"), (5, t), (6, "5")]), 0)));
        list.push(("marked", case(Call::Apply, 3, 21, Vec::new(), inputs(&[(1, "N"), (5, "6"), (6, t)]), 64)));
    }
    let ends = [
        (0, 0), (0, 1), (0, 255), (1, 0), (10, 1), (5, 3), (1200, 3), (15, 1), (MAX, 0), (MAX, 1), (MAX, 38), (MAX, 39),
        (MAX, 254), (MAX, 255), (1, 255), (1 << 64, 18), ((1 << 64) - 1, 19), (power(38), 38), (power(38), 0),
    ];
    for a in ends {
        for b in ends {
            for call in [Call::Compare, Call::Add, Call::Sub, Call::Text, Call::Min] {
                let mut pair = Case::new();
                pair.call = call;
                pair.a = a;
                pair.b = b;
                list.push(("marked", pair));
            }
        }
    }
    for (remaining, maximum) in [("5", "5"), ("6", "5"), ("0", "0"), (limit.as_str(), limit.as_str())] {
        let input = inputs(&[(1, "N"), (5, remaining), (6, maximum)]);
        list.push(("marked", case(Call::Check, 3, 21, Vec::new(), input, 0)));
    }

    // every profile and operation over every kind of state
    let all: [(u8, &str); 10] = [
        (1, "N2"), (2, "rd"), (3, "3"), (4, "4"), (5, "5"), (6, "6"), (7, "3"), (8, "N3"), (9, "mm"), (10, "chief"),
    ];
    let kinds =
        [Vec::new(), sheet(&stack("N1", "rd", (50, 1))), sheet(&balance("N1", "rd", (5, 0))), sheet(&meter("N1", (4, 0), (9, 0)))];
    for profile in 0..=4 {
        for operation in 0..=28 {
            for state in &kinds {
                for call in [Call::Check, Call::Apply] {
                    list.push(("grid", case(call, profile, operation, state.clone(), inputs(&all), 64)));
                    list.push(("grid", case(call, profile, operation, state.clone(), vec![0], 64)));
                }
            }
        }
    }
    for operation in 0..=28 {
        for source in &kinds {
            for destination in &kinds {
                let mut one = case(Call::Credit, 0, operation, source.clone(), inputs(&all), 64);
                one.destination = destination.clone();
                list.push(("grid", one));
            }
        }
    }
    // buffers: exactly long enough, one short, longer, empty; each profile's kind
    for (profile, operation, state, input, need) in [
        (1, 2, kinds[1].clone(), inputs(&[(3, "1")]), 40),
        (2, 13, kinds[2].clone(), inputs(&[(7, "1")]), 40),
        (3, 23, kinds[3].clone(), inputs(&[]), 55),
    ] {
        for room in [0, 1, need - 1, need, need + 1, 2 * need, 600] {
            list.push(("buffers", case(Call::Apply, profile, operation, state.clone(), input.clone(), room)));
        }
    }
    for room in [0, 39, 40, 41] {
        list.push(("buffers", case(Call::Credit, 0, 5, kinds[1].clone(), inputs(&[(3, "1"), (8, "N3")]), room)));
        list.push(("buffers", case(Call::Credit, 0, 15, kinds[2].clone(), inputs(&[(7, "1"), (8, "N3")]), room)));
    }
    // damaged: each prefix, each byte changed, one byte more, of a state and of an input
    let state = sheet(&meter("N1", (4, 0), (9, 0)));
    let input = inputs(&[(7, "3"), (8, "N")]);
    for n in 0..=state.len() {
        list.push(("damaged", case(Call::Check, 3, 22, state[..n].to_vec(), input.clone(), 0)));
    }
    for n in 0..=input.len() {
        list.push(("damaged", case(Call::Check, 3, 22, state.clone(), input[..n].to_vec(), 0)));
    }
    for n in 0..19 {
        for by in [1, 255] {
            let mut torn = state.clone();
            torn[n] = torn[n].wrapping_add(by);
            list.push(("damaged", case(Call::Check, 3, 22, torn, input.clone(), 0)));
        }
    }
    for n in 0..13 {
        for by in [1, 255] {
            let mut torn = input.clone();
            torn[n] = torn[n].wrapping_add(by);
            list.push(("damaged", case(Call::Check, 3, 22, state.clone(), torn, 0)));
        }
    }
    list.push(("damaged", case(Call::Check, 3, 22, [state.as_slice(), &[0]].concat(), input.clone(), 0)));
    list.push(("damaged", case(Call::Check, 3, 22, state.clone(), [input.as_slice(), &[0]].concat(), 0)));
    list.push(("damaged", case(Call::Check, 3, 22, vec![0], input.clone(), 0)));
    list.push(("damaged", case(Call::Apply, 3, 22, input.clone(), state.clone(), 64)));
    let mut torn = case(Call::Credit, 0, 5, kinds[1].clone(), vec![], 64);
    torn.destination = vec![0];
    list.push(("damaged", torn.clone()));
    torn.state = vec![9];
    list.push(("damaged", torn));
    // layouts that are nearly sound: (name, kind, by how much the offset is off, length), bodies of '1'
    let raw = |rows: &[(u8, u8, i32, usize)], tail: usize| {
        let mut bytes = vec![rows.len() as u8];
        let mut end = 1 + 6 * rows.len();
        for (name, kind, off, length) in rows {
            bytes.extend_from_slice(&[*name, *kind]);
            bytes.extend_from_slice(&((end as i32 + off) as u16).to_le_bytes());
            bytes.extend_from_slice(&(*length as u16).to_le_bytes());
            end += length;
        }
        bytes.resize(end + tail, b'1');
        bytes
    };
    let nearly: [&[(u8, u8, i32, usize)]; 26] = [
        &[(7, 1, 0, 1)],
        &[(0, 1, 0, 1), (7, 1, 0, 1)],
        &[(7, 1, 0, 1), (11, 1, 0, 1)],
        &[(7, 1, 0, 1), (10, 1, 0, 1)],
        &[(7, 1, 0, 1), (255, 1, 0, 0)],
        &[(7, 1, 0, 1), (7, 1, 0, 1)],
        &[(7, 1, 0, 1), (6, 1, 0, 1)],
        &[(7, 0, 0, 0)],
        &[(7, 0, 0, 1)],
        &[(7, 2, 0, 0)],
        &[(7, 2, 0, 1)],
        &[(7, 3, 0, 17)],
        &[(7, 4, 0, 1)],
        &[(7, 1, 1, 1)],
        &[(7, 1, -1, 1)],
        &[(6, 2, 1, 0), (7, 1, 0, 1)],
        &[(6, 2, -6, 0), (7, 1, 0, 1)],
        &[(6, 1, 1, 0), (7, 1, 0, 1)],
        &[(7, 1, 0, 1), (8, 2, 1, 0)],
        &[(7, 1, 0, 1), (8, 1, -1, 0)],
        &[(7, 1, 0, 1), (8, 2, 0, 0)],
        &[(7, 1, 0, 1), (8, 1, 0, 256)],
        &[(7, 1, 0, 1), (8, 1, 0, 257)],
        &[(1, 1, 0, 1), (2, 1, 0, 1), (4, 3, 0, 17)],
        &[(7, 1, 0, 0)],
        &[(7, 1, 0x100, 1)],
    ];
    let sound = sheet(&balance("N1", "rd", (5, 0)));
    for rows in nearly {
        for tail in [0, 1] {
            list.push(("layout", case(Call::Check, 2, 13, sound.clone(), raw(rows, tail), 0)));
        }
    }
    let near_states: [&[(u8, u8, i32, usize)]; 22] = [
        &[(1, 1, 0, 1), (2, 1, 0, 1), (3, 3, 0, 17)],
        &[(1, 1, 0, 1), (2, 1, 0, 1), (4, 3, 0, 17)],
        &[(1, 1, 0, 1), (5, 3, 0, 17), (6, 3, 0, 17)],
        &[(1, 1, 0, 1), (2, 1, 0, 1), (4, 3, 0, 16)],
        &[(1, 1, 0, 1), (2, 1, 0, 1), (4, 3, 0, 18)],
        &[(1, 1, 0, 1), (2, 1, 0, 1), (4, 1, 0, 17)],
        &[(1, 1, 0, 1), (2, 1, 0, 1), (5, 3, 0, 17)],
        &[(1, 1, 0, 1), (2, 1, 0, 1), (7, 3, 0, 17)],
        &[(1, 1, 0, 1), (2, 1, 0, 1)],
        &[(1, 1, 0, 1), (4, 3, 0, 17)],
        &[(1, 1, 0, 1), (2, 1, 0, 1), (3, 3, 0, 17), (4, 3, 0, 17)],
        &[(1, 1, 0, 1), (2, 2, 0, 0), (4, 3, 0, 17)],
        &[(1, 2, 0, 0), (2, 1, 0, 1), (4, 3, 0, 17)],
        &[(2, 1, 0, 1), (1, 1, 0, 1), (4, 3, 0, 17)],
        &[(1, 1, 0, 1), (1, 1, 0, 1), (4, 3, 0, 17)],
        &[(1, 1, 0, 0), (2, 1, 1, 0), (4, 3, 0, 17)],
        &[(1, 1, 1, 0), (2, 1, 0, 1), (4, 3, 0, 17)],
        &[(1, 1, 0, 1), (2, 1, 0, 1), (4, 3, 1, 17)],
        &[(1, 1, 0, 0), (2, 1, 0, 0), (4, 3, 0, 17)],
        &[(1, 1, 0, 1), (5, 3, 0, 17), (6, 3, 0, 16)],
        &[(1, 1, 0, 1), (5, 3, 0, 16), (6, 3, 0, 17)],
        &[(1, 1, 0, 1), (5, 1, 0, 17), (6, 3, 0, 17)],
    ];
    for rows in near_states {
        for tail in [0, 1] {
            list.push(("layout", case(Call::Check, 2, 13, raw(rows, tail), inputs(&[(7, "2")]), 0)));
        }
        list.push(("layout", case(Call::Apply, 2, 13, raw(rows, 0), inputs(&[(7, "2")]), 64)));
        let mut one = case(Call::Credit, 0, 15, sound.clone(), inputs(&[(7, "2"), (8, "N")]), 64);
        one.destination = raw(rows, 0);
        list.push(("layout", one));
    }
    // operations and profiles just outside
    for (profile, operation) in [
        (1, 0), (1, 10), (1, 11), (1, 255), (2, 9), (2, 10), (2, 21), (2, 0), (3, 20), (3, 27), (3, 0), (3, 128), (0, 1), (4, 1),
        (255, 0), (0, 0), (4, 27),
    ] {
        for call in [Call::Check, Call::Apply] {
            for state in &kinds[..2] {
                list.push(("bounds", case(call, profile, operation, state.clone(), inputs(&all), 64)));
            }
        }
    }
    for operation in [0, 4, 6, 10, 14, 16, 22, 255] {
        for source in &kinds[..2] {
            list.push(("bounds", case(Call::Credit, 0, operation, source.clone(), vec![0], 64)));
        }
    }
    // texts of 0, 1, 255, 256, 257 bytes
    for n in [0, 1, 255, 256, 257] {
        let long = "n".repeat(n);
        let input = inputs(&[(1, &long), (2, "rd"), (4, "3")]);
        for call in [Call::Check, Call::Apply] {
            list.push(("texts", case(call, 2, 11, Vec::new(), input.clone(), 600)));
            list.push(("texts", case(call, 2, 13, sheet(&balance(&long, "rd", (5, 0))), inputs(&[(7, "2")]), 600)));
            list.push(("texts", case(call, 2, 13, sheet(&balance("N", &long, (5, 0))), inputs(&[(7, "2")]), 600)));
            let state = sheet(&balance("N", "rd", (5, 0)));
            list.push(("texts", case(call, 2, 20, state, inputs(&[(7, "2"), (9, &long)]), 600)));
        }
    }
    list
}

// ---- Random cases ----

pub struct Gen {
    rng: Rng,
    /// Short texts nearly always (for the recorded list).
    short: bool,
    /// The case at hand has many faults, to show the order of the tests.
    pub rough: bool,
}

impl Gen {
    pub fn new(seed: u64, short: bool) -> Gen {
        Gen { rng: Rng::new(seed), short, rough: false }
    }

    fn long_text(&mut self, bytes: usize) -> Vec<u8> {
        let piece = self.rng.one(&["x", "\u{e9}", "\u{20ac}", "\u{1d11e}"]);
        let mut t = piece.repeat(bytes / piece.len()).into_bytes();
        while t.len() < bytes {
            t.push(b'y');
        }
        t
    }

    fn text(&mut self) -> Vec<u8> {
        if self.rough && self.rng.permille(300) {
            return Vec::new();
        }
        let long = if self.short { 4 } else { 40 };
        if self.rng.permille(long) {
            let n = self.rng.one(&[255, 256, 256, 254, 128]);
            return self.long_text(n);
        }
        match self.rng.below(100) {
            0..=1 => Vec::new(),
            2..=9 => {
                let mut t = String::new();
                for _ in 0..=self.rng.below(6) {
                    t.push(self.rng.one(&['\u{e9}', '\u{20ac}', '\u{1d11e}', 'z', '\u{0}', '\u{7ff}', '.', 'e']));
                }
                t.into_bytes()
            }
            10..=29 => vec![b'a' + self.rng.below(26) as u8],
            30..=49 => self.rng.one(&["N1", "N2", "rd", "node-17", "bridge.3", "reading"]).as_bytes().to_vec(),
            _ => {
                let n = 1 + self.rng.below(9);
                (0..n).map(|_| self.rng.one(b"abcdefghij0123456789-.E")).collect()
            }
        }
    }

    fn mantissa(&mut self) -> u128 {
        match self.rng.below(20) {
            0 => 0,
            1..=6 => u128::from(self.rng.below(21)),
            7 => power(self.rng.below(39)),
            8 => power(self.rng.below(39)) - 1,
            9 => power(self.rng.below(39)) + 1,
            10 => (1 << 64) - 1 + u128::from(self.rng.below(3)),
            11 | 12 => MAX - u128::from(self.rng.below(4)) * u128::from(self.rng.below(2)),
            13..=15 => {
                let k = self.rng.below(37);
                u128::from(self.rng.below(30)) * power(k)
            }
            _ => self.rng.wide(),
        }
    }

    fn scale(&mut self) -> u8 {
        match self.rng.below(20) {
            0..=9 => 0,
            10 => 1,
            11..=13 => self.rng.below(5) as u8,
            14 => self.rng.one(&[17, 18, 19, 20]),
            15 => self.rng.one(&[37, 38, 39, 40]),
            16 => self.rng.one(&[253, 254, 255, 255]),
            17 => self.rng.below(256) as u8,
            _ => self.rng.below(41) as u8,
        }
    }

    fn amount(&mut self) -> Pair {
        // 10^k at scale k, a whole number written with decimals
        if self.rng.below(12) == 0 {
            let k = self.rng.below(38);
            return (u128::from(1 + self.rng.below(3)) * power(k), k as u8);
        }
        (self.mantissa(), self.scale())
    }

    /// A text to be read as an amount, mostly near one that is held.
    fn amount_text(&mut self, near: Pair) -> Vec<u8> {
        if self.rough && self.rng.permille(400) {
            return self.rng.one(&["", "x", "1.5", "0", "0", "1e3"]).as_bytes().to_vec();
        }
        let whole = if near.1 > 38 { 0 } else { near.0 / power(u32::from(near.1)) };
        let value = match self.rng.below(100) {
            0..=29 => whole,
            30..=39 => whole.wrapping_add(1),
            40..=46 => whole.saturating_sub(1),
            47..=54 => self.rng.wide() % whole.max(1),
            55..=60 => 0,
            61..=70 => u128::from(self.rng.below(20)),
            71..=74 => MAX - near.0,
            75..=77 => (MAX - near.0).wrapping_add(1),
            78..=80 => (MAX / power(u32::from(near.1.min(38)))).wrapping_sub(whole),
            81..=83 => self.mantissa(),
            84..=86 => {
                let zeros = self.rng.one(&[38usize, 39, 39, 40, 41]);
                let digits = self.rng.one(&[whole, 0, 1, 12]).to_string();
                return format!("{digits:0>zeros$}").into_bytes();
            }
            87..=90 => {
                let t = self.rng.one(&["1.5", "1e3", "1E3", ".", "e", "E", "0.0", "5.", ".5", "1e", "-1.0", "\u{e9}.", "x e"]);
                return t.as_bytes().to_vec();
            }
            91 => {
                // long, with a point somewhere
                let n = if self.short { self.rng.one(&[40, 41, 50]) } else { self.rng.one(&[40, 50, 255, 256]) };
                let mut t = vec![b'7'; n];
                let at = self.rng.below(n as u32) as usize;
                t[at] = self.rng.one(b".eE");
                return t;
            }
            92 => {
                let n = self.rng.one(&[39usize, 39, 40, 50]);
                return vec![self.rng.one(b"3459"); n];
            }
            93 => return b"340282366920938463463374607431768211456".to_vec(),
            94 => return Vec::new(),
            95 => {
                let t = self.rng.one(&["-1", "+1", " 1", "1 ", "0x1", "x", "1_000", "\u{661}", "\u{ff11}", "1\u{0}", "/", ":"]);
                return t.as_bytes().to_vec();
            }
            96 => return self.text(),
            _ => MAX - u128::from(self.rng.below(3)),
        };
        value.to_string().into_bytes()
    }

    fn state(&mut self, kind: u32) -> (Fields, Pair) {
        let subject = Body::Text(self.text());
        match kind {
            1 | 2 => {
                let amount = self.amount();
                let unit = Body::Text(self.text());
                (Fields(vec![(1, subject), (2, unit), (kind as u8 + 2, Body::Whole(amount))]), amount)
            }
            _ => {
                let remaining = self.amount();
                let maximum = if self.rng.below(3) == 0 { remaining } else { self.amount() };
                (Fields(vec![(1, subject), (5, Body::Whole(remaining)), (6, Body::Whole(maximum))]), remaining)
            }
        }
    }

    fn inputs(&mut self, wanted: &[u8], near: Pair) -> Fields {
        let mut fields = Fields::default();
        let near = if near == (0, 0) && wanted.len() == 3 { self.amount() } else { near };
        for &name in wanted {
            let (missing, other) = if self.rough { (150, 300) } else { (20, 30) };
            let fault = self.rng.below(1000);
            match fault {
                _ if fault < missing => {}
                _ if fault < other => fields.put(name, Body::Other),
                _ if is_amount(name) => {
                    let t = self.amount_text(near);
                    fields.put(name, Body::Text(t));
                }
                _ => {
                    let t = self.text();
                    fields.put(name, Body::Text(t));
                }
            }
        }
        // names that the operation may not read
        if self.rng.below(6) == 0 {
            for _ in 0..=self.rng.below(3) {
                let name = 1 + self.rng.below(10) as u8;
                if fields.0.iter().any(|f| f.0 == name) {
                    continue;
                }
                let body = match self.rng.below(4) {
                    0 => Body::Other,
                    1 => Body::Text(self.amount_text(near)),
                    _ => Body::Text(self.text()),
                };
                fields.put(name, body);
            }
        }
        fields
    }

    fn damage(&mut self, sheet: &mut Vec<u8>) {
        let n = sheet.len() as u32;
        match self.rng.below(14) {
            0 if n > 0 => sheet.truncate(self.rng.below(n) as usize),
            1 if n > 0 => {
                sheet.pop();
            }
            2 => sheet.push(self.rng.next() as u8),
            3 => {
                let more = self.rng.below(20);
                let byte = self.rng.next() as u8;
                sheet.extend((0..more).map(|_| byte));
            }
            4 if n > 0 => {
                let at = self.rng.below(n) as usize;
                sheet[at] ^= 1 << self.rng.below(8);
            }
            5 | 6 if n > 6 => {
                // a byte of the table, by one
                let table = (6 * u32::from(sheet[0])).min(n - 1);
                let at = self.rng.below(table + 1) as usize;
                sheet[at] = sheet[at].wrapping_add(self.rng.one(&[1, 255]));
            }
            7 if n > 0 => {
                let at = self.rng.below(n) as usize;
                sheet.remove(at);
            }
            8 if n > 0 => {
                let at = self.rng.below(n) as usize;
                sheet.insert(at, self.rng.next() as u8);
            }
            9 if n > 12 => {
                // two entries exchanged, or one twice
                let twice = self.rng.below(2) == 0;
                for i in 0..6 {
                    let first = sheet[1 + i];
                    sheet[1 + i] = sheet[7 + i];
                    if !twice {
                        sheet[7 + i] = first;
                    }
                }
            }
            10 if n > 0 => {
                let at = self.rng.below(n) as usize;
                sheet[at] = self.rng.one(&[0, 1, 2, 3, 4, 5, 10, 11, 16, 17, 18, 255]);
            }
            11 => {
                // an overlong text, else sound
                let (mut fields, _) = self.state(2);
                let t = self.long_text(257);
                fields.put(1 + self.rng.below(2) as u8, Body::Text(t));
                fields.write(sheet);
            }
            12 => {
                let n = self.rng.below(60);
                sheet.clear();
                for _ in 0..n {
                    let byte = self.rng.next() as u8;
                    sheet.push(if self.rng.below(2) == 0 { byte % 20 } else { byte });
                }
            }
            _ => {
                // another sound sheet that doesn't belong here
                match self.rng.below(6) {
                    0 => sheet.clear(),
                    1 => *sheet = vec![0],
                    2 => {
                        let kind = 1 + self.rng.below(3);
                        let (mut fields, near) = self.state(kind);
                        let at = self.rng.below(fields.0.len() as u32) as usize;
                        match self.rng.below(3) {
                            0 => {
                                fields.0.remove(at);
                            }
                            1 => fields.0[at].0 = 1 + self.rng.below(11) as u8,
                            _ => fields.0[at].1 = Body::Whole(near),
                        }
                        fields.0.sort_by_key(|f| f.0);
                        fields.write(sheet);
                    }
                    3 | 4 => {
                        let kind = 1 + self.rng.below(3);
                        self.state(kind).0.write(sheet);
                    }
                    _ => self.inputs(&[1, 2, 4, 7], (5, 0)).write(sheet),
                }
            }
        }
    }

    /// The next case, into `case`.
    pub fn next(&mut self, case: &mut Case) {
        case.fill = self.rng.next() as u8;
        case.profile = 0;
        case.operation = 0;
        case.room = 0;
        case.state.clear();
        case.destination.clear();
        case.input.clear();
        self.rough = self.rng.permille(120);
        case.call = match self.rng.below(100) {
            0..=37 => Call::Check,
            38..=71 => Call::Apply,
            72..=89 => Call::Credit,
            _ => self.rng.one(&[Call::Read, Call::Compare, Call::Add, Call::Sub, Call::Text, Call::Min]),
        };
        match case.call {
            Call::Check | Call::Apply => self.profile_case(case),
            Call::Credit => self.credit_case(case),
            Call::Read => {
                let near = self.amount();
                case.input = self.amount_text(near);
            }
            _ => {
                case.a = self.amount();
                case.b = self.amount();
                match self.rng.below(8) {
                    0 => case.b = case.a,
                    1 => {
                        // the same value at another scale, where that can be
                        let by = self.rng.below(39);
                        if let (Some(m), Some(s)) = (case.a.0.checked_mul(power(by)), case.a.1.checked_add(by as u8)) {
                            case.b = (m, s);
                        }
                    }
                    2 => case.b = (MAX - case.a.0, case.a.1),
                    3 => case.b = ((MAX - case.a.0).wrapping_add(1), case.a.1),
                    _ => {}
                }
                if self.rng.below(2) == 0 {
                    std::mem::swap(&mut case.a, &mut case.b);
                }
            }
        }
    }

    fn room(&mut self, need: usize) -> usize {
        match self.rng.below(20) {
            0 => 0,
            1 => need - 1,
            2 => self.rng.below(need as u32) as usize,
            3..=9 => need,
            10 | 11 => need + 1,
            12 if !self.short => 1000,
            _ => need + self.rng.below(40) as usize,
        }
    }

    fn profile_case(&mut self, case: &mut Case) {
        let profile = 1 + self.rng.below(3) as u8;
        case.profile = profile;
        case.operation = match profile {
            1 => 1 + self.rng.below(9) as u8,
            2 => 11 + self.rng.below(10) as u8,
            _ => 21 + self.rng.below(6) as u8,
        };
        let operation = case.operation;
        let create = matches!(operation, 1 | 11 | 21);
        // the state: mostly of the profile's kind, and for a create mostly none
        let kind = match self.rng.below(100) {
            0..=29 if self.rough => self.rng.below(4),
            0..=6 => 1 + self.rng.below(3),
            7..=8 => 0,
            _ if create && self.rng.below(10) > 0 => 0,
            _ => u32::from(profile),
        };
        let (state, near) = if kind == 0 { (Fields::default(), (0, 0)) } else { self.state(kind) };
        if kind > 0 {
            state.write(&mut case.state);
        }
        let input = self.inputs(needs(operation), near);
        input.write(&mut case.input);
        match self.rng.below(100) {
            0 => case.profile = self.rng.next() as u8,
            1 => case.profile = self.rng.below(5) as u8,
            2 => case.operation = self.rng.next() as u8,
            3 | 4 => case.operation = self.rng.below(30) as u8,
            5..=7 => self.damage(&mut case.state),
            8..=10 => self.damage(&mut case.input),
            11 => {
                self.damage(&mut case.state);
                self.damage(&mut case.input);
                case.profile = self.rng.below(5) as u8;
            }
            _ => {}
        }
        if case.call == Call::Apply {
            let subject = if create { input.text_len(1) } else { state.text_len(1) };
            let unit = match operation {
                1 | 11 => input.text_len(2),
                20 => input.text_len(9),
                _ => state.text_len(2),
            };
            let need = if profile == 3 { 53 + subject } else { 36 + subject + unit };
            case.room = self.room(need);
        }
    }

    fn credit_case(&mut self, case: &mut Case) {
        case.operation = if self.rng.below(2) == 0 { 5 } else { 15 };
        let own = if case.operation == 5 { 1 } else { 2 };
        let source = match self.rng.below(100) {
            0..=29 if self.rough => self.rng.below(4),
            0..=9 => 1 + self.rng.below(3),
            10..=12 => 0,
            _ => own,
        };
        let destination = match self.rng.below(100) {
            0..=29 if self.rough => self.rng.below(4),
            0..=9 => 1 + self.rng.below(3),
            10..=34 => 0,
            _ => own,
        };
        let (from, _) = if source == 0 { (Fields::default(), (0, 0)) } else { self.state(source) };
        let (to, near) = if destination == 0 { (Fields::default(), (0, 0)) } else { self.state(destination) };
        if source > 0 {
            from.write(&mut case.state);
        }
        if destination > 0 {
            to.write(&mut case.destination);
        }
        let input = self.inputs(needs(case.operation), near);
        input.write(&mut case.input);
        match self.rng.below(100) {
            0 | 1 => case.operation = self.rng.next() as u8,
            2..=4 => case.operation = self.rng.below(30) as u8,
            5 | 6 => self.damage(&mut case.state),
            7 | 8 => self.damage(&mut case.destination),
            9 | 10 => self.damage(&mut case.input),
            11 => {
                self.damage(&mut case.state);
                self.damage(&mut case.destination);
                self.damage(&mut case.input);
            }
            _ => {}
        }
        let need = 36 + input.text_len(8) + from.text_len(2);
        case.room = self.room(need);
    }
}
