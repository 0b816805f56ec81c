//! A case (one call with its arguments) and what came of it, in one form for every side.

#[derive(Clone, Copy, PartialEq, Eq, Debug)]
pub enum Call {
    Check = 1,
    Apply = 2,
    Credit = 3,
    Read = 4,
    Compare = 5,
    Add = 6,
    Sub = 7,
    Text = 8,
    Min = 9,
}

pub const CALLS: [Call; 9] = [
    Call::Check,
    Call::Apply,
    Call::Credit,
    Call::Read,
    Call::Compare,
    Call::Add,
    Call::Sub,
    Call::Text,
    Call::Min,
];

impl Call {
    pub fn word(self) -> &'static str {
        ["", "check", "apply", "credit", "read", "compare", "add", "sub", "text", "min"][self as usize]
    }
    pub fn from_word(word: &str) -> Option<Call> {
        CALLS.iter().copied().find(|c| c.word() == word)
    }
    /// Check, apply and credit: the calls on sheets.
    pub fn on_sheets(self) -> bool {
        (self as u8) <= 3
    }
    /// Calls that are lent an output buffer.
    pub fn writes(self) -> bool {
        matches!(self, Call::Apply | Call::Credit)
    }
}

pub type Pair = (u128, u8);

#[derive(Clone, Debug)]
pub struct Case {
    pub call: Call,
    pub profile: u8,
    pub operation: u8,
    /// The state, credit's source.
    pub state: Vec<u8>,
    pub destination: Vec<u8>,
    /// The input sheet; the text of a reading.
    pub input: Vec<u8>,
    /// Length of the output buffer.
    pub room: usize,
    /// What the output buffer holds before the call: a pattern made from this byte.
    pub fill: u8,
    /// Amounts of compare, add, sub, text, min.
    pub a: Pair,
    pub b: Pair,
}

impl Case {
    pub fn new() -> Case {
        Case {
            call: Call::Check,
            profile: 0,
            operation: 0,
            state: Vec::new(),
            destination: Vec::new(),
            input: Vec::new(),
            room: 0,
            fill: 0,
            a: (0, 0),
            b: (0, 0),
        }
    }
    pub fn filled(&self, out: &mut Vec<u8>) {
        out.clear();
        let fill = self.fill;
        out.extend((0..self.room).map(|i| (i as u8).wrapping_mul(167) ^ fill));
    }
}

/// For check, apply, credit: the answer, and the whole output buffer after the call.
/// Amounts alone: `number`, the amount given as `available`; compare's 0, 1, 2 as `detail`;
/// text's length and 257 bytes as `length` and `out`.
#[derive(Clone, PartialEq, Eq, Debug, Default)]
pub struct Outcome {
    pub number: u8,
    pub detail: u8,
    pub available: Pair,
    pub requested: Pair,
    pub length: u16,
    pub out: Vec<u8>,
}

impl Outcome {
    pub fn clear(&mut self) {
        self.number = 0;
        self.detail = 0;
        self.available = (0, 0);
        self.requested = (0, 0);
        self.length = 0;
        self.out.clear();
    }
}

pub fn hex(bytes: &[u8]) -> String {
    if bytes.is_empty() {
        return String::from("-");
    }
    bytes.iter().map(|b| format!("{:02x}", b)).collect()
}

pub fn unhex(text: &str) -> Option<Vec<u8>> {
    if text == "-" {
        return Some(Vec::new());
    }
    if text.len() % 2 != 0 || !text.is_ascii() {
        return None;
    }
    (0..text.len() / 2).map(|i| u8::from_str_radix(&text[2 * i..2 * i + 2], 16).ok()).collect()
}

impl std::fmt::Display for Case {
    fn fmt(&self, f: &mut std::fmt::Formatter<'_>) -> std::fmt::Result {
        match self.call {
            Call::Check | Call::Apply | Call::Credit => write!(
                f,
                "ask {} {} {} {} {} {} {} (fill {})",
                self.call.word(),
                self.profile,
                self.operation,
                hex(&self.state),
                hex(&self.destination),
                hex(&self.input),
                self.room,
                self.fill
            ),
            Call::Read => write!(f, "ask read {}", hex(&self.input)),
            _ => write!(f, "ask {} {} {} {} {}", self.call.word(), self.a.0, self.a.1, self.b.0, self.b.1),
        }
    }
}

impl std::fmt::Display for Outcome {
    fn fmt(&self, f: &mut std::fmt::Formatter<'_>) -> std::fmt::Result {
        write!(
            f,
            "number {} detail {} available ({}, {}) requested ({}, {}) length {} buffer {}",
            self.number,
            self.detail,
            self.available.0,
            self.available.1,
            self.requested.0,
            self.requested.1,
            self.length,
            hex(&self.out)
        )
    }
}
