//! The two sides that are compared with the Rust: the project's C library, exactly as
//! DESIGN.md section 5 declares it, and the hand-written model (direct.rs).
use crate::case::{Call, Case, Outcome};
use crate::direct;

/// Something that answers cases.
pub trait Side {
    fn word(&self) -> &'static str;
    /// False where this side has no such call.
    fn has(&self, call: Call) -> bool;
    /// Answers; a text is what else went wrong, as a byte written outside the buffer.
    fn answer(&mut self, case: &Case, outcome: &mut Outcome) -> Option<String>;
}

pub struct Model;

fn take(outcome: &mut Outcome, a: direct::Answer) {
    outcome.number = a.number;
    outcome.detail = a.detail;
    outcome.available = (a.available.mantissa, a.available.scale);
    outcome.requested = (a.requested.mantissa, a.requested.scale);
    outcome.length = a.length;
}

impl Side for Model {
    fn word(&self) -> &'static str {
        "the model"
    }
    fn has(&self, _: Call) -> bool {
        true
    }
    fn answer(&mut self, case: &Case, outcome: &mut Outcome) -> Option<String> {
        outcome.clear();
        if case.call.on_sheets() {
            case.filled(&mut outcome.out);
        }
        let a = direct::Amount { mantissa: case.a.0, scale: case.a.1 };
        let b = direct::Amount { mantissa: case.b.0, scale: case.b.1 };
        let given = |outcome: &mut Outcome, amount: Option<direct::Amount>, number: u8| match amount {
            Some(a) => outcome.available = (a.mantissa, a.scale),
            None => outcome.number = number,
        };
        match case.call {
            Call::Check => take(outcome, direct::check(case.profile, case.operation, &case.state, &case.input)),
            Call::Apply => {
                let answer = direct::apply(case.profile, case.operation, &case.state, &case.input, &mut outcome.out);
                take(outcome, answer);
            }
            Call::Credit => {
                let answer =
                    direct::credit(case.operation, &case.state, &case.destination, &case.input, &mut outcome.out);
                take(outcome, answer);
            }
            Call::Read => given(outcome, direct::read(&case.input), 10),
            Call::Compare => outcome.detail = (direct::compare(a, b) as i8 + 1) as u8,
            Call::Add => given(outcome, direct::add(a, b), 17),
            Call::Sub => given(outcome, direct::sub(a, b), 18),
            Call::Min => given(outcome, Some(direct::min(a, b)), 0),
            Call::Text => {
                let text = direct::text(a);
                outcome.length = text.len;
                outcome.out.extend_from_slice(&text.bytes);
            }
        }
        None
    }
}

#[cfg(feature = "library")]
pub use linked::Library;

#[cfg(feature = "library")]
mod linked {
    use super::Side;
    use crate::case::{Call, Case, Outcome, Pair};
    use crate::credits::*;

    fn amount((m, scale): Pair) -> Amount {
        Amount { mantissa: Uint128 { hi: (m >> 64) as u64, lo: m as u64 }, scale }
    }

    fn pair(a: Amount) -> Pair {
        (u128::from(a.mantissa.hi) << 64 | u128::from(a.mantissa.lo), a.scale)
    }

    const GUARD: usize = 32;

    /// The lent bytes of a call lie in one arena with guards between: nothing but the
    /// output buffer may change in it.
    pub struct Library {
        arena: Vec<u8>,
        copy: Vec<u8>,
        places: Vec<(usize, usize)>,
    }

    impl Library {
        pub fn new() -> Library {
            assert_eq!(std::mem::size_of::<Answer>(), 64);
            assert_eq!(std::mem::size_of::<Text>(), 260);
            Library { arena: Vec::new(), copy: Vec::new(), places: Vec::new() }
        }

        fn lend(&mut self, parts: &[&[u8]]) {
            self.arena.clear();
            self.places.clear();
            for part in parts {
                self.arena.resize(self.arena.len() + GUARD, 0x5a);
                self.places.push((self.arena.len(), part.len()));
                self.arena.extend_from_slice(part);
            }
            self.arena.resize(self.arena.len() + GUARD, 0x5a);
            self.copy.clear();
            self.copy.extend_from_slice(&self.arena);
        }

        // NULL where the part is empty and the case's fill is odd.
        fn part(&mut self, at: usize, fill: u8) -> (*mut u8, u64) {
            let (from, n) = self.places[at];
            if n == 0 && fill & 1 == 1 {
                return (std::ptr::null_mut(), 0);
            }
            (self.arena[from..].as_mut_ptr(), n as u64)
        }

        // What changed outside the output buffer, which is the last part.
        fn changed(&self) -> Option<String> {
            let (from, n) = *self.places.last().unwrap();
            let same = self.arena[..from] == self.copy[..from] && self.arena[from + n..] == self.copy[from + n..];
            if same {
                None
            } else {
                Some(String::from("bytes outside the output buffer were written"))
            }
        }
    }

    fn take(outcome: &mut Outcome, a: Answer) {
        outcome.number = a.number;
        outcome.detail = a.detail;
        outcome.available = pair(a.available);
        outcome.requested = pair(a.requested);
        outcome.length = a.length;
    }

    fn given(outcome: &mut Outcome, g: Given) {
        outcome.number = g.number;
        outcome.available = pair(g.amount);
    }

    impl Side for Library {
        fn word(&self) -> &'static str {
            "libcredits.a"
        }
        fn has(&self, call: Call) -> bool {
            call != Call::Min
        }
        fn answer(&mut self, case: &Case, outcome: &mut Outcome) -> Option<String> {
            outcome.clear();
            let (a, b) = (amount(case.a), amount(case.b));
            match case.call {
                Call::Check | Call::Apply | Call::Credit => {}
                Call::Read => {
                    self.lend(&[&case.input, &[]]);
                    let (text, n) = self.part(0, case.fill);
                    given(outcome, unsafe { credits_amount_read(text, n) });
                    return self.changed();
                }
                Call::Compare => {
                    outcome.detail = unsafe { credits_amount_compare(a, b) };
                    return None;
                }
                Call::Add => {
                    given(outcome, unsafe { credits_amount_add(a, b) });
                    return None;
                }
                Call::Sub => {
                    given(outcome, unsafe { credits_amount_sub(a, b) });
                    return None;
                }
                Call::Text => {
                    let text = unsafe { credits_amount_text(a) };
                    outcome.length = text.len;
                    outcome.out.extend_from_slice(&text.bytes);
                    return None;
                }
                Call::Min => unreachable!(),
            }
            case.filled(&mut outcome.out);
            let out = std::mem::take(&mut outcome.out);
            self.lend(&[&case.state, &case.destination, &case.input, &out]);
            let (state, state_n) = self.part(0, case.fill);
            let (to, to_n) = self.part(1, case.fill);
            let (input, input_n) = self.part(2, case.fill);
            let (room, room_n) = self.part(3, case.fill);
            let answer = unsafe {
                match case.call {
                    Call::Check => credits_check(case.profile, case.operation, state, state_n, input, input_n),
                    Call::Apply => {
                        credits_apply(case.profile, case.operation, state, state_n, input, input_n, room, room_n)
                    }
                    _ => credits_credit(case.operation, state, state_n, to, to_n, input, input_n, room, room_n),
                }
            };
            take(outcome, answer);
            outcome.out = out;
            let (from, n) = self.places[3];
            outcome.out.copy_from_slice(&self.arena[from..from + n]);
            self.changed()
        }
    }
}
