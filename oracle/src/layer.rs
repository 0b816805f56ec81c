//! The layer over the Rust: document 01's sheets to the Rust's own values, its `check`,
//! `apply_*`, `transfer_after_state` and `Amount`, and its errors to document 01's numbers.
//! The numbers come from the Rust's error values and texts; none of its rules is written here.
use crate::case::{Call, Case, Outcome, Pair};
use serde_json::Value;
use statechronicle_core::amount::oracle_access::amount;
use statechronicle_core::amount::Amount;
use statechronicle_domain::intent::Operation;
use statechronicle_domain::resource_state::{ConsumableStackState, FungibleBalanceState, MeterState, ResourceState};
use statechronicle_domain::state::StateProjection;
use statechronicle_domain::subject::SubjectId;
use statechronicle_profiles::consumable_stack::{self, ConsumableStackRules};
use statechronicle_profiles::error::ProfileError;
use statechronicle_profiles::fungible_balance::{self, FungibleBalanceRules};
use statechronicle_profiles::meter::{self, MeterRules};
use statechronicle_profiles::registry::ProfileRules;
use statechronicle_profiles::transition::{oracle_access, transfer_after_state};
use std::collections::BTreeMap;

/// Who gave the answer.
#[derive(Clone, Copy, PartialEq, Eq, Debug)]
pub enum From {
    /// The Rust.
    Rust,
    /// The layer over it: 1, 2, 3, 20 and an absent source's 6, which the Rust can't say.
    Layer,
    /// The Rust, where document 01 is known to differ; the outcome is the Rust's with the
    /// document's value put in.
    Recorded,
    /// Nobody: a sound sheet holds a text that isn't UTF-8.
    Nobody,
}

/// Document 01's names, by number.
const NAMES: [&str; 11] = [
    "",
    "subject",
    "unit",
    "quantity",
    "balance",
    "remaining",
    "maximum",
    "amount",
    "to_subject",
    "to_unit",
    "authorized_by",
];

/// Document 01's operations, by number; a number that it doesn't name gets a name that no
/// profile knows.
const OPERATIONS: [&str; 27] = [
    "",
    "stack.create",
    "stack.credit",
    "stack.debit",
    "stack.consume",
    "stack.transfer",
    "stack.reserve",
    "stack.release",
    "stack.expire",
    "stack.adjust",
    "",
    "balance.create",
    "balance.mint",
    "balance.credit",
    "balance.debit",
    "balance.transfer",
    "balance.reserve",
    "balance.release",
    "balance.spend",
    "balance.burn",
    "balance.convert",
    "meter.create",
    "meter.consume",
    "meter.refill",
    "meter.set_maximum",
    "meter.reset",
    "meter.expire",
];

pub type Inputs = BTreeMap<String, Value>;

// ---- Sheets ----

pub enum Torn {
    Layout,
    NotUtf8,
}

struct Entry<'a> {
    name: u8,
    kind: u8,
    body: &'a [u8],
}

// Takes the table and the bodies off the front of the sheet, in step.
fn entries(sheet: &[u8]) -> Option<Vec<Entry<'_>>> {
    let (&count, rest) = sheet.split_first()?;
    let size = usize::from(count) * 6;
    if rest.len() < size {
        return None;
    }
    let (table, mut bodies) = rest.split_at(size);
    let mut found: Vec<Entry> = Vec::with_capacity(table.len() / 6);
    for row in table.chunks(6) {
        let offset = usize::from(u16::from_le_bytes([row[2], row[3]]));
        let length = usize::from(u16::from_le_bytes([row[4], row[5]]));
        if offset != sheet.len() - bodies.len() || length > bodies.len() {
            return None;
        }
        let (body, after) = bodies.split_at(length);
        bodies = after;
        let sound = match row[1] {
            1 => length <= 256,
            2 => length == 0,
            3 => length == 17,
            _ => false,
        };
        let rises = found.last().map_or(row[0] >= 1, |e| row[0] > e.name);
        if !sound || !rises || row[0] > 10 {
            return None;
        }
        found.push(Entry { name: row[0], kind: row[1], body });
    }
    if !bodies.is_empty() {
        return None;
    }
    Some(found)
}

fn utf8(body: &[u8]) -> Result<String, Torn> {
    String::from_utf8(body.to_vec()).map_err(|_| Torn::NotUtf8)
}

fn stored(body: &[u8]) -> Amount {
    let mut bytes = [0; 16];
    bytes.copy_from_slice(&body[..16]);
    amount(u128::from_le_bytes(bytes), body[16])
}

pub fn state_of(sheet: &[u8]) -> Result<Option<StateProjection>, Torn> {
    if sheet.is_empty() {
        return Ok(None);
    }
    let found = entries(sheet).ok_or(Torn::Layout)?;
    if found.len() != 3 {
        return Err(Torn::Layout);
    }
    let shape = [
        (found[0].name, found[0].kind),
        (found[1].name, found[1].kind),
        (found[2].name, found[2].kind),
    ];
    let state = match shape {
        [(1, 1), (2, 1), (3, 3)] => ResourceState::ConsumableStack(ConsumableStackState {
            subject: SubjectId(utf8(found[0].body)?),
            unit: utf8(found[1].body)?,
            quantity: stored(found[2].body),
        }),
        [(1, 1), (2, 1), (4, 3)] => ResourceState::FungibleBalance(FungibleBalanceState {
            subject: SubjectId(utf8(found[0].body)?),
            unit: utf8(found[1].body)?,
            balance: stored(found[2].body),
        }),
        [(1, 1), (5, 3), (6, 3)] => ResourceState::MeteredResource(MeterState {
            subject: SubjectId(utf8(found[0].body)?),
            remaining: stored(found[1].body),
            maximum: stored(found[2].body),
        }),
        _ => return Err(Torn::Layout),
    };
    Ok(Some(StateProjection { state_type: state.state_type(), state }))
}

// A value that is no string, of each JSON kind in turn.
fn other(which: u8) -> Value {
    match which % 6 {
        0 => Value::from(7),
        1 => Value::Null,
        2 => Value::Bool(true),
        3 => Value::Array(vec![Value::String(String::from("7"))]),
        4 => Value::Object(serde_json::Map::new()),
        _ => Value::from(0.5),
    }
}

pub fn inputs_of(sheet: &[u8], which: u8) -> Result<Inputs, Torn> {
    let found = entries(sheet).ok_or(Torn::Layout)?;
    if found.iter().any(|e| e.kind == 3) {
        return Err(Torn::Layout);
    }
    let mut inputs = Inputs::new();
    for entry in found {
        let value = if entry.kind == 1 { Value::String(utf8(entry.body)?) } else { other(which) };
        inputs.insert(String::from(NAMES[usize::from(entry.name)]), value);
    }
    Ok(inputs)
}

// The sheet of a state that the Rust gave.
pub fn sheet_of(state: &ResourceState, sheet: &mut Vec<u8>) {
    let whole = |a: &Amount| {
        let mut body = a.mantissa().to_le_bytes().to_vec();
        body.push(a.scale());
        body
    };
    let fields: [(u8, u8, Vec<u8>); 3] = match state {
        ResourceState::ConsumableStack(v) => [
            (1, 1, v.subject.0.as_bytes().to_vec()),
            (2, 1, v.unit.as_bytes().to_vec()),
            (3, 3, whole(&v.quantity)),
        ],
        ResourceState::FungibleBalance(v) => [
            (1, 1, v.subject.0.as_bytes().to_vec()),
            (2, 1, v.unit.as_bytes().to_vec()),
            (4, 3, whole(&v.balance)),
        ],
        ResourceState::MeteredResource(v) => [
            (1, 1, v.subject.0.as_bytes().to_vec()),
            (5, 3, whole(&v.remaining)),
            (6, 3, whole(&v.maximum)),
        ],
        other => panic!("the Rust gave a state of no kind of document 01: {other:?}"),
    };
    sheet.clear();
    sheet.push(3);
    let mut offset = 19u16;
    for (name, kind, body) in &fields {
        sheet.extend_from_slice(&[*name, *kind]);
        sheet.extend_from_slice(&offset.to_le_bytes());
        sheet.extend_from_slice(&(body.len() as u16).to_le_bytes());
        offset += body.len() as u16;
    }
    for (_, _, body) in &fields {
        sheet.extend_from_slice(body);
    }
}

// ---- The Rust's errors ----

struct Refusal {
    number: u8,
    detail: u8,
    available: Pair,
    requested: Pair,
}

fn plain(number: u8, detail: u8) -> Refusal {
    Refusal { number, detail, available: (0, 0), requested: (0, 0) }
}

fn pair(a: Amount) -> Pair {
    (a.mantissa(), a.scale())
}

fn named(text: &str, before: &str, after: &str) -> Option<u8> {
    let name = text.strip_prefix(before)?.strip_suffix(after)?;
    NAMES.iter().skip(1).position(|n| *n == name).map(|at| at as u8 + 1)
}

// `InvalidInput` carries a text; each text of registry.rs, meter.rs and transition.rs has its number.
fn from_text(text: &str) -> Option<Refusal> {
    for (number, before, after) in [
        (7, "missing input `", "`"),
        (8, "input `", "` must be a string"),
        (9, "input `", "` must not be empty"),
        (10, "`", "` must be an integer string"),
        (11, "`", "` must be an integer string (floats are forbidden)"),
        (12, "state payload has no `", "`"),
        (13, "`", "` must not be empty"),
    ] {
        if let Some(detail) = named(text, before, after) {
            return Some(plain(number, detail));
        }
    }
    let number = match text {
        "`remaining` must not exceed `maximum`" => 16,
        "`stack quantity` overflow" | "`balance` overflow" => 17,
        "`stack quantity` underflow" | "`balance` underflow" | "`meter remaining` underflow" => 18,
        _ if text.starts_with("operation `") && text.ends_with("` requires an existing resource") => 6,
        _ if text.starts_with("unknown consumable stack operation `") => 4,
        _ if text.starts_with("unknown fungible balance operation `") => 4,
        _ if text.starts_with("unknown meter operation `") => 4,
        _ if text.starts_with("destination credit not defined for operation `") => 19,
        _ => return None,
    };
    Some(plain(number, 0))
}

// None only for FloatForbidden, whose field has to be asked for.
fn from_error(error: &ProfileError) -> Option<Refusal> {
    Some(match error {
        ProfileError::UnknownOperation(_) => plain(4, 0),
        ProfileError::InvalidTransition { from, .. } if from == "existing" => plain(5, 0),
        ProfileError::InvalidTransition { from, .. } if from == "unborn" => plain(6, 0),
        ProfileError::NonPositiveAmount => plain(14, 0),
        ProfileError::InsufficientQuantity { available, requested } => {
            Refusal { number: 15, detail: 0, available: pair(*available), requested: pair(*requested) }
        }
        ProfileError::FloatForbidden => return None,
        ProfileError::InvalidInput(text) => match from_text(text) {
            Some(refusal) => refusal,
            None => panic!("the Rust refused with a text that has no number: {text}"),
        },
        other => panic!("the Rust refused with an error that has no number: {other:?}"),
    })
}

// FloatForbidden names no field. All amounts are taken out of the inputs and the Rust is asked
// again: it says which one it misses first. That one is put back as it was given, and so on;
// the one whose return brings FloatForbidden back is the field.
fn float_field(rules: &dyn ProfileRules, operation: &Operation, current: Option<&StateProjection>, inputs: &Inputs) -> u8 {
    let mut asked = inputs.clone();
    for name in &NAMES[3..8] {
        asked.remove(*name);
    }
    for _ in 0..NAMES.len() {
        let missed = match rules.check(operation, current, &asked) {
            Err(ProfileError::InvalidInput(text)) => named(&text, "missing input `", "`"),
            _ => None,
        };
        let missed = missed.expect("an amount that the Rust misses");
        let name = NAMES[usize::from(missed)];
        asked.insert(String::from(name), inputs[name].clone());
        if rules.check(operation, current, &asked) == Err(ProfileError::FloatForbidden) {
            return missed;
        }
    }
    panic!("FloatForbidden without a field");
}

// ---- The calls ----

pub struct Oracle {
    operations: Vec<Operation>,
    any_state: StateProjection,
    sheet: Vec<u8>,
    /// The Rust's own sheet, where the last answer was a recorded difference.
    pub theirs: Vec<u8>,
}

impl Oracle {
    pub fn new() -> Oracle {
        let operations = (0..256usize)
            .map(|n| match OPERATIONS.get(n) {
                Some(name) if !name.is_empty() => Operation::new(*name),
                _ => Operation::new(format!("unknown.{n}")),
            })
            .map(|name| name.expect("a name"))
            .collect();
        // Document 01's operations are just those that the Rust's `op::all` holds, in this order.
        let all = [consumable_stack::op::all(), fungible_balance::op::all(), meter::op::all()].concat();
        let all: Vec<&str> = all.iter().map(Operation::as_str).collect();
        let ours: Vec<&str> = OPERATIONS.iter().copied().filter(|name| !name.is_empty()).collect();
        assert_eq!(all, ours, "op::all isn't document 01's operations");
        let state = ResourceState::ConsumableStack(ConsumableStackState {
            subject: SubjectId(String::from("s")),
            unit: String::from("u"),
            quantity: Amount::ZERO,
        });
        let any_state = StateProjection { state_type: state.state_type(), state };
        Oracle { operations, any_state, sheet: Vec::new(), theirs: Vec::new() }
    }

    /// Asks the Rust, or answers in its place where it can't be asked.
    pub fn ask(&mut self, case: &Case, outcome: &mut Outcome) -> From {
        outcome.clear();
        if !case.call.on_sheets() {
            return self.ask_amount(case, outcome);
        }
        case.filled(&mut outcome.out);
        let mut utf8 = true;
        // 1 (source first), 2, 3
        let state = match state_of(&case.state) {
            Ok(state) => state,
            Err(Torn::Layout) => return refuse(outcome, plain(1, 1), From::Layer),
            Err(Torn::NotUtf8) => {
                utf8 = false;
                None
            }
        };
        let mut destination = None;
        if case.call == Call::Credit {
            destination = match state_of(&case.destination) {
                Ok(state) => state,
                Err(Torn::Layout) => return refuse(outcome, plain(1, 2), From::Layer),
                Err(Torn::NotUtf8) => {
                    utf8 = false;
                    None
                }
            };
        }
        let inputs = match inputs_of(&case.input, case.fill) {
            Ok(inputs) => inputs,
            Err(Torn::Layout) => return refuse(outcome, plain(2, 0), From::Layer),
            Err(Torn::NotUtf8) => {
                utf8 = false;
                Inputs::new()
            }
        };
        if case.call != Call::Credit && !(1..=3).contains(&case.profile) {
            return refuse(outcome, plain(3, 0), From::Layer);
        }
        if !utf8 {
            return From::Nobody;
        }
        let operation = &self.operations[usize::from(case.operation)];
        match case.call {
            Call::Check => {
                let rules: &dyn ProfileRules = match case.profile {
                    1 => &ConsumableStackRules,
                    2 => &FungibleBalanceRules,
                    _ => &MeterRules,
                };
                if let Err(error) = rules.check(operation, state.as_ref(), &inputs) {
                    let refusal = from_error(&error)
                        .unwrap_or_else(|| plain(11, float_field(rules, operation, state.as_ref(), &inputs)));
                    return refuse(outcome, refusal, From::Rust);
                }
                From::Rust
            }
            Call::Apply => {
                let given = match case.profile {
                    1 => oracle_access::apply_stack(state.as_ref(), operation, &inputs),
                    2 => oracle_access::apply_balance(state.as_ref(), operation, &inputs),
                    _ => oracle_access::apply_meter(state.as_ref(), operation, &inputs),
                };
                self.write(case, state.as_ref(), given, outcome)
            }
            _ => {
                // The Rust's source isn't optional. With none, it is asked over some other source
                // whether the operation is a transfer at all (19 comes before 6).
                let source = state.as_ref().unwrap_or(&self.any_state);
                let given = transfer_after_state(source, destination.as_ref(), operation, &inputs);
                if state.is_none() {
                    let other = matches!(&given, Err(e) if matches!(from_error(e), Some(Refusal { number: 19, .. })));
                    if !other {
                        return refuse(outcome, plain(6, 0), From::Layer);
                    }
                }
                self.write(case, state.as_ref(), given, outcome)
            }
        }
    }

    fn write(
        &mut self,
        case: &Case,
        before: Option<&StateProjection>,
        given: Result<ResourceState, ProfileError>,
        outcome: &mut Outcome,
    ) -> From {
        let mut from = From::Rust;
        let mut state = match given {
            Ok(state) => state,
            Err(error) => {
                let refusal = from_error(&error).expect("transition.rs doesn't use FloatForbidden");
                return refuse(outcome, refusal, From::Rust);
            }
        };
        // The recorded difference: meter.set_maximum where the new maximum equals remaining by
        // value. The Rust copies the new maximum; document 01 keeps remaining's own scale.
        if case.call == Call::Apply && case.operation == 24 {
            let kept = before.and_then(|old| old.state.amount("remaining"));
            if let (Some(new), Some(kept)) = (state.amount("remaining"), kept) {
                if new == kept && pair(new) != pair(kept) {
                    sheet_of(&state, &mut self.theirs);
                    if let ResourceState::MeteredResource(written) = &mut state {
                        written.remaining = kept;
                    }
                    from = From::Recorded;
                }
            }
        }
        sheet_of(&state, &mut self.sheet);
        if case.room < self.sheet.len() {
            return refuse(outcome, plain(20, 0), From::Layer);
        }
        outcome.length = self.sheet.len() as u16;
        outcome.out[..self.sheet.len()].copy_from_slice(&self.sheet);
        from
    }

    fn ask_amount(&mut self, case: &Case, outcome: &mut Outcome) -> From {
        let a = amount(case.a.0, case.a.1);
        let b = amount(case.b.0, case.b.1);
        let given = |outcome: &mut Outcome, amount: Option<Amount>, number: u8| match amount {
            Some(amount) => outcome.available = pair(amount),
            None => outcome.number = number,
        };
        match case.call {
            Call::Read => match std::str::from_utf8(&case.input) {
                Ok(text) => given(outcome, Amount::try_from_str(text).ok(), 10),
                Err(_) => return From::Nobody,
            },
            Call::Compare => outcome.detail = (a.cmp(&b) as i8 + 1) as u8,
            Call::Add => given(outcome, a.checked_add(b), 17),
            Call::Sub => given(outcome, a.checked_sub(b), 18),
            Call::Min => given(outcome, Some(a.min(b)), 0),
            _ => {
                let text = a.to_canonical_string();
                outcome.length = text.len() as u16;
                outcome.out.extend_from_slice(text.as_bytes());
                outcome.out.resize(257, 0);
            }
        }
        From::Rust
    }
}

fn refuse(outcome: &mut Outcome, refusal: Refusal, from: From) -> From {
    outcome.number = refusal.number;
    outcome.detail = refusal.detail;
    outcome.available = refusal.available;
    outcome.requested = refusal.requested;
    from
}
