//! The oracle's own, declared as a child of the unchanged `transition`: its three private rules.
use super::*;

pub fn apply_stack(
    before: Option<&StateProjection>,
    operation: &Operation,
    inputs: &BTreeMap<String, Value>,
) -> Result<ResourceState, ProfileError> {
    super::apply_stack(before, operation, inputs)
}

pub fn apply_balance(
    before: Option<&StateProjection>,
    operation: &Operation,
    inputs: &BTreeMap<String, Value>,
) -> Result<ResourceState, ProfileError> {
    super::apply_balance(before, operation, inputs)
}

pub fn apply_meter(
    before: Option<&StateProjection>,
    operation: &Operation,
    inputs: &BTreeMap<String, Value>,
) -> Result<ResourceState, ProfileError> {
    super::apply_meter(before, operation, inputs)
}
