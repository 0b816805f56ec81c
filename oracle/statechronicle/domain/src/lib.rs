//! statechronicle-domain as far as the port needs it: `resource_state` from the source tree;
//! every other module here is a STAND-IN for a file that the tree doesn't have.
include!(concat!(env!("OUT_DIR"), "/modules.rs"));

/// STAND-IN: operation names. A static name costs nothing, so `op_set!` needs no lazy cell.
pub mod intent {
    use crate::state_type::StateType;
    use std::borrow::Cow;

    #[derive(Debug, Clone, PartialEq, Eq)]
    pub struct Operation(pub Cow<'static, str>);

    impl Operation {
        pub fn new(name: impl Into<Cow<'static, str>>) -> Result<Self, crate::NameError> {
            let name = name.into();
            if name.is_empty() {
                return Err(crate::NameError);
            }
            Ok(Self(name))
        }
        pub fn as_str(&self) -> &str {
            &self.0
        }
        /// Only the dispatcher `transition::apply` asks; the oracle doesn't call it.
        pub fn state_type_hint(&self) -> Option<StateType> {
            match self.0.split('.').next() {
                Some("stack") => Some(StateType::ConsumableStack),
                Some("balance") => Some(StateType::FungibleBalance),
                Some("meter") => Some(StateType::MeteredResource),
                _ => None,
            }
        }
    }
}

/// STAND-IN: a refused name.
#[derive(Debug, Clone, PartialEq, Eq)]
pub struct NameError;

impl std::fmt::Display for NameError {
    fn fmt(&self, f: &mut std::fmt::Formatter<'_>) -> std::fmt::Result {
        f.write_str("bad name")
    }
}

/// STAND-IN: the state types that the tree names.
pub mod state_type {
    #[derive(Debug, Clone, Copy, PartialEq, Eq)]
    pub enum StateType {
        UniqueAsset,
        ConsumableStack,
        FungibleBalance,
        Entitlement,
        MeteredResource,
        Listing,
        Escrow,
        Custom,
    }
}

/// STAND-IN: a projection; the rules read these two fields alone.
pub mod state {
    #[derive(Debug, Clone, PartialEq, Eq)]
    pub struct StateProjection {
        pub state_type: crate::state_type::StateType,
        pub state: crate::resource_state::ResourceState,
    }
}

/// STAND-IN: status names (no part of the port reads one).
pub mod status {
    use serde::{Deserialize, Serialize};
    use std::borrow::Cow;

    #[derive(Debug, Clone, PartialEq, Eq, Serialize, Deserialize)]
    pub struct Status(pub Cow<'static, str>);

    impl Status {
        pub fn new(name: String) -> Result<Self, crate::NameError> {
            Self::try_from_str(&name)
        }
        pub fn try_from_str(name: &str) -> Result<Self, crate::NameError> {
            if name.is_empty() {
                return Err(crate::NameError);
            }
            Ok(Self(Cow::Owned(String::from(name))))
        }
        pub const fn from_static(name: &'static str) -> Self {
            Self(Cow::Borrowed(name))
        }
        pub fn as_str(&self) -> &str {
            &self.0
        }
    }
}

/// STAND-IN: a subject's name; any text.
pub mod subject {
    use serde::{Deserialize, Serialize};

    #[derive(Debug, Clone, PartialEq, Eq, Serialize, Deserialize)]
    pub struct SubjectId(pub String);
}

/// STAND-IN: a custom payload (left out of the port).
pub mod custom {
    use serde::{Deserialize, Serialize};

    #[derive(Debug, Clone, PartialEq, Eq, Serialize, Deserialize)]
    pub struct CustomState(pub Vec<u8>);
}

/// STAND-IN: named by the trait `ProfileRules` only.
pub mod authority {
    #[derive(Debug, Clone, Copy, PartialEq, Eq)]
    pub enum AggregationPolicy {
        RequireAll,
        AnyOf,
    }
}

/// STAND-IN: named by the registry of custom profiles only.
pub mod commit {
    #[derive(Debug, Clone, PartialEq, Eq)]
    pub struct ProfileId(pub String);

    impl ProfileId {
        pub fn new(name: String) -> Result<Self, crate::NameError> {
            if name.is_empty() {
                return Err(crate::NameError);
            }
            Ok(Self(name))
        }
    }
}

/// STAND-IN: named by `state_key_for` only.
pub mod resource {
    pub struct ResourceId(pub String);
}

/// STAND-IN: named by `state_key_for` only.
pub mod tenant {
    pub struct TenantId(pub String);
}
