//! STAND-IN for statechronicle-accumulator: named by `state_key_for` only, which the port leaves out.
pub mod key {
    pub struct StateKey(pub Vec<String>);

    impl StateKey {
        pub fn for_subject_held(tenant: &str, resource: &str, subject: &str) -> Self {
            Self(vec![tenant.into(), resource.into(), subject.into()])
        }
        pub fn for_resource(tenant: &str, resource: &str) -> Self {
            Self(vec![tenant.into(), resource.into()])
        }
    }
}
