//! statechronicle-core as far as the port needs it: `amount`, from the source tree.
include!(concat!(env!("OUT_DIR"), "/modules.rs"));
