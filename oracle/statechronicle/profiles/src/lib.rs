//! statechronicle-profiles as far as the port needs it: error, registry, consumable_stack,
//! fungible_balance, meter and transition from the source tree; everything written out here
//! is a STAND-IN for a file that the tree doesn't have or that document 01 leaves out.
#![allow(dead_code)]

/// STAND-IN: typed operation names, and `all` with just the names listed, which are
/// document 01's.
macro_rules! op_set {
    ($( $(#[$doc:meta])* $name:ident => $text:literal; )*) => {
        $( $(#[$doc])* pub fn $name() -> &'static Operation {
            static NAME: Operation = Operation(std::borrow::Cow::Borrowed($text));
            &NAME
        } )*
        /// Every operation above.
        pub fn all() -> &'static [Operation] {
            static ALL: &[Operation] = &[ $( Operation(std::borrow::Cow::Borrowed($text)) ),* ];
            ALL
        }
    };
}

/// STAND-IN: typed status names.
macro_rules! status_set {
    ($( $name:ident => $text:literal; )*) => {
        $( pub fn $name() -> &'static Status {
            static NAME: Status = Status::from_static($text);
            &NAME
        } )*
    };
}

/// STAND-IN: rules that know no operation, for the profiles that the port leaves out.
macro_rules! no_rules {
    ($name:ident, $kind:ident, $text:literal) => {
        pub struct $name;
        impl crate::registry::ProfileRules for $name {
            fn state_type(&self) -> statechronicle_domain::state_type::StateType {
                statechronicle_domain::state_type::StateType::$kind
            }
            fn profile_id(&self) -> &'static str {
                $text
            }
            fn allowed_operations(&self) -> &'static [statechronicle_domain::intent::Operation] {
                &[]
            }
            fn check(
                &self,
                operation: &statechronicle_domain::intent::Operation,
                _: Option<&statechronicle_domain::state::StateProjection>,
                _: &std::collections::BTreeMap<String, serde_json::Value>,
            ) -> Result<(), crate::error::ProfileError> {
                Err(crate::error::ProfileError::UnknownOperation(String::from(operation.as_str())))
            }
        }
    };
}

include!(concat!(env!("OUT_DIR"), "/modules.rs"));

/// STAND-IN: who runs a transition (left out).
pub mod execution {
    pub trait ExecutionPolicy: Sync {}
    pub struct NativeExecution;
    impl ExecutionPolicy for NativeExecution {}
    pub static NATIVE_EXECUTION: NativeExecution = NativeExecution;
}

/// STAND-IN: the resource policies (left out, with `check_owner`).
pub mod resource {
    use crate::execution::{ExecutionPolicy, NATIVE_EXECUTION};
    use statechronicle_domain::state_type::StateType;

    pub fn policy(_: StateType) -> &'static dyn ExecutionPolicy {
        &NATIVE_EXECUTION
    }
}

/// STAND-IN: unique assets (left out).
pub mod unique_asset {
    pub mod status {
        use statechronicle_domain::status::Status;
        status_set! {
            active => "active"; locked => "locked"; listed => "listed"; escrowed => "escrowed";
            redeemed => "redeemed"; burned => "burned"; trade_held => "trade_held";
            restricted => "restricted"; tombstoned => "tombstoned";
        }
    }
    pub mod op {
        use statechronicle_domain::intent::Operation;
        op_set! {
            asset_mint => "asset.mint"; asset_transfer => "asset.transfer"; asset_burn => "asset.burn";
            asset_lock => "asset.lock"; asset_unlock => "asset.unlock"; asset_redeem => "asset.redeem";
            asset_list => "asset.list"; asset_delist => "asset.delist"; asset_escrow => "asset.escrow";
            asset_release => "asset.release"; asset_attach_content => "asset.attach_content";
            asset_detach_content => "asset.detach_content";
            asset_update_metadata => "asset.update_metadata"; asset_restrict => "asset.restrict";
            asset_restore => "asset.restore"; trade_lock => "trade.lock";
            trade_unlock => "trade.unlock"; trade_settle => "trade.settle";
        }
    }
    no_rules!(UniqueAssetRules, UniqueAsset, "unique_asset");
}

/// STAND-IN: paid unique assets (left out).
pub mod paid_unique_asset {
    pub mod op {
        use statechronicle_domain::intent::Operation;
        op_set! { asset_hard_delete => "asset.hard_delete"; }
    }
    no_rules!(PaidUniqueAssetRules, UniqueAsset, "paid_unique_asset");
}

/// STAND-IN: entitlements (left out).
pub mod entitlement {
    pub mod status {
        use statechronicle_domain::status::Status;
        status_set! {
            granted => "granted"; active => "active"; suspended => "suspended";
            expired => "expired"; revoked => "revoked";
        }
    }
    pub mod op {
        use statechronicle_domain::intent::Operation;
        op_set! {
            entitlement_grant => "entitlement.grant"; entitlement_activate => "entitlement.activate";
            entitlement_suspend => "entitlement.suspend"; entitlement_restore => "entitlement.restore";
            entitlement_expire => "entitlement.expire"; entitlement_revoke => "entitlement.revoke";
            entitlement_transfer => "entitlement.transfer";
        }
    }
    no_rules!(EntitlementRules, Entitlement, "entitlement");
}

/// STAND-IN: listings and escrow (left out).
pub mod marketplace {
    pub mod listing_status {
        use statechronicle_domain::status::Status;
        status_set! { listed => "listed"; cancelled => "cancelled"; sold => "sold"; expired => "expired"; }
    }
    pub mod escrow_status {
        use statechronicle_domain::status::Status;
        status_set! { locked => "locked"; released => "released"; refunded => "refunded"; }
    }
    pub mod op {
        use statechronicle_domain::intent::Operation;
        op_set! {
            listing_create => "listing.create"; listing_cancel => "listing.cancel";
            listing_buy => "listing.buy"; listing_expire => "listing.expire";
            escrow_lock => "escrow.lock"; escrow_release => "escrow.release"; escrow_refund => "escrow.refund";
        }
    }
    no_rules!(ListingRules, Listing, "listing");
    no_rules!(EscrowRules, Escrow, "escrow");
}
