//! The oracle's own, declared as a child of the unchanged `amount`: an amount at any scale.
//! `Amount::from_mantissa` refuses scales above MAX_SCALE (18); document 01 has 0 to 255.
use super::Amount;

pub const fn amount(mantissa: u128, scale: u8) -> Amount {
    Amount { mantissa, scale }
}
