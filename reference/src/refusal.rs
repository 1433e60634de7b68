//! The refusals by number (docs/refusals.md, docs/memory.md).

pub type Refusal = u8;

pub const SIZE: Refusal = 1;
pub const CUT: Refusal = 2;
pub const OPERATION: Refusal = 3;
pub const FIELD: Refusal = 4;
pub const CALL_LIMIT: Refusal = 5;
pub const RANGE: Refusal = 6;
pub const OVERLAP: Refusal = 7;
pub const REGIONS_FULL: Refusal = 8;
pub const NO_REGION: Refusal = 9;
pub const READ_ONLY: Refusal = 10;
pub const WIRED: Refusal = 11;
pub const NOT_WIRED: Refusal = 12;
pub const WIRED_FULL: Refusal = 13;
pub const NO_FRAME: Refusal = 14;

/// The letter of the layer that gives a refusal.
pub fn layer(refusal: Refusal) -> char {
    match refusal {
        1..=4 => 'F',
        5..=14 => 'M',
        _ => 'P',
    }
}
