//! The operations and the ranges of their operands.

use std::ops::RangeInclusive;

pub const EQUAL: u64 = 1;
pub const DIFFERENT: u64 = 2;
pub const ASSIGN: u64 = 3;
pub const LOAD: u64 = 4;
pub const STORE: u64 = 5;
pub const NEW: u64 = 6;
pub const DELETE: u64 = 7;
pub const EQUAL_VALUE: u64 = 8;
pub const BELOW_VALUE: u64 = 9;
pub const COPY: u64 = 10;
pub const LARGER: u64 = 11;
pub const SMALLER: u64 = 12;
pub const READ: u64 = 13;

/// The kinds that neither test nor write values.
pub const KINDS: RangeInclusive<u64> = EQUAL..=DELETE;

/// The kinds that do.
pub const VALUE_KINDS: RangeInclusive<u64> = EQUAL_VALUE..=READ;

/// An operation with operands that fit its kind: 0 is null, 1 and up are variables.
#[derive(Clone, Copy, Debug, PartialEq, Eq)]
pub struct Operation {
    pub kind: u64,
    pub a: usize,
    pub b: usize,
}

/// The operands a kind takes first, among `variables` variables.
pub fn range_of_a(kind: u64, variables: u64) -> RangeInclusive<u64> {
    match kind {
        EQUAL | DIFFERENT => 0..=variables,
        _ => 1..=variables,
    }
}

/// The operands a kind takes second.
pub fn range_of_b(kind: u64, variables: u64) -> RangeInclusive<u64> {
    match kind {
        EQUAL | DIFFERENT | ASSIGN | STORE => 0..=variables,
        LOAD | EQUAL_VALUE | BELOW_VALUE | COPY | LARGER | SMALLER => 1..=variables,
        _ => 0..=0,
    }
}

/// The operation, where kind and operands fit the table of kinds.
pub fn operation(kind: u64, a: u64, b: u64, variables: u64) -> Option<Operation> {
    let fits = (KINDS.contains(&kind) || VALUE_KINDS.contains(&kind))
        && range_of_a(kind, variables).contains(&a)
        && range_of_b(kind, variables).contains(&b);
    fits.then_some(Operation {
        kind,
        a: a as usize,
        b: b as usize,
    })
}
