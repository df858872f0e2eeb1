//! What tests of the search try: operations at random.

use crate::random::Random;
use crate::reference::operation::{operation, Operation, READ};
use crate::reference::version::Version;

/// An operation on three variables, if the table of kinds has the one that came up. Often a read, so
/// that there are values.
pub fn random_operation(random: &mut Random) -> Option<Operation> {
    let kind = match random.once_in(4) {
        true => READ,
        false => 1 + random.below(*Version::Two.kinds().end() as usize) as u64,
    };
    operation(kind, random.below(4) as u64, random.below(4) as u64, 3)
}
