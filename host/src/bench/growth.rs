//! Pairs of growing size.

use crate::extremes::{pair, shape};
use crate::pairs::Pair;
use crate::reference::operation::{Operation, EQUAL};

/// Ever more members, with one cover each.
pub fn in_members() -> Vec<Pair> {
    doubled(512).map(|members| growing(members, 1)).collect()
}

/// Twenty members with ever more covers each.
pub fn in_covers() -> Vec<Pair> {
    doubled(256)
        .map(|transitions| growing(20, transitions))
        .collect()
}

/// 1, 2, 4 and so on.
fn doubled(last: usize) -> impl Iterator<Item = usize> {
    std::iter::successors(Some(1), |number| Some(2 * number)).take_while(move |&n| n <= last)
}

/// Members like those of real routines: four cells in a list, three of four variables placed. Each
/// is covered by the first, once for each transition.
fn growing(members: usize, transitions: usize) -> Pair {
    let skip = Operation {
        kind: EQUAL,
        a: 0,
        b: 0,
    };
    let member = shape(&[3, 5, 1, 0], &[4, 5, 6, 1]);
    pair(4, &[skip], transitions, &vec![member; members])
}

#[cfg(test)]
mod tests {
    use super::*;
    use crate::baseline::checker::check;

    #[test]
    fn sizes_double() {
        let verdict = |pair: Option<&Pair>| {
            let pair = pair.expect("there is a largest");
            check(&pair.job, &pair.certificate).to_string()
        };
        let members = verdict(in_members().last());
        assert_eq!(members, "accepted bads 1 members 512 covers 513 links 2052");
        let covers = verdict(in_covers().last());
        assert_eq!(covers, "accepted bads 1 members 20 covers 5121 links 20484");
    }
}
