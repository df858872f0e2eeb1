//! What can't happen at the loom where a routine is certified: a line of it in loom words.

use super::fault::{has_ring, is_loose};
use crate::reference::heap::Place;
use crate::reference::shape::Shape;
use crate::routine::{Forbids, Routine};

/// What a forbidden shape rules out.
#[derive(Clone, Debug, PartialEq, Eq)]
pub struct Never {
    /// How it is instead, of the routine's variables.
    pub instead: String,
    /// What can't happen at the loom.
    pub meaning: String,
}

impl Never {
    fn new(instead: impl Into<String>, meaning: impl Into<String>) -> Never {
        Never {
            instead: instead.into(),
            meaning: meaning.into(),
        }
    }

    /// Of the line that forbids the shape with this number.
    pub fn of(routine: &Routine, number: usize) -> Never {
        let shape = &routine.job.forbidden[number].shape;
        let origin = &routine.origins[number];
        let (set, variables) = match origin.forbids() {
            Forbids::Steps => return of_steps(),
            Forbids::Shape => return of_shape(routine, shape),
            Forbids::Set(set, variables) => (set, variables),
        };
        let all = variables.join(" and ");
        match &set[..] {
            "no list" => Never::new(
                format!("{all} ends at null"),
                "The hooks can't run round a ring while the pick count climbs, and they can't lift \
                 by what is left in the controller's memory.",
            ),
            "lost block" => Never::new(
                match &variables[..] {
                    [one] => format!("Every block is in {one}"),
                    _ => format!(
                        "While {all} are lists apart, every block is in {}",
                        variables.join(" or ")
                    ),
                },
                "The hooks can't miss a part of the pattern, and no memory is lost.",
            ),
            "ring" => Never::new(
                format!("{all} leads into no ring"),
                "The hooks can't lift the same blocks again and again while the pick count climbs.",
            ),
            "no ring" => Never::new(
                format!("{all} is on a ring"),
                "The hooks can't come to an end of the pattern, and they can't lift by what is \
                 left in the controller's memory.",
            ),
            "shared" => Never::new(
                format!("{all} share no block"),
                "An edit of one list can't change the pattern of the other.",
            ),
            "not sorted" => Never::new(
                format!("{all} is in order"),
                "No block stands ahead of one with a smaller pick: the repeats can't be woven out \
                 of order.",
            ),
            _ => of_shape(routine, shape),
        }
    }
}

fn of_steps() -> Never {
    Never::new(
        "Where a line follows or sets a link, there is a block",
        "The controller can't take something else in its memory for a block.",
    )
}

/// A shape of one's own, as far as there are words for it.
fn of_shape(routine: &Routine, shape: &Shape) -> Never {
    let places = routine.variables.iter().zip(&shape.variables);
    let placed = places.filter_map(|(name, place)| Some((name.as_str(), (*place)?)));
    let placed: Vec<(&str, Place)> = placed.collect();
    let is_linked = shape.links.iter().any(Option::is_some);
    let is_loose = |cell: usize| is_loose(shape, cell);
    match (&placed[..], shape.cells()) {
        _ if !shape.facts.is_empty() => Never::new(
            "There are no such picks",
            "The drawn blocks can't have picks as it says below them.",
        ),
        _ if has_ring(shape) => Never::new(
            "There is no such ring",
            "The hooks can't lift the same blocks again and again on one.",
        ),
        _ if shape.links.contains(&Some(Place::Dangling)) => Never::new(
            "No link dangles so",
            "The hooks can't come by such a link to what is left in the controller's memory.",
        ),
        ([(name, Place::Null)], 0) => Never::new(
            format!("{name} isn't null"),
            "The pattern there can't be empty.",
        ),
        ([(name, Place::Dangling)], 0) => Never::new(
            format!("{name} doesn't dangle"),
            "The controller can't take what is left in its memory for a block.",
        ),
        ([(name, Place::Cell(_))], 1) if !is_linked => Never::new(
            format!("{name} stands at no block"),
            "It can't hold on to a block.",
        ),
        ([], 1) if !is_linked => Never::new(
            "There is no block",
            "A part of a pattern can't be left over, and no memory is lost.",
        ),
        _ if (0..shape.cells()).any(is_loose) => Never::new(
            "No block is there besides",
            "Where all else is as drawn, the hooks can't miss a part of the pattern.",
        ),
        _ => Never::new("It isn't so", "The blocks can't stand as drawn."),
    }
}

#[cfg(test)]
mod tests {
    use super::*;
    use crate::routine::parse;

    /// How it is instead, where this is forbidden of a routine of x and y.
    fn instead(forbidden: &str) -> String {
        let text = format!(
            "-- Two.\nlisting\nnew(x)\nx.next := null\ny := null\nmark 0\n\nforbidden\n{forbidden}\n"
        );
        let never = Never::of(&parse(&text).unwrap(), 0);
        assert!(never.meaning.contains("can't"), "{}", never.meaning);
        never.instead
    }

    #[test]
    fn ready_sets() {
        for (set, said) in [
            ("no list: x", "x ends at null"),
            ("lost block: x", "Every block is in x"),
            (
                "lost block: x y",
                "While x and y are lists apart, every block is in x or y",
            ),
            ("ring: x", "x leads into no ring"),
            ("no ring: x", "x is on a ring"),
            ("shared: x y", "x and y share no block"),
            ("not sorted: x", "x is in order"),
        ] {
            assert_eq!(instead(&format!("mark 0 {set}")), said, "{set}");
        }
        let steps = "Where a line follows or sets a link, there is a block";
        assert_eq!(instead("steps"), steps);
    }

    #[test]
    fn shapes_of_ones_own() {
        for (shape, said) in [
            ("x at #", "x isn't null"),
            ("x at *", "x doesn't dangle"),
            ("x at c", "x stands at no block"),
            ("cell c", "There is no block"),
            ("x at c, c -> d, d -> d", "There is no such ring"),
            ("x at c, c -> *", "No link dangles so"),
            ("x at #, cell c", "No block is there besides"),
            ("x at c, c -> d, d < c", "There are no such picks"),
            ("x at #, y at #", "It isn't so"),
            ("x at c, y at c", "It isn't so"),
        ] {
            assert_eq!(instead(&format!("mark 0 {shape}")), said, "{shape}");
        }
    }
}
