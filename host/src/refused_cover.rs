//! A cover that doesn't hold, in words: which rule it breaks and how, and the two shapes. Cells are
//! numbered from 0, as in the verdict.

use crate::draw::{self, standing};
use crate::reference::cover::{cover_at, CoverRead, Owed, Reason};
use crate::reference::facts::{Fact, Relation};
use crate::reference::heap::Place;
use crate::reference::job::Located;
use crate::reference::operation::{Operation, DELETE};
use crate::routine::Routine;
use crate::verdict::{Broken, Refusal, Rule, Verdict};

/// The refused cover of a certificate for a routine.
pub struct RefusedCover<'a> {
    routine: &'a Routine,
    cover: CoverRead,
    broken: Broken,
}

impl<'a> RefusedCover<'a> {
    /// The cover that a verdict on the routine's job and these bytes refuses; nothing where it says
    /// something else.
    pub fn of(
        routine: &'a Routine,
        certificate: &[u8],
        verdict: &Verdict,
    ) -> Option<RefusedCover<'a>> {
        match *verdict {
            Verdict::Refused(Refusal {
                place,
                broken: Some(broken),
                ..
            }) => Some(RefusedCover {
                routine,
                cover: cover_at(&routine.job, certificate, place)?,
                broken,
            }),
            _ => None,
        }
    }

    /// How the rule is broken, in a sentence.
    pub fn how(&self) -> String {
        let (map, name) = (self.cover.map(), usize::from(self.broken.name));
        match self.broken.rule {
            Rule::State => format!(
                "The member is at another state: it is to be at {}, but is at {}.",
                self.state(&self.cover.owed.covered),
                self.state(&self.cover.member),
            ),
            Rule::Image => {
                let twin = map.twin(name).expect("another cell has the image");
                let image = map.images[name];
                format!("Two cells have the image {image}: cells {name} and {twin}.")
            }
            Rule::Variable => format!(
                "{} stands elsewhere: it is to stand {}, but stands {} in the covered shape.",
                self.routine.operand(name),
                self.image(map.shape.place(name)),
                standing(map.other.place(name)),
            ),
            Rule::Link => {
                let end = match map.path(name).end {
                    Some(end) => format!("ends {}", standing(Some(end))),
                    None => "meets no image, # or *".to_string(),
                };
                format!(
                    "The link of cell {name} misses: its path is to end {}, but {end}.",
                    self.image(map.shape.links[name]),
                )
            }
            Rule::Path => {
                let (lower, shared) = map.shared(name).expect("a lower cell's path meets it");
                format!(
                    "The paths of cells {lower} and {name} share cell {shared} of the covered shape."
                )
            }
            Rule::Fact => {
                let fact = map.missing().expect("a fact is missing");
                let told = told(fact.renamed(|cell| map.images[cell]));
                let Fact { i, j, .. } = fact;
                let images = match i == j {
                    true => format!("the image of cell {i}"),
                    false => format!("the images of cells {i} and {j}"),
                };
                format!(
                    "A fact is missing: it isn't told of the covered shape that {told}, {images}."
                )
            }
        }
    }

    /// The covered shape and the member, drawn, each with its facts below.
    pub fn drawn(&self) -> Vec<String> {
        let (cover, covered) = (&self.cover.cover, &self.cover.owed.covered);
        let images: Vec<String> = cover.images.iter().map(usize::to_string).collect();
        let images = match images.is_empty() {
            true => String::new(),
            false => format!(", with the images {}", images.join(" ")),
        };
        let key = draw::key([&covered.shape, &self.cover.member.shape]);
        let mut lines = drawn(self.routine, &self.cover.owed, key);
        lines.push(format!(
            "By member {}, at {}{images}:",
            cover.member,
            self.state(&self.cover.member),
        ));
        lines.extend(shape(self.routine, &self.cover.member));
        lines
    }

    fn state(&self, located: &Located) -> &str {
        &self.routine.states[located.state as usize]
    }

    /// The image of a place of the member.
    fn image(&self, place: Option<Place>) -> String {
        let image = place.map(|place| self.cover.map().image(place));
        match place {
            Some(Place::Cell(cell)) => format!("{}, the image of cell {cell}", standing(image)),
            _ => standing(image),
        }
    }
}

/// A shape that has to be covered: at which state, why, and drawn. The key is of all shapes that are.
pub fn drawn(routine: &Routine, owed: &Owed, key: &str) -> Vec<String> {
    let state = &routine.states[owed.covered.state as usize];
    let reason = reason(routine, owed);
    let mut lines = vec![format!(
        "To be covered at {state}, since {reason} (cells from 0, {key}):"
    )];
    lines.extend(shape(routine, &owed.covered));
    lines
}

fn shape(routine: &Routine, located: &Located) -> Vec<String> {
    let lines = draw::shape_as_in_files(&located.shape, &routine.variables);
    lines.iter().map(|line| format!("       {line}")).collect()
}

/// Why a shape has to be covered.
fn reason(routine: &Routine, owed: &Owed) -> String {
    match owed.reason {
        Reason::Forbidden(number) => routine.origins[number].to_string(),
        Reason::Before { member, transition } => {
            let operation = routine.operation(transition);
            let case = case(routine, owed, routine.job.transitions[transition].operation);
            format!("`{operation}` leads from there to member {member}{case}")
        }
    }
}

/// Before a delete, the variables that were at * already and those that stood at the deleted cell
/// beside its own.
fn case(routine: &Routine, owed: &Owed, operation: Operation) -> String {
    if operation.kind != DELETE {
        return String::new();
    }
    let covered = &owed.covered.shape;
    let at = |place: Option<Place>| -> Vec<&str> {
        let others = (1..=covered.variables.len()).filter(|&other| other != operation.a);
        let there = others.filter(|&other| covered.place(other) == place);
        there.map(|other| routine.operand(other)).collect()
    };
    let cases = [
        (at(Some(Place::Dangling)), "at * already"),
        (at(covered.place(operation.a)), "at the deleted cell"),
    ];
    let told = cases.iter().filter(|(names, _)| !names.is_empty());
    told.map(|(names, stood)| format!(", {} {stood}", names.join(" and ")))
        .collect()
}

/// A fact in words.
fn told(fact: Fact) -> String {
    let Fact { relation, i, j } = fact;
    match relation {
        Relation::Below => format!("cell {i} is below cell {j}"),
        Relation::Equal if i == j => format!("there is a value in cell {i}"),
        Relation::Equal => format!("cell {i} equals cell {j}"),
    }
}

#[cfg(test)]
mod tests {
    use super::*;
    use crate::pairs::{broken_pairs, Pair};
    use crate::reference::certificate::{Certificate, Cover};
    use crate::reference::checker::check;
    use crate::reference::job::{Job, Transition};
    use crate::reference::operation::BELOW_VALUE;
    use crate::reference::shape::Shape;
    use crate::reference::version::Version;
    use crate::routine::parse;

    /// c and e are linked to d, f to a ring.
    const ROUTINE: &str = "\
-- Makes a cell.
variables x y
start begin
begin new(x)      -> made
made  y := x.next -> made
forbidden
made  x at c, c -> d, d -> #, e -> d, f -> g, g -> g
";

    /// Asserts how the verdict ends and what is said, where a shape at a state is to cover the
    /// forbidden one.
    fn assert_said(state: u64, shape: Shape, images: &[usize], rule: &str, how: &str) {
        let routine = parse(ROUTINE).unwrap();
        let certificate = Certificate {
            version: Version::One,
            members: vec![Located { state, shape }],
            covers: vec![Cover {
                member: 0,
                images: images.to_vec(),
            }],
        };
        let bytes = certificate.bytes();
        let verdict = check(&routine.job.bytes(), &bytes);
        assert!(verdict.to_string().ends_with(rule), "{verdict}: {rule}");
        let refused = RefusedCover::of(&routine, &bytes, &verdict);
        assert_eq!(refused.expect("a cover is refused").how(), how);
    }

    #[test]
    fn a_member_at_another_state() {
        assert_said(
            0,
            Shape::of_codes(&[1, 0], &[]),
            &[],
            "rule 1 of 0",
            "The member is at another state: it is to be at made, but is at begin.",
        );
    }

    #[test]
    fn an_image_used_twice() {
        assert_said(
            1,
            Shape::of_codes(&[0, 0], &[0, 0, 0, 0]),
            &[4, 1, 3, 1],
            "rule 2 of 1",
            "Two cells have the image 1: cells 1 and 3.",
        );
    }

    #[test]
    fn a_variable_elsewhere() {
        assert_said(
            1,
            Shape::of_codes(&[0, 2], &[]),
            &[],
            "rule 3 of 2",
            "y stands elsewhere: it is to stand at *, but stands nowhere in the covered shape.",
        );
        assert_said(
            1,
            Shape::of_codes(&[4, 0], &[0, 0]),
            &[0, 3],
            "rule 3 of 1",
            "x stands elsewhere: it is to stand at cell 3, the image of cell 1, but stands at cell \
             0 in the covered shape.",
        );
    }

    #[test]
    fn a_link_that_misses() {
        assert_said(
            1,
            Shape::of_codes(&[0, 0], &[2]),
            &[0],
            "rule 4 of 0",
            "The link of cell 0 misses: its path is to end at *, but ends at #.",
        );
        assert_said(
            1,
            Shape::of_codes(&[0, 0], &[0, 1, 0]),
            &[4, 2, 1],
            "rule 4 of 1",
            "The link of cell 1 misses: its path is to end at #, but ends at cell 1.",
        );
        assert_said(
            1,
            Shape::of_codes(&[0, 0], &[5, 0, 0]),
            &[2, 3, 0],
            "rule 4 of 0",
            "The link of cell 0 misses: its path is to end at cell 0, the image of cell 2, but ends \
             at #.",
        );
        assert_said(
            1,
            Shape::of_codes(&[0, 0], &[1]),
            &[3],
            "rule 4 of 0",
            "The link of cell 0 misses: its path is to end at #, but meets no image, # or *.",
        );
    }

    #[test]
    fn a_shared_path() {
        assert_said(
            1,
            Shape::of_codes(&[0, 0], &[1, 0, 1]),
            &[2, 3, 0],
            "rule 5 of 2",
            "The paths of cells 0 and 2 share cell 1 of the covered shape.",
        );
    }

    /// The forbidden shape is covered, its predecessor isn't.
    #[test]
    fn the_two_shapes_are_drawn() {
        let routine = parse(ROUTINE).unwrap();
        let part = Located {
            state: 1,
            shape: Shape::of_codes(&[4, 0], &[0, 1]),
        };
        let members = vec![routine.job.forbidden[0].clone(), part];
        let covers = vec![
            Cover {
                member: 0,
                images: (0..5).collect(),
            },
            Cover {
                member: 1,
                images: vec![1, 0],
            },
        ];
        let certificate = Certificate {
            version: Version::One,
            members,
            covers,
        };
        let bytes = certificate.bytes();
        let verdict = check(&routine.job.bytes(), &bytes);
        let refused = RefusedCover::of(&routine, &bytes, &verdict).expect("a cover is refused");
        let expected = "
To be covered at made, since `y := x.next` leads from there to member 0 (cells from 0, -> is a link \
or a path):
       [0 x] -> [1] -> #
       [2] -> [1]
       [3] -> [4] -> back to [4]
By member 1, at made, with the images 1 0:
       [0]
       [1 x] -> #";
        assert_eq!(format!("\n{}", refused.drawn().join("\n")), expected);
    }

    /// Three variables dangle after the delete: the sixth of the eight cases before it.
    #[test]
    fn the_case_before_a_delete_is_told() {
        let text = "\
-- Deletes a cell.
variables x y z t
start begin
begin new(t)    -> made
made  delete(t) -> gone
forbidden
gone  x at *, y at *, z at *
";
        let routine = parse(text).unwrap();
        let forbidden = routine.job.forbidden[0].clone();
        let before = Located {
            state: 1,
            shape: Shape::of_codes(&[0, 0, 0, 0], &[]),
        };
        let elsewhere = Located {
            state: 1,
            shape: Shape::of_codes(&[0, 1, 0, 0], &[]),
        };
        let of = |member| Cover {
            member,
            images: Vec::new(),
        };
        let certificate = Certificate {
            version: Version::One,
            members: vec![forbidden, before, elsewhere],
            covers: [0, 1, 1, 1, 1, 1, 2].map(of).to_vec(),
        };
        let bytes = certificate.bytes();
        let verdict = check(&routine.job.bytes(), &bytes);
        let refused = RefusedCover::of(&routine, &bytes, &verdict).expect("a cover is refused");
        let expected = "
To be covered at made, since `delete(t)` leads from there to member 0, y at * already, x and z at \
the deleted cell (cells from 0, -> is a link or a path):
       [0 x z t]
       y at *
By member 2, at made:
       y at #";
        assert_eq!(format!("\n{}", refused.drawn().join("\n")), expected);
    }

    /// The facts of the predecessor are closed, those of the member are listed.
    #[test]
    fn the_facts_of_the_two_shapes_are_drawn() {
        let located = |variables, links, facts: &[Fact]| Located {
            state: 0,
            shape: Shape::of_codes(variables, links).with_facts(facts.to_vec()),
        };
        let (below, equal) = (Fact::below, Fact::equal);
        let bad = located(&[3, 4], &[5, 1, 1], &[below(2, 0), equal(1, 2)]);
        let job = Job {
            version: Version::Two,
            variables: 2,
            states: 1,
            start: 0,
            transitions: vec![Transition {
                from: 0,
                operation: Operation {
                    kind: BELOW_VALUE,
                    a: 2,
                    b: 1,
                },
                to: 0,
            }],
            forbidden: vec![bad.clone()],
        };
        let member = located(&[3, 0], &[0, 0, 0], &[below(2, 0), equal(0, 1)]);
        let images_of = |member, images: &[usize]| Cover {
            member,
            images: images.to_vec(),
        };
        let certificate = Certificate {
            version: Version::Two,
            members: vec![bad, member],
            covers: vec![images_of(0, &[0, 1, 2]), images_of(1, &[0, 2, 1])],
        };
        let bytes = certificate.bytes();
        let verdict = check(&job.bytes(), &bytes);
        let routine = Routine::of_job(job);
        let refused = RefusedCover::of(&routine, &bytes, &verdict).expect("a cover is refused");
        let expected = "
A fact is missing: it isn't told of the covered shape that cell 0 equals cell 2, the images of cells \
0 and 1.
To be covered at state 0, since `v2.num < v1.num` leads from there to member 0 (cells from 0, -> is a \
link or a path, < and = compare values):
       [0 v1] -> [2] -> #
       [1 v2] -> #
       1 = 2 < 0
By member 1, at state 0, with the images 0 2 1:
       [0 v1]
       [1]
       [2]
       2 < 0 = 1";
        let said = format!("\n{}\n{}", refused.how(), refused.drawn().join("\n"));
        assert_eq!(said, expected);
    }

    /// Whatever is broken, the sentence of its rule is said of it.
    #[test]
    fn all_that_is_broken_has_words() {
        let mut said = [0; 6];
        let of_version = |version| broken_pairs(version, 0x16_5eed).take(1_000);
        let pairs = of_version(Version::One).chain(of_version(Version::Two));
        for Pair { job, certificate } in pairs {
            let verdict = check(&job, &certificate);
            let routine = Routine::of_job(Job::read(&job).unwrap());
            if let Some(refused) = RefusedCover::of(&routine, &certificate, &verdict) {
                let rule = refused.broken.rule as usize;
                let words = [
                    "another state",
                    "have the image",
                    "elsewhere",
                    "misses",
                    "share",
                    "A fact is missing",
                ];
                let how = refused.how();
                assert!(how.contains(words[rule - 1]), "{verdict}: {how}");
                assert!(refused.drawn().len() >= 4, "{verdict}");
                said[rule - 1] += 1;
            }
        }
        assert!(said.iter().all(|&count| count > 100), "{said:?}");
    }
}
