//! Facts on the values of cells, and what follows from them (document 02, Wish 6).

/// The facts of a shape in a file are at most so many.
pub const MOST_FACTS: u64 = 288;

/// In the order of their numbers in a file.
#[derive(Clone, Copy, Debug, PartialEq, Eq, PartialOrd, Ord, Hash)]
pub enum Relation {
    Below,
    Equal,
}

use Relation::{Below, Equal};

impl Relation {
    pub const ALL: [Relation; 2] = [Below, Equal];
}

/// Cells i and j have values, and that of i is below that of j or equal to it. Facts are ordered as in
/// a file.
#[derive(Clone, Copy, Debug, PartialEq, Eq, PartialOrd, Ord, Hash)]
pub struct Fact {
    pub relation: Relation,
    pub i: usize,
    pub j: usize,
}

impl Fact {
    pub fn below(i: usize, j: usize) -> Fact {
        let relation = Below;
        Fact { relation, i, j }
    }

    pub fn equal(i: usize, j: usize) -> Fact {
        let relation = Equal;
        Fact { relation, i, j }
    }

    pub fn has_value(cell: usize) -> Fact {
        Fact::equal(cell, cell)
    }

    /// Whether the fact is about a cell.
    pub fn names(&self, cell: usize) -> bool {
        self.i == cell || self.j == cell
    }

    /// The same fact about other cells.
    pub fn renamed(&self, name: impl Fn(usize) -> usize) -> Fact {
        Fact {
            relation: self.relation,
            i: name(self.i),
            j: name(self.j),
        }
    }

    /// The numbers of the fact in a file.
    pub fn numbers(&self) -> [u64; 3] {
        [self.relation as u64, self.i as u64, self.j as u64]
    }
}

/// The facts and all that follows from them by the laws of order and equality, in their order.
pub fn closed(facts: &[Fact]) -> Vec<Fact> {
    let highest = facts.iter().map(|fact| fact.i.max(fact.j)).max();
    let mut known = Known::nothing(highest.map_or(0, |cell| cell + 1));
    facts.iter().for_each(|&fact| known.put(fact));
    let mut facts = known.facts();
    loop {
        facts.iter().for_each(|&fact| known.follow_from(fact));
        let more = known.facts();
        if more == facts {
            return facts;
        }
        facts = more;
    }
}

/// Whether no cell is below itself.
pub fn is_consistent(facts: &[Fact]) -> bool {
    !facts
        .iter()
        .any(|fact| fact.relation == Below && fact.i == fact.j)
}

/// Whether each fact is known: by its relation, i and j.
struct Known([Vec<Vec<bool>>; 2]);

impl Known {
    fn nothing(cells: usize) -> Known {
        Known(Relation::ALL.map(|_| vec![vec![false; cells]; cells]))
    }

    fn put(&mut self, fact: Fact) {
        self.0[fact.relation as usize][fact.i][fact.j] = true;
    }

    /// The facts that are known, in their order.
    fn facts(&self) -> Vec<Fact> {
        let all = Relation::ALL.into_iter();
        all.flat_map(|relation| {
            let rows = self.0[relation as usize].iter().enumerate();
            rows.flat_map(move |(i, row)| {
                let holding = row.iter().enumerate().filter(|(_, &holds)| holds);
                holding.map(move |(j, _)| Fact { relation, i, j })
            })
        })
        .collect()
    }

    /// Puts what follows from a fact alone, or with another that is known: its cells equal themselves;
    /// equality holds both ways; and of cells i, j and k, i equals k if i equals j and j equals k, and is
    /// below it if one of the two is below.
    fn follow_from(&mut self, fact: Fact) {
        let Fact { relation, i, j } = fact;
        self.put(Fact::has_value(i));
        self.put(Fact::has_value(j));
        if relation == Equal {
            self.put(Fact::equal(j, i));
        }
        for next in Relation::ALL {
            for k in 0..self.0[next as usize].len() {
                if self.0[next as usize][j][k] {
                    self.put(match (relation, next) {
                        (Equal, Equal) => Fact::equal(i, k),
                        _ => Fact::below(i, k),
                    });
                }
            }
        }
    }
}

#[cfg(test)]
mod tests {
    use super::*;
    use crate::random::Random;

    #[test]
    fn what_follows_from_two_facts() {
        let listed = [Fact::below(0, 1), Fact::equal(1, 2)];
        let expected = [
            Fact::below(0, 1),
            Fact::below(0, 2),
            Fact::equal(0, 0),
            Fact::equal(1, 1),
            Fact::equal(1, 2),
            Fact::equal(2, 1),
            Fact::equal(2, 2),
        ];
        assert_eq!(closed(&listed), expected);
        assert!(is_consistent(&expected));
        assert_eq!(closed(&expected), expected);
        assert_eq!(closed(&[]), []);
        assert_eq!(closed(&[Fact::has_value(3)]), [Fact::has_value(3)]);
    }

    #[test]
    fn a_cell_comes_below_itself() {
        for listed in [
            vec![Fact::below(2, 2)],
            vec![Fact::below(0, 1), Fact::below(1, 0)],
            vec![Fact::below(0, 1), Fact::equal(0, 1)],
            vec![
                Fact::below(0, 1),
                Fact::below(1, 2),
                Fact::equal(3, 0),
                Fact::equal(2, 3),
            ],
        ] {
            assert!(!is_consistent(&closed(&listed)), "{listed:?}");
        }
        let listed = [Fact::below(0, 1), Fact::below(2, 1), Fact::equal(0, 2)];
        assert!(is_consistent(&closed(&listed)));
    }

    /// Some values meet facts exactly if no cell comes below itself, and then what follows is just what
    /// all of these values meet.
    #[test]
    fn what_follows_holds_for_all_values() {
        let mut random = Random::new(0x1b_5eed);
        let mut consistent = 0;
        for _ in 0..2_000 {
            let listed: Vec<Fact> = (0..1 + random.below(4))
                .map(|_| Fact {
                    relation: random.pick(&Relation::ALL),
                    i: random.below(CELLS),
                    j: random.below(CELLS),
                })
                .collect();
            let closed = closed(&listed);
            let meeting: Vec<Values> = all_values().filter(|v| meets(v, &listed)).collect();
            assert_eq!(meeting.is_empty(), !is_consistent(&closed), "{listed:?}");
            if meeting.is_empty() {
                continue;
            }
            consistent += 1;
            for fact in all_facts() {
                let is_met = meeting.iter().all(|values| meets(values, &[fact]));
                assert_eq!(closed.contains(&fact), is_met, "{listed:?} {fact:?}");
            }
        }
        assert!(consistent > 500, "only {consistent}");
    }

    const CELLS: usize = 4;

    /// One for each cell, 0 for none; as many different ones as there are cells tell all orders.
    type Values = [usize; CELLS];

    fn all_values() -> impl Iterator<Item = Values> {
        let count = (CELLS + 1).pow(CELLS as u32);
        (0..count).map(|number| {
            std::array::from_fn(|cell| number / (CELLS + 1).pow(cell as u32) % (CELLS + 1))
        })
    }

    fn meets(values: &Values, facts: &[Fact]) -> bool {
        facts.iter().all(|fact| {
            let (here, there) = (values[fact.i], values[fact.j]);
            let compares = match fact.relation {
                Below => here < there,
                Equal => here == there,
            };
            here != 0 && there != 0 && compares
        })
    }

    fn all_facts() -> Vec<Fact> {
        let mut facts = Vec::new();
        for relation in Relation::ALL {
            for i in 0..CELLS {
                facts.extend((0..CELLS).map(|j| Fact { relation, i, j }));
            }
        }
        facts
    }
}
