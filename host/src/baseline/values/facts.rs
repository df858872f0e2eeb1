//! Facts as rows of bits.

use crate::reference::facts::{Fact, Relation};

/// A row for each cell and relation: bit j of row i says that cell i is below cell j, or equals it.
#[derive(Clone, Copy, Debug, PartialEq, Eq, PartialOrd, Ord, Hash)]
pub struct Facts {
    below: [u16; ROWS],
    equal: [u16; ROWS],
}

/// A few more than cells, so that a cell modulo it is an index.
const ROWS: usize = 16;

/// All ones where a bit of a row is 1, else 0.
#[inline(always)]
fn where_on(row: u16, bit: usize) -> u16 {
    0u16.wrapping_sub(row >> bit & 1)
}

/// The numbers of the bits of a row that are 1, in their order.
#[inline(always)]
pub fn bits(row: u16) -> impl Iterator<Item = usize> {
    let mut left = row;
    std::iter::from_fn(move || {
        let bit = left.trailing_zeros() as usize;
        (left != 0).then(|| {
            left &= left - 1;
            bit
        })
    })
}

impl Facts {
    pub const NONE: Facts = Facts {
        below: [0; ROWS],
        equal: [0; ROWS],
    };

    /// The rows of these facts, and no others.
    pub fn of(facts: impl IntoIterator<Item = Fact>) -> Facts {
        let mut rows = Facts::NONE;
        for fact in facts {
            rows.put(fact.relation as u8, fact.i as u8, fact.j as u8);
        }
        rows
    }

    /// All facts, in their order.
    pub fn all(&self) -> impl Iterator<Item = Fact> + '_ {
        let related = Relation::ALL.into_iter().zip(self.rows());
        related.flat_map(|(relation, rows)| {
            let numbered = rows.iter().enumerate();
            numbered.flat_map(move |(i, &row)| bits(row).map(move |j| Fact { relation, i, j }))
        })
    }

    /// The rows of below, then those of equal.
    #[inline(always)]
    pub fn rows(&self) -> [&[u16; ROWS]; 2] {
        [&self.below, &self.equal]
    }

    /// Puts a fact by the number of its relation.
    #[inline(always)]
    pub fn put(&mut self, relation: u8, i: u8, j: u8) {
        let rows = match relation {
            0 => &mut self.below,
            _ => &mut self.equal,
        };
        rows[usize::from(i) % ROWS] |= 1 << (j % ROWS as u8);
    }

    /// A bit for each cell that a fact names.
    pub fn named(&self) -> u16 {
        let mut named = 0;
        for cell in 0..ROWS {
            let row = self.below[cell] | self.equal[cell];
            named |= row | u16::from(row != 0) << cell;
        }
        named
    }

    /// A bit for each cell that has a value, where all that follows is there.
    pub fn with_value(&self) -> u16 {
        let own = |cell: usize| self.equal[cell] & 1 << cell;
        (0..ROWS).fold(0, |mask, cell| mask | own(cell))
    }

    /// The facts with all that follows from them.
    pub fn closed(&self) -> Facts {
        let mut facts = *self;
        let named = self.named();
        for cell in bits(named) {
            facts.equal[cell] |= 1 << cell;
            for other in bits(self.equal[cell]) {
                facts.equal[other] |= 1 << cell;
            }
        }
        for cell in bits(named) {
            facts.join(cell);
        }
        facts
    }

    /// Joins the facts that lead to a cell with those that lead from it.
    #[inline(always)]
    fn join(&mut self, cell: usize) {
        let equal = self.equal[cell];
        let below = self.below[cell] | equal & where_on(self.below[cell], cell);
        for (row, equals) in self.below.iter_mut().zip(&mut self.equal) {
            let is_equal = where_on(*equals, cell);
            let is_below = where_on(*row, cell);
            *row |= below & (is_equal | is_below) | equal & is_below;
            *equals |= equal & is_equal;
        }
    }

    /// Whether a cell is below itself, where all that follows is there.
    pub fn clash(&self) -> bool {
        let own = |cell: usize| self.below[cell] >> cell & 1;
        (0..ROWS).fold(0, |any, cell| any | own(cell)) != 0
    }

    /// Whether a fact is one of them.
    #[inline(always)]
    pub fn holds(&self, fact: Fact) -> bool {
        let rows = self.rows()[fact.relation as usize];
        rows[fact.i % ROWS] >> fact.j & 1 == 1
    }

    /// Whether cell i is cell j, or equals it or is below it.
    #[inline(always)]
    pub fn at_most(&self, i: usize, j: usize) -> bool {
        i == j || (self.below[i % ROWS] | self.equal[i % ROWS]) >> j & 1 == 1
    }

    /// Whether one of two cells is below the other.
    #[inline(always)]
    pub fn differ(&self, i: usize, j: usize) -> bool {
        (self.below[i % ROWS] >> j | self.below[j % ROWS] >> i) & 1 == 1
    }

    /// With cell i below cell j, which isn't at most i, and all that follows.
    #[inline(always)]
    pub fn with_below(mut self, i: usize, j: usize) -> Facts {
        self.equal[i % ROWS] |= 1 << i;
        self.equal[j % ROWS] |= 1 << j;
        let from_j = self.below[j % ROWS] | self.equal[j % ROWS];
        for (below, equal) in self.below.iter_mut().zip(&self.equal) {
            *below |= from_j & where_on(*below | equal, i);
        }
        self
    }

    /// With two cells equal that don't differ, and all that follows.
    #[inline(always)]
    pub fn with_equal(mut self, i: usize, j: usize) -> Facts {
        let class = self.equal[i % ROWS] | self.equal[j % ROWS] | 1 << i | 1 << j;
        let above = self.below[i % ROWS] | self.below[j % ROWS];
        for cell in 0..ROWS {
            let is_in = where_on(class, cell);
            let is_under = if self.below[cell] & class == 0 {
                0
            } else {
                u16::MAX
            };
            self.below[cell] |= above & (is_in | is_under) | class & is_under;
            self.equal[cell] |= class & is_in;
        }
        self
    }

    /// With a value in a cell, and all that follows.
    #[inline(always)]
    pub fn with_own(mut self, cell: usize) -> Facts {
        self.equal[cell % ROWS] |= 1 << cell;
        self
    }

    /// Without those of a cell.
    #[inline(always)]
    pub fn forgetting(mut self, cell: usize) -> Facts {
        self.below[cell % ROWS] = 0;
        self.equal[cell % ROWS] = 0;
        let others = !(1 << cell);
        for rows in [&mut self.below, &mut self.equal] {
            rows.iter_mut().for_each(|row| *row &= others);
        }
        self
    }

    /// Without a cell that no fact names; higher cells move down by one.
    #[inline(always)]
    pub fn without_cell(mut self, cell: usize) -> Facts {
        let lower = (1 << cell) - 1;
        for rows in [&mut self.below, &mut self.equal] {
            rows.copy_within(cell % ROWS + 1.., cell % ROWS);
            let moved = |row: u16| row & lower | row >> 1 & !lower;
            rows.iter_mut().for_each(|row| *row = moved(*row));
        }
        self
    }
}

#[cfg(test)]
pub mod tests {
    use super::*;
    use crate::random::Random;
    use crate::reference::facts::{closed, is_consistent};

    /// The facts as the reference has them.
    pub fn facts_of(rows: &Facts) -> Vec<Fact> {
        rows.all().collect()
    }

    /// Up to so many facts on the first of so many cells, in their order.
    pub fn random_facts(random: &mut Random, cells: usize, most: usize) -> Vec<Fact> {
        let mut facts: Vec<Fact> = (0..random.below(most + 1))
            .map(|_| Fact {
                relation: random.pick(&Relation::ALL),
                i: random.below(cells),
                j: random.below(cells),
            })
            .collect();
        facts.sort();
        facts.dedup();
        facts
    }

    #[test]
    fn facts_are_closed_as_by_the_reference() {
        let mut random = Random::new(0x1f_5eed);
        let mut clashes = 0;
        for turn in 0..10_000 {
            let most = [4, 12, 40, 392][turn % 4];
            let cells = 1 + random.below(14);
            let listed = random_facts(&mut random, cells, most);
            let rows = Facts::of(listed.iter().copied()).closed();
            assert_eq!(facts_of(&rows), closed(&listed), "{listed:?}");
            assert_eq!(rows.clash(), !is_consistent(&facts_of(&rows)), "{listed:?}");
            let has_value = |cell: usize| closed(&listed).contains(&Fact::has_value(cell));
            assert!((0..14).all(|cell| rows.with_value() >> cell & 1 == u16::from(has_value(cell))));
            clashes += usize::from(rows.clash());
        }
        assert!((1_000..9_000).contains(&clashes), "{clashes}");
    }

    /// Facts that follow and don't put a cell below itself, on fourteen cells.
    fn random_rows(random: &mut Random) -> Facts {
        loop {
            let most = random.pick(&[3, 8, 16, 30]);
            let rows = Facts::of(random_facts(random, 14, most)).closed();
            if !rows.clash() {
                return rows;
            }
        }
    }

    /// One more fact is added in one pass, or is known to clash before.
    #[test]
    fn one_more_fact_as_by_the_reference() {
        let mut random = Random::new(0x20_5eed);
        let mut clashes = 0;
        for _ in 0..40_000 {
            let rows = random_rows(&mut random);
            let (i, j) = (random.below(14), random.below(14));
            let with = |fact: Fact| closed(&[facts_of(&rows), vec![fact]].concat());
            let below = with(Fact::below(i, j));
            assert_eq!(rows.at_most(j, i), !is_consistent(&below));
            let equal = with(Fact::equal(i, j));
            assert_eq!(rows.differ(i, j), !is_consistent(&equal));
            match rows.at_most(j, i) {
                true => clashes += 1,
                false => assert_eq!(facts_of(&rows.with_below(i, j)), below),
            }
            if !rows.differ(i, j) {
                assert_eq!(facts_of(&rows.with_equal(i, j)), equal);
            }
            assert_eq!(facts_of(&rows.with_own(i)), with(Fact::has_value(i)));
        }
        assert!((4_000..36_000).contains(&clashes), "{clashes}");
    }

    #[test]
    fn facts_of_a_cell_go() {
        let mut random = Random::new(0x21_5eed);
        let mut gone = 0;
        for _ in 0..10_000 {
            let rows = random_rows(&mut random);
            let cell = random.below(14);
            let mut others = facts_of(&rows);
            others.retain(|fact| !fact.names(cell));
            let forgotten = rows.forgetting(cell);
            assert_eq!(facts_of(&forgotten), others);
            gone += usize::from(forgotten != rows);
            let moved_down = |fact: &Fact| fact.renamed(|c| c - usize::from(c > cell));
            let moved: Vec<Fact> = others.iter().map(moved_down).collect();
            assert_eq!(facts_of(&forgotten.without_cell(cell)), moved);
        }
        assert!(gone > 2_000, "only {gone}");
    }
}
