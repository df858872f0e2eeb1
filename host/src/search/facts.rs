//! What the search does with facts that have with them all that follows.

use crate::baseline::values::facts::{bits, Facts};
use crate::reference::facts::{Fact, Relation};

/// The facts with other names for the cells.
pub fn renamed(facts: &Facts, name: impl Fn(usize) -> usize) -> Facts {
    Facts::of(facts.all().map(|fact| fact.renamed(&name)))
}

/// Few facts from which all others follow; all, where a cell is below itself.
pub fn listed(facts: &Facts) -> Vec<Fact> {
    if facts.clash() {
        return facts.all().collect();
    }
    let is_listed = |fact: &Fact| match fact.relation {
        Relation::Below => {
            [fact.i, fact.j].iter().all(|&cell| is_first(facts, cell)) && is_next(facts, fact)
        }
        Relation::Equal if fact.i == fact.j => is_alone(facts, fact.i),
        Relation::Equal => fact.i < fact.j && !is_equal_between(facts, fact),
    };
    facts.all().filter(is_listed).collect()
}

/// Whether a cell is the lowest of those that equal it.
fn is_first(facts: &Facts, cell: usize) -> bool {
    !(0..cell).any(|lower| facts.holds(Fact::equal(lower, cell)))
}

/// Whether no cell is between the two of a fact of order.
fn is_next(facts: &Facts, fact: &Fact) -> bool {
    let is_between =
        |cell| facts.holds(Fact::below(fact.i, cell)) && facts.holds(Fact::below(cell, fact.j));
    !bits(facts.named()).any(is_between)
}

/// Whether another equal cell is numbered between the two of a fact of equality.
fn is_equal_between(facts: &Facts, fact: &Fact) -> bool {
    (fact.i + 1..fact.j).any(|cell| facts.holds(Fact::equal(fact.i, cell)))
}

/// Whether no fact is about a cell and another.
fn is_alone(facts: &Facts, cell: usize) -> bool {
    let related = |other| {
        facts.holds(Fact::below(cell, other))
            || facts.holds(Fact::below(other, cell))
            || facts.holds(Fact::equal(cell, other))
    };
    !bits(facts.named()).any(|other| other != cell && related(other))
}

/// The facts one step simpler: two cells, with those that equal them, out of order; a cell no longer
/// equal to others, but ordered as they are; or a cell without a value.
pub fn simpler(facts: &Facts) -> Vec<Facts> {
    let without =
        |taken: &dyn Fn(&Fact) -> bool| Facts::of(facts.all().filter(|fact| !taken(fact)));
    let mut simpler = Vec::new();
    for fact in listed(facts) {
        let Fact { relation, i, j } = fact;
        let is_same = |one: usize, other: usize| facts.holds(Fact::equal(one, other));
        simpler.push(match relation {
            Relation::Below => without(&|other| {
                other.relation == relation && is_same(i, other.i) && is_same(j, other.j)
            }),
            Relation::Equal if i == j => without(&|other| other.names(i)),
            Relation::Equal => continue,
        });
    }
    for cell in bits(facts.named()) {
        let parted = without(&|fact: &Fact| {
            fact.relation == Relation::Equal && fact.i != fact.j && fact.names(cell)
        });
        if parted != *facts {
            simpler.push(parted);
        }
    }
    simpler
}

/// A cell of each value, the lowest.
pub fn classes(facts: &Facts) -> Vec<usize> {
    let named = bits(facts.named());
    named.filter(|&cell| is_first(facts, cell)).collect()
}

/// The facts of a heap after a value was written to a cell that had none: equal to another's, or
/// between two neighbours, or lowest, or highest.
pub fn with_any_value(facts: &Facts, cell: usize) -> Vec<Facts> {
    let mut rising = classes(facts);
    rising.sort_by_key(|&one| cells_below(facts, one));
    let equal = rising.iter().map(|&other| facts.with_equal(cell, other));
    let between = (0..=rising.len()).map(|place| {
        let mut written = facts.with_own(cell);
        if let Some(&lower) = place.checked_sub(1).and_then(|below| rising.get(below)) {
            written = written.with_below(lower, cell);
        }
        match rising.get(place) {
            Some(&higher) => written.with_below(cell, higher),
            None => written,
        }
    });
    equal.chain(between).collect()
}

/// How many cells are below a cell.
fn cells_below(facts: &Facts, cell: usize) -> usize {
    let below = |&other: &usize| facts.holds(Fact::below(other, cell));
    bits(facts.named()).filter(below).count()
}

#[cfg(test)]
mod tests {
    use super::*;
    use crate::baseline::values::facts::tests::random_facts;
    use crate::random::Random;

    const CELLS: usize = 6;

    fn random_closed(random: &mut Random) -> Facts {
        let most = random.pick(&[1, 3, 6, 12]);
        Facts::of(random_facts(random, CELLS, most)).closed()
    }

    #[test]
    fn what_is_listed_tells_all() {
        let chain = Facts::of([Fact::below(0, 1), Fact::equal(1, 2), Fact::below(2, 3)]).closed();
        assert_eq!(
            listed(&chain),
            [Fact::below(0, 1), Fact::below(1, 3), Fact::equal(1, 2)]
        );
        let alone = Facts::of([Fact::has_value(4)]);
        assert_eq!(listed(&alone), [Fact::has_value(4)]);
        let mut random = Random::new(0x31_5eed);
        for _ in 0..5_000 {
            let facts = random_closed(&mut random);
            let told = listed(&facts);
            assert_eq!(Facts::of(told.iter().copied()).closed(), facts);
            let tells_all_without = |left_out: Fact| {
                let others = told.iter().copied().filter(|&one| one != left_out);
                Facts::of(others).closed() == facts
            };
            assert!(facts.clash() || !told.iter().any(|&one| tells_all_without(one)));
        }
    }

    #[test]
    fn simpler_facts_are_fewer_and_closed() {
        let mut random = Random::new(0x32_5eed);
        let mut made = 0;
        for _ in 0..5_000 {
            let facts = random_closed(&mut random);
            if facts.clash() {
                continue;
            }
            let all = simpler(&facts);
            assert_eq!(all.is_empty(), facts == Facts::NONE);
            for fewer in all {
                assert_eq!(fewer.closed(), fewer, "{facts:?}");
                assert!(fewer.all().all(|fact| facts.holds(fact)) && fewer != facts);
                made += 1;
            }
        }
        assert!(made > 5_000, "only {made}");
    }

    /// The facts of cells with these values.
    fn of_values(values: &[usize]) -> Facts {
        let mut facts = Facts::NONE;
        for (i, here) in values.iter().enumerate() {
            for (j, there) in values.iter().enumerate() {
                if here <= there {
                    facts.put(u8::from(here == there), i as u8, j as u8);
                }
            }
        }
        facts
    }

    /// Odd values, so that there is one between any two.
    #[test]
    fn any_value_may_be_written() {
        let mut random = Random::new(0x33_5eed);
        for _ in 0..500 {
            let mut values: Vec<usize> = (0..random.below(5))
                .map(|_| 2 * random.below(4) + 1)
                .collect();
            let before = of_values(&values);
            let mut expected: Vec<Facts> = (0..9)
                .map(|value| {
                    values.push(value);
                    let after = of_values(&values);
                    values.pop();
                    after
                })
                .collect();
            expected.sort();
            expected.dedup();
            let mut written = with_any_value(&before, values.len());
            written.sort();
            assert_eq!(written, expected, "{values:?}");
        }
    }
}
