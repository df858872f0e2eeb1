//! The facts of a shape as text: `1 < 2 = 3 < 5, 4 < 5`, as few as tell the rest.

use crate::reference::facts::{closed, Fact, Relation};

/// The facts, with the number that is drawn of each cell: chains of cells that are equal (`2 = 3`) or
/// below the next (`1 < 2`), then the cells of which nothing is told but that they have a value (`4 has
/// a value`). Cells that are equal stand together where they come up first; later, the first of them
/// stands for all. What follows by the laws of order and equality is left out, so it doesn't matter
/// whether the facts are closed. Nothing where there are no facts.
pub fn facts_text(facts: &[Fact], numbers: &[usize]) -> Option<String> {
    let order = Order::of(facts);
    let mut told = Vec::new();
    let mut words = Vec::new();
    for chain in order.chains() {
        let steps = chain.iter().map(|&class| match told.contains(&class) {
            true => numbers[class].to_string(),
            false => {
                told.push(class);
                order.equal_cells(class, numbers)
            }
        });
        words.push(steps.collect::<Vec<_>>().join(" < "));
    }
    let alone = order
        .classes
        .iter()
        .filter(|class| !told.contains(&class[0]));
    words.extend(alone.map(|class| match class[..] {
        [cell] => format!("{} has a value", numbers[cell]),
        _ => order.equal_cells(class[0], numbers),
    }));
    (!words.is_empty()).then(|| words.join(", "))
}

/// What facts tell: the classes of cells with equal values, each named by its first cell, and pairs of
/// classes of which the first is below the second. None of the pairs follows from the others.
struct Order {
    classes: Vec<Vec<usize>>,
    pairs: Vec<(usize, usize)>,
}

impl Order {
    fn of(facts: &[Fact]) -> Order {
        let closed = closed(facts);
        let mut classes: Vec<Vec<usize>> = Vec::new();
        for fact in closed
            .iter()
            .filter(|fact| fact.relation == Relation::Equal)
        {
            match classes.iter_mut().find(|class| class.contains(&fact.i)) {
                Some(class) if class.contains(&fact.j) => {}
                Some(class) => class.push(fact.j),
                None => classes.push(vec![fact.i]),
            }
        }
        let is_first = |cell: usize| classes.iter().any(|class| class[0] == cell);
        let below = closed
            .iter()
            .filter(|fact| fact.relation == Relation::Below);
        let of_classes = below.filter(|fact| is_first(fact.i) && is_first(fact.j));
        let pairs = of_classes.map(|fact| (fact.i, fact.j)).collect();
        Order {
            pairs: reduced(pairs),
            classes,
        }
    }

    /// The cells of a class as text.
    fn equal_cells(&self, class: usize, numbers: &[usize]) -> String {
        let cells = self.classes.iter().find(|cells| cells[0] == class);
        let cells = cells.expect("a pair is of classes").iter();
        let numbers: Vec<String> = cells.map(|&cell| numbers[cell].to_string()).collect();
        numbers.join(" = ")
    }

    /// The pairs joined to chains. Each begins, if it can, at a class that isn't above another one, and
    /// goes on as long as there is a pair.
    fn chains(&self) -> Vec<Vec<usize>> {
        let mut pairs = self.pairs.clone();
        let mut chains = Vec::new();
        while let Some(&(first, _)) = pairs.first() {
            let is_lowest =
                |&&(low, _): &&(usize, usize)| pairs.iter().all(|&(_, high)| high != low);
            let mut class = pairs.iter().find(is_lowest).map_or(first, |&(low, _)| low);
            let mut chain = vec![class];
            while let Some(next) = pairs.iter().position(|&(low, _)| low == class) {
                (_, class) = pairs.remove(next);
                chain.push(class);
            }
            chains.push(chain);
        }
        chains
    }
}

/// The pairs without those that follow from others. Where nothing is below itself, one set of pairs is
/// left whatever the order in which they go; else one of several.
fn reduced(mut pairs: Vec<(usize, usize)>) -> Vec<(usize, usize)> {
    for pair in pairs.clone() {
        let others: Vec<(usize, usize)> = pairs
            .iter()
            .copied()
            .filter(|&other| other != pair)
            .collect();
        if is_below(pair.0, pair.1, &others) {
            pairs = others;
        }
    }
    pairs
}

/// Whether pairs lead from one class up to another, in at least one step.
fn is_below(low: usize, high: usize, pairs: &[(usize, usize)]) -> bool {
    let mut above = Vec::new();
    let mut open = vec![low];
    while let Some(class) = open.pop() {
        for &(_, next) in pairs.iter().filter(|&&(from, _)| from == class) {
            if !above.contains(&next) {
                above.push(next);
                open.push(next);
            }
        }
    }
    above.contains(&high)
}

#[cfg(test)]
mod tests {
    use super::*;
    use crate::random::Random;

    /// The text with numbers from 1, which is the same for closed facts.
    fn text(facts: &[Fact]) -> Option<String> {
        let numbers: Vec<usize> = (1..=CELLS).collect();
        let text = facts_text(facts, &numbers);
        assert_eq!(facts_text(&closed(facts), &numbers), text, "{facts:?}");
        text
    }

    fn assert_text(facts: &[Fact], expected: &str) {
        assert_eq!(text(facts).as_deref(), Some(expected));
    }

    const CELLS: usize = 6;

    #[test]
    fn chains_of_equal_cells_and_covering_pairs() {
        let (below, equal) = (Fact::below, Fact::equal);
        assert_text(&[below(0, 1), equal(1, 2)], "1 < 2 = 3");
        assert_text(&[below(0, 1), below(0, 2), below(1, 2)], "1 < 2 < 3");
        assert_text(
            &[below(0, 1), below(1, 4), below(3, 4), equal(1, 2)],
            "1 < 2 = 3 < 5, 4 < 5",
        );
        assert_text(&[below(0, 2), below(1, 2), equal(2, 3)], "1 < 3 = 4, 2 < 3");
        assert_text(&[below(2, 0), below(1, 2)], "2 < 3 < 1");
        assert_text(&[equal(4, 1), equal(5, 4), below(0, 3)], "1 < 4, 2 = 5 = 6");
        assert_eq!(text(&[]), None);
    }

    #[test]
    fn cells_that_only_have_a_value() {
        let has_value = Fact::has_value;
        assert_text(&[has_value(3)], "4 has a value");
        assert_text(
            &[Fact::below(0, 1), has_value(1), has_value(2), has_value(5)],
            "1 < 2, 3 has a value, 6 has a value",
        );
    }

    #[test]
    fn cells_below_themselves() {
        let (below, equal) = (Fact::below, Fact::equal);
        assert_text(&[below(0, 0)], "1 < 1");
        assert_text(&[below(0, 1), equal(0, 1)], "1 = 2 < 1");
        assert_text(&[below(0, 1), below(1, 0)], "1 < 2 < 1");
        assert_text(&[below(2, 0), below(0, 0)], "3 < 1 < 1");
    }

    #[test]
    fn other_numbers() {
        let facts = [Fact::below(0, 1), Fact::has_value(2)];
        assert_eq!(
            facts_text(&facts, &[7, 3, 0]).unwrap(),
            "7 < 3, 0 has a value"
        );
    }

    /// The text read again, with numbers from 0.
    fn facts_of(text: &str) -> Vec<Fact> {
        let cell = |word: &str| word.parse::<usize>().unwrap();
        let mut facts = Vec::new();
        for part in text.split(", ") {
            let words: Vec<&str> = part.split(' ').collect();
            if words[1..] == ["has", "a", "value"] {
                facts.push(Fact::has_value(cell(words[0])));
                continue;
            }
            for three in words.windows(3).step_by(2) {
                let relation = match three[1] {
                    "<" => Fact::below,
                    "=" => Fact::equal,
                    other => panic!("{other} in {text}"),
                };
                facts.push(relation(cell(three[0]), cell(three[2])));
            }
        }
        facts
    }

    /// The text tells all facts, and no less would do.
    #[test]
    fn the_text_tells_the_facts() {
        let mut random = Random::new(0x2b_5eed);
        let numbers: Vec<usize> = (0..CELLS).collect();
        for _ in 0..5_000 {
            let mut fact = || Fact {
                relation: random.pick(&Relation::ALL),
                i: random.below(CELLS),
                j: random.below(CELLS),
            };
            let listed: Vec<Fact> = (0..8).map(|_| fact()).collect();
            let listed = &listed[..1 + random.below(8)];
            let text = facts_text(listed, &numbers).expect("there is a fact");
            let told = facts_of(&text);
            assert_eq!(closed(&told), closed(listed), "{text}");
            for left_out in 0..told.len() {
                let mut fewer = told.clone();
                fewer.remove(left_out);
                assert_ne!(closed(&fewer), closed(listed), "{text}");
            }
        }
    }
}
