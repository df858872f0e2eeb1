//! Ready sets of forbidden shapes. Those that the proved library makes are in [`ready`].

use super::ready;
use crate::reference::facts::Fact;
use crate::reference::heap::Place;
use crate::reference::job::{Located, Transition};
use crate::reference::shape::Shape;

const NULL: u64 = 1;
const DANGLING: u64 = 2;

/// The code of a cell.
fn cell(number: u64) -> u64 {
    3 + number
}

/// Places of some variables, by number from 1, and the links of the cells.
fn shape(variables: usize, placed: &[(usize, u64)], links: &[u64]) -> Shape {
    let mut places = vec![0; variables];
    for &(variable, place) in placed {
        places[variable - 1] = place;
    }
    Shape::of_codes(&places, links)
}

/// `ring: x` - a ring is met by following links from x.
pub fn ring(variables: usize, x: usize) -> Vec<Shape> {
    vec![
        shape(variables, &[(x, cell(0))], &[cell(0)]),
        shape(variables, &[(x, cell(0))], &[cell(1), cell(1)]),
    ]
}

/// `no ring: x` - x isn't on a ring.
pub fn no_ring(variables: usize, x: usize) -> Vec<Shape> {
    vec![
        shape(variables, &[(x, DANGLING)], &[]),
        shape(variables, &[(x, NULL)], &[]),
        shape(variables, &[(x, cell(0))], &[DANGLING]),
        shape(variables, &[(x, cell(0))], &[NULL]),
        shape(variables, &[(x, cell(0))], &[cell(1), cell(1)]),
    ]
}

/// `lost block: x y` - some cell isn't met from any of the variables, while they are lists and share
/// no cell. For one variable the proved library makes the set.
pub fn lost_block(variables: usize, from: &[usize]) -> Vec<Shape> {
    match *from {
        [x] => ready::lost_block(variables, x),
        _ => lists_apart(variables, from)
            .into_iter()
            .map(with_loose_cell)
            .collect(),
    }
}

/// `lost block shared: x y` - some cell isn't met from either variable, while both are lists, one of
/// which may lie in the other or join it.
pub fn lost_block_shared(variables: usize, x: usize, y: usize) -> Vec<Shape> {
    let apart = [(x, cell(0)), (y, cell(1))];
    let mut shapes = lists_apart(variables, &[x, y]);
    shapes.extend([
        shape(variables, &[(x, cell(0)), (y, cell(0))], &[NULL]),
        shape(variables, &apart, &[cell(1), NULL]),
        shape(variables, &apart, &[NULL, cell(0)]),
        shape(variables, &apart, &[cell(2), cell(2), NULL]),
    ]);
    shapes.into_iter().map(with_loose_cell).collect()
}

/// Every combination of empty and other lists at the variables.
fn lists_apart(variables: usize, from: &[usize]) -> Vec<Shape> {
    let mut shapes = vec![shape(variables, &[], &[])];
    for &x in from {
        shapes = shapes
            .iter()
            .flat_map(|before| {
                let mut empty = before.clone();
                empty.variables[x - 1] = Some(Place::Null);
                let mut list = before.clone();
                list.variables[x - 1] = Some(Place::Cell(before.cells()));
                list.links.push(Some(Place::Null));
                [empty, list]
            })
            .collect();
    }
    shapes
}

fn with_loose_cell(mut shape: Shape) -> Shape {
    shape.links.push(None);
    shape
}

/// `shared: x y` - some cell is met from both variables.
pub fn shared(variables: usize, x: usize, y: usize) -> Vec<Shape> {
    let apart = [(x, cell(0)), (y, cell(1))];
    vec![
        shape(variables, &[(x, cell(0)), (y, cell(0))], &[0]),
        shape(variables, &apart, &[cell(1), 0]),
        shape(variables, &apart, &[0, cell(0)]),
        shape(variables, &apart, &[cell(2), cell(2), 0]),
    ]
}

/// `not sorted: x` - of the cells met by following links from x, one has a smaller value than one
/// ahead of it.
pub fn not_sorted(variables: usize, x: usize) -> Vec<Shape> {
    out_of_order(variables, x, 0, |ahead, behind| Fact::below(behind, ahead))
}

/// `not falling: x` - of the cells met by following links from x, one has a larger value than one
/// ahead of it.
pub fn not_falling(variables: usize, x: usize) -> Vec<Shape> {
    out_of_order(variables, x, 0, Fact::below)
}

/// `not sorted round: x` - x is on a ring, and of its cells in their order from x on, one has a smaller
/// value than one ahead of it.
pub fn not_sorted_round(variables: usize, x: usize) -> Vec<Shape> {
    out_of_order(variables, x, cell(0), |ahead, behind| {
        Fact::below(behind, ahead)
    })
}

/// `not falling round: x` - x is on a ring, and of its cells in their order from x on, one has a larger
/// value than one ahead of it.
pub fn not_falling_round(variables: usize, x: usize) -> Vec<Shape> {
    out_of_order(variables, x, cell(0), Fact::below)
}

/// Two cells met from x of which a fact holds, the first of them x's or not; the last leads to an end.
fn out_of_order(
    variables: usize,
    x: usize,
    end: u64,
    fact: impl Fn(usize, usize) -> Fact,
) -> Vec<Shape> {
    let first = [(x, cell(0))];
    vec![
        shape(variables, &first, &[cell(1), end]).with_facts(vec![fact(0, 1)]),
        shape(variables, &first, &[cell(1), cell(2), end]).with_facts(vec![fact(1, 2)]),
    ]
}

/// `steps` - where a transition follows or sets a variable's link: that variable at # or at *, each
/// once.
pub fn steps(variables: usize, transitions: &[Transition]) -> Vec<Located> {
    let mut all: Vec<Located> = Vec::new();
    if variables == 0 {
        return all;
    }
    for &transition in transitions {
        for bad in ready::bad_steps(variables, transition) {
            if !all.contains(&bad) {
                all.push(bad);
            }
        }
    }
    all
}

#[cfg(test)]
mod tests {
    use super::*;
    use crate::random::Random;
    use crate::reference::embedding::embeds_somehow;

    const X: usize = 1;
    const Y: usize = 2;

    /// A heap of two variables and up to 4 cells with values below 3.
    struct Drawn {
        places: Vec<u64>,
        links: Vec<u64>,
        values: Vec<usize>,
    }

    impl Drawn {
        fn any(random: &mut Random) -> Drawn {
            let cells = random.below(5);
            let mut codes = |count| -> Vec<u64> {
                (0..count)
                    .map(|_| 1 + random.below(2 + cells) as u64)
                    .collect()
            };
            Drawn {
                places: codes(2),
                links: codes(cells),
                values: (0..cells).map(|_| random.below(3)).collect(),
            }
        }

        /// The cells met from a variable in their order, each once, and the code that is met then.
        fn met(&self, variable: usize) -> (Vec<usize>, u64) {
            let mut cells = Vec::new();
            let mut place = self.places[variable - 1];
            while place >= cell(0) && !cells.contains(&(place as usize - 3)) {
                cells.push(place as usize - 3);
                place = self.links[place as usize - 3];
            }
            (cells, place)
        }

        fn satisfies(&self, set: &[Shape]) -> bool {
            let mut facts = Vec::new();
            for i in 0..self.values.len() {
                facts.push(Fact::has_value(i));
                for j in (0..self.values.len()).filter(|&j| self.values[i] < self.values[j]) {
                    facts.push(Fact::below(i, j));
                }
            }
            let heap = Shape::of_codes(&self.places, &self.links).with_facts(facts);
            set.iter().any(|shape| embeds_somehow(shape, &heap))
        }
    }

    #[test]
    fn order_is_told_of_lists_and_of_rings() {
        let mut random = Random::new(0x3b_5eed);
        let mut met = [0; 4];
        for _ in 0..20_000 {
            let heap = Drawn::any(&mut random);
            let (cells, end) = heap.met(X);
            let values: Vec<usize> = cells.iter().map(|&cell| heap.values[cell]).collect();
            let pairs = || (0..values.len()).flat_map(|j| (0..j).map(move |i| (i, j)));
            let sinks = pairs().any(|(i, j)| values[j] < values[i]);
            let rises = pairs().any(|(i, j)| values[i] < values[j]);
            let is_list = end < cell(0);
            let is_ring = !is_list && end == heap.places[X - 1];
            let expected = [
                (is_list, sinks, not_sorted(2, X)),
                (is_list, rises, not_falling(2, X)),
                (true, is_ring && sinks, not_sorted_round(2, X)),
                (true, is_ring && rises, not_falling_round(2, X)),
            ];
            for (number, (is_told, expected, set)) in expected.into_iter().enumerate() {
                if is_told {
                    assert_eq!(heap.satisfies(&set), expected, "{number}: {:?}", heap.links);
                    met[number] += usize::from(expected);
                }
            }
        }
        assert!(met.iter().all(|&count| count > 100), "{met:?}");
    }

    #[test]
    fn a_block_is_lost_though_lists_share_cells() {
        let mut random = Random::new(0x3c_5eed);
        let set = lost_block_shared(2, X, Y);
        let (mut lost_apart, mut lost_shared) = (0, 0);
        for _ in 0..20_000 {
            let heap = Drawn::any(&mut random);
            let ((from_x, x_end), (from_y, y_end)) = (heap.met(X), heap.met(Y));
            let is_lost = |cell: &usize| !from_x.contains(cell) && !from_y.contains(cell);
            let are_lists = x_end == NULL && y_end == NULL;
            let expected = are_lists && (0..heap.links.len()).any(|cell| is_lost(&cell));
            assert_eq!(heap.satisfies(&set), expected, "{:?}", heap.links);
            match from_x.iter().any(|cell| from_y.contains(cell)) {
                true => lost_shared += usize::from(expected),
                false => lost_apart += usize::from(expected),
            }
        }
        assert!(
            lost_apart > 100 && lost_shared > 100,
            "{lost_apart} {lost_shared}"
        );
    }
}
