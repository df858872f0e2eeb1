//! Shapes, heaps, runs and chains as text for a person.

use std::fmt::Write;

use crate::facts_text::facts_text;
use crate::reference::heap::{Heap, Place};
use crate::reference::shape::Shape;
use crate::routine::Routine;
use crate::search::chain::Chain;
use crate::search::run::Run;

/// Draws a shape, a line for each run of cells: `[1 x] -> [2] -> #`. Cells are numbered from 1,
/// with the variables that stand at them; an arrow is a link or a path of several. The last line has
/// the facts: `1 < 2`.
pub fn shape(shape: &Shape, variables: &[String]) -> Vec<String> {
    shape_from(1, shape, variables)
}

/// Draws a shape in the same way with its cells numbered as in files, from 0.
pub fn shape_as_in_files(shape: &Shape, variables: &[String]) -> Vec<String> {
    shape_from(0, shape, variables)
}

fn shape_from(first: usize, shape: &Shape, variables: &[String]) -> Vec<String> {
    let numbers: Vec<usize> = (first..first + shape.cells()).collect();
    let drawing = Drawing {
        shape,
        numbers: &numbers,
        values: &vec![None; shape.cells()],
        variables,
    };
    let mut lines = drawing.lines();
    lines.extend(facts_text(&shape.facts, &numbers));
    lines
}

/// Draws a heap in the same way; here an arrow is one link, and a cell's number is its own. Its value,
/// if it has one, stands behind a colon: `[1 x: 5] -> [2: 7] -> #`.
pub fn heap(heap: &Heap, variables: &[String]) -> Vec<String> {
    let cells = heap.links.keys();
    let drawing = Drawing {
        shape: &Shape::of_heap(heap),
        numbers: &cells.clone().map(|cell| cell + 1).collect::<Vec<_>>(),
        values: &cells
            .map(|cell| heap.values.get(cell).copied())
            .collect::<Vec<_>>(),
        variables,
    };
    drawing.lines()
}

/// How to read drawings of shapes: arrows, and facts where there are any.
pub fn key<'a>(shapes: impl IntoIterator<Item = &'a Shape>) -> &'static str {
    let mut shapes = shapes.into_iter();
    match shapes.all(|shape| shape.facts.is_empty()) {
        true => "-> is a link or a path",
        false => "-> is a link or a path, < and = compare values",
    }
}

/// How to read the drawing of a run: # and *, and values where there are any.
pub fn key_of_run(run: &Run) -> &'static str {
    match run.heaps.iter().all(|heap| heap.values.is_empty()) {
        true => "# is null, * dangling",
        false => "# is null, * dangling, the number behind : a value",
    }
}

/// Where something stands, in words.
pub fn standing(place: Option<Place>) -> String {
    match place {
        None => "nowhere".to_string(),
        Some(Place::Null) => "at #".to_string(),
        Some(Place::Dangling) => "at *".to_string(),
        Some(Place::Cell(cell)) => format!("at cell {cell}"),
    }
}

struct Drawing<'a> {
    shape: &'a Shape,
    /// The number that is drawn of each cell.
    numbers: &'a [usize],
    /// The value that is drawn of each cell, if there is one.
    values: &'a [Option<usize>],
    variables: &'a [String],
}

impl Drawing<'_> {
    /// The lines of cells, and one for the variables at none.
    fn lines(&self) -> Vec<String> {
        let mut drawn = Vec::new();
        let mut lines = Vec::new();
        for cell in self.starts() {
            if !drawn.contains(&cell) {
                lines.push(self.run(cell, &mut drawn));
            }
        }
        lines.extend(self.without_cell());
        if lines.is_empty() {
            lines.push("anything".to_string());
        }
        lines
    }

    /// Where lines may begin: first the cells that no link stands at.
    fn starts(&self) -> Vec<usize> {
        let linked = |&cell: &usize| self.shape.links.contains(&Some(Place::Cell(cell)));
        let (inner, outer): (Vec<usize>, Vec<usize>) = (0..self.shape.cells()).partition(linked);
        [outer, inner].concat()
    }

    /// The line from a cell on, until it ends or comes to a cell that is drawn.
    fn run(&self, start: usize, drawn: &mut Vec<usize>) -> String {
        let before = drawn.len();
        let mut line = String::new();
        let mut cell = start;
        loop {
            drawn.push(cell);
            line += &self.cell(cell);
            match self.shape.links[cell] {
                None => return line,
                Some(Place::Null) => return line + " -> #",
                Some(Place::Dangling) => return line + " -> *",
                Some(Place::Cell(next)) => {
                    line += " -> ";
                    if drawn[before..].contains(&next) {
                        return line + "back to " + &self.cell(next);
                    }
                    if drawn.contains(&next) {
                        return line + &self.cell(next);
                    }
                    cell = next;
                }
            }
        }
    }

    /// A cell with its number, the variables at it and its value.
    fn cell(&self, cell: usize) -> String {
        let names = self.at(Place::Cell(cell));
        let words = std::iter::once(self.numbers[cell].to_string()).chain(names);
        let words = words.collect::<Vec<_>>().join(" ");
        match self.values[cell] {
            Some(value) => format!("[{words}: {value}]"),
            None => format!("[{words}]"),
        }
    }

    fn at(&self, place: Place) -> Vec<String> {
        let named = self.variables.iter().zip(&self.shape.variables);
        named
            .filter(|(_, &stands)| stands == Some(place))
            .map(|(name, _)| name.clone())
            .collect()
    }

    /// The variables at # and *.
    fn without_cell(&self) -> Option<String> {
        let null = self.at(Place::Null).into_iter().map(|x| x + " at #");
        let dangling = self.at(Place::Dangling).into_iter().map(|x| x + " at *");
        let all: Vec<String> = null.chain(dangling).collect();
        (!all.is_empty()).then(|| all.join(", "))
    }
}

/// Draws a run from the start on: at each step the state, the operation and the heap after it.
pub fn run(run: &Run, routine: &Routine) -> String {
    let transitions = run.transitions.iter().map(|&number| {
        let transition = &routine.job.transitions[number];
        let state = routine.states[transition.from as usize].as_str();
        (state, routine.operation(number))
    });
    let steps: Vec<(&str, String)> = transitions.collect();
    let of_states = steps.iter().map(|(state, _)| state.chars().count());
    let of_operations = steps.iter().map(|(_, operation)| operation.chars().count());
    let table = Table {
        states: of_states.max().unwrap_or(0).max("state".len()),
        operations: of_operations.max().unwrap_or(0).max("operation".len()),
    };

    let mut text = table.row(["", "state", "operation", "heap after it"]);
    let empty = heap(&run.heaps[0], &routine.variables);
    text += &table.rows("", "", "", &empty);
    for (number, ((state, operation), after)) in steps.iter().zip(&run.heaps[1..]).enumerate() {
        let step = (number + 1).to_string();
        text += &table.rows(&step, state, operation, &heap(after, &routine.variables));
    }
    text
}

/// The widths of the columns of a run.
struct Table {
    states: usize,
    operations: usize,
}

impl Table {
    fn row(&self, [step, state, operation, heap]: [&str; 4]) -> String {
        let (states, operations) = (self.states, self.operations);
        let row = format!("{step:>5}  {state:<states$}  {operation:<operations$}  {heap}");
        row.trim_end().to_string() + "\n"
    }

    /// A row whose last column has several lines.
    fn rows(&self, step: &str, state: &str, operation: &str, heap: &[String]) -> String {
        let (first, others) = heap.split_first().expect("a drawing has a line");
        let first = self.row([step, state, operation, first]);
        let others = others.iter().map(|line| self.row(["", "", "", line]));
        std::iter::once(first).chain(others).collect()
    }
}

/// The shapes of a chain.
pub fn shapes(chain: &Chain, routine: &Routine) -> Vec<Shape> {
    let variables = routine.variables.len();
    let links = chain.links.iter();
    links
        .map(|link| link.located.shape.to_reference(variables))
        .collect()
}

/// Draws a chain from the forbidden shape back to the start.
pub fn chain(chain: &Chain, routine: &Routine) -> String {
    let mut text = String::new();
    let lengths = routine.states.iter().map(|state| state.chars().count());
    let states = lengths.max().unwrap_or(0).max("state".len());
    for (link, of_link) in chain.links.iter().zip(shapes(chain, routine)) {
        let state = &routine.states[usize::from(link.located.state)];
        for (index, line) in shape(&of_link, &routine.variables).iter().enumerate() {
            let at = if index == 0 { state } else { "" };
            writeln!(text, "  {at:<states$}  {line}").expect("a string takes all");
        }
        if let Some(number) = link.transition {
            let operation = routine.operation(number);
            writeln!(text, "  {:<states$}    after {operation}", "").expect("a string takes all");
        }
    }
    text
}

#[cfg(test)]
mod tests {
    use super::*;
    use crate::judge::{judge, Ending};
    use crate::routine::parse;

    fn drawn(variables: &[u64], links: &[u64]) -> Vec<String> {
        let names = ["x", "y", "z"].map(str::to_string);
        shape(&Shape::of_codes(variables, links), &names)
    }

    #[test]
    fn lists_rings_and_meetings() {
        assert_eq!(
            drawn(&[3, 4, 1], &[4, 1]),
            ["[1 x] -> [2 y] -> #", "z at #"]
        );
        assert_eq!(
            drawn(&[3, 3, 2], &[4, 4]),
            ["[1 x y] -> [2] -> back to [2]", "z at *"]
        );
        assert_eq!(
            drawn(&[3, 4, 0], &[5, 5, 0, 0]),
            ["[1 x] -> [3]", "[2 y] -> [3]", "[4]"]
        );
        assert_eq!(drawn(&[0, 0, 4], &[4, 3]), ["[1] -> [2 z] -> back to [1]"]);
        assert_eq!(drawn(&[0, 0, 0], &[2]), ["[1] -> *"]);
        assert_eq!(drawn(&[0, 0, 0], &[]), ["anything"]);
    }

    #[test]
    fn facts_have_a_line_of_their_own() {
        use crate::reference::facts::Fact;
        let names = ["x", "y"].map(str::to_string);
        let facts = vec![Fact::below(2, 0), Fact::equal(0, 1)];
        let of_list = Shape::of_codes(&[3, 1], &[4, 5, 1]).with_facts(facts);
        assert_eq!(
            shape(&of_list, &names),
            ["[1 x] -> [2] -> [3] -> #", "y at #", "3 < 1 = 2"]
        );
        assert_eq!(
            shape_as_in_files(&of_list, &names),
            ["[0 x] -> [1] -> [2] -> #", "y at #", "2 < 0 = 1"]
        );
    }

    #[test]
    fn values_stand_behind_a_colon() {
        use Place::{Cell, Dangling, Null};
        let names = ["x", "y", "z"].map(str::to_string);
        let valued = Heap {
            variables: vec![Cell(4), Cell(4), Dangling],
            links: [(1, Cell(3)), (3, Null), (4, Cell(1)), (6, Cell(6))].into(),
            values: [(1, 70), (4, 0), (6, 5)].into(),
        };
        assert_eq!(
            heap(&valued, &names),
            [
                "[5 x y: 0] -> [2: 70] -> [4] -> #",
                "[7: 5] -> back to [7: 5]",
                "z at *"
            ]
        );
    }

    #[test]
    fn a_run_step_by_step() {
        let text = "\
-- Wrong.
variables x y
start     begin
begin     new(y)      -> made
made      delete(y)   -> again
again     new(x)      -> kept
kept      x.next := x -> end
forbidden
end       ring: x
";
        let routine = parse(text).unwrap();
        let Ending::Wrong(found) = judge(&routine).ending else {
            panic!("no run");
        };
        let expected = "
       state  operation    heap after it
                           x at *, y at *
    1  begin  new(y)       [1 y] -> *
                           x at *
    2  made   delete(y)    x at *, y at *
    3  again  new(x)       [2 x] -> *
                           y at *
    4  kept   x.next := x  [2 x] -> back to [2 x]
                           y at *
";
        assert_eq!(format!("\n{}", run(&found.run, &routine)), expected);
    }
}
