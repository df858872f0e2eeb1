//! One forbidden shape: `x at c, c -> d, d -> #, cell e, value e, c < d = e`.

use super::mistake::Mistake;
use super::names::Names;
use super::words::{Word, Words};
use crate::reference::facts::{closed, is_consistent, Fact};
use crate::reference::heap::Place;
use crate::reference::shape::{Shape, MOST_CELLS};
use crate::text::nearest;

const FORMS: &str =
    "expected `x at p`, `c -> p`, `cell c`, `c < d`, `c = d` or `value c`, where p \
                     is a cell, # or *";

/// Null as a routine has it; in a shape it is #.
const NULLS: [&str; 3] = ["null", "nil", "nullptr"];

/// The shape with these facts.
pub fn shape(mut words: Words, variables: &Names) -> Result<Shape, Mistake> {
    let told = words.clone();
    read(&mut words, variables).map_err(|wrong| match is_misplaced(&wrong.word, variables) {
        true => {
            let right = put_right(told.rest(), variables);
            wrong.with_right([right])
        }
        false => wrong,
    })
}

fn read(words: &mut Words, variables: &Names) -> Result<Shape, Mistake> {
    let mut reading = Reading {
        variables,
        cells: Vec::new(),
        shape: Shape {
            variables: vec![None; variables.all.len()],
            links: Vec::new(),
            facts: Vec::new(),
        },
    };
    loop {
        reading.fact(words)?;
        if words.is_empty() {
            reading.shape.facts.sort();
            reading.shape.facts.dedup();
            return Ok(reading.shape);
        }
        words.expect(",")?;
    }
}

/// A shape while its facts are read.
struct Reading<'a> {
    variables: &'a Names,
    /// Names of cells, in the order they were met.
    cells: Vec<String>,
    shape: Shape,
}

impl Reading<'_> {
    fn fact(&mut self, words: &mut Words) -> Result<(), Mistake> {
        let (first, second) = (words.take(), words.take());
        match (first.text, second.text) {
            (_, "at") => {
                let number = self.variables.find(first, first.text, "")?;
                let place = self.place(words.take())?;
                set(&mut self.shape.variables[number], place, first)
            }
            (_, "->") => {
                let cell = self.cell(first)?;
                let place = self.place(words.take())?;
                set(&mut self.shape.links[cell], place, first)
            }
            (_, "<" | "=") => self.chain(first, second, words),
            ("cell", _) => self.cell(second).map(drop),
            ("value", _) => {
                let cell = self.valued(second)?;
                self.put(Fact::has_value(cell), second)
            }
            (_, other) => {
                let what = match nearest(other, ["at", "->"])[..] {
                    [near, ..] => format!("did you mean `{near}`?"),
                    [] => FORMS.to_string(),
                };
                Err(Mistake::at(second, what))
            }
        }
    }

    /// `c < d = e`: each cell is below the next one, or equal to it.
    fn chain(&mut self, first: Word, sign: Word, words: &mut Words) -> Result<(), Mistake> {
        let mut left = self.valued(first)?;
        let mut sign = sign;
        loop {
            let word = words.take();
            let right = self.valued(word)?;
            let fact = match sign.text {
                "<" => Fact::below(left, right),
                _ => Fact::equal(left, right),
            };
            self.put(fact, word)?;
            if !matches!(words.peek().text, "<" | "=") {
                return Ok(());
            }
            sign = words.take();
            left = right;
        }
    }

    /// The number of a cell that has a value.
    fn valued(&mut self, word: Word) -> Result<usize, Mistake> {
        match is_name(word.text) {
            true => self.cell(word),
            false => Err(Mistake::at(word, "expected the name of a cell")),
        }
    }

    /// Takes in a fact on values, told up to this word.
    fn put(&mut self, fact: Fact, word: Word) -> Result<(), Mistake> {
        self.shape.facts.push(fact);
        match is_consistent(&closed(&self.shape.facts)) {
            true => Ok(()),
            false => {
                let what = "up to here a cell is below itself, so that no heap has the shape";
                Err(Mistake::at(word, what))
            }
        }
    }

    fn place(&mut self, word: Word) -> Result<Place, Mistake> {
        match word.text {
            "#" => Ok(Place::Null),
            "*" => Ok(Place::Dangling),
            _ => self.cell(word).map(Place::Cell),
        }
    }

    /// The number of a cell, which is the next one where the name is new.
    fn cell(&mut self, word: Word) -> Result<usize, Mistake> {
        let name = word.text;
        if self.variables.number(name).is_some() {
            let what = "a variable in place of a cell: expected the cell that it is at";
            return Err(Mistake::at(word, what));
        }
        if is_null(name) {
            return Err(Mistake::at(word, "null by another name: expected `#`"));
        }
        if !is_name(name) {
            return Err(Mistake::at(word, "expected the name of a cell, # or *"));
        }
        if let Some(number) = self.cells.iter().position(|cell| cell == name) {
            return Ok(number);
        }
        if self.cells.len() as u64 == MOST_CELLS {
            let what = format!("a shape has at most {MOST_CELLS} cells");
            return Err(Mistake::at(word, what));
        }
        self.cells.push(name.to_string());
        self.shape.links.push(None);
        Ok(self.cells.len() - 1)
    }
}

fn is_null(text: &str) -> bool {
    NULLS.contains(&&text.to_lowercase()[..])
}

/// Whether a word is no cell's name because it is null's or a variable's.
fn is_misplaced(text: &str, variables: &Names) -> bool {
    is_null(text) || variables.number(text).is_some()
}

/// The facts with # for null and a cell for each variable that stands in place of one: the cell that
/// it is told to be at, or another.
fn put_right(words: &[Word], variables: &Names) -> String {
    let texts: Vec<&str> = words.iter().map(|word| word.text).collect();
    let is_variable = |text: &str| variables.number(text).is_some();
    let mut cells: Vec<(&str, String)> = Vec::new();
    for three in texts.windows(3) {
        if three[1] == "at" && is_name(three[2]) && !is_misplaced(three[2], variables) {
            cells.push((three[0], three[2].to_string()));
        }
    }
    let mut facts = Vec::new();
    for fact in texts.split(|text| *text == ",") {
        let mut fact = fact.to_vec();
        if let [_, sign @ "=", place] = &mut fact[..] {
            if ["#", "*"].contains(place) || is_null(place) {
                *sign = "at";
            }
        }
        let is_placed = fact.get(1) == Some(&"at");
        let mut right = Vec::new();
        for (number, &text) in fact.iter().enumerate() {
            let known = cells.iter().find(|(name, _)| *name == text);
            right.push(match known {
                _ if is_null(text) => "#".to_string(),
                _ if !is_variable(text) || number == 0 && is_placed => text.to_string(),
                Some((_, cell)) => cell.clone(),
                None => {
                    let cell = free_cell(&texts, &cells, variables);
                    facts.push(format!("{text} at {cell}"));
                    cells.push((text, cell.clone()));
                    cell
                }
            });
        }
        facts.push(right.join(" "));
    }
    facts.join(", ")
}

/// A name that neither a cell nor a variable has, c if it can be.
fn free_cell(texts: &[&str], cells: &[(&str, String)], variables: &Names) -> String {
    let is_free = |name: &String| {
        let is_told = texts.contains(&&name[..]) || cells.iter().any(|(_, cell)| cell == name);
        !is_told && variables.number(name).is_none()
    };
    let mut letters = ('c'..='z').chain('a'..='b').map(String::from);
    letters.find(is_free).unwrap_or_else(|| "cell1".to_string())
}

fn is_name(text: &str) -> bool {
    !text.is_empty() && text.chars().all(char::is_alphanumeric)
}

fn set(slot: &mut Option<Place>, place: Place, word: Word) -> Result<(), Mistake> {
    match slot.replace(place) {
        None => Ok(()),
        Some(_) => Err(Mistake::at(word, "is told twice")),
    }
}
