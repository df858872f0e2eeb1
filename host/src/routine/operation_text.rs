//! One operation: `a = b`, `a != b`, `a := b`, `a := b.next`, `a.next := b`, `new(a)`, `delete(a)`
//! or `skip`; or one on values: `a.num = b.num`, `a.num < b.num`, `a.num := b.num`, `a.num :=> b.num`,
//! `a.num :=< b.num` or `read(a)`.

use super::mistake::Mistake;
use super::names::Names;
use super::words::{Word, Words};
use super::{NULL_IS_NULL, SKIP};
use crate::reference::operation::{Operation, ASSIGN, DELETE, DIFFERENT, EQUAL, LOAD, NEW, STORE};
use crate::reference::operation::{BELOW_VALUE, COPY, EQUAL_VALUE, LARGER, READ, SMALLER};
use crate::text::nearest;

const FORMS: &str = "expected one of `a = b`, `a != b`, `a := b`, `a := b.next`, `a.next := b`, \
                     `new(a)`, `delete(a)`, `skip`, `a.num = b.num`, `a.num < b.num`, \
                     `a.num := b.num`, `a.num :=> b.num`, `a.num :=< b.num`, `read(a)`";

/// The operation that the words are.
pub fn operation(mut words: Words, variables: &Names) -> Result<Operation, Mistake> {
    let first = words.take();
    if first.text == SKIP {
        words.finish()?;
        return Ok(NULL_IS_NULL);
    }
    if words.is_empty() {
        return Err(Mistake::at(first, meant(first, [SKIP])));
    }
    if words.peek().text == "(" {
        return call(first, words, variables);
    }
    let operator = words.take();
    if !matches!(operator.text, "=" | "!=" | ":=" | "<" | ":=>" | ":=<") {
        let what = "expected `:=`, which sets, or `=` or `!=`, which test; for values also \
                    `:=>`, `:=<` and `<`";
        return Err(Mistake::at(operator, what));
    }
    let (left, right) = (
        operand(first, variables)?,
        operand(words.take(), variables)?,
    );
    words.finish()?;
    let is_on_values = left.part == Part::Value || right.part == Part::Value;
    match operator.text {
        "=" | "!=" | ":=" if is_on_values => on_values(operator, left, right),
        "=" => test(EQUAL, left, right),
        "!=" => test(DIFFERENT, left, right),
        ":=" => assignment(left, right),
        _ => on_values(operator, left, right),
    }
}

/// What a word may be that begins no operation.
fn meant<const N: usize>(word: Word, known: [&str; N]) -> String {
    match nearest(word.text, known)[..] {
        [near, ..] => format!("did you mean `{near}`?"),
        [] => FORMS.to_string(),
    }
}

/// `new(a)`, `delete(a)` or `read(a)`.
fn call(name: Word, mut words: Words, variables: &Names) -> Result<Operation, Mistake> {
    let kind = match name.text {
        "new" => NEW,
        "delete" => DELETE,
        "read" => READ,
        _ => return Err(Mistake::at(name, meant(name, ["new", "delete", "read"]))),
    };
    words.expect("(")?;
    let a = operand(words.take(), variables)?;
    words.expect(")")?;
    words.finish()?;
    let a = a.variable("expected a variable")?;
    Ok(Operation { kind, a, b: 0 })
}

/// What of a variable is meant.
#[derive(Clone, Copy, PartialEq, Eq)]
enum Part {
    Itself,
    Link,
    Value,
}

/// `a`, `a.next`, `a.num` or `null`.
#[derive(Clone, Copy)]
struct Operand<'a> {
    word: Word<'a>,
    name: &'a str,
    /// 0 is null.
    number: usize,
    part: Part,
}

impl Operand<'_> {
    fn mistake<T>(&self, what: impl Into<String>) -> Result<T, Mistake> {
        Err(Mistake::at(self.word, what))
    }

    /// The number where it is a variable.
    fn variable(&self, expected: &str) -> Result<usize, Mistake> {
        match self.number == 0 || self.part != Part::Itself {
            true => self.mistake(expected),
            false => Ok(self.number),
        }
    }

    /// The number where it is the value of a variable's cell.
    fn value(&self) -> Result<usize, Mistake> {
        match (self.number, self.part) {
            (number, Part::Value) => Ok(number),
            (0, _) => self.mistake(NULL_HAS_NO_VALUE),
            _ => self.mistake(format!(
                "did you mean `{}.num`? A value goes with a value",
                self.name
            )),
        }
    }
}

const NULL_HAS_NO_VALUE: &str = "null has no value";

fn operand<'a>(word: Word<'a>, variables: &Names) -> Result<Operand<'a>, Mistake> {
    let (name, field) = match word.text.split_once('.') {
        Some((name, field)) => (name, Some(field)),
        None => (word.text, None),
    };
    let ending = match field {
        None => "",
        Some("num") => ".num",
        Some(_) => ".next",
    };
    let number = match name {
        "null" => 0,
        _ => 1 + variables.find(word, name, ending)?,
    };
    let part = match (number, field) {
        (_, None) => Part::Itself,
        (0, Some("num")) => return Err(Mistake::at(word, NULL_HAS_NO_VALUE)),
        (0, Some(_)) => return Err(Mistake::at(word, "null has no link")),
        (_, Some("next")) => Part::Link,
        (_, Some("num")) => Part::Value,
        (_, Some(other)) => return Err(Mistake::at(word, meant_field(name, other))),
    };
    Ok(Operand {
        word,
        name,
        number,
        part,
    })
}

/// What a field may be that a cell doesn't have.
fn meant_field(name: &str, field: &str) -> String {
    match nearest(field, ["next", "num"])[..] {
        [near, ..] => format!("did you mean `{name}.{near}`?"),
        [] => format!("did you mean `{name}.next` or `{name}.num`?"),
    }
}

fn assignment(left: Operand, right: Operand) -> Result<Operation, Mistake> {
    let kind = match (left.part == Part::Link, right.part == Part::Link) {
        (false, false) => ASSIGN,
        (false, true) => LOAD,
        (true, false) => STORE,
        (true, true) => {
            return right.mistake("only one side can be a link: load it into a variable first")
        }
    };
    if left.number == 0 {
        return left.mistake("can't be set: expected a variable or its link");
    }
    Ok(Operation {
        kind,
        a: left.number,
        b: right.number,
    })
}

fn test(kind: u64, left: Operand, right: Operand) -> Result<Operation, Mistake> {
    for side in [left, right] {
        if side.part == Part::Link {
            return side.mistake("a test is of variables and null: load the link into one first");
        }
    }
    Ok(Operation {
        kind,
        a: left.number,
        b: right.number,
    })
}

/// A test or a writing of values, so that both sides must be values.
fn on_values(operator: Word, left: Operand, right: Operand) -> Result<Operation, Mistake> {
    let (a, b) = (left.value()?, right.value()?);
    let kind = match operator.text {
        "=" => EQUAL_VALUE,
        "<" => BELOW_VALUE,
        ":=" => COPY,
        ":=>" => LARGER,
        ":=<" => SMALLER,
        _ => {
            let what = "values differ if one is below the other: expected two transitions with `<`";
            return Err(Mistake::at(operator, what));
        }
    };
    Ok(Operation { kind, a, b })
}

#[cfg(test)]
mod tests {
    use super::*;
    use crate::reference::operation;
    use crate::reference::version::Version;

    const VARIABLES: [&str; 3] = ["x", "y", "u2"];

    /// What is printed of every operation is read as that operation.
    #[test]
    fn what_is_printed_is_read() {
        let mut variables = Names::of("variable");
        variables.all = VARIABLES.map(String::from).to_vec();
        let name = |operand| ["null", "x", "y", "u2"][operand];
        let count = VARIABLES.len() as u64;
        for kind in Version::Two.kinds() {
            for a in operation::range_of_a(kind, count) {
                for b in operation::range_of_b(kind, count) {
                    let printed = Operation {
                        kind,
                        a: a as usize,
                        b: b as usize,
                    };
                    let text = crate::routine::words(printed, name);
                    let read = operation(Words::of(1, &text), &variables);
                    assert_eq!(read, Ok(printed), "{text}");
                }
            }
        }
    }
}
