//! What a line forbids: one shape, or a ready set of them.

use super::mistake::Mistake;
use super::names::Names;
use super::words::{Word, Words};
use super::{ready, sets, shape_text};
use crate::reference::shape::Shape;
use crate::text::nearest;

/// The ready sets of [`sets`] that are of variables at a state; one whose name begins with another's comes
/// ahead of it.
const SETS: [&str; 10] = [
    "no list",
    "lost block shared",
    "lost block",
    "ring",
    "no ring",
    "shared",
    "not sorted round",
    "not sorted",
    "not falling round",
    "not falling",
];

/// The shapes that the words forbid. A mistake's right line is without the state.
pub fn shapes(words: Words, variables: &Names) -> Result<Vec<Shape>, Mistake> {
    match words.split_at_first(":") {
        Some((set, names)) => ready_set(set, names, variables),
        None if words.is_empty() => {
            let what = "expected a shape, as `x at #`, or a ready set, as `no list: x`";
            Err(Mistake::at(words.peek(), what))
        }
        None => {
            let shape = shape_text::shape(words.clone(), variables);
            let shape = shape.map_err(|wrong| without_colon(words.rest()).unwrap_or(wrong))?;
            Ok(vec![shape])
        }
    }
}

/// What is wrong with a ready set without its colon, where the words are one.
fn without_colon(words: &[Word]) -> Option<Mistake> {
    let texts: Vec<&str> = words.iter().map(|word| word.text).collect();
    let set = SETS.into_iter().find(|set| {
        let set: Vec<&str> = set.split(' ').collect();
        texts.starts_with(&set)
    })?;
    let names = texts[set.split(' ').count()..].join(" ");
    let right = format!("{set}: {names}");
    let what = format!("a ready set without its colon: expected `{right}`");
    let first = words.first()?;
    let mistake = Mistake::new(first.line, first.column, set, what);
    Some(mistake.with_right([right]))
}

/// The shapes of a ready set of the variables that are named.
fn ready_set(mut set: Words, mut names: Words, variables: &Names) -> Result<Vec<Shape>, Mistake> {
    let first = set.peek();
    let mut words = Vec::new();
    while !set.is_empty() {
        words.push(set.take().text);
    }
    let told: Vec<&str> = names.rest().iter().map(|word| word.text).collect();
    let mut from = Vec::new();
    while !names.is_empty() {
        let word = names.take();
        from.push(1 + variables.find(word, word.text, "")?);
    }
    let set = words.join(" ");
    let variables = variables.all.len();
    match (&set[..], &from[..]) {
        ("no list", &[x]) => Ok(ready::not_list(variables, x)),
        ("ring", &[x]) => Ok(sets::ring(variables, x)),
        ("no ring", &[x]) => Ok(sets::no_ring(variables, x)),
        ("shared", &[x, y]) => Ok(sets::shared(variables, x, y)),
        ("not sorted", &[x]) => Ok(sets::not_sorted(variables, x)),
        ("not sorted round", &[x]) => Ok(sets::not_sorted_round(variables, x)),
        ("not falling", &[x]) => Ok(sets::not_falling(variables, x)),
        ("not falling round", &[x]) => Ok(sets::not_falling_round(variables, x)),
        ("lost block shared", &[x, y]) => Ok(sets::lost_block_shared(variables, x, y)),
        ("lost block", [_, ..]) => Ok(sets::lost_block(variables, &from)),
        (known, _) if SETS.contains(&known) => {
            let what = match known {
                "shared" | "lost block shared" => "expected two variables",
                "lost block" => "expected one or more variables",
                _ => "expected one variable",
            };
            Err(Mistake::at(names.peek(), what))
        }
        (other, _) => {
            let wrong = |what: String| Mistake::new(first.line, first.column, &set, what);
            Err(match nearest(other, SETS)[..] {
                [near, ..] => wrong(format!("did you mean `{near}`?"))
                    .with_right([format!("{near}: {}", told.join(" "))]),
                [] => wrong(format!("expected a ready set, one of {}", SETS.join(", "))),
            })
        }
    }
}
