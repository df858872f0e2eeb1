//! Words and signs of other languages in a line of a listing: each is told by its name, and the line
//! goes on with what a listing has for it.

use super::mistake::Mistake;
use super::short_names::ShortNames;
use super::words::{is_of_name, Word, Words};

/// What begins a comment, here or elsewhere.
const COMMENTS: [&str; 3] = ["--", "//", "/*"];

/// Signs that a listing hasn't, and those that it has for them.
const SIGNS: [(&str, &str); 8] = [
    ("\u{2260}", "!="),
    ("<>", "!="),
    ("!==", "!="),
    ("==", "="),
    ("===", "="),
    ("\u{2190}", ":="),
    ("<-", ":="),
    ("\u{2254}", ":="),
];

/// Other names of null, whatever their capitals.
const NULLS: [&str; 5] = ["null", "nil", "none", "nullptr", "#"];

const NULL: &str = "null by another name: expected `null`";

pub const SEMICOLON: &str = "a semicolon: a line ends without one";

/// Other names of the two calls.
const CALLS: [(&str, &str); 5] = [
    ("free", "delete"),
    ("dispose", "delete"),
    ("remove", "delete"),
    ("malloc", "new"),
    ("alloc", "new"),
];

/// The words of a listing; none of them is a name.
pub const KEYWORDS: [&str; 8] = ["while", "if", "end", "mark", "new", "delete", "any", "null"];

/// A word as it is to be, with what stands there.
#[derive(Clone, Debug)]
pub struct Part {
    pub text: String,
    pub source: String,
    /// From 1, in characters.
    pub column: usize,
}

impl Part {
    fn of(word: Word) -> Part {
        Part {
            text: word.text.to_string(),
            source: word.text.to_string(),
            column: word.column,
        }
    }

    /// A mistake about what stands there.
    pub fn mistake(&self, line: usize, what: impl Into<String>) -> Mistake {
        Mistake::new(line, self.column, &self.source, what)
    }
}

/// The parts as words to be read.
pub fn words(line: usize, parts: &[Part]) -> Words<'_> {
    let words = parts.iter().map(|part| Word {
        text: &part.text,
        line,
        column: part.column,
    });
    Words::new(line, words.collect())
}

/// A line without its comment, and the mistake that the comment is.
pub fn without_comment(number: usize, line: &str) -> (&str, Option<Mistake>) {
    let found = COMMENTS
        .iter()
        .filter_map(|sign| Some((line.find(sign)?, sign)));
    let first = found.min();
    // A shape's # may stand for null, but not at the beginning.
    let hash = line.trim_start().starts_with('#').then(|| line.find('#'));
    let first = first.or(hash.flatten().map(|at| (at, &"#")));
    let Some((at, sign)) = first else {
        return (line, None);
    };
    let (code, _) = line.split_at(at);
    let what =
        "a comment: a listing has none; it may stand above the listing or behind `forbidden`";
    let column = 1 + code.chars().count();
    (code, Some(Mistake::new(number, column, sign, what)))
}

/// The parts of a line of a listing, and the mistakes that its words are.
pub fn parts(number: usize, code: &str, names: &mut ShortNames) -> (Vec<Part>, Vec<Mistake>) {
    let words = Words::of(number, code);
    let mut reading = Reading {
        line: number,
        code,
        names,
        found: Vec::new(),
    };
    let parts = words.rest().iter().copied().map(Part::of).collect();
    let parts = reading.with_links(parts);
    let parts = reading.with_calls(parts);
    let parts = (0..parts.len()).map(|at| reading.part(&parts, at));
    let parts = parts.collect();
    (parts, reading.found)
}

/// The words of a line while they are gone through.
struct Reading<'a> {
    line: usize,
    code: &'a str,
    names: &'a mut ShortNames,
    found: Vec<Mistake>,
}

impl Reading<'_> {
    fn wrong(&mut self, part: &Part, what: impl Into<String>) {
        self.found.push(part.mistake(self.line, what));
    }

    /// `x->next` is one word.
    fn with_links(&mut self, parts: Vec<Part>) -> Vec<Part> {
        let mut joined: Vec<Part> = Vec::new();
        let mut parts = parts.into_iter().peekable();
        while let Some(mut part) = parts.next() {
            let mut rest = parts.clone();
            let mut is_link = false;
            while let (true, Some(arrow), Some(field)) =
                (is_name(&part.text), rest.next(), rest.next())
            {
                if arrow.text != "->" || !is_name(&field.text) {
                    break;
                }
                is_link = true;
                part.text = format!("{}.{}", part.text, field.text);
                let behind = field.column + field.source.chars().count();
                let length = behind - part.column;
                part.source = self
                    .code
                    .chars()
                    .skip(part.column - 1)
                    .take(length)
                    .collect();
                parts = rest.clone();
            }
            if is_link {
                let what = format!("an arrow: the link is written `{}`", part.text);
                self.wrong(&part, what);
            }
            joined.push(part);
        }
        joined
    }

    /// `x := new Block()` is `new(x)`.
    fn with_calls(&mut self, parts: Vec<Part>) -> Vec<Part> {
        let texts: Vec<&str> = parts.iter().map(|part| &part.text[..]).collect();
        let makes = |text: &str| ["new", "malloc", "alloc"].contains(&text);
        match texts[..] {
            [x, ":=" | "=" | "<-", call, ..] if makes(call) => {
                let what = format!("a cell that is assigned: `new({x})` makes one and sets {x}");
                let called = &parts[2];
                self.wrong(called, what);
                let behind = parts.iter().rposition(|part| part.text == ";");
                let text = |text: &str| Part {
                    text: text.to_string(),
                    ..called.clone()
                };
                let mut new = vec![text("new"), text("("), parts[0].clone(), text(")")];
                new.extend(behind.map(|at| parts[at].clone()));
                new
            }
            _ => parts,
        }
    }

    /// One part as it is to be.
    fn part(&mut self, parts: &[Part], at: usize) -> Part {
        let part = parts[at].clone();
        let text = &part.text;
        let lower = text.to_lowercase();
        let is_before = |sign: &str| parts.get(at + 1).is_some_and(|next| next.text == sign);
        let sign = SIGNS.iter().find(|(sign, _)| sign == text);
        let call = CALLS.iter().find(|(call, _)| *call == lower);
        if let Some((_, right)) = sign {
            return self.put(
                part,
                right,
                format!("a sign of other languages: expected `{right}`"),
            );
        }
        if text == ";" {
            self.found
                .push(part.mistake(self.line, SEMICOLON).told_once());
            return part;
        }
        if text != "null" && NULLS.contains(&&lower[..]) {
            return self.put(part, "null", NULL.to_string());
        }
        if let (Some((_, right)), true) = (call, is_before("(")) {
            return self.put(
                part,
                right,
                format!("a call of other languages: expected `{right}`"),
            );
        }
        if *text != lower && KEYWORDS.contains(&&lower[..]) {
            return self.put(part, &lower, format!("capitals: expected `{lower}`"));
        }
        self.name(part, parts, at)
    }

    fn put(&mut self, part: Part, right: &str, what: String) -> Part {
        self.wrong(&part, what);
        Part {
            text: right.to_string(),
            ..part
        }
    }

    /// A name is one small letter. What stands at a name's place is beside an operator or in brackets.
    fn name(&mut self, part: Part, parts: &[Part], at: usize) -> Part {
        let (name, field) = match part.text.split_once('.') {
            Some((name, field)) => (name, format!(".{field}")),
            None => (&part.text[..], String::new()),
        };
        let is_letter = name.len() == 1 && name.chars().all(|c| c.is_ascii_lowercase());
        let is_operator = |part: &Part| [":=", "=", "!="].contains(&signified(&part.text));
        let before = at.checked_sub(1).map(|before| &parts[before]);
        let is_beside =
            before.is_some_and(is_operator) || parts.get(at + 1).is_some_and(is_operator);
        let is_within = before.is_some_and(|part| part.text == "(")
            && parts.get(at + 1).is_some_and(|part| part.text == ")");
        let is_called = is_beside || is_within;
        if is_letter || !is_called || !is_name(name) || KEYWORDS.contains(&name) {
            return part;
        }
        if name == "0" {
            return self.put(part, "null", NULL.to_string());
        }
        if name.len() == 1 && name.chars().all(|c| c.is_ascii_uppercase()) {
            let right = part.text.to_lowercase();
            return self.put(
                part,
                &right,
                "a capital: a name is a small letter".to_string(),
            );
        }
        let letter = self.names.letter(name);
        let what = "a name of several letters: expected one letter, a to z, or `null`";
        self.put(part.clone(), &format!("{letter}{field}"), what.to_string())
    }
}

/// The sign that a listing has for a sign.
fn signified(sign: &str) -> &str {
    let known = SIGNS.iter().find(|(other, _)| *other == sign);
    known.map_or(sign, |(_, right)| right)
}

fn is_name(text: &str) -> bool {
    !text.is_empty() && text.chars().all(is_of_name)
}
