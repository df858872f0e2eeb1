//! Listings, routines as the desk writes them: from the text to a job's bytes ahead of B, and the
//! states of the marks.

use super::job::{Job, Transition, MOST_STATES, MOST_VARIABLES};
use super::operation::{Operation, ASSIGN, DELETE, DIFFERENT, EQUAL, LOAD, NEW, STORE};
use super::refused::{in_room, Refused};
use super::version::Version;

/// "at most 16 `while` and `if` open at once".
pub const MOST_OPEN: usize = 16;

/// Marks are numbered from 0.
pub const MARKS: usize = 64;

/// "for each mark its state, 64 for none".
pub const NO_STATE: u8 = 64;

const NULL_IS_NULL: Operation = Operation {
    kind: EQUAL,
    a: 0,
    b: 0,
};

/// What comes out of a listing.
#[derive(Clone, Debug, PartialEq, Eq)]
pub struct Translated {
    pub bytes: Vec<u8>,
    pub marks: [u8; MARKS],
}

/// What a listing becomes, where so many bytes have room.
pub fn translate(text: &[u8], room: usize) -> Result<Translated, Refused> {
    let at_line = |number, value| Refused { number, value };
    let mut translation = Translation::begin();
    let mut lines = 0;
    for line in text.split_inclusive(|&byte| byte == 10) {
        lines += 1;
        let taken = translation.line(line);
        taken.map_err(|number| at_line(number, lines))?;
    }
    if !translation.open.is_empty() {
        return Err(at_line(17, lines + 1));
    }
    Ok(Translated {
        bytes: in_room(translation.bytes(), room)?,
        marks: translation.marks,
    })
}

/// A line of the grammar. Operands are letters, and nothing for null.
#[derive(Clone, Copy)]
enum Line {
    Operation(Written),
    While(Test),
    If(Test),
    End,
    Mark(usize),
}

/// An operation as it is written.
#[derive(Clone, Copy)]
struct Written {
    kind: u64,
    a: Option<u8>,
    b: Option<u8>,
}

/// Behind `while` or `if`.
#[derive(Clone, Copy)]
enum Test {
    Operation(Written),
    Any,
}

/// "Each line ends with byte 10 and has the table's single blanks and no others".
fn line(bytes: &[u8]) -> Option<Line> {
    let text = bytes.strip_suffix(&[10])?;
    let words: Vec<&[u8]> = text.split(|&byte| byte == b' ').collect();
    match &words[..] {
        [b"end"] => Some(Line::End),
        [b"mark", number] => mark(number).map(Line::Mark),
        [b"while", words @ ..] => test(words).map(Line::While),
        [b"if", words @ ..] => test(words).map(Line::If),
        words => operation(words).map(Line::Operation),
    }
}

/// "k from 0 to 63 in shortest decimal".
fn mark(word: &[u8]) -> Option<usize> {
    (0..MARKS).find(|number| number.to_string().as_bytes() == word)
}

/// "T is an operation of kind 1 or 2 or the word `any`".
fn test(words: &[&[u8]]) -> Option<Test> {
    if words == [b"any"] {
        return Some(Test::Any);
    }
    let is_test = |written: &Written| [EQUAL, DIFFERENT].contains(&written.kind);
    operation(words).filter(is_test).map(Test::Operation)
}

/// One of the table's seven forms, with `!=` for ≠.
fn operation(words: &[&[u8]]) -> Option<Written> {
    let written = |kind, a, b| Some(Written { kind, a, b });
    match *words {
        [a, b"=", b] => written(EQUAL, operand(a)?, operand(b)?),
        [a, b"!=", b] => written(DIFFERENT, operand(a)?, operand(b)?),
        [a, b":=", b] => match (a.strip_suffix(b".next"), b.strip_suffix(b".next")) {
            (None, None) => written(ASSIGN, name(a)?, operand(b)?),
            (None, Some(b)) => written(LOAD, name(a)?, name(b)?),
            (Some(a), None) => written(STORE, name(a)?, operand(b)?),
            (Some(_), Some(_)) => None,
        },
        [word] => {
            let word = word.strip_suffix(b")")?;
            match (word.strip_prefix(b"new("), word.strip_prefix(b"delete(")) {
                (Some(a), _) => written(NEW, name(a)?, None),
                (_, Some(a)) => written(DELETE, name(a)?, None),
                _ => None,
            }
        }
        _ => None,
    }
}

/// A name, or `null`.
fn operand(word: &[u8]) -> Option<Option<u8>> {
    match word {
        b"null" => Some(None),
        word => name(word),
    }
}

/// "Names are letters a to z".
fn name(word: &[u8]) -> Option<Option<u8>> {
    match *word {
        [letter @ b'a'..=b'z'] => Some(Some(letter)),
        _ => None,
    }
}

/// A `while` or `if` that no `end` has closed yet.
struct Open {
    is_while: bool,
    state: u64,
    opposite: Operation,
}

/// What the lines so far have become.
struct Translation {
    /// "numbered from 1 as first met".
    names: Vec<u8>,
    /// The present state, and how many there are.
    state: u64,
    states: u64,
    transitions: Vec<Transition>,
    open: Vec<Open>,
    marks: [u8; MARKS],
}

impl Translation {
    /// "State 0 is the start".
    fn begin() -> Translation {
        Translation {
            names: Vec::new(),
            state: 0,
            states: 1,
            transitions: Vec::new(),
            open: Vec::new(),
            marks: [NO_STATE; MARKS],
        }
    }

    /// Takes in one line, or gives the number of its refusal.
    fn line(&mut self, bytes: &[u8]) -> Result<(), u32> {
        let line = line(bytes).ok_or(17u32)?;
        match line {
            Line::End if self.open.is_empty() => return Err(17),
            Line::Mark(number) if self.marks[number] != NO_STATE => return Err(17),
            Line::While(_) | Line::If(_) if self.open.len() == MOST_OPEN => return Err(18),
            _ => {}
        }
        self.make(line);
        let is_large = self.names.len() as u64 > MOST_VARIABLES || self.states > MOST_STATES;
        match is_large {
            true => Err(19),
            false => Ok(()),
        }
    }

    fn make(&mut self, line: Line) {
        match line {
            Line::Operation(written) => {
                let operation = self.numbered(written);
                self.lead_on(operation);
            }
            Line::While(test) => self.open(true, test),
            Line::If(test) => self.open(false, test),
            Line::End => self.close(),
            Line::Mark(number) => {
                self.marks[number] = self.state as u8;
                self.lead_on(NULL_IS_NULL);
            }
        }
    }

    /// "`while` and `if` lead by T to a new state"; "for `any`, T and its opposite are null = null".
    fn open(&mut self, is_while: bool, test: Test) {
        let (test, opposite) = match test {
            Test::Any => (NULL_IS_NULL, NULL_IS_NULL),
            Test::Operation(written) => {
                let test = self.numbered(written);
                let kind = EQUAL + DIFFERENT - test.kind;
                (test, Operation { kind, ..test })
            }
        };
        self.open.push(Open {
            is_while,
            state: self.state,
            opposite,
        });
        self.lead_on(test);
    }

    /// "`end` leads by null = null back to the `while`'s state, and then that state by the opposite
    /// of T to a new state; at the end of an `if` both lead to one new state".
    fn close(&mut self) {
        let open = self.open.pop().expect("something is open");
        let new = self.new_state();
        let back = if open.is_while { open.state } else { new };
        self.lead(self.state, NULL_IS_NULL, back);
        self.lead(open.state, open.opposite, new);
        self.state = new;
    }

    /// "a new state is the next number".
    fn new_state(&mut self) -> u64 {
        self.states += 1;
        self.states - 1
    }

    /// From the present state to a new one, which is then the present one.
    fn lead_on(&mut self, operation: Operation) {
        let new = self.new_state();
        self.lead(self.state, operation, new);
        self.state = new;
    }

    fn lead(&mut self, from: u64, operation: Operation, to: u64) {
        self.transitions.push(Transition {
            from,
            operation,
            to,
        });
    }

    fn numbered(&mut self, written: Written) -> Operation {
        Operation {
            kind: written.kind,
            a: self.number(written.a),
            b: self.number(written.b),
        }
    }

    fn number(&mut self, operand: Option<u8>) -> usize {
        let Some(letter) = operand else { return 0 };
        if !self.names.contains(&letter) {
            self.names.push(letter);
        }
        let met = self.names.iter().position(|&name| name == letter);
        met.expect("the name is met") + 1
    }

    /// "V is their number, or 1 if none".
    fn bytes(&self) -> Vec<u8> {
        let job = Job {
            version: Version::One,
            variables: self.names.len().max(1) as u64,
            states: self.states,
            start: 0,
            transitions: self.transitions.clone(),
            forbidden: Vec::new(),
        };
        job.bytes_ahead()
    }
}

#[cfg(test)]
mod tests {
    use super::*;

    fn translated(text: &str) -> Translated {
        translate(text.as_bytes(), usize::MAX).unwrap()
    }

    fn refused(text: &str) -> (u32, usize) {
        let refused = translate(text.as_bytes(), usize::MAX).unwrap_err();
        (refused.number, refused.value)
    }

    #[test]
    fn an_empty_listing() {
        let Translated { bytes, marks } = translated("");
        assert_eq!(bytes, [1, 1, 1, 0, 0]);
        assert_eq!(marks, [NO_STATE; MARKS]);
    }

    #[test]
    fn blocks_in_the_documented_numbers() {
        let text = "while y != null\nif any\nx := y.next\nend\nend\nmark 7\nnew(z)\n";
        let Translated { bytes, marks } = translated(text);
        let expected = [
            1, 3, 8, 0, 9, // y, x and z; eight states, start 0, nine transitions
            0, 2, 1, 0, 1, // while y != null
            1, 1, 0, 0, 2, // if any
            2, 4, 2, 1, 3, // x := y.next
            3, 1, 0, 0, 4, // end of the if
            1, 1, 0, 0, 4, // and where it isn't taken
            4, 1, 0, 0, 0, // end of the while, back to it
            0, 1, 1, 0, 5, // and on, where y is null
            5, 1, 0, 0, 6, // mark 7
            6, 6, 3, 0, 7, // new(z)
        ];
        assert_eq!(bytes, expected);
        let marked = marks
            .iter()
            .position(|&state| state != NO_STATE)
            .map(|mark| (mark, marks[mark]));
        assert_eq!(marked, Some((7, 5)));
        assert_eq!(marks.iter().filter(|&&state| state != NO_STATE).count(), 1);
    }

    #[test]
    fn refusals_with_their_lines() {
        let nine: String = ('a'..='i').map(|name| format!("new({name})\n")).collect();
        let rows = [
            ("new(x)\nnew(x) \n", (17, 2)),
            ("new(x)\nnew(x)", (17, 2)),
            ("new(x)\n\n", (17, 2)),
            ("end\n", (17, 1)),
            ("if any\nnew(x)\n", (17, 3)),
            ("mark 0\nmark 1\nmark 0\n", (17, 3)),
            ("mark 64\n", (17, 1)),
            ("mark 00\n", (17, 1)),
            ("x := null.next\n", (17, 1)),
            ("null := x\n", (17, 1)),
            ("new(null)\n", (17, 1)),
            ("while x := y\n", (17, 1)),
            (&"if any\n".repeat(17), (18, 17)),
            (&"new(x)\n".repeat(64), (19, 64)),
            (&nine, (19, 9)),
        ];
        for (text, expected) in rows {
            assert_eq!(refused(text), expected, "{text}");
        }
        let whole = ["if any\n".repeat(16), "end\n".repeat(16)].concat();
        assert_eq!(translated(&whole).bytes.len(), 5 + 5 * 48);
        assert_eq!(translated(&"new(x)\n".repeat(63)).bytes.len(), 5 + 5 * 63);
        let short = translate(b"new(x)\n", 9).unwrap_err();
        assert_eq!((short.number, short.value), (12, 10));
    }
}
