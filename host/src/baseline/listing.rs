//! Listings, fast: one pass over the text, with arrays of fixed size.

use crate::reference::job::{MOST_STATES, MOST_VARIABLES};
use crate::reference::listing::{MARKS, MOST_OPEN, NO_STATE};
use crate::reference::operation::{ASSIGN, DELETE, DIFFERENT, EQUAL, LOAD, NEW, STORE};
use crate::reference::version::Version;

/// The numbers ahead of the transitions.
const HEAD: usize = 5;

/// A line makes one state and one transition, an `end` two; more than half of the lines aren't ends.
const MOST_BYTES: usize = HEAD + 5 * (MOST_STATES as usize + MOST_STATES as usize / 2);

/// Kind and operands. As read, these are letters and 0 for null; then numbers.
type Operation = [u8; 3];

const NULL_IS_NULL: Operation = [EQUAL as u8, 0, 0];

#[derive(Clone, Copy)]
enum Line {
    Operation(Operation),
    /// Whether it is a `while`; the test, and nothing for `any`.
    Block(bool, Option<Operation>),
    End,
    Mark(usize),
}

#[derive(Clone, Copy)]
struct Open {
    is_while: bool,
    state: u8,
    opposite: Operation,
}

struct Translation {
    /// The number of each letter; 0 for one that isn't met.
    names: [u8; 26],
    variables: u8,
    state: u8,
    open: [Open; MOST_OPEN],
    depth: usize,
    job: [u8; MOST_BYTES],
    filled: usize,
    marks: [u8; MARKS],
}

/// Translates a listing, with the answer for a host in C.
#[inline(never)]
pub fn translate(text: &[u8], bytes: &mut [u8], marks: &mut [u8], out: &mut [u64]) -> u32 {
    let mut translation = Translation::new();
    let read = translation.read(text).and_then(|()| {
        let needed = translation.filled;
        let room = bytes.get_mut(..needed).ok_or((12, needed))?;
        room.copy_from_slice(&translation.job[..needed]);
        if let Some(room) = marks.get_mut(..MARKS) {
            room.copy_from_slice(&translation.marks);
        }
        Ok(needed)
    });
    let (number, value) = match read {
        Ok(filled) => (0, filled),
        Err(refused) => refused,
    };
    if let Some(first) = out.first_mut() {
        *first = value as u64;
    }
    number
}

impl Translation {
    fn new() -> Translation {
        Translation {
            names: [0; 26],
            variables: 0,
            state: 0,
            open: [Open {
                is_while: false,
                state: 0,
                opposite: NULL_IS_NULL,
            }; MOST_OPEN],
            depth: 0,
            job: [0; MOST_BYTES],
            filled: HEAD,
            marks: [NO_STATE; MARKS],
        }
    }

    /// All lines, or a refusal with its line.
    fn read(&mut self, text: &[u8]) -> Result<(), (u32, usize)> {
        let mut rest = text;
        let mut lines = 0;
        while !rest.is_empty() {
            lines += 1;
            let end = rest.iter().position(|&byte| byte == b'\n');
            let end = end.ok_or((17, lines))?;
            self.take(&rest[..end]).map_err(|number| (number, lines))?;
            rest = &rest[end + 1..];
        }
        if self.depth > 0 {
            return Err((17, lines + 1));
        }
        let transitions = (self.filled - HEAD) / 5;
        let variables = self.variables.max(1);
        self.job[..HEAD].copy_from_slice(&[
            Version::One as u8,
            variables,
            self.state + 1,
            0,
            transitions as u8,
        ]);
        Ok(())
    }

    fn take(&mut self, text: &[u8]) -> Result<(), u32> {
        let line = line(text).ok_or(17u32)?;
        match line {
            Line::End if self.depth == 0 => return Err(17),
            Line::Mark(number) if self.marks[number] != NO_STATE => return Err(17),
            Line::Block(..) if self.depth == MOST_OPEN => return Err(18),
            _ => {}
        }
        let new = self.state + 1;
        if u64::from(new) == MOST_STATES {
            return Err(19);
        }
        match line {
            Line::Operation(operation) => {
                let operation = self.numbered(operation)?;
                self.lead(self.state, operation, new);
            }
            Line::Block(is_while, test) => self.open(is_while, test, new)?,
            Line::End => self.close(new),
            Line::Mark(number) => {
                self.marks[number] = self.state;
                self.lead(self.state, NULL_IS_NULL, new);
            }
        }
        self.state = new;
        Ok(())
    }

    fn open(&mut self, is_while: bool, test: Option<Operation>, new: u8) -> Result<(), u32> {
        let (test, opposite) = match test {
            None => (NULL_IS_NULL, NULL_IS_NULL),
            Some(test) => {
                let [kind, a, b] = self.numbered(test)?;
                ([kind, a, b], [(EQUAL + DIFFERENT) as u8 - kind, a, b])
            }
        };
        self.open[self.depth] = Open {
            is_while,
            state: self.state,
            opposite,
        };
        self.depth += 1;
        self.lead(self.state, test, new);
        Ok(())
    }

    fn close(&mut self, new: u8) {
        self.depth -= 1;
        let open = self.open[self.depth];
        let back = if open.is_while { open.state } else { new };
        self.lead(self.state, NULL_IS_NULL, back);
        self.lead(open.state, open.opposite, new);
    }

    fn lead(&mut self, from: u8, [kind, a, b]: Operation, to: u8) {
        let next = self.filled + 5;
        self.job[self.filled..next].copy_from_slice(&[from, kind, a, b, to]);
        self.filled = next;
    }

    fn numbered(&mut self, [kind, a, b]: Operation) -> Result<Operation, u32> {
        Ok([kind, self.number(a)?, self.number(b)?])
    }

    fn number(&mut self, letter: u8) -> Result<u8, u32> {
        if letter == 0 {
            return Ok(0);
        }
        let number = &mut self.names[usize::from(letter - b'a')];
        if *number == 0 {
            if u64::from(self.variables) == MOST_VARIABLES {
                return Err(19);
            }
            self.variables += 1;
            *number = self.variables;
        }
        Ok(*number)
    }
}

fn line(text: &[u8]) -> Option<Line> {
    if text == b"end" {
        return Some(Line::End);
    }
    if let Some(words) = text.strip_prefix(b"while ") {
        return test(words).map(|test| Line::Block(true, test));
    }
    if let Some(words) = text.strip_prefix(b"if ") {
        return test(words).map(|test| Line::Block(false, test));
    }
    if let Some(digits) = text.strip_prefix(b"mark ") {
        return mark(digits).map(Line::Mark);
    }
    operation(text).map(Line::Operation)
}

fn mark(digits: &[u8]) -> Option<usize> {
    let digit = |byte: u8| usize::from(byte - b'0');
    match *digits {
        [one @ b'0'..=b'9'] => Some(digit(one)),
        [ten @ b'1'..=b'6', one @ b'0'..=b'9'] => {
            Some(10 * digit(ten) + digit(one)).filter(|&number| number < MARKS)
        }
        _ => None,
    }
}

fn test(text: &[u8]) -> Option<Option<Operation>> {
    if text == b"any" {
        return Some(None);
    }
    let test = operation(text).filter(|&[kind, ..]| u64::from(kind) <= DIFFERENT);
    test.map(Some)
}

fn operation(text: &[u8]) -> Option<Operation> {
    let operation = |kind: u64, a, b| Some([kind as u8, a, b]);
    match text {
        [b'n', b'e', b'w', b'(', a, b')'] => operation(NEW, name(*a)?, 0),
        [b'd', b'e', b'l', b'e', b't', b'e', b'(', a, b')'] => operation(DELETE, name(*a)?, 0),
        [b'n', b'u', b'l', b'l', b' ', behind @ ..] => comparison(0, behind),
        [a, b' ', b':', b'=', b' ', b, b'.', b'n', b'e', b'x', b't'] => {
            operation(LOAD, name(*a)?, name(*b)?)
        }
        [a, b' ', b':', b'=', b' ', b @ ..] => operation(ASSIGN, name(*a)?, operand(b)?),
        [a, b'.', b'n', b'e', b'x', b't', b' ', b':', b'=', b' ', b @ ..] => {
            operation(STORE, name(*a)?, operand(b)?)
        }
        [a, b' ', behind @ ..] => comparison(name(*a)?, behind),
        _ => None,
    }
}

fn comparison(a: u8, behind: &[u8]) -> Option<Operation> {
    match behind {
        [b'=', b' ', b @ ..] => Some([EQUAL as u8, a, operand(b)?]),
        [b'!', b'=', b' ', b @ ..] => Some([DIFFERENT as u8, a, operand(b)?]),
        _ => None,
    }
}

fn operand(text: &[u8]) -> Option<u8> {
    match text {
        b"null" => Some(0),
        [letter] => name(*letter),
        _ => None,
    }
}

fn name(letter: u8) -> Option<u8> {
    letter.is_ascii_lowercase().then_some(letter)
}
