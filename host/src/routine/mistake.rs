//! A mistake in a text: where it is, and what would be right there.

use std::fmt;

use super::words::Word;
use crate::text::visible;

/// A mistake, or what may be one.
#[derive(Clone, Debug, PartialEq, Eq)]
pub struct Mistake {
    /// From 1.
    pub line: usize,
    /// From 1, in characters.
    pub column: usize,
    /// The word that stands there, empty at a line's end.
    pub word: String,
    pub what: String,
    /// The lines that would be right in place of this one, where they can be told.
    pub right: Option<Vec<String>>,
    /// Whether it is told of one line for all lines that have it.
    pub is_told_once: bool,
}

impl Mistake {
    pub fn new(line: usize, column: usize, word: &str, what: impl Into<String>) -> Mistake {
        Mistake {
            line,
            column,
            word: word.to_string(),
            what: what.into(),
            right: None,
            is_told_once: false,
        }
    }

    pub fn at(word: Word, what: impl Into<String>) -> Mistake {
        Mistake::new(word.line, word.column, word.text, what)
    }

    /// The same with the lines that would be right.
    pub fn with_right<const N: usize>(self, lines: [String; N]) -> Mistake {
        Mistake {
            right: Some(lines.to_vec()),
            ..self
        }
    }

    /// The same, to be told of one line for all.
    pub fn told_once(self) -> Mistake {
        Mistake {
            is_told_once: true,
            ..self
        }
    }
}

impl fmt::Display for Mistake {
    fn fmt(&self, f: &mut fmt::Formatter) -> fmt::Result {
        write!(f, "line {}, column {}: ", self.line, self.column)?;
        if !self.word.is_empty() {
            write!(f, "`{}`: ", visible(&self.word))?;
        }
        f.write_str(&self.what)
    }
}
