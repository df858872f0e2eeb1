//! Names that a text gives, and what was meant where one isn't known.

use super::mistake::Mistake;
use super::words::Word;
use crate::text::nearest;

/// The names of the variables or of the states, numbered from 0.
#[derive(Clone, Debug)]
pub struct Names {
    /// What the names are of.
    of: &'static str,
    pub all: Vec<String>,
}

impl Names {
    pub fn of(of: &'static str) -> Names {
        Names {
            of,
            all: Vec::new(),
        }
    }

    pub fn number(&self, name: &str) -> Option<usize> {
        self.all.iter().position(|known| known == name)
    }

    /// The number of a name, which is the word without its ending; where there is none, what may
    /// have been meant.
    pub fn find(&self, word: Word, name: &str, ending: &str) -> Result<usize, Mistake> {
        self.number(name).ok_or_else(|| {
            let mistake = Mistake::at(word, self.meant(name, ending));
            match self.all.is_empty() {
                true => mistake.told_once(),
                false => mistake,
            }
        })
    }

    fn meant(&self, name: &str, ending: &str) -> String {
        let of = self.of;
        let known = self.all.iter().map(String::as_str);
        match (&nearest(name, known)[..], &self.all[..]) {
            (_, []) => format!("expected a {of}, but none is named above"),
            ([near, ..], _) => format!("no {of} has this name; did you mean `{near}{ending}`?"),
            ([], all) => format!("expected a {of}, one of {}", all.join(", ")),
        }
    }
}
