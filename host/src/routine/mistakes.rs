//! All mistakes of a text as a person sees them: each with its line of the text, a caret under the
//! word, and the line as it would be right.

use std::fmt;

use super::mistake::Mistake;
use crate::text::{counted, ranges, visible};

/// All mistakes of a text, in the order of their places.
#[derive(Clone, Debug, PartialEq, Eq)]
pub struct Mistakes {
    pub all: Vec<Told>,
}

/// A mistake with the line that it is in.
#[derive(Clone, Debug, PartialEq, Eq)]
pub struct Told {
    pub mistake: Mistake,
    /// The line of the text without byte 10.
    pub source: String,
    /// Other lines that have the same mistake.
    pub also: Vec<usize>,
}

impl Mistakes {
    /// What is found in a text.
    pub fn of(text: &str, mut found: Vec<Mistake>) -> Mistakes {
        found.sort_by_key(|mistake| (mistake.line, mistake.column));
        let sources: Vec<&str> = text.split('\n').collect();
        let mut all: Vec<Told> = Vec::new();
        for mistake in found {
            let is_same = |told: &&mut Told| told.mistake.what == mistake.what;
            match all.iter_mut().find(is_same) {
                Some(told) if mistake.is_told_once => told.also.push(mistake.line),
                _ => all.push(Told {
                    source: sources.get(mistake.line - 1).unwrap_or(&"").to_string(),
                    mistake,
                    also: Vec::new(),
                }),
            }
        }
        Mistakes { all }
    }
}

impl fmt::Display for Mistakes {
    fn fmt(&self, f: &mut fmt::Formatter) -> fmt::Result {
        write!(f, "{}", counted(self.all.len(), "mistake"))?;
        for (number, told) in self.all.iter().enumerate() {
            write!(f, "\n\n{told}")?;
            let next = self.all.get(number + 1);
            let is_last = next.is_none_or(|next| next.mistake.line != told.mistake.line);
            if let (true, Some(right)) = (is_last, &told.mistake.right) {
                tell_right(f, right)?;
            }
        }
        Ok(())
    }
}

impl fmt::Display for Told {
    fn fmt(&self, f: &mut fmt::Formatter) -> fmt::Result {
        let Mistake {
            line, column, word, ..
        } = &self.mistake;
        write!(f, "{}", self.mistake)?;
        if !self.also.is_empty() {
            write!(f, "; the same at {}", ranges("line", &self.also))?;
        }
        let before: String = self.source.chars().take(column - 1).collect();
        let before = " ".repeat(visible(&before).chars().count());
        let carets = "^".repeat(visible(word).chars().count().max(1));
        write!(f, "\n{line:5} | {}", visible(&self.source))?;
        write!(f, "\n      | {before}{carets}")
    }
}

/// The lines that would be right in place of one.
fn tell_right(f: &mut fmt::Formatter, right: &[String]) -> fmt::Result {
    match right {
        [] => f.write_str("\nright | (no line)"),
        [first, others @ ..] => {
            write!(f, "\nright | {first}")?;
            others
                .iter()
                .try_for_each(|line| write!(f, "\n      | {line}"))
        }
    }
}

#[cfg(test)]
mod tests {
    use super::*;

    #[test]
    fn a_caret_stands_under_the_word_and_lines_are_told_together() {
        let right =
            |mistake: Mistake| mistake.with_right(["end".to_string(), "if any".to_string()]);
        let once = |line| Mistake::new(line, 4, "\r", "bad end").told_once();
        let found = vec![
            right(Mistake::new(2, 2, "bc", "wrong")),
            once(1),
            once(3),
            right(Mistake::new(2, 5, "", "short")),
            once(2),
            once(4),
        ];
        let expected = "\
3 mistakes

line 1, column 4: `\\r`: bad end; the same at lines 2 to 4
    1 | one\\r
      |    ^^

line 2, column 2: `bc`: wrong
    2 | \\tbc\\r
      |   ^^

line 2, column 5: short
    2 | \\tbc\\r
      |       ^
right | end
      | if any";
        let told = Mistakes::of("one\r\n\tbc\r\nthr\r\nfou\r\n", found).to_string();
        assert_eq!(told, expected);
    }

    #[test]
    fn a_line_that_is_to_be_left_out() {
        let mistake = Mistake::new(2, 1, "", "late").with_right([]);
        let told = Mistakes::of("one\n", vec![mistake]).to_string();
        let expected =
            "1 mistake\n\nline 2, column 1: late\n    2 | \n      | ^\nright | (no line)";
        assert_eq!(told, expected);
    }
}
