//! The words of a line, with their places.

use super::mistake::Mistake;

/// A name, a sign or an operator.
#[derive(Clone, Copy, Debug, PartialEq, Eq)]
pub struct Word<'a> {
    pub text: &'a str,
    /// From 1.
    pub line: usize,
    /// From 1, in characters.
    pub column: usize,
}

/// Operators are written with these; every other character that can't be in a name is a word by
/// itself.
const OF_OPERATORS: &str = ":=!<>-";

/// The words of one line that are still to be read.
#[derive(Clone, Debug)]
pub struct Words<'a> {
    words: Vec<Word<'a>>,
    next: usize,
    /// Behind the last word, without text.
    end: Word<'a>,
}

impl<'a> Words<'a> {
    pub fn of(line: usize, text: &'a str) -> Words<'a> {
        let mut words = Vec::new();
        let mut rest = text;
        let mut column = 1;
        while let Some(first) = rest.chars().next() {
            let length = rest.chars().take_while(|&c| continues(first, c)).count();
            let length = length.max(1);
            let bytes = rest
                .char_indices()
                .nth(length)
                .map_or(rest.len(), |(at, _)| at);
            let (text, behind) = rest.split_at(bytes);
            if !first.is_whitespace() {
                words.push(Word { text, line, column });
            }
            rest = behind;
            column += length;
        }
        Words::new(line, words)
    }

    /// Words of a line with their places.
    pub fn new(line: usize, words: Vec<Word<'a>>) -> Words<'a> {
        let column = words
            .last()
            .map_or(1, |last: &Word| last.column + last.text.chars().count() + 1);
        let end = Word {
            text: "",
            line,
            column,
        };
        Words {
            words,
            next: 0,
            end,
        }
    }

    /// The words that are still to be read.
    pub fn rest(&self) -> &[Word<'a>] {
        &self.words[self.next..]
    }

    pub fn is_empty(&self) -> bool {
        self.next == self.words.len()
    }

    /// The next word, without text where there is none.
    pub fn peek(&self) -> Word<'a> {
        self.words.get(self.next).copied().unwrap_or(self.end)
    }

    /// The next word, which then is read.
    pub fn take(&mut self) -> Word<'a> {
        let word = self.peek();
        self.next = self.words.len().min(self.next + 1);
        word
    }

    /// The next word, which must be this one.
    pub fn expect(&mut self, text: &str) -> Result<Word<'a>, Mistake> {
        let word = self.take();
        match word.text == text {
            true => Ok(word),
            false => Err(Mistake::at(word, format!("expected `{text}`"))),
        }
    }

    /// No more words.
    pub fn finish(&self) -> Result<(), Mistake> {
        match self.is_empty() {
            true => Ok(()),
            false => Err(Mistake::at(self.peek(), "expected the end of the line")),
        }
    }

    /// The words before and behind the last word that is `text`.
    pub fn split_at_last(&self, text: &str) -> Option<(Words<'a>, Words<'a>)> {
        let place = self.words.iter().rposition(|word| word.text == text);
        self.split(place?)
    }

    /// The words before and behind the first word that is `text`.
    pub fn split_at_first(&self, text: &str) -> Option<(Words<'a>, Words<'a>)> {
        let place = self.words.iter().position(|word| word.text == text);
        self.split(place?)
    }

    fn split(&self, place: usize) -> Option<(Words<'a>, Words<'a>)> {
        (place >= self.next).then(|| {
            let before = Words {
                words: self.words[..place].to_vec(),
                next: self.next,
                end: self.words[place],
            };
            let mut behind = self.clone();
            behind.next = place + 1;
            (before, behind)
        })
    }
}

/// Whether a character belongs to the same word, or to the same blank, as the first one.
fn continues(first: char, next: char) -> bool {
    let class = |c: char| match c {
        c if c.is_whitespace() => 0,
        c if is_of_name(c) => 1,
        c if OF_OPERATORS.contains(c) => 2,
        _ => 3,
    };
    class(first) == class(next) && class(first) != 3
}

/// Whether a character may be in the name of a state.
pub fn is_of_name(c: char) -> bool {
    c.is_alphanumeric() || "_.'".contains(c)
}

#[cfg(test)]
mod tests {
    use super::*;

    fn split(text: &str) -> Vec<(&str, usize)> {
        let words = Words::of(1, text).words;
        words.iter().map(|word| (word.text, word.column)).collect()
    }

    #[test]
    fn words_and_columns() {
        assert_eq!(
            split("  a.1  x.next:=y ->b"),
            [
                ("a.1", 3),
                ("x.next", 8),
                (":=", 14),
                ("y", 16),
                ("->", 18),
                ("b", 20)
            ]
        );
        assert_eq!(
            split("d->*,#"),
            [("d", 1), ("->", 2), ("*", 4), (",", 5), ("#", 6)]
        );
        assert_eq!(split("é (x)"), [("é", 1), ("(", 3), ("x", 4), (")", 5)]);
        assert_eq!(split(" "), []);
    }

    #[test]
    fn the_end_has_a_place() {
        let mut words = Words::of(7, "a b");
        assert_eq!((words.take().text, words.take().text), ("a", "b"));
        let end = words.take();
        assert_eq!((end.text, end.line, end.column), ("", 7, 5));
        assert!(words.finish().is_ok());
    }
}
