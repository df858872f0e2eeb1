//! A listing in place of a routine's transitions; the proved library translates it.

use super::listing_mistake::{refused, Refused};
use super::mistake::Mistake;
use super::words::Words;
use crate::library;
use crate::reference::job::{Job, MOST_VARIABLES};
use crate::reference::listing::{MARKS, NO_STATE};

/// A listing has at most 63 lines, and a line makes at most two transitions of five bytes.
const ROOM: usize = 1_024;

/// The name of the one variable where the listing has no name.
const UNNAMED: &str = "a";

/// The lines of a listing as they stand in a file, to the byte.
pub struct Lines<'a> {
    /// Each with its number in the file, from 1.
    pub lines: Vec<(usize, &'a str)>,
}

impl<'a> Lines<'a> {
    pub fn new() -> Lines<'a> {
        Lines { lines: Vec::new() }
    }

    /// Takes the line of the file with this number.
    pub fn push(&mut self, number: usize, line: &'a str) {
        self.lines.push((number, line));
    }

    /// The states as a person finds them: each line begins at one, and one is after the last.
    fn states(&self) -> Vec<String> {
        let lines = self.lines.iter().map(|(line, _)| format!("line {line}"));
        let last = match self.lines.last() {
            None => "start".to_string(),
            Some((line, _)) => format!("after line {line}"),
        };
        lines.chain([last]).collect()
    }

    /// The names in the order in which they are first met.
    pub fn names(&self) -> Vec<String> {
        names(self.lines.iter().map(|(_, line)| *line))
    }
}

/// The names in lines in the order in which they are first met.
fn names<'a>(lines: impl Iterator<Item = &'a str>) -> Vec<String> {
    let mut names: Vec<String> = Vec::new();
    for word in lines.flat_map(|line| line.split(|c: char| !c.is_ascii_lowercase())) {
        if word.len() == 1 && !names.iter().any(|name| name == word) {
            names.push(word.to_string());
        }
    }
    if names.is_empty() {
        names.push(UNNAMED.to_string());
    }
    names
}

/// The bytes that the library makes of a text, and each mark's state; or the number of its refusal,
/// and the line.
pub fn translate(text: &str) -> Result<(Vec<u8>, [u8; MARKS]), (u32, usize)> {
    let (mut bytes, mut marks, mut told) = ([0; ROOM], [NO_STATE; MARKS], [0]);
    let refused = library::translate(text.as_bytes(), &mut bytes, &mut marks, &mut told);
    let told = told[0] as usize;
    match refused {
        0 => Ok((bytes[..told].to_vec(), marks)),
        refused => Err((refused, told)),
    }
}

/// What the library makes of a listing, with the names that a person knows.
pub struct Listing {
    pub variables: Vec<String>,
    pub states: Vec<String>,
    /// The line that begins at each state but the last.
    pub statements: Vec<String>,
    /// The transitions; what is forbidden isn't said yet.
    pub job: Job,
    /// Each mark with its state.
    pub marks: Vec<(usize, usize)>,
}

impl Listing {
    /// The listing of these lines, and its mistakes. Where it has some, what is forbidden can still be
    /// read with the names and marks that it has, unless they are too many names.
    pub fn translate(lines: &Lines) -> (Option<Listing>, Vec<Mistake>) {
        let texts: Vec<&str> = lines.lines.iter().map(|(_, line)| *line).collect();
        let Ok((bytes, marks)) = translate(&texts.concat()) else {
            let refused = refused(lines);
            assert!(!refused.mistakes.is_empty(), "what is refused is mistaken");
            return (Listing::of_names(lines, &refused), refused.mistakes);
        };
        let marks = marks.iter().map(|&state| usize::from(state)).enumerate();
        let statement = |line: &&str| line.trim_end().to_string();
        let listing = Listing {
            variables: lines.names(),
            states: lines.states(),
            statements: texts.iter().map(statement).collect(),
            job: job(&bytes),
            marks: marks
                .filter(|&(_, state)| state != usize::from(NO_STATE))
                .collect(),
        };
        (Some(listing), Vec::new())
    }

    /// An empty listing with the names and the marks of one that is refused.
    fn of_names(lines: &Lines, refused: &Refused) -> Option<Listing> {
        let all = lines.lines.iter().map(|(_, line)| *line);
        let variables = names(all.chain(refused.right.iter().map(String::as_str)));
        let is_told = |mark: &usize| refused.right.contains(&format!("mark {mark}\n"));
        let is_mark = |mark: &usize| refused.is_mark_lost || is_told(mark);
        let (bytes, _) = translate("").expect("an empty listing is one");
        (variables.len() as u64 <= MOST_VARIABLES).then(|| Listing {
            variables,
            states: Lines::new().states(),
            statements: Vec::new(),
            job: job(&bytes),
            marks: (0..MARKS).filter(is_mark).map(|mark| (mark, 0)).collect(),
        })
    }

    /// The state of the mark that is named, as `mark 0`.
    pub fn state(&self, words: &mut Words) -> Result<usize, Mistake> {
        words.expect("mark").map_err(|wrong| Mistake {
            what: "expected `mark` and its number, since the routine is a listing".to_string(),
            ..wrong
        })?;
        let number = words.take();
        let found = self
            .marks
            .iter()
            .find(|(mark, _)| mark.to_string() == number.text);
        found.map(|&(_, state)| state).ok_or_else(|| {
            let known: Vec<String> = self
                .marks
                .iter()
                .map(|(mark, _)| mark.to_string())
                .collect();
            let what = match known.is_empty() {
                true => "the listing has no mark".to_string(),
                false => format!("expected a mark of the listing: {}", known.join(", ")),
            };
            Mistake::at(number, what)
        })
    }
}

/// The job that begins with these bytes, with a forbidden shape, since there has to be one.
fn job(ahead: &[u8]) -> Job {
    let variables = usize::from(ahead[1]);
    let bytes = [ahead, &[1, 0, 0], &vec![0; variables]].concat();
    Job::read(&bytes).expect("what is translated is the beginning of a job")
}
