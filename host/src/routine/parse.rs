//! From the text of a routine to its job, or to all mistakes of the text.

use super::foreign::{without_comment, SEMICOLON};
use super::layout::{repaired, BYTE_ORDER_MARK};
use super::listing::{translate, Lines, Listing};
use super::mistake::Mistake;
use super::mistakes::Mistakes;
use super::names::Names;
use super::words::{is_of_name, Word, Words};
use super::{forbidden_text, operation_text, sets, Origin, Routine};
use crate::reference::job::{
    Job, Located, Transition, MOST_FORBIDDEN, MOST_STATES, MOST_TRANSITIONS, MOST_VARIABLES,
};
use crate::reference::operation::VALUE_KINDS;
use crate::reference::version::Version;
use crate::text::{counted, nearest};

/// Words that name no variable.
const RESERVED: [&str; 5] = ["null", "skip", "new", "delete", "read"];

/// The words that begin a line which is no transition.
const HEADS: [&str; 4] = ["variables", "start", "listing", FORBIDDEN];

const FORBIDDEN: &str = "forbidden";
const STEPS: &str = "steps";

/// The state that nothing has to leave.
const LAST: &str = "end";

/// Reads a routine, or gives all mistakes.
pub fn parse(text: &str) -> Result<Routine, Mistakes> {
    let mut parser = Parser::new();
    parser.is_bare = is_bare_listing(text);
    parser.routine(text)
}

/// Reads a routine whose listing begins at the first line.
pub fn parse_listing(text: &str) -> Result<Routine, Mistakes> {
    let mut parser = Parser::new();
    let is_of_transitions = text.lines().any(|line| head(line) == "start");
    match is_of_transitions {
        true => parser.is_misnamed = true,
        false => parser.reading = Some(Lines::new()),
    }
    parser.routine(text)
}

/// The first word of a line in small letters.
fn head(line: &str) -> String {
    Words::of(1, line).take().text.to_lowercase()
}

/// Whether a text is a listing, though no line says so: none is a head of a routine of transitions,
/// and some line is one of a listing.
fn is_bare_listing(text: &str) -> bool {
    let is_head = |line: &str| !nearest(&head(line), HEADS[..3].iter().copied()).is_empty();
    let is_statement = |line: &str| {
        let line = line.trim().trim_end_matches(';');
        let begins = |head: &str| line.starts_with(head);
        ["while", "if"].into_iter().any(begins) || translate(&format!("{line}\n")).is_ok()
    };
    !text.lines().any(is_head) && text.lines().any(is_statement)
}

/// What is read of a text so far.
struct Parser<'a> {
    /// How many lines are read.
    lines: usize,
    /// What is wrong so far.
    found: Vec<Mistake>,
    /// Whether the text is a listing that isn't announced.
    is_bare: bool,
    /// Whether it is a routine of transitions in a file for listings.
    is_misnamed: bool,
    /// Whether the rest of the text can't be read any more.
    is_lost: bool,
    title: String,
    variables: Names,
    states: Names,
    /// Where each state is named first; a listing names none.
    named: Vec<(usize, usize)>,
    start: Option<usize>,
    transitions: Vec<Transition>,
    /// The listing's lines, as long as it goes on.
    reading: Option<Lines<'a>>,
    /// The blank lines and comments since the listing's last line.
    gap: Vec<(usize, &'a str)>,
    /// Nothing for a routine of transitions.
    listing: Option<Listing>,
    /// Nothing until the line `forbidden`.
    forbidden: Option<Vec<Located>>,
    origins: Vec<Origin>,
}

impl<'a> Parser<'a> {
    fn new() -> Parser<'a> {
        Parser {
            lines: 0,
            found: Vec::new(),
            is_bare: false,
            is_misnamed: false,
            is_lost: false,
            title: String::new(),
            variables: Names::of("variable"),
            states: Names::of("state"),
            named: Vec::new(),
            start: None,
            transitions: Vec::new(),
            reading: None,
            gap: Vec::new(),
            listing: None,
            forbidden: None,
            origins: Vec::new(),
        }
    }

    fn routine(mut self, text: &'a str) -> Result<Routine, Mistakes> {
        let content = text.strip_prefix(BYTE_ORDER_MARK).unwrap_or(text);
        if content != text {
            let what = "a byte order mark ahead of the text: expected the first line";
            let first = content.lines().next().unwrap_or_default();
            let right = repaired(first).trim_end().to_string();
            self.found
                .push(Mistake::new(1, 1, "", what).with_right([right]));
        }
        for (index, line) in content.split_inclusive('\n').enumerate() {
            self.lines = index + 1;
            if let Err(mistake) = self.line(line) {
                self.found.push(mistake);
            }
        }
        self.translate();
        match self.found.is_empty() {
            true => self
                .finish()
                .map_err(|mistake| Mistakes::of(content, vec![mistake])),
            false => Err(Mistakes::of(content, self.found)),
        }
    }

    fn line(&mut self, line: &'a str) -> Result<(), Mistake> {
        let (content, comment) = line.split_once("--").unwrap_or((line, ""));
        if self.title.is_empty() {
            self.title = comment.trim().to_string();
        }
        let words = Words::of(self.lines, content);
        if self.is_bare && !words.is_empty() {
            self.is_bare = false;
            self.found.push(bare(&words, content));
            self.reading = Some(Lines::new());
        }
        if self.is_misnamed && !words.is_empty() {
            self.is_misnamed = false;
            let what = "a routine of transitions: expected a file whose name ends in `.routine`";
            self.found.push(Mistake::at(words.peek(), what));
        }
        match &self.reading {
            _ if self.is_lost => Ok(()),
            None => self.read(words, content),
            Some(reading) if words.is_empty() => {
                if !reading.lines.is_empty() {
                    self.gap.push((self.lines, line));
                }
                Ok(())
            }
            Some(_) => self.line_of_listing(words, line, content),
        }
    }

    /// A line below the beginning of a listing, which may be the first that isn't of it.
    fn line_of_listing(
        &mut self,
        words: Words,
        line: &'a str,
        content: &str,
    ) -> Result<(), Mistake> {
        let first = words.peek();
        let lower = first.text.to_lowercase();
        let texts: Vec<&str> = words.rest().iter().map(|word| word.text).collect();
        let is_shape = match texts[..] {
            ["steps"] => true,
            ["mark", _, next, _, ..] => next.chars().all(char::is_alphabetic),
            _ => false,
        };
        if texts == [FORBIDDEN] {
            self.translate();
            return self.read(words, content);
        }
        let is_forbidden = lower.len() > 4 && !nearest(&lower, [FORBIDDEN]).is_empty();
        if is_forbidden {
            self.translate();
            self.forbidden = Some(Vec::new());
            let wrong = match first.text == FORBIDDEN {
                true => Mistake::at(words.rest()[1], "expected the end of the line"),
                false => Mistake::at(first, format!("did you mean `{FORBIDDEN}`?")),
            };
            return Err(wrong.with_right([FORBIDDEN.to_string()]));
        }
        if is_shape {
            self.translate();
            self.forbidden = Some(Vec::new());
            let what = format!("what is forbidden: expected a line `{FORBIDDEN}` above");
            let right = [FORBIDDEN.to_string(), content.trim().to_string()];
            self.found.push(Mistake::at(first, what).with_right(right));
            return self.read(words, content);
        }
        let gap = std::mem::take(&mut self.gap);
        let mistakes = gap.into_iter().map(|(number, line)| in_gap(number, line));
        self.found.extend(mistakes);
        if let Some(reading) = &mut self.reading {
            reading.push(self.lines, line);
        }
        Ok(())
    }

    fn read(&mut self, words: Words, content: &str) -> Result<(), Mistake> {
        let mut behind = words.clone();
        let first = behind.take();
        if first.text.is_empty() {
            return Ok(());
        }
        if self.forbidden.is_some() {
            return self.forbidden_line(words, content);
        }
        match self.head(first, &behind) {
            FORBIDDEN if behind.is_empty() => {
                self.forbidden = Some(Vec::new());
                Ok(())
            }
            "listing" if behind.is_empty() => self.begin_listing(first),
            "variables" => self.name_variables(first, behind),
            "start" => self.name_start(first, behind),
            _ => self.transition(first, behind),
        }
    }

    /// The head that a line begins with, which may be misspelt where the line is no transition.
    fn head<'w>(&mut self, first: Word<'w>, behind: &Words) -> &'w str {
        let is_transition = behind.rest().iter().any(|word| word.text == "->");
        match nearest(&first.text.to_lowercase(), HEADS)[..] {
            [near, ..] if near != first.text && !is_transition => {
                let wrong = Mistake::at(first, format!("did you mean `{near}`?"));
                self.found.push(wrong);
                near
            }
            _ => first.text,
        }
    }

    fn begin_listing(&mut self, head: Word) -> Result<(), Mistake> {
        self.reading = Some(Lines::new());
        match self.variables.all.is_empty() && self.states.all.is_empty() {
            true => Ok(()),
            false => {
                let what = "a listing has no `variables`, `start` or transitions beside it";
                Err(Mistake::at(head, what))
            }
        }
    }

    /// Has the listing translated once its last line is read.
    fn translate(&mut self) {
        let Some(lines) = self.reading.take() else {
            return;
        };
        let (listing, mistakes) = Listing::translate(&lines);
        self.found.extend(mistakes);
        let Some(listing) = listing else {
            self.is_lost = true;
            return;
        };
        self.variables.all = listing.variables.clone();
        self.states.all = listing.states.clone();
        self.start = Some(listing.job.start as usize);
        self.transitions = listing.job.transitions.clone();
        self.listing = Some(listing);
    }

    fn name_variables(&mut self, head: Word, mut words: Words) -> Result<(), Mistake> {
        if !self.variables.all.is_empty() {
            return Err(Mistake::at(head, "the variables are named already"));
        }
        if words.is_empty() {
            return Err(Mistake::at(words.peek(), "expected the names of variables"));
        }
        while !words.is_empty() {
            let word = words.take();
            if let Err(mistake) = self.name_variable(word) {
                self.found.push(mistake);
            }
        }
        Ok(())
    }

    fn name_variable(&mut self, word: Word) -> Result<(), Mistake> {
        let name = word.text;
        if !name.chars().all(|c| c.is_ascii_alphanumeric() || c == '_') {
            let what = "expected a name of letters, digits and _";
            return Err(Mistake::at(word, what));
        }
        if RESERVED.contains(&name) || self.variables.number(name).is_some() {
            let what = "the word is taken: expected another name";
            return Err(Mistake::at(word, what));
        }
        if self.variables.all.len() as u64 == MOST_VARIABLES {
            let what = format!("a routine has at most {MOST_VARIABLES} variables");
            return Err(Mistake::at(word, what));
        }
        self.variables.all.push(name.to_string());
        Ok(())
    }

    fn name_start(&mut self, head: Word, mut words: Words) -> Result<(), Mistake> {
        if self.start.is_some() {
            return Err(Mistake::at(head, "the start is named already"));
        }
        self.start = Some(self.state(words.take())?);
        words.finish()
    }

    fn transition(&mut self, from: Word, words: Words) -> Result<(), Mistake> {
        let Some((operation, mut to)) = words.split_at_last("->") else {
            return Err(no_transition(words));
        };
        // Both states are known from here on, whatever the operation is.
        let states = (self.state(from), self.state(to.take()));
        let transition = Transition {
            from: states.0? as u64,
            operation: operation_text::operation(operation, &self.variables)?,
            to: states.1? as u64,
        };
        to.finish()?;
        if self.transitions.len() as u64 == MOST_TRANSITIONS {
            let what = format!("a routine has at most {MOST_TRANSITIONS} transitions");
            return Err(Mistake::at(from, what).told_once());
        }
        self.transitions.push(transition);
        Ok(())
    }

    /// The number of a state, which is the next one where the name is new.
    fn state(&mut self, word: Word) -> Result<usize, Mistake> {
        if word.text.is_empty() || !word.text.chars().all(is_of_name) {
            return Err(Mistake::at(word, "expected the name of a state"));
        }
        if let Some(number) = self.states.number(word.text) {
            return Ok(number);
        }
        if self.states.all.len() as u64 == MOST_STATES {
            let what = format!("a routine has at most {MOST_STATES} states");
            return Err(Mistake::at(word, what));
        }
        self.states.all.push(word.text.to_string());
        self.named.push((word.line, word.column));
        Ok(self.states.all.len() - 1)
    }

    /// A line below `forbidden`.
    fn forbidden_line(&mut self, words: Words, content: &str) -> Result<(), Mistake> {
        match words.rest() {
            [before @ .., last] if last.text == ";" => {
                let (code, _) = split_at_column(content, last.column);
                let read = self.forbidden_line(Words::new(last.line, before.to_vec()), code);
                let right = match &read {
                    Ok(()) => Some(vec![code.trim().to_string()]),
                    Err(wrong) => wrong.right.clone(),
                };
                let semicolon = Mistake::at(*last, SEMICOLON).told_once();
                self.found.push(Mistake { right, ..semicolon });
                read
            }
            [] => Ok(()),
            [first] if first.text == STEPS => self.forbid_steps(Some(*first)),
            [first] if !nearest(&first.text.to_lowercase(), [STEPS]).is_empty() => {
                let wrong = Mistake::at(*first, format!("did you mean `{STEPS}`?"));
                Err(wrong.with_right([STEPS.to_string()]))
            }
            _ => self.forbid_at_state(words, content),
        }
    }

    /// A line that forbids shapes at a state, which a listing's mark names.
    fn forbid_at_state(&mut self, mut words: Words, content: &str) -> Result<(), Mistake> {
        let first = words.peek();
        let state = match &self.listing {
            Some(listing) => listing.state(&mut words)?,
            None => {
                words.take();
                self.states.find(first, first.text, "")?
            }
        };
        let behind = words.peek();
        let (before, text) = split_at_column(content, behind.column);
        if behind.text == ":" {
            let what = "a colon behind the state: expected what is forbidden there";
            let right = format!("{before}{}", &text[1..]);
            return Err(Mistake::at(behind, what).with_right([right.trim().to_string()]));
        }
        let shapes = forbidden_text::shapes(words, &self.variables);
        let shapes = shapes.map_err(|wrong| Mistake {
            right: wrong.right.map(|lines| {
                let whole = lines.iter().map(|line| format!("{before}{line}"));
                whole.collect()
            }),
            ..wrong
        })?;
        let located = shapes.into_iter().map(|shape| Located {
            state: state as u64,
            shape,
        });
        self.forbid(Some(first), located.collect(), text.trim())
    }

    /// Steps through null and dangling; without a line where nothing else is forbidden.
    fn forbid_steps(&mut self, at: Option<Word>) -> Result<(), Mistake> {
        let shapes = sets::steps(self.variables.all.len(), &self.transitions);
        self.forbid(at, shapes, STEPS)
    }

    fn forbid(
        &mut self,
        at: Option<Word>,
        shapes: Vec<Located>,
        text: &str,
    ) -> Result<(), Mistake> {
        let forbidden = self.forbidden.get_or_insert_with(Vec::new);
        let origin = Origin {
            line: at.map(|word| word.line),
            text: text.to_string(),
        };
        self.origins.extend(shapes.iter().map(|_| origin.clone()));
        forbidden.extend(shapes);
        match forbidden.len() as u64 {
            0..=MOST_FORBIDDEN => Ok(()),
            _ => {
                let what = format!("more than {MOST_FORBIDDEN} forbidden shapes up to here");
                let wrong =
                    at.map_or_else(|| self.at_the_end(&what), |word| Mistake::at(word, &*what));
                Err(wrong.told_once())
            }
        }
    }

    fn at_the_end(&self, what: &str) -> Mistake {
        Mistake::new(self.lines.max(1), 1, "", what)
    }

    fn finish(mut self) -> Result<Routine, Mistake> {
        let Some(start) = self.start else {
            let what = "no line names the start; expected `start` and a state above";
            return Err(self.at_the_end(what));
        };
        if self.listing.is_some() && self.forbidden.is_none() {
            self.forbid_steps(None)?;
        }
        let Some(forbidden) = self.forbidden.clone().filter(|all| !all.is_empty()) else {
            let what = "nothing is forbidden; expected a line `forbidden` and shapes below it";
            return Err(self.at_the_end(what));
        };
        if self.variables.all.is_empty() {
            let what = "no line names the variables; expected `variables` and names above";
            return Err(self.at_the_end(what));
        }
        let warnings = self.warnings(&forbidden);
        let listing = self.listing.map(|listing| listing.statements);
        let statements = listing.unwrap_or_default();
        if self.title.is_empty() && !statements.is_empty() {
            self.title = format!("A listing of {}.", counted(statements.len(), "line"));
        }
        Ok(Routine {
            warnings,
            title: self.title,
            statements,
            job: Job {
                version: version(&self.transitions, &forbidden),
                variables: self.variables.all.len() as u64,
                states: self.states.all.len() as u64,
                start: start as u64,
                transitions: self.transitions,
                forbidden,
            },
            variables: self.variables.all,
            states: self.states.all,
            origins: self.origins,
        })
    }

    /// States that may be misspelt: nothing leads there, or nothing leaves and nothing is forbidden
    /// there.
    fn warnings(&self, forbidden: &[Located]) -> Vec<Mistake> {
        let mut warnings = Vec::new();
        for (number, (name, &(line, column))) in self.states.all.iter().zip(&self.named).enumerate()
        {
            let state = number as u64;
            let is_led_to =
                self.start == Some(number) || self.transitions.iter().any(|t| t.to == state);
            let is_left = self.transitions.iter().any(|t| t.from == state);
            let is_watched = forbidden.iter().any(|bad| bad.state == state);
            let what = match (is_led_to, is_left || is_watched || name == LAST) {
                (false, _) => "nothing leads to this state",
                (true, false) => "nothing leaves this state and nothing is forbidden there",
                (true, true) => continue,
            };
            let others = self.states.all.iter().filter(|&other| other != name);
            let meant = match nearest(name, others.map(String::as_str))[..] {
                [near, ..] if !name.contains('.') => format!("; did you mean `{near}`?"),
                _ => String::new(),
            };
            warnings.push(Mistake::new(line, column, name, format!("{what}{meant}")));
        }
        warnings
    }
}

/// Version 2 exactly if an operation or a forbidden shape is about values.
fn version(transitions: &[Transition], forbidden: &[Located]) -> Version {
    let mut kinds = transitions.iter().map(|t| t.operation.kind);
    let mut shapes = forbidden.iter().map(|bad| &bad.shape);
    match kinds.any(|kind| VALUE_KINDS.contains(&kind)) || shapes.any(|s| !s.facts.is_empty()) {
        true => Version::Two,
        false => Version::One,
    }
}

/// A line before and from a column, which counts from 1.
fn split_at_column(line: &str, column: usize) -> (&str, &str) {
    let at = line.char_indices().nth(column - 1);
    line.split_at(at.map_or(line.len(), |(at, _)| at))
}

/// What is wrong with a line that has no arrow.
fn no_transition(mut words: Words) -> Mistake {
    while !words.is_empty() {
        words.take();
    }
    let what = "expected `->` and a state: a line is a state, an operation, `->` and a state";
    Mistake::at(words.peek(), what)
}

/// What is wrong with a listing that isn't announced, at its first line.
fn bare(words: &Words, content: &str) -> Mistake {
    let what = "a listing in a file of another ending: expected a line `listing` above, or a file \
                whose name ends in `.listing`";
    let right = ["listing".to_string(), content.trim().to_string()];
    Mistake::at(words.peek(), what).with_right(right)
}

/// What is wrong with a line between others of a listing that is blank or a comment.
fn in_gap(number: usize, line: &str) -> Mistake {
    let blank = || {
        let what = "a blank line inside of a listing, which would end it: expected none";
        Mistake::new(number, 1, "", what).told_once()
    };
    let (_, comment) = without_comment(number, line);
    comment.unwrap_or_else(blank).with_right([])
}

#[cfg(test)]
mod tests {
    use super::*;
    use crate::reference::facts::Fact;
    use crate::reference::shape::Shape;

    const SMALL: &str = include_str!("../../tests/small.txt");

    #[test]
    fn a_small_routine() {
        let routine = parse(SMALL).unwrap();
        assert_eq!(routine.title, "Makes one cell.");
        assert_eq!(routine.states, ["begin", "linked", "end"]);
        assert_eq!(routine.warnings, []);
        let job = &routine.job;
        let bytes = [
            1, 2, 3, 0, 4, // two variables, three states, start 0, four transitions
            0, 6, 1, 0, 1, // begin new(x) linked
            1, 5, 1, 0, 2, // linked x.next := null end
            2, 4, 2, 1, 2, // end y := x.next end
            2, 1, 0, 0, 2, // end null = null end
            5, // forbidden shapes
            2, 3, 3, 0, 4, 2, 0, // at end: x at c, three links
            1, 0, 1, 0, 1, 0, 2, 0, // at linked: x at #, x at *
            2, 0, 1, 0, 2, 0, 2, 0, // at end: x at #, x at *
        ];
        assert_eq!(job.bytes(), bytes);
        assert_eq!(Job::read(&bytes), Ok(job.clone()));
        let texts = ["new(x)", "x.next := null", "y := x.next", "skip"];
        for (number, text) in texts.into_iter().enumerate() {
            assert_eq!(routine.operation(number), text);
        }
    }

    /// What is said of values makes a job of version 2.
    #[test]
    fn a_routine_with_values() {
        let text = SMALL
            .replace("y := x.next   ", "x.num :=> x.num")
            .replace("d -> *", "value d, c < d = e, d = e");
        let routine = parse(&text).unwrap();
        let job = &routine.job;
        let bytes = [
            2, 2, 3, 0, 4, // version 2, otherwise as above
            0, 6, 1, 0, 1, // begin new(x) linked
            1, 5, 1, 0, 2, // linked x.next := null end
            2, 11, 1, 1, 2, // end x.num :=> x.num end
            2, 1, 0, 0, 2, // end null = null end
            3, // forbidden shapes
            2, 3, 3, 0, 4, 0, 0, // at end: x at c, c -> d
            3, 0, 0, 1, 1, 1, 1, 1, 1, 2, // c < d, d = d, d = e
            1, 0, 1, 0, 0, 1, 0, 2, 0, 0, // at linked: x at #, x at *
        ];
        assert_eq!(job.bytes(), bytes);
        assert_eq!(Job::read(&bytes), Ok(job.clone()));
        assert_eq!(routine.operation(2), "x.num :=> x.num");
    }

    #[test]
    fn facts_alone_make_version_2() {
        for (fact, version) in [
            ("cell d", Version::One),
            ("value d", Version::Two),
            ("d = c", Version::Two),
        ] {
            let routine = parse(&SMALL.replace("d -> *", fact)).unwrap();
            assert_eq!(routine.job.version, version, "{fact}");
        }
        let routine = parse(&SMALL.replace("steps", "end not sorted: y")).unwrap();
        assert_eq!(routine.job.version, Version::Two);
        let shapes: Vec<&Shape> = routine.job.forbidden[1..]
            .iter()
            .map(|bad| &bad.shape)
            .collect();
        let at_y = [0, 3];
        let pair = Shape::of_codes(&at_y, &[4, 0]).with_facts(vec![Fact::below(1, 0)]);
        let behind = Shape::of_codes(&at_y, &[4, 5, 0]).with_facts(vec![Fact::below(2, 1)]);
        assert_eq!(shapes, [&pair, &behind]);
    }

    #[test]
    fn forbidden_shapes_know_their_line() {
        let routine = parse(SMALL).unwrap();
        let origins: Vec<(usize, &str)> = routine
            .origins
            .iter()
            .map(|origin| (origin.line.unwrap(), &origin.text[..]))
            .collect();
        let shape = "x at c, c -> d, d -> *, cell e";
        let steps = (12, "steps");
        assert_eq!(origins, [(11, shape), steps, steps, steps, steps]);
    }
}
