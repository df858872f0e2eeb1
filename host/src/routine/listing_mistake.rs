//! What is to be said of a listing that is refused. The library names a line; what is wrong there and
//! what would be right is guessed. The line is put right, or left out, and the library is asked again,
//! until it has named all.

use super::foreign::{self, Part, KEYWORDS};
use super::layout;
use super::listing::{translate, Lines};
use super::mistake::Mistake;
use super::names::Names;
use super::operation_text;
use super::short_names::ShortNames;
use super::words::Words;
use crate::reference::job::MOST_VARIABLES;
use crate::reference::listing::{MARKS, MOST_OPEN};
use crate::reference::operation::{Operation, DIFFERENT};
use crate::text::nearest;

const FORMS: &str = "no line of a listing: expected an operation, `while T`, `if T`, `end` or `mark k`, where T is \
                     `a = b`, `a != b` or `any`";

/// Words that leave a line or a loop elsewhere.
const LEAVING: [&str; 4] = ["break", "continue", "return", "goto"];

/// Words that begin a loop elsewhere.
const LOOPS: [&str; 5] = ["for", "loop", "repeat", "until", "do"];

/// Words that close a block elsewhere.
const CLOSING: [&str; 7] = ["}", "endwhile", "endif", "done", "fi", "od", "wend"];

/// A listing that is refused, gone through to its end.
pub struct Refused {
    pub mistakes: Vec<Mistake>,
    /// Its lines as far as they can be put right.
    pub right: Vec<String>,
    /// Whether it is unclear which marks it has.
    pub is_mark_lost: bool,
}

/// A line while the library is asked.
struct Asked {
    number: usize,
    text: String,
    /// Whether its mistakes are told.
    is_put_right: bool,
}

/// All mistakes of a listing that the library refuses.
pub fn refused(lines: &Lines) -> Refused {
    let mut asked: Vec<Asked> = lines
        .lines
        .iter()
        .map(|&(number, text)| Asked {
            number,
            text: text.to_string(),
            is_put_right: false,
        })
        .collect();
    let mut names = ShortNames::of(&lines.names());
    let mut mistakes = Vec::new();
    let mut is_mark_lost = false;
    loop {
        let texts: Vec<&str> = asked.iter().map(|line| &line.text[..]).collect();
        let Err((number, line)) = translate(&texts.concat()) else {
            break;
        };
        let Some(at) = asked.get(line - 1) else {
            mistakes.extend(open(&asked).iter().map(|block| never_closed(block, lines)));
            break;
        };
        if number != 17 {
            mistakes.push(beyond_limit(number, at, &asked[..line - 1], lines));
            break;
        }
        let mut right = Vec::new();
        if !at.is_put_right {
            let mut reading = Reading::of(at, &asked[..line - 1], &mut names);
            reading.line();
            right = reading.right;
            is_mark_lost |= reading.is_mark_lost;
            mistakes.extend(reading.found);
        }
        let number = at.number;
        let right = right.into_iter().map(|text| Asked {
            number,
            text: format!("{text}\n"),
            is_put_right: true,
        });
        asked.splice(line - 1..line, right.collect::<Vec<_>>());
    }
    Refused {
        mistakes,
        right: asked.into_iter().map(|line| line.text).collect(),
        is_mark_lost,
    }
}

/// The lines whose `while` or `if` has no end yet.
fn open(lines: &[Asked]) -> Vec<&Asked> {
    let mut open = Vec::new();
    for line in lines {
        match line.text.trim_end() {
            "end" => drop(open.pop()),
            text if text.starts_with("while ") || text.starts_with("if ") => open.push(line),
            _ => {}
        }
    }
    open
}

/// A mistake about the first word of a line, as it stands in the file.
fn at_first_word(line: &Asked, lines: &Lines, what: impl Into<String>) -> Mistake {
    let source = lines
        .lines
        .iter()
        .find(|(number, _)| *number == line.number);
    let source = source.map_or(&line.text[..], |(_, text)| text);
    Mistake::at(Words::of(line.number, source).peek(), what)
}

fn never_closed(block: &Asked, lines: &Lines) -> Mistake {
    at_first_word(
        block,
        lines,
        "a block without its end: expected a line `end` below",
    )
}

/// Why a line is beyond a limit.
fn beyond_limit(refused: u32, line: &Asked, above: &[Asked], lines: &Lines) -> Mistake {
    let what = match refused {
        18 => format!("at most {MOST_OPEN} `while` and `if` may be open at once"),
        _ if above.len() + 1 == MARKS => format!("a listing has at most {} lines", MARKS - 1),
        _ => format!("a listing has at most {MOST_VARIABLES} names"),
    };
    at_first_word(line, lines, what)
}

/// One line that is refused.
struct Reading<'a> {
    number: usize,
    text: &'a str,
    /// The lines above as they are to be.
    above: &'a [Asked],
    names: &'a mut ShortNames,
    found: Vec<Mistake>,
    /// What the listing goes on with in place of the line.
    right: Vec<String>,
    /// Whether that may be told as right.
    is_certain: bool,
    /// Whether the line is a mark of an unknown number.
    is_mark_lost: bool,
}

impl<'a> Reading<'a> {
    fn of(line: &'a Asked, above: &'a [Asked], names: &'a mut ShortNames) -> Reading<'a> {
        Reading {
            number: line.number,
            text: &line.text,
            above,
            names,
            found: Vec::new(),
            right: Vec::new(),
            is_certain: true,
            is_mark_lost: false,
        }
    }

    /// Finds what is wrong with the line.
    fn line(&mut self) {
        let layout = layout::mistakes(self.number, self.text);
        let (code, comment) = foreign::without_comment(self.number, self.text);
        self.found.extend(comment);
        let (parts, foreign) = foreign::parts(self.number, code, self.names);
        self.found.extend(foreign);
        for statement in parts.split(|part| part.text == ";") {
            self.statement(statement);
        }
        if self.found.is_empty() {
            self.found.extend(self.wrong_blanks());
        }
        self.found.extend(layout);
        if self.found.is_empty() {
            let first = Words::of(self.number, self.text).peek();
            self.found.push(Mistake::at(first, FORMS));
            self.is_certain = false;
        }
        if self.is_certain {
            for mistake in &mut self.found {
                mistake.right = Some(self.right.clone());
            }
        }
    }

    /// The words are right, but the blanks between them may be others.
    fn wrong_blanks(&self) -> Option<Mistake> {
        let right = self.right.concat();
        let content = layout::repaired(self.text);
        let content = content.trim_end();
        if content == right {
            return None;
        }
        let before = self.text.chars().take_while(|c| c.is_whitespace()).count();
        let same = right.chars().zip(content.chars());
        let same = same.take_while(|(one, other)| one == other).count();
        let (word, what) = match content.chars().nth(same) {
            Some('\t') => ("\t", "a tab: expected one blank".to_string()),
            _ => (
                "",
                format!("blanks: expected `{right}`, with these and no others"),
            ),
        };
        Some(Mistake::new(self.number, 1 + before + same, word, what))
    }

    /// A mistake about a part, where it can be told what is right.
    fn wrong(&mut self, part: &Part, what: impl Into<String>) {
        self.found.push(part.mistake(self.number, what));
    }

    /// A mistake about a part, where it can't.
    fn unclear(&mut self, part: &Part, what: impl Into<String>) {
        self.wrong(part, what);
        self.is_certain = false;
    }

    fn put(&mut self, line: impl Into<String>) {
        self.right.push(line.into());
    }

    /// One statement. A line has several where semicolons are between them.
    fn statement(&mut self, parts: &[Part]) {
        let [first, behind @ ..] = parts else { return };
        if let Some(value) = value(parts) {
            let what = "a listing has no values: expected a routine of transitions";
            if ["while", "if"].contains(&&first.text[..]) {
                self.put(format!("{} any", first.text));
            }
            return self.unclear(value, what);
        }
        let second = behind.first().map_or("", |part| &part.text);
        match &first.text[..] {
            "}" if second == "else" => self.otherwise(&behind[0], &behind[1..]),
            "else" | "elif" | "elsif" | "elseif" => self.otherwise(first, behind),
            "end" => self.end(behind),
            closing if CLOSING.contains(&closing) => {
                self.wrong(first, "an end of other languages: expected `end`");
                self.end(behind);
            }
            "{" => self.wrong(first, BRACE),
            "mark" => self.mark(first, behind),
            "while" | "if" => self.block(first, behind),
            "skip" if behind.is_empty() => {
                self.wrong(first, "a listing has `null = null` for it");
                self.put("null = null");
            }
            "listing" | "variables" | "start" => {
                let what = "a head inside of the listing: expected no such line here";
                self.wrong(first, what);
            }
            word if LEAVING.contains(&word) => {
                let what = "a jump: a listing has none; a block is left at its `end`";
                self.unclear(first, what);
            }
            word if LOOPS.contains(&word) => {
                self.unclear(first, "another loop: a listing has `while T`");
                if ["for", "loop", "repeat"].contains(&word) {
                    self.put("while any");
                }
            }
            "new" | "delete" if behind.len() == 1 => {
                let what = format!(
                    "a call without brackets: expected `{}({second})`",
                    first.text
                );
                self.wrong(first, what);
                self.put(format!("{}({second})", first.text));
            }
            _ => self.begin(first, parts),
        }
    }

    /// A line that is none of the others begins with an operand, `new` or `delete`.
    fn begin(&mut self, first: &Part, parts: &[Part]) {
        let is_operand = parts.get(1).is_some_and(|part| is_operator(&part.text));
        if is_operand || ["new", "delete"].contains(&&first.text[..]) {
            return self.operation(parts);
        }
        let heads = KEYWORDS[..6].iter().copied();
        let lower = first.text.to_lowercase();
        match nearest(&lower, heads)[..] {
            [near, ..] => {
                self.wrong(first, format!("did you mean `{near}`?"));
                let mut parts = parts.to_vec();
                parts[0].text = near.to_string();
                self.statement(&parts);
            }
            [] => self.unclear(first, FORMS),
        }
    }

    /// `else`, which a listing hasn't: a second `if` stands for it.
    fn otherwise(&mut self, word: &Part, behind: &[Part]) {
        let opened = open(self.above).last().copied();
        let test = opened.and_then(|line| line.text.trim_end().strip_prefix("if "));
        let Some(test) = test else {
            return self.unclear(word, "a listing has no `else`, and no `if` is open here");
        };
        let is_inside = |line: &&Asked| Some(line.number) > opened.map(|line| line.number);
        let mut inside = self.above.iter().filter(is_inside);
        let is_changed = inside.any(|line| may_change(&line.text, test));
        let what = "a listing has no `else`: close the `if`, and open one with the opposite test";
        let is_alone = behind
            .iter()
            .all(|part| part.text == "{" || part.text == ":");
        let opposite = match test.contains("!=") {
            true => test.replace("!=", "="),
            false => test.replace('=', "!="),
        };
        match is_alone {
            _ if test == "any" => {
                let what = "a listing has no `else`, and `any` has no opposite: set a variable and test it";
                self.unclear(word, what);
            }
            _ if is_changed => {
                let what = "a listing has no `else`, and what the `if` tests may change above: keep it in \
                            a variable, close the `if`, and open one with the opposite test of that";
                self.unclear(word, what);
            }
            true => {
                self.wrong(word, what);
                self.put("end");
                self.put(format!("if {opposite}"));
            }
            false => self.unclear(word, what),
        }
    }

    /// What stands behind `end` is left out.
    fn end(&mut self, behind: &[Part]) {
        if let [extra, ..] = behind {
            self.wrong(extra, "more than the end of a block: expected `end` alone");
        }
        match open(self.above).is_empty() {
            true => {
                let line = Words::of(self.number, self.text);
                let what = "an end without its block: no `while` or `if` is open here";
                self.found.push(Mistake::at(line.peek(), what));
            }
            false => self.put("end"),
        }
    }

    fn mark(&mut self, first: &Part, behind: &[Part]) {
        let is_known = |number: &&Part| (0..MARKS).any(|known| known.to_string() == number.text);
        let Some(number) = behind.first().filter(is_known) else {
            self.is_mark_lost = true;
            return self.unclear(behind.first().unwrap_or(first), NUMBER);
        };
        if let [_, extra, ..] = behind {
            self.wrong(extra, "more than a mark: expected the end of the line");
        }
        let right = format!("mark {}", number.text);
        match self.above.iter().any(|line| line.text.trim_end() == right) {
            true => self.unclear(number, "this mark stands above already"),
            false => self.put(right),
        }
    }

    /// `while T` or `if T`. Where T isn't one, the block is opened all the same.
    fn block(&mut self, head: &Part, behind: &[Part]) {
        let test = self.without_ending(behind);
        let test = self.without_brackets(test);
        match self.test(head, test) {
            Some(test) => self.put(format!("{} {test}", head.text)),
            None => {
                self.is_certain = false;
                self.put(format!("{} any", head.text));
            }
        }
    }

    /// A test without what other languages have behind it.
    fn without_ending<'p>(&mut self, parts: &'p [Part]) -> &'p [Part] {
        match parts {
            [test @ .., last] if last.text == "{" => {
                self.wrong(last, BRACE);
                test
            }
            [test @ .., last] if ["do", "then", ":"].contains(&&last.text[..]) => {
                let what = "a word behind the test: expected the end of the line";
                self.wrong(last, what);
                test
            }
            _ => parts,
        }
    }

    fn without_brackets<'p>(&mut self, parts: &'p [Part]) -> &'p [Part] {
        match parts {
            [open, test @ .., close] if open.text == "(" && close.text == ")" => {
                self.wrong(open, "brackets: a test has none around it");
                test
            }
            _ => parts,
        }
    }

    /// The test as it is to be written.
    fn test(&mut self, head: &Part, parts: &[Part]) -> Option<String> {
        let texts: Vec<&str> = parts.iter().map(|part| &part.text[..]).collect();
        let is_joining = |part: &&Part| ["and", "or", "&", "|"].contains(&&part.text[..]);
        if let Some(joining) = parts.iter().find(is_joining) {
            let what =
                "two tests at once: a test has one comparison; an `if` inside of an `if` stands \
                        for `and`";
            self.wrong(joining, what);
            return None;
        }
        match texts[..] {
            ["any"] => Some("any".to_string()),
            ["true" | "1"] => {
                self.wrong(
                    &parts[0],
                    "a test that always holds: expected `null = null`",
                );
                Some("null = null".to_string())
            }
            ["not" | "!", name] if is_letter(name) => {
                let what = format!("a test without a comparison: expected `{name} = null`");
                self.wrong(&parts[0], what);
                Some(format!("{name} = null"))
            }
            [name] if is_letter(name) => {
                let what = format!("a test without a comparison: expected `{name} != null`");
                self.wrong(&parts[0], what);
                Some(format!("{name} != null"))
            }
            [a, ":=", b] if is_operand(a) && is_operand(b) => {
                self.wrong(&parts[1], "`:=` sets: expected `=` or `!=`, which test");
                Some(format!("{a} = {b}"))
            }
            [a, sign @ ("=" | "!="), b] if a.ends_with(".next") || b.ends_with(".next") => {
                Some(self.test_of_link(head, parts, sign))
            }
            _ => match operation_text::operation(self.words(parts), &letters()) {
                Ok(test) if test.kind <= DIFFERENT => Some(written(test)),
                Ok(_) => {
                    self.wrong(parts.first()?, "expected `a = b`, `a != b` or `any`");
                    None
                }
                Err(mistake) => {
                    self.found.push(named_as_it_stands(mistake, parts));
                    None
                }
            },
        }
    }

    /// A test of a link, which is loaded first.
    fn test_of_link(&mut self, head: &Part, parts: &[Part], sign: &str) -> String {
        let again = match &head.text[..] {
            "while" => ", and again above the `end`",
            _ => "",
        };
        let what = format!("a link in a test: load it into a variable first{again}");
        let mut sides = Vec::new();
        for part in [&parts[0], &parts[2]] {
            match part.text.ends_with(".next") {
                true => {
                    self.wrong(part, &what[..]);
                    sides.push(self.load(&part.text, None));
                }
                false => sides.push(part.text.clone()),
            }
        }
        format!("{} {sign} {}", sides[0], sides[1])
    }

    fn operation(&mut self, parts: &[Part]) {
        let texts: Vec<&str> = parts.iter().map(|part| &part.text[..]).collect();
        let links = |text: &str| text.matches(".next").count();
        match texts[..] {
            [a, sign @ (":=" | "="), b] if links(a) + links(b) > 0 && are_paths(&[a, b]) => {
                if sign == "=" {
                    self.wrong(&parts[1], TESTS);
                }
                self.links(&parts[0], &parts[2]);
            }
            // Who ends a line with a semicolon sets by this sign.
            [a, "=", b] if self.text.contains(';') && is_letter(a) && is_operand(b) => {
                self.wrong(&parts[1], TESTS);
                self.put(format!("{a} := {b}"));
            }
            _ => match operation_text::operation(self.words(parts), &letters()) {
                Ok(operation) => self.put(written(operation)),
                Err(mistake) => {
                    self.found.push(named_as_it_stands(mistake, parts));
                    self.is_certain = false;
                }
            },
        }
    }

    /// An assignment with a link on a side; where there are more, all but one are loaded first.
    fn links(&mut self, left: &Part, right: &Part) {
        let mut target = left.text.clone();
        let mut value = right.text.clone();
        let links = |path: &str| path.matches('.').count();
        if links(&target) > 1 {
            self.wrong(left, SEVERAL_LINKS);
            let (path, link) = left.text.rsplit_once('.').unwrap_or_default();
            target = format!("{}.{link}", self.load(path, None));
        }
        match (links(&target), links(&value)) {
            (1, 1..) => {
                let what = "only one side can be a link: load it into a variable first";
                self.wrong(right, what);
                value = self.load(&value, None);
            }
            (_, 2..) => {
                self.wrong(right, SEVERAL_LINKS);
                self.load(&value, Some(&target));
                return;
            }
            _ => {}
        }
        self.put(format!("{target} := {value}"));
    }

    /// Follows links one at a time, as in `x.next.next`, into a letter, which is given.
    fn load(&mut self, path: &str, into: Option<&str>) -> String {
        let free = |names: &mut ShortNames| names.letter(&format!("{path} loaded")).to_string();
        let into = into.map_or_else(|| free(self.names), str::to_string);
        let mut links = path.split('.');
        let mut from = links.next().unwrap_or_default().to_string();
        for link in links {
            self.put(format!("{into} := {from}.{link}"));
            from.clone_from(&into);
        }
        from
    }

    fn words<'p>(&self, parts: &'p [Part]) -> Words<'p> {
        foreign::words(self.number, parts)
    }
}

const BRACE: &str = "a brace: `while` and `if` open a block, and `end` closes it";
const TESTS: &str = "`=` tests: expected `:=`, which sets";
const SEVERAL_LINKS: &str = "several links at once: follow one in a line";
const NUMBER: &str = "a mark without its number: expected one from 0 to 63 in its shortest form";

/// Whether a line may change how a test ends: it sets a name of the test, or deletes any cell.
fn may_change(line: &str, test: &str) -> bool {
    let sets = |name: &str| {
        line.starts_with(&format!("{name} := ")) || line.starts_with(&format!("new({name})"))
    };
    line.starts_with("delete(") || test.split(' ').any(|name| is_letter(name) && sets(name))
}

/// The word that is about values, if there is one.
fn value(parts: &[Part]) -> Option<&Part> {
    let is_call = |at: usize| {
        let next = parts.get(at + 1).map(|part| &part.text[..]);
        parts[at].text == "read" && next == Some("(")
    };
    let at = (0..parts.len()).find(|&at| parts[at].text.ends_with(".num") || is_call(at));
    at.map(|at| &parts[at])
}

/// A mistake in the parts with the word that stands in the file.
fn named_as_it_stands(mistake: Mistake, parts: &[Part]) -> Mistake {
    let part = parts.iter().find(|part| part.column == mistake.column);
    let word = part.map_or(mistake.word, |part| part.source.clone());
    Mistake { word, ..mistake }
}

fn is_operator(text: &str) -> bool {
    [":=", "=", "!="].contains(&text)
}

fn is_letter(text: &str) -> bool {
    letters().number(text).is_some()
}

fn is_operand(text: &str) -> bool {
    text == "null" || is_letter(text)
}

/// Whether each is null or a letter with any number of links behind it.
fn are_paths(texts: &[&str]) -> bool {
    texts.iter().all(|text| {
        let (name, links) = text.split_once('.').unwrap_or((text, "next"));
        let is_name = is_letter(name) || *text == "null";
        is_name && links.split('.').all(|link| link == "next")
    })
}

/// The names that there may be.
fn letters() -> Names {
    let mut names = Names::of("variable");
    names.all = ('a'..='z').map(String::from).collect();
    names
}

fn written(operation: Operation) -> String {
    let letters = letters();
    super::words(operation, |operand| match operand {
        0 => "null",
        number => &letters.all[number - 1],
    })
}
