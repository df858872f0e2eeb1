//! `vorruda explain`: a paragraph with an example for each refusal, rule, ready set and word.

mod refusals;
mod rules;
mod sets;
mod words;

use super::{Answer, Subcommand};
use crate::refusal_text::refusal_text;
use crate::text::{nearest, wrapped};

pub const EXPLAIN: Subcommand = Subcommand {
    name: "explain",
    operands: "[WORD..]",
    count: 0..=usize::MAX,
    options: &[],
    summary: "says with an example what a refusal, a rule, a ready set or a word means",
    description: "WORD is the number of a refusal, as 9; a rule that a cover breaks, as `rule 3`; what a \
line below `forbidden` begins with, as `no list`; or a word, as mark or cover. # and * stand in quotes, \
for the shell. Alone it lists all of them.

  vorruda explain 9
  vorruda explain rule 3
  vorruda explain '*'",
    run: |arguments| {
        let wanted = arguments.operands.join(" ");
        match &wanted[..] {
            "" => Ok(Answer::done(all())),
            wanted => Ok(Answer::done(told(find(wanted)?))),
        }
    },
};

/// Something that is explained.
struct Topic {
    /// How it is asked for, the usual name first.
    names: &'static [&'static str],
    /// What it means, in paragraphs.
    says: &'static str,
    example: Example,
}

/// An example of a topic.
enum Example {
    /// In words.
    Text(&'static str),
    /// A job and a certificate, and the verdict on them.
    Pair(&'static [u8], &'static [u8], &'static str),
    /// A listing that is refused at a line.
    Listing(&'static str, usize),
}

const WIDTH: usize = 80;

/// The topics by what they are.
const GROUPS: [(&str, &[Topic]); 4] = [
    ("Refusals", refusals::REFUSALS),
    ("Rules that a cover breaks, told with 9", &rules::RULES),
    ("Ready sets, below `forbidden` of a listing", &sets::SETS),
    ("Words", &words::WORDS),
];

fn topics() -> impl Iterator<Item = &'static Topic> {
    GROUPS.iter().flat_map(|(_, topics)| topics.iter())
}

fn find(wanted: &str) -> Result<&'static Topic, String> {
    let wanted = wanted.trim_end_matches(':');
    let is_wanted = |topic: &&Topic| topic.names.contains(&wanted);
    topics().find(is_wanted).ok_or_else(|| {
        let known = topics().flat_map(|topic| topic.names.iter().copied());
        let meant = match nearest(wanted, known)[..] {
            [near, ..] => format!("did you mean `{near}`? "),
            [] => String::new(),
        };
        format!("vorruda explain: nothing on `{wanted}`; {meant}`vorruda explain` lists all")
    })
}

/// All names, with what a refusal's number means.
fn all() -> String {
    let row = |topic: &Topic| match number(topic).and_then(refusal_text) {
        Some(text) => format!("  {:>3}  {text}\n", topic.names[0]),
        None => format!("  {}\n", topic.names.join(", ")),
    };
    let group = |(title, topics): &(&str, &[Topic])| {
        format!("{title}:\n{}", topics.iter().map(row).collect::<String>())
    };
    GROUPS.iter().map(group).collect::<Vec<_>>().join("\n")
}

/// A topic as it is printed.
fn told(topic: &Topic) -> String {
    let name = topic.names.join(", ");
    let title = match number(topic).and_then(refusal_text) {
        Some(text) => format!("{name}: {text}"),
        None => name,
    };
    let says = wrapped(topic.says, WIDTH);
    format!("{title}\n\n{says}\n\nExample:\n{}\n", topic.example.told())
}

/// The number of a refusal.
fn number(topic: &Topic) -> Option<u32> {
    topic.names[0].parse().ok()
}

impl Example {
    fn told(&self) -> String {
        let indented = |text: &str| format!("  {}", text.replace('\n', "\n  "));
        match self {
            Example::Text(text) if text.starts_with(' ') => text.to_string(),
            Example::Text(text) => indented(&wrapped(text, WIDTH - 2)),
            Example::Pair(job, certificate, verdict) => {
                let [job, certificate] = [job, certificate].map(|bytes| numbers(bytes));
                format!("  job          {job}\n  certificate  {certificate}\n  {verdict}")
            }
            Example::Listing(text, line) => {
                let text = indented(text.trim_end());
                format!("{text}\n\n  It is refused at line {line}.")
            }
        }
    }
}

/// The bytes of a file that has a number in each.
fn numbers(bytes: &[u8]) -> String {
    let numbers: Vec<String> = bytes.iter().map(u8::to_string).collect();
    match numbers.is_empty() {
        true => "(empty)".to_string(),
        false => numbers.join(" "),
    }
}

#[cfg(test)]
mod tests {
    use super::*;
    use crate::check::check;
    use crate::library;
    use crate::routine::parse_listing;

    /// The examples that are files get the verdict that they tell, which is of the topic's number.
    #[test]
    fn examples_are_judged_as_they_say() {
        let mut judged = 0;
        for topic in topics() {
            match topic.example {
                Example::Pair(job, certificate, verdict) => {
                    let found = check(job, certificate);
                    assert_eq!(found.to_string(), verdict, "{:?}", topic.names);
                    assert!(number(topic).is_none_or(|number| number == found.number()));
                    judged += 1;
                }
                Example::Listing(text, line) => {
                    let mut told = [0];
                    let (mut bytes, mut marks) = ([0; 1024], [0; 64]);
                    let text = text.as_bytes();
                    let refused = library::translate(text, &mut bytes, &mut marks, &mut told);
                    assert_eq!((Some(refused), told[0]), (number(topic), line as u64));
                    judged += 1;
                }
                Example::Text(_) => {}
            }
        }
        assert_eq!(judged, 11 + 3 + 6);
    }

    /// Each ready set of an example is one that a routine may have.
    #[test]
    fn examples_of_ready_sets_are_read() {
        for topic in &sets::SETS {
            let Example::Text(line) = topic.example else {
                panic!("{:?}", topic.names);
            };
            let (line, _) = line.trim_start().split_once("  --").expect("it is told");
            let listing = format!("new(x)\nx.next := null\ny := x\nmark 0\n\nforbidden\n{line}\n");
            let read = parse_listing(&listing);
            assert!(read.is_ok() && line.contains(topic.names[0]), "{line}");
        }
    }

    #[test]
    fn no_name_stands_twice() {
        let mut names: Vec<&str> = topics().flat_map(|topic| topic.names).copied().collect();
        let count = names.len();
        names.sort();
        names.dedup();
        assert_eq!(names.len(), count);
    }
}
