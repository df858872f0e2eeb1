//! The table of several routines, with links to their pages.

use super::html::{escape, page};
use super::milliseconds;
use crate::corpus::{Entry, Expected};
use crate::jobs::in_jobs;
use crate::judge::{Ending, Judged};
use crate::text::{counted, thousands};

/// A file of the table: its routine and how it ends, or what is wrong with the file.
pub struct Row {
    pub name: String,
    pub judged: Result<(Entry, Judged), String>,
}

/// How a row ends.
#[derive(Clone, Copy, PartialEq, Eq)]
enum Answer {
    Certified,
    Warned,
    Wrong,
    Beyond,
    NotFound,
    Mistaken,
}

impl Answer {
    const ALL: [Answer; 6] = [
        Answer::Certified,
        Answer::Warned,
        Answer::Wrong,
        Answer::Beyond,
        Answer::NotFound,
        Answer::Mistaken,
    ];

    fn of(row: &Row) -> Answer {
        match &row.judged {
            Err(_) => Answer::Mistaken,
            Ok((_, judged)) => match judged.expected() {
                Some(Expected::Certified) => Answer::Certified,
                Some(Expected::Warned) => Answer::Warned,
                Some(Expected::Wrong) => Answer::Wrong,
                Some(Expected::Beyond) => Answer::Beyond,
                None => Answer::NotFound,
            },
        }
    }

    fn words(self) -> &'static str {
        match self {
            Answer::Certified => "certified",
            Answer::Warned => "certified with a warning",
            Answer::Wrong => "wrong",
            Answer::Beyond => "beyond the rules",
            Answer::NotFound => "not found",
            Answer::Mistaken => "mistaken file",
        }
    }

    fn class(self) -> &'static str {
        match self {
            Answer::Certified => "good",
            Answer::Wrong | Answer::Mistaken => "bad",
            Answer::Warned | Answer::Beyond | Answer::NotFound => "open",
        }
    }
}

pub fn index_page(title: &str, rows: &[Row]) -> String {
    let total = |answer: Answer| {
        let count = rows.iter().filter(|row| Answer::of(row) == answer).count();
        format!("{count} {}", answer.words())
    };
    let body = format!(
        "<h1>{}</h1>\n<p class=\"lead\">{}: {}.</p>\n\
         <div class=\"wide\">\n<table>\n<thead>\n<tr>\
         <th>routine</th><th>verdict</th><th>what it does</th>\
         <th class=\"number\">members</th><th class=\"number\">covers</th>\
         <th class=\"number\">time, ms</th>\
         </tr>\n</thead>\n<tbody>\n{}</tbody>\n</table>\n</div>\n\
         <p>The time is that of the search and of the proved checker together.</p>\n",
        escape(title),
        counted(rows.len(), "routine"),
        Answer::ALL.map(total).join(", "),
        rows.iter().map(table_row).collect::<String>(),
    );
    page(&format!("{title} - Vorruda"), &body)
}

fn table_row(row: &Row) -> String {
    let name = escape(&row.name);
    let (name, what, counts) = match &row.judged {
        Ok((entry, judged)) => (
            format!("<a href=\"{name}.html\">{name}</a>"),
            escape(&entry.routine.title),
            counts(judged),
        ),
        Err(mistake) => (
            name,
            format!("<pre>{}</pre>", escape(mistake)),
            ["-", "-", "-"].map(str::to_string),
        ),
    };
    let answer = Answer::of(row);
    let words = match &row.judged {
        Ok((
            _,
            Judged {
                ending: Ending::Split(jobs),
                ..
            },
        )) if answer == Answer::Certified => {
            format!("certified {}", in_jobs(jobs))
        }
        _ => answer.words().to_string(),
    };
    let [members, covers, time] = counts;
    format!(
        "<tr><td>{name}</td><td><span class=\"verdict {}\">{}</span></td><td>{what}</td>\
         <td class=\"number\">{members}</td><td class=\"number\">{covers}</td>\
         <td class=\"number\">{time}</td></tr>\n",
        answer.class(),
        words,
    )
}

/// Members, covers and the time.
fn counts(judged: &Judged) -> [String; 3] {
    let ending = &judged.ending;
    [
        ending.in_table(|certificate| thousands(certificate.members.len() as u64)),
        ending.in_table(|certificate| thousands(certificate.covers.len() as u64)),
        milliseconds(judged.time),
    ]
}
