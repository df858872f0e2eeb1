//! `vorruda report`: pages to look at.

use std::path::{Path, PathBuf};

use super::files::Files;
use super::progress;
use super::{Answer, Choice, Status, Subcommand};
use crate::corpus::{self, Entry, File};
use crate::joining::Listings;
use crate::judge::{judge, Judged};
use crate::report::{index_page, joined_page, routine_page, Row};
use crate::text::repeated;

pub const REPORT: Subcommand = Subcommand {
    name: "report",
    operands: "[LISTING..]",
    count: 0..=usize::MAX,
    options: &[
        Choice {
            name: "--then",
            value: Some("LISTING"),
            is_required: false,
            summary: "one page of two listings as one, as in `vorruda try`",
        },
        Choice {
            name: "-o",
            value: Some("DIR"),
            is_required: false,
            summary: "where the pages go, report where it isn't given",
        },
    ],
    summary: "writes pages to look at or print: verdicts, runs and shapes in pictures",
    description: "Each page is a file of HTML that needs nothing else; the one to open is printed. Of one \
LISTING there is one page. Of several, of a folder of them, or of all that are installed, where none is \
named, there is a page for each and a table, index.html. A file with a mistake is a row that says it; the \
exit status is then 2, and the others are written.

  vorruda report my.listing -o pages",
    run: |arguments| {
        let into = Path::new(arguments.value("-o").unwrap_or(USUAL));
        let names = &arguments.operands[..];
        let written = match (names, arguments.value("--then")) {
            ([first], Some(second)) => write_two([first, second], into)?,
            (_, Some(_)) => return Err("vorruda report: --then is of one LISTING".to_string()),
            ([one], None) if !Path::new(one).is_dir() => write_one(one, into)?,
            _ => write_table(names, into)?,
        };
        let text = format!("{}\n", written.page.display());
        Ok(match written.mistakes.is_empty() {
            true => Answer::done(text),
            false => Answer {
                text,
                said: written.mistakes.join("\n") + "\n",
                status: Status::Unread,
            },
        })
    },
};

/// Where pages go unless a folder is named.
const USUAL: &str = "report";

/// The page to open, and what is wrong with files that have none.
struct Written {
    page: PathBuf,
    mistakes: Vec<String>,
}

fn write_one(name: &str, into: &Path) -> Result<Written, String> {
    let (page, _) = write_routine(&corpus::find(name)?, into)?;
    Ok(Written {
        page,
        mistakes: Vec::new(),
    })
}

/// The page of two listings as one.
fn write_two(names: [&str; 2], into: &Path) -> Result<Written, String> {
    let [first, second] = names.map(corpus::find);
    let (first, second) = (first?, second?);
    let names = [&first.name[..], &second.name];
    let listings = Listings::of(first.routine, second.routine)?;
    let (judged, joined) = listings.judge();
    let page = joined_page(names, &listings, &judged, &joined);
    Ok(Written {
        page: write_page(into, &names.join("_then_"), &page)?,
        mistakes: Vec::new(),
    })
}

/// A page for each routine, and a table.
fn write_table(names: &[String], into: &Path) -> Result<Written, String> {
    let (title, files) = match names {
        [] => (
            "The corpus".to_string(),
            corpus::read_folder(&corpus::folder())?,
        ),
        names => (names.join(", "), corpus::read_all(names)?),
    };
    if let Some(name) = repeated(files.iter().map(|file| &file.name[..])) {
        return Err(format!("vorruda report: two are called {name}"));
    }
    let count = files.len();
    let mut rows = Vec::new();
    for (number, File { name, entry }) in files.into_iter().enumerate() {
        progress::show(&format!("{} of {count}: {name}", number + 1));
        let judged = match entry {
            Ok(entry) => {
                let (_, judged) = write_routine(&entry, into)?;
                Ok((entry, judged))
            }
            Err(mistake) => Err(mistake),
        };
        rows.push(Row { name, judged });
    }
    progress::clear();
    let mistakes = rows.iter().filter_map(|row| row.judged.as_ref().err());
    Ok(Written {
        page: write_page(into, "index", &index_page(&title, &rows))?,
        mistakes: mistakes.cloned().collect(),
    })
}

fn write_routine(entry: &Entry, into: &Path) -> Result<(PathBuf, Judged), String> {
    let judged = judge(&entry.routine);
    let page = routine_page(&entry.name, &entry.routine, &judged);
    Ok((write_page(into, &entry.name, &page)?, judged))
}

fn write_page(folder: &Path, name: &str, page: &str) -> Result<PathBuf, String> {
    let path = folder.join(format!("{name}.html"));
    Files::one(&path, page).write()?;
    Ok(path)
}
