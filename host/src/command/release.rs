//! `vorruda release`: all routines of a release certified or judged, on one page with the sheet on top.

use std::path::{Path, PathBuf};
use std::{fs, io};

use super::files::Files;
use super::progress;
use super::{Answer, Choice, Status, Subcommand};
use crate::corpus::{self, File};
use crate::judge::judge;
use crate::pairs::Pair;
use crate::report::{release_page, Release, Released};
use crate::tally::Tally;
use crate::text::repeated;

pub const RELEASE: Subcommand = Subcommand {
    name: "release",
    operands: "FILE..",
    count: 1..=usize::MAX,
    options: &[Choice {
        name: "-o",
        value: Some("DIR"),
        is_required: false,
        summary: "where release.html goes, and for each routine a folder with its job.bin and cert.bin; release \
where it isn't given",
    }],
    summary: "certifies or judges all routines of a release, and writes its sheet and one page",
    description: "FILE is a LISTING, which is certified; or a folder with job.bin and cert.bin, which are judged; or a \
folder of such files and folders. A certificate that isn't there counts as empty, and is refused with 2. Each \
verdict is told in a line, and the last line is the sheet: the share that is accepted, and the covers that an \
accepted certificate has on average. Verdicts and sheet come from the proved tally.

A file that can't be read counts for nothing in the sheet; it is told, and the exit status is 2. It is 1 where a \
verdict is refused.

  vorruda release routines -o out",
    run: |arguments| {
        let into = Path::new(arguments.value("-o").unwrap_or("release"));
        let items = items(&arguments.operands)?;
        let release = judged(items)?;
        let mut files = Files::one(into.join("release.html"), release_page(&release));
        for row in &release.rows {
            let folder = into.join(&row.name);
            let Pair { job, certificate } = row.pair.clone();
            files.add(folder.join("job.bin"), job);
            let certificate = Some(certificate).filter(|bytes| !bytes.is_empty());
            files.add_or_remove(folder.join("cert.bin"), certificate);
        }
        files.write()?;
        Ok(answer(&release))
    },
};

/// What is released: a routine as text, or files that are there, by name.
enum Item {
    Routine(Box<File>),
    Pair(String, Pair),
}

impl Item {
    fn routine(file: File) -> Item {
        Item::Routine(Box::new(file))
    }

    fn name(&self) -> &str {
        match self {
            Item::Routine(file) => &file.name,
            Item::Pair(name, _) => name,
        }
    }
}

fn answer(release: &Release) -> Answer {
    let line = |row: &Released| match &row.why {
        Some(why) => format!("{}: {} ({why})\n", row.name, row.verdict),
        None => format!("{}: {}\n", row.name, row.verdict),
    };
    let lines: String = release.rows.iter().map(line).collect();
    let statuses = release.rows.iter().map(|row| Status::of(&row.verdict));
    let refused = statuses.max().unwrap_or(Status::Done);
    let mistakes = release.mistakes.iter();
    Answer {
        text: format!("{lines}{}\n", release.sheet),
        said: mistakes
            .map(|(_, mistake)| format!("{mistake}\n"))
            .collect(),
        status: match release.mistakes.is_empty() {
            true => refused,
            false => Status::Unread,
        },
    }
}

/// Judges all, and takes each verdict into the tally.
fn judged(items: Vec<Item>) -> Result<Release, String> {
    let mut tally = Tally::default();
    let (mut rows, mut mistakes) = (Vec::new(), Vec::new());
    let count = items.len();
    for (number, item) in items.into_iter().enumerate() {
        let name = item.name().to_string();
        progress::show(&format!("{} of {count}: {name}", number + 1));
        match found(item) {
            Ok(found) => {
                let names = numbered(&name, found.pairs.len());
                for (name, pair) in names.into_iter().zip(found.pairs) {
                    rows.push(Released {
                        verdict: tally.take_in(pair.files())?,
                        name,
                        title: found.title.clone(),
                        why: found.why.clone(),
                        pair,
                    });
                }
            }
            Err(mistake) => mistakes.push((name, mistake)),
        }
    }
    progress::clear();
    Ok(Release {
        sheet: tally.report(),
        rows,
        mistakes,
    })
}

/// The name of each of so many jobs of one routine.
fn numbered(name: &str, count: usize) -> Vec<String> {
    match count {
        1 => vec![name.to_string()],
        _ => (1..=count)
            .map(|number| format!("{name}_{number}"))
            .collect(),
    }
}

/// The files of something that is released, several pairs where it is certified in several jobs, and
/// what is known of it.
struct Found {
    title: String,
    /// Why no certificate was found.
    why: Option<String>,
    pairs: Vec<Pair>,
}

/// The files that are there, or those that a search finds; or what is wrong with a text.
fn found(item: Item) -> Result<Found, String> {
    match item {
        Item::Pair(_, pair) => Ok(Found {
            title: String::new(),
            why: None,
            pairs: vec![pair],
        }),
        Item::Routine(file) => {
            let routine = file.entry?.routine;
            let ending = judge(&routine).ending;
            let mut pairs = ending.pairs(&routine);
            let why = pairs.is_empty().then(|| ending.words());
            if pairs.is_empty() {
                pairs.push(Pair {
                    job: routine.job.bytes(),
                    certificate: Vec::new(),
                });
            }
            Ok(Found {
                why,
                pairs,
                title: routine.title,
            })
        }
    }
}

/// All that is to be released, in the order of the names that are given.
fn items(names: &[String]) -> Result<Vec<Item>, String> {
    let mut items = Vec::new();
    for name in names {
        match Path::new(name).is_dir() {
            true => items.extend(items_of(Path::new(name))?),
            false => items.push(Item::routine(corpus::file_of(name))),
        }
    }
    match repeated(items.iter().map(Item::name)) {
        Some(name) => Err(format!("vorruda release: two are called {name}")),
        None if items.is_empty() => Err("vorruda release: nothing is there to release".to_string()),
        None => Ok(items),
    }
}

/// What a folder holds: one pair, or routines and folders with pairs.
fn items_of(folder: &Path) -> Result<Vec<Item>, String> {
    if let Some(pair) = pair_of(folder)? {
        return Ok(vec![pair]);
    }
    let mut items: Vec<Item> = corpus::read_folder(folder)?
        .into_iter()
        .map(Item::routine)
        .collect();
    for below in folders(folder).map_err(|error| format!("{}: {error}", folder.display()))? {
        items.extend(pair_of(&below)?);
    }
    Ok(items)
}

/// The folders in a folder, in the order of their names.
fn folders(folder: &Path) -> io::Result<Vec<PathBuf>> {
    let entries = fs::read_dir(folder)?.collect::<io::Result<Vec<_>>>()?;
    let mut paths: Vec<PathBuf> = entries.iter().map(fs::DirEntry::path).collect();
    paths.retain(|path| path.is_dir());
    paths.sort();
    Ok(paths)
}

/// The pair in a folder, if there is a job; a certificate that isn't there is empty.
fn pair_of(folder: &Path) -> Result<Option<Item>, String> {
    let read = |file: &str| match fs::read(folder.join(file)) {
        Ok(bytes) => Ok(Some(bytes)),
        Err(error) if error.kind() == io::ErrorKind::NotFound => Ok(None),
        Err(error) => Err(format!("{}: {error}", folder.join(file).display())),
    };
    let Some(job) = read("job.bin")? else {
        return Ok(None);
    };
    let certificate = read("cert.bin")?.unwrap_or_default();
    let whole = fs::canonicalize(folder).unwrap_or_else(|_| folder.to_path_buf());
    let name = whole.file_name().unwrap_or_default().to_string_lossy();
    Ok(Some(Item::Pair(
        name.into_owned(),
        Pair { job, certificate },
    )))
}
