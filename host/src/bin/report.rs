//! Writes pages to look at, and prints which one to open.
//!
//! `report [ROUTINE [FOLDER]]`: a file, the name of a routine of the corpus, or a folder of
//! routines, of which a table is made too; without it, the corpus. `report FIRST then SECOND [FOLDER]`:
//! one page of two listings as one. The pages go to the folder, or
//! to build/report; those of a folder of routines to one of the same name in there. The exit status
//! is 2 where a routine can't be read, but the pages of the others are written, or where a page
//! can't be written.

use std::path::{Path, PathBuf};
use std::process::ExitCode;
use std::{env, fs};

use vorruda_host::corpus::{self, Entry, File};
use vorruda_host::joining::Listings;
use vorruda_host::judge::{judge_unsplit, Judged};
use vorruda_host::report::{index_page, joined_page, routine_page, Row};

/// Where pages go unless a folder is named.
const USUAL: &str = "build/report";

/// The page to open, and what is wrong with files that have none.
struct Written {
    page: PathBuf,
    mistakes: Vec<String>,
}

fn main() -> ExitCode {
    let arguments: Vec<String> = env::args().skip(1).collect();
    let written = match &arguments[..] {
        [] => write_folder("The corpus", &corpus::folder(), Path::new(USUAL)),
        [what] => usual_folder(what).and_then(|folder| write(what, &folder)),
        [what, folder] => write(what, Path::new(folder)),
        [first, then, second] if then == "then" => write_two([first, second], Path::new(USUAL)),
        [first, then, second, folder] if then == "then" => {
            write_two([first, second], Path::new(folder))
        }
        _ => {
            Err("usage: report [ROUTINE [FOLDER]] or report FIRST then SECOND [FOLDER]".to_string())
        }
    };
    let mistakes = match written {
        Ok(Written { page, mistakes }) => {
            println!("{}", page.display());
            mistakes
        }
        Err(what) => vec![what],
    };
    for what in &mistakes {
        eprintln!("{what}");
    }
    match mistakes.is_empty() {
        true => ExitCode::SUCCESS,
        false => ExitCode::from(2),
    }
}

/// Where the pages of a routine go, or those of a folder, which don't mix with the corpus'.
fn usual_folder(what: &str) -> Result<PathBuf, String> {
    let usual = PathBuf::from(USUAL);
    let from = Path::new(what);
    if !from.is_dir() {
        return Ok(usual);
    }
    let whole = fs::canonicalize(from).map_err(|error| format!("{what}: {error}"))?;
    Ok(usual.join(whole.file_name().unwrap_or("folder".as_ref())))
}

/// The pages of a routine or of a folder of them.
fn write(what: &str, into: &Path) -> Result<Written, String> {
    let from = Path::new(what);
    if from.is_dir() {
        return write_folder(what, from, into);
    }
    let (page, _) = write_routine(&corpus::find(what)?, into)?;
    Ok(Written {
        page,
        mistakes: Vec::new(),
    })
}

/// The page of two listings as one.
fn write_two(names: [&str; 2], into: &Path) -> Result<Written, String> {
    let [first, second] = names.map(corpus::find);
    let (first, second) = (first?, second?);
    let names = [&first.name[..], &second.name];
    let listings = Listings::of(first.routine, second.routine)?;
    let (judged, joined) = listings.judge();
    let page = joined_page(names, &listings, &judged, &joined);
    Ok(Written {
        page: write_page(into, &names.join("_then_"), &page)?,
        mistakes: Vec::new(),
    })
}

fn write_folder(title: &str, from: &Path, into: &Path) -> Result<Written, String> {
    let mut rows = Vec::new();
    for File { name, entry } in corpus::read_folder(from)? {
        let judged = match entry {
            Ok(entry) => {
                let (_, judged) = write_routine(&entry, into)?;
                Ok((entry, judged))
            }
            Err(mistake) => Err(mistake),
        };
        rows.push(Row { name, judged });
    }
    let mistakes = rows.iter().filter_map(|row| row.judged.as_ref().err());
    Ok(Written {
        page: write_page(into, "index", &index_page(title, &rows))?,
        mistakes: mistakes.cloned().collect(),
    })
}

fn write_routine(entry: &Entry, into: &Path) -> Result<(PathBuf, Judged), String> {
    let judged = judge_unsplit(&entry.routine);
    let page = routine_page(&entry.name, &entry.routine, &judged);
    Ok((write_page(into, &entry.name, &page)?, judged))
}

fn write_page(folder: &Path, name: &str, page: &str) -> Result<PathBuf, String> {
    let path = folder.join(format!("{name}.html"));
    fs::create_dir_all(folder)
        .and_then(|()| fs::write(&path, page))
        .map_err(|error| format!("{}: {error}", path.display()))?;
    Ok(path)
}
