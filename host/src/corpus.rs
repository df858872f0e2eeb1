//! The routines that ship with the project.

use std::fs;
use std::path::{Path, PathBuf};

use crate::judge::judge;
use crate::pairs::Pair;
use crate::routine::{parse, parse_listing, Mistakes, Routine};
use crate::text::nearest;

/// What a routine's file name says of it.
#[derive(Clone, Copy, Debug, PartialEq, Eq)]
pub enum Expected {
    /// Right, and to be certified.
    Certified,
    /// `warned_`: certified, but a run stops at a line, or none reaches what is forbidden.
    Warned,
    /// `wrong_`: a run meets what is forbidden.
    Wrong,
    /// `beyond_`: right, but the rules forget too much to certify it.
    Beyond,
}

/// A routine that could be read.
pub struct Entry {
    pub name: String,
    pub expected: Expected,
    pub routine: Routine,
}

/// Where the routines are: beside the command where it is installed, else in the project.
pub fn folder() -> PathBuf {
    installed().unwrap_or_else(|| Path::new(env!("CARGO_MANIFEST_DIR")).join("corpus"))
}

/// Where they are if the command is installed.
fn installed() -> Option<PathBuf> {
    let command = std::env::current_exe().ok()?;
    let prefix = command.parent()?.parent()?;
    Some(prefix.join("share/vorruda/corpus")).filter(|folder| folder.is_dir())
}

/// A file of a folder: its routine, or what is wrong with it.
pub struct File {
    pub name: String,
    pub entry: Result<Entry, String>,
}

/// All routines by name, or what is wrong with a file.
pub fn read() -> Result<Vec<Entry>, String> {
    let files = read_folder(&folder())?.into_iter();
    files.map(|file| file.entry).collect()
}

/// The files of a folder that are routines, by name.
pub fn read_folder(folder: &Path) -> Result<Vec<File>, String> {
    let file = |path: &PathBuf| File {
        name: name_of(path),
        entry: entry(path),
    };
    Ok(files(folder)?.iter().map(file).collect())
}

/// The files that are named, and those of folders that are.
pub fn read_all(names: &[String]) -> Result<Vec<File>, String> {
    let mut all = Vec::new();
    for name in names {
        match Path::new(name).is_dir() {
            true => all.extend(read_folder(Path::new(name))?),
            false => all.push(file_of(name)),
        }
    }
    Ok(all)
}

/// The file of this name, or the routine of the corpus.
pub fn file_of(name: &str) -> File {
    let entry = find(name);
    let name = match &entry {
        Ok(entry) => entry.name.clone(),
        Err(_) => name_of(Path::new(name)),
    };
    File { name, entry }
}

/// The files of a folder that are routines, in the order of their names.
fn files(folder: &Path) -> Result<Vec<PathBuf>, String> {
    let listed = fs::read_dir(folder).map_err(|error| format!("{}: {error}", folder.display()))?;
    let mut files: Vec<PathBuf> = listed
        .filter_map(|file| Some(file.ok()?.path()))
        .filter(|path| ends_with(path, "routine") || is_listing(path))
        .collect();
    files.sort();
    Ok(files)
}

/// The listings of `joined` that are taken as one, by name: NAME.first and NAME.second.
pub fn joined() -> Result<Vec<[Entry; 2]>, String> {
    let files = read_folder(&folder().join(JOINED))?.into_iter();
    let mut entries = files.map(|file| file.entry);
    let mut all = Vec::new();
    while let Some(first) = entries.next() {
        let (first, second) = (first?, entries.next().ok_or(NOT_TWO)??);
        let name = first.name.strip_suffix(".first");
        match name.is_some() && name == second.name.strip_suffix(".second") {
            true => all.push([first, second]),
            false => return Err(format!("{}, {}: {NOT_TWO}", first.name, second.name)),
        }
    }
    Ok(all)
}

/// The folder of the corpus with listings that are taken as one.
const JOINED: &str = "joined";
const NOT_TWO: &str = "listings that are taken as one are named NAME.first and NAME.second";

/// The routine of the corpus with this name where there is one, else that of the file.
pub fn find(name: &str) -> Result<Entry, String> {
    let alone = folder().join(format!("{name}.routine"));
    let joined = folder().join(JOINED).join(format!("{name}.listing"));
    let mut known = [alone, joined].into_iter();
    let file = Path::new(name);
    match (known.find(|path| path.is_file()), file.exists()) {
        (Some(known), _) => entry(&known),
        (None, true) => entry(file),
        (None, false) => Err(unknown(name)?),
    }
}

/// What to say of a name that is neither a routine nor a file: those that may have been meant.
fn unknown(name: &str) -> Result<String, String> {
    let files = files(&folder())?;
    let names: Vec<String> = files.iter().map(|path| name_of(path)).collect();
    let names: Vec<&str> = names.iter().map(String::as_str).collect();
    let mut meant = nearest(name, names.iter().copied());
    let contains_it = |known: &&str| !meant.contains(known) && known.contains(name);
    let others: Vec<&str> = names.iter().copied().filter(contains_it).collect();
    meant.extend(others);
    let what = format!("{name}: neither a file nor a routine of the corpus");
    Ok(match meant.is_empty() {
        true if installed().is_some() => format!("{what}; `vorruda list` tells them"),
        true => format!("{what}; `make try` lists them"),
        false => format!(
            "{what}; did you mean one of these?\n  {}",
            meant.join("\n  ")
        ),
    })
}

fn ends_with(path: &Path, ending: &str) -> bool {
    path.extension().is_some_and(|end| end == ending)
}

/// Whether a file begins with its listing.
fn is_listing(path: &Path) -> bool {
    ends_with(path, "listing")
}

fn name_of(path: &Path) -> String {
    let name = path.file_stem().unwrap_or_default();
    name.to_string_lossy().into_owned()
}

/// How the text of a file is read, by its name.
pub fn parser_of(path: &Path) -> fn(&str) -> Result<Routine, Mistakes> {
    match is_listing(path) {
        true => parse_listing,
        false => parse,
    }
}

fn entry(path: &Path) -> Result<Entry, String> {
    let mistake = |what: String| format!("{}: {what}", path.display());
    let text = fs::read_to_string(path).map_err(|error| mistake(error.to_string()))?;
    let routine = parser_of(path)(&text).map_err(|wrong| mistake(wrong.to_string()))?;
    let name = name_of(path);
    Ok(Entry {
        expected: match &name {
            name if name.starts_with("warned_") => Expected::Warned,
            name if name.starts_with("wrong_") => Expected::Wrong,
            name if name.starts_with("beyond_") => Expected::Beyond,
            _ => Expected::Certified,
        },
        name,
        routine,
    })
}

/// The pairs of the routines that are certified without a warning, by name; where several jobs are needed,
/// numbered.
pub fn certified() -> Result<Vec<(String, Pair)>, String> {
    let pairs = |Entry { name, routine, .. }: Entry| {
        let pairs = judge(&routine).ending.pairs(&routine);
        let is_one = pairs.len() == 1;
        (1..).zip(pairs).map(move |(number, pair)| match is_one {
            true => (name.clone(), pair),
            false => (format!("{name} {number}"), pair),
        })
    };
    let entries = read()?.into_iter();
    let certified = entries.filter(|entry| entry.expected == Expected::Certified);
    Ok(certified.flat_map(pairs).collect())
}
