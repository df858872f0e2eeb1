//! Files of a person: read whole, and written whole or not at all.

use std::fs::{self, File, Metadata};
use std::io::{self, Read as _, Write as _};
use std::path::{Path, PathBuf};
use std::process;

/// The name that stands for standard input.
const STANDARD_INPUT: &str = "-";

/// The bytes of a file, or of standard input.
pub fn read(name: &str) -> Result<Vec<u8>, String> {
    let mut bytes = Vec::new();
    let done = match name {
        STANDARD_INPUT => io::stdin().read_to_end(&mut bytes).map(|_| bytes),
        file => fs::read(file),
    };
    done.map_err(|error| format!("{name}: {error}"))
}

/// The text of a file, or of standard input.
pub fn read_text(name: &str) -> Result<String, String> {
    String::from_utf8(read(name)?).map_err(|_| format!("{name}: it is no text"))
}

/// Files that belong together, each with its content.
#[derive(Default)]
pub struct Files {
    all: Vec<(PathBuf, Vec<u8>)>,
    /// What is to go when these are there.
    gone: Vec<PathBuf>,
}

impl Files {
    /// One file alone.
    pub fn one(path: impl Into<PathBuf>, content: impl Into<Vec<u8>>) -> Files {
        let mut files = Files::default();
        files.add(path, content);
        files
    }

    pub fn add(&mut self, path: impl Into<PathBuf>, content: impl Into<Vec<u8>>) {
        self.all.push((path.into(), content.into()));
    }

    /// A file, or that there is none any more.
    pub fn add_or_remove(&mut self, path: PathBuf, content: Option<Vec<u8>>) {
        match content {
            Some(content) => self.add(path, content),
            None => self.gone.push(path),
        }
    }

    /// Writes all of them, whole or not at all: each gets another name beside it first, and none is
    /// renamed before all are there. Folders are made as they are needed.
    pub fn write(&self) -> Result<(), String> {
        let targets = self.targets()?;
        let written = targets.iter().try_for_each(Target::write);
        let renamed = written.and_then(|()| targets.iter().try_for_each(Target::rename));
        if renamed.is_err() {
            for target in &targets {
                // Those that aren't there needn't go.
                let _ = fs::remove_file(&target.beside);
            }
        }
        renamed?;
        self.gone.iter().try_for_each(|path| remove(path))
    }

    fn targets(&self) -> Result<Vec<Target<'_>>, String> {
        let mut targets: Vec<Target> = Vec::new();
        for (path, content) in &self.all {
            let target = Target::of(path, content);
            if target.before.as_ref().is_some_and(Metadata::is_dir) {
                return Err(format!("{}: it is a folder", path.display()));
            }
            if targets.iter().any(|other| other.path == target.path) {
                return Err(format!("{}: it is to be written twice", path.display()));
            }
            targets.push(target);
        }
        Ok(targets)
    }
}

/// A file that is to be written.
struct Target<'a> {
    /// Where a link leads to, if it is one.
    path: PathBuf,
    /// The name that it has until all of it is there.
    beside: PathBuf,
    content: &'a [u8],
    /// What is there now.
    before: Option<Metadata>,
}

impl<'a> Target<'a> {
    fn of(path: &Path, content: &'a [u8]) -> Target<'a> {
        let path = fs::canonicalize(path).unwrap_or_else(|_| path.to_path_buf());
        let name = path.file_name().unwrap_or_default().to_string_lossy();
        Target {
            beside: path.with_file_name(format!(".{name}.{}.part", process::id())),
            before: fs::metadata(&path).ok(),
            path,
            content,
        }
    }

    /// Whether it is no file but a device or a pipe, which can't be renamed.
    fn is_device(&self) -> bool {
        let is_device = |before: &Metadata| !before.is_file() && !before.is_dir();
        self.before.as_ref().is_some_and(is_device)
    }

    /// Writes the content under the other name, with the permissions that the file has.
    fn write(&self) -> Result<(), String> {
        if self.is_device() {
            return fs::write(&self.path, self.content).map_err(|error| told(&self.path, error));
        }
        let folder = self.path.parent().filter(|folder| *folder != Path::new(""));
        let written = folder.map_or(Ok(()), fs::create_dir_all).and_then(|()| {
            let mut file = File::create(&self.beside)?;
            file.write_all(self.content)?;
            if let Some(before) = self.before.as_ref().filter(|before| before.is_file()) {
                file.set_permissions(before.permissions())?;
            }
            file.sync_all()
        });
        written.map_err(|error| told(&self.path, error))
    }

    fn rename(&self) -> Result<(), String> {
        match self.is_device() {
            true => Ok(()),
            false => fs::rename(&self.beside, &self.path).map_err(|error| told(&self.path, error)),
        }
    }
}

fn told(path: &Path, error: io::Error) -> String {
    format!("{}: {error}", path.display())
}

/// Takes a file away, if it is there.
fn remove(path: &Path) -> Result<(), String> {
    match fs::remove_file(path) {
        Err(error) if error.kind() != io::ErrorKind::NotFound => Err(told(path, error)),
        _ => Ok(()),
    }
}
