//! Runs the command `vorruda` as a person does.

// No test uses all of it.
#![allow(dead_code)]

use std::fs;
use std::path::{Path, PathBuf};
use std::process::{Command, Output};

/// What a call printed, and its exit status.
#[derive(Debug, PartialEq, Eq)]
pub struct Ran {
    pub status: i32,
    /// Standard output.
    pub text: String,
    /// Standard error.
    pub said: String,
}

impl Ran {
    fn of(output: Output) -> Ran {
        Ran {
            status: output.status.code().expect("it ends by itself"),
            text: String::from_utf8(output.stdout).unwrap(),
            said: String::from_utf8(output.stderr).unwrap(),
        }
    }
}

/// Runs the command with these arguments.
pub fn vorruda(arguments: &[&str]) -> Ran {
    vorruda_in(Path::new("."), arguments)
}

/// Runs it in a folder.
pub fn vorruda_in(folder: &Path, arguments: &[&str]) -> Ran {
    let mut command = Command::new(env!("CARGO_BIN_EXE_vorruda"));
    Ran::of(
        command
            .args(arguments)
            .current_dir(folder)
            .output()
            .unwrap(),
    )
}

/// Runs a line of the shell in a folder, in which $vorruda is the command.
pub fn shell_in(folder: &Path, line: &str) -> Ran {
    let mut command = Command::new("sh");
    let command = command.args(["-c", line]).current_dir(folder);
    let command = command.env("vorruda", env!("CARGO_BIN_EXE_vorruda"));
    Ran::of(command.output().unwrap())
}

/// An empty folder of this name.
pub fn folder(name: &str) -> PathBuf {
    let path = Path::new(env!("CARGO_TARGET_TMPDIR")).join(name);
    let _ = fs::remove_dir_all(&path);
    fs::create_dir_all(&path).unwrap();
    path
}

/// Writes a file of one's own, and gives its path.
pub fn file(name: &str, content: impl AsRef<[u8]>) -> PathBuf {
    let path = PathBuf::from(env!("CARGO_TARGET_TMPDIR")).join(name);
    fs::write(&path, content).unwrap();
    path
}

/// The names of the files in a folder, in their order.
pub fn files_in(folder: &Path) -> Vec<String> {
    let files = fs::read_dir(folder).unwrap();
    let name = |file: std::io::Result<fs::DirEntry>| file.unwrap().file_name();
    let mut names: Vec<String> = files
        .map(|file| name(file).into_string().unwrap())
        .collect();
    names.sort();
    names
}
