//! The definitions that a claim rests on: what a reader must believe to believe the claim.
//!
//! `definitions CRATE MODULE NAME`: those on which NAME of crates/CRATE/specs/MODULE.antt rests,
//! file by file, with their lines (no comments, blank lines, imports).

use std::collections::BTreeMap;
use std::env;
use std::process::ExitCode;

use vorruda_host::definitions::{rest_on, Definition};

fn main() -> ExitCode {
    let arguments: Vec<String> = env::args().skip(1).collect();
    let [folder, module, name] = &arguments[..] else {
        eprintln!("usage: definitions CRATE MODULE NAME");
        return ExitCode::from(2);
    };
    match rest_on(folder, module, name) {
        Ok(definitions) => {
            print(&definitions);
            ExitCode::SUCCESS
        }
        Err(what) => {
            eprintln!("{what}");
            ExitCode::from(2)
        }
    }
}

fn print(definitions: &[Definition]) {
    let mut files: BTreeMap<&str, Vec<&Definition>> = BTreeMap::new();
    for definition in definitions {
        files.entry(&definition.file).or_default().push(definition);
    }
    for (file, found) in files {
        let lines: usize = found.iter().map(|definition| definition.lines).sum();
        let names: Vec<&str> = found.iter().map(|found| found.name.as_str()).collect();
        println!("| `{file}` | {lines} | {} |", names.join(", "));
    }
    let lines: usize = definitions.iter().map(|definition| definition.lines).sum();
    println!("{lines} lines in {} definitions", definitions.len());
}
