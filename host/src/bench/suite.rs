//! The pairs that are measured, in groups.

use std::fs;
use std::io;
use std::path::Path;

use super::{broken, growth, refused, Cost};
use crate::baseline::checker::is_of_version_2;
use crate::corpus;
use crate::extremes::extremes;
use crate::pairs::{Pair, Pairs};
use crate::sweep;
use crate::value_extremes::value_extremes;

/// A pair with a name for the tables, and its instructions once they are counted.
pub struct Case {
    pub name: String,
    pub pair: Pair,
    pub instructions: Cost,
    /// Those of the quicker baseline.
    pub quicker: f64,
}

/// The groups of pairs.
pub struct Suite {
    /// The routines of the corpus without values, and those with them.
    pub corpus: Vec<Case>,
    pub corpus_with_values: Vec<Case>,
    pub extremes: Vec<Case>,
    pub values: Vec<Case>,
    pub refused: Vec<Case>,
    pub broken: Vec<Case>,
    pub in_members: Vec<Case>,
    pub in_covers: Vec<Case>,
    pub sweep: Vec<Case>,
    pub random: Vec<Case>,
}

/// How often an operation is undone in each pair of the sweep.
const VISITS: usize = 4_096;

/// The same for those on values.
const VALUE_VISITS: usize = 256;

const RANDOM: usize = 1_000;
const SEED: u64 = 0x0011_5eed;

impl Suite {
    /// All pairs; the search finds those of the corpus.
    pub fn new() -> Result<Suite, String> {
        let certified = corpus::certified()?.into_iter();
        let (with_values, without): (Vec<_>, Vec<_>) =
            certified.partition(|(_, pair)| is_of_version_2(&pair.job));
        Ok(Suite {
            corpus: named(without),
            corpus_with_values: named(with_values),
            extremes: named(extremes()),
            values: named(made_with_values()),
            refused: named(refused::pairs()),
            broken: named(broken::pairs()),
            in_members: numbered(growth::in_members()),
            in_covers: numbered(growth::in_covers()),
            sweep: named(sweep::pairs(VISITS)),
            random: numbered(Pairs::new(SEED).take(RANDOM)),
        })
    }

    /// All cases, group by group.
    pub fn cases(&mut self) -> impl Iterator<Item = &mut Case> {
        let groups = [
            &mut self.corpus,
            &mut self.corpus_with_values,
            &mut self.extremes,
            &mut self.values,
            &mut self.refused,
            &mut self.broken,
            &mut self.in_members,
            &mut self.in_covers,
            &mut self.sweep,
            &mut self.random,
        ];
        groups.into_iter().flatten()
    }

    /// The pairs of the corpus, without values and with them.
    pub fn corpus_pairs(&self) -> Vec<Pair> {
        let cases = self.corpus.iter().chain(&self.corpus_with_values);
        cases.map(|case| case.pair.clone()).collect()
    }
}

/// Those of version 2 that cost most, and every kind on values.
fn made_with_values() -> Vec<(String, Pair)> {
    let extremes = value_extremes().into_iter();
    let extremes = extremes.map(|(name, pair)| (name.to_string(), pair));
    extremes.chain(sweep::value_pairs(VALUE_VISITS)).collect()
}

fn named<N: Into<String>>(pairs: impl IntoIterator<Item = (N, Pair)>) -> Vec<Case> {
    let case = |(name, pair): (N, Pair)| Case {
        name: name.into(),
        pair,
        instructions: Cost::default(),
        quicker: 0.0,
    };
    pairs.into_iter().map(case).collect()
}

fn numbered(pairs: impl IntoIterator<Item = Pair>) -> Vec<Case> {
    let pairs = pairs.into_iter().enumerate();
    named(pairs.map(|(number, pair)| (format!("number {number}"), pair)))
}

/// Writes pairs one after the other, each buffer behind its length.
pub fn write_pairs<'a>(file: &Path, pairs: impl IntoIterator<Item = &'a Pair>) -> io::Result<()> {
    let mut bytes = Vec::new();
    for pair in pairs {
        for buffer in [&pair.job, &pair.certificate] {
            bytes.extend(buffer.len().to_le_bytes());
            bytes.extend(buffer);
        }
    }
    fs::write(file, bytes)
}

/// Reads pairs that were written.
pub fn read_pairs(file: &Path) -> io::Result<Vec<Pair>> {
    let bytes = fs::read(file)?;
    let mut rest = &bytes[..];
    let mut pairs = Vec::new();
    while !rest.is_empty() {
        pairs.push(Pair {
            job: buffer(&mut rest),
            certificate: buffer(&mut rest),
        });
    }
    Ok(pairs)
}

fn buffer(rest: &mut &[u8]) -> Vec<u8> {
    let (length, behind) = rest.split_first_chunk().expect("a length stands there");
    let (buffer, behind) = behind.split_at(usize::from_le_bytes(*length));
    *rest = behind;
    buffer.to_vec()
}
