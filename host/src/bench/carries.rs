//! Files carried between the versions, against the baseline and against a check of the same pair.

use std::cell::RefCell;
use std::hint::black_box;

use super::report::{heading, instructions};
use super::{time, Cost, Work};
use crate::baseline;
use crate::baseline::checker::is_of_version_2;
use crate::extremes::extremes;
use crate::library::carry::{CarryCalls, CARRY_CALLS};
use crate::library::check;
use crate::pairs::Pair;
use crate::reference::carry::File;
use crate::reference::checker::MOST_BYTES;
use crate::reference::version::Direction;
use crate::text::thousands;

/// A file of a pair, and its instructions once they are counted. The pair's version says which way it is
/// carried.
pub struct Case {
    file: File,
    pair: Pair,
    pub carried: Cost,
    /// The pair checked by the library.
    pub checked: f64,
}

/// Cases that are told together.
struct Group {
    name: String,
    cases: Vec<Case>,
}

/// All that is measured: the corpus both ways, and as far as it has values refused on the way down; its
/// jobs alone; and the largest pairs that can go up.
pub struct Cases {
    groups: Vec<Group>,
}

impl Cases {
    pub fn new(corpus: &[Pair]) -> Cases {
        let (with_values, without): (Vec<Pair>, Vec<Pair>) = corpus
            .iter()
            .cloned()
            .partition(|pair| is_of_version_2(&pair.job));
        let up = carried_up(&without);
        let of_corpus = [
            ("the corpus without values, up", File::Certificate, &without),
            ("the corpus without values, down", File::Certificate, &up),
            (
                "the corpus with values, refused 21 on the way down",
                File::Certificate,
                &with_values,
            ),
            ("jobs of the corpus without values, up", File::Job, &without),
            ("jobs of the corpus without values, down", File::Job, &up),
        ];
        let of_corpus = of_corpus.map(|(name, file, pairs)| Group::new(name, file, pairs));
        let large = extremes().into_iter().filter_map(|(name, pair)| {
            let up = pair.carried(Direction::Up)?;
            let names = [format!("{name}, up"), format!("{name}, down")];
            let both = [pair, up].into_iter().zip(names);
            Some(both.map(|(pair, name)| Group::new(&name, File::Certificate, &[pair])))
        });
        let groups = of_corpus.into_iter().chain(large.flatten());
        Cases {
            groups: groups.collect(),
        }
    }

    /// All cases, in the order in which they are measured.
    pub fn all(&mut self) -> impl Iterator<Item = &mut Case> {
        self.groups.iter_mut().flat_map(|group| &mut group.cases)
    }

    /// Measures the time, and prints the table.
    pub fn print(&self) {
        heading(
            "| certificates | instructions | baseline | ratio | ratio of time | a check | of it |",
        );
        for group in &self.groups {
            match &group.cases[..] {
                [case] => row(&group.name, std::slice::from_ref(case)),
                cases => {
                    row(
                        &format!("**{}, in all {}**", group.name, cases.len()),
                        cases,
                    );
                    let largest = cases
                        .iter()
                        .max_by(|x, y| x.carried.ratio().total_cmp(&y.carried.ratio()));
                    if let Some(case) = largest {
                        row("of these the largest ratio", std::slice::from_ref(case));
                    }
                }
            }
        }
    }
}

/// Those that can go up, in version 2.
fn carried_up(pairs: &[Pair]) -> Vec<Pair> {
    let carried = pairs.iter().filter_map(|pair| pair.carried(Direction::Up));
    carried.collect()
}

fn row(name: &str, cases: &[Case]) {
    let all: Cost = cases.iter().map(|case| case.carried).sum();
    let time: Cost = cases.iter().map(|case| time::measure(&case.work())).sum();
    let checked: f64 = cases.iter().map(|case| case.checked).sum();
    println!(
        "| {name} | {} | {:.2} | {} | {:.2} |",
        instructions(all),
        time.ratio(),
        thousands(checked as u64),
        all.proved / checked,
    );
}

impl Group {
    fn new(name: &str, file: File, pairs: &[Pair]) -> Group {
        let case = |pair: &Pair| Case {
            file,
            pair: pair.clone(),
            carried: Cost::default(),
            checked: 0.0,
        };
        Group {
            name: name.to_string(),
            cases: pairs.iter().map(case).collect(),
        }
    }
}

impl Case {
    fn direction(&self) -> Direction {
        match is_of_version_2(&self.pair.job) {
            false => Direction::Up,
            true => Direction::Down,
        }
    }

    /// The file carried by the library and by the baseline.
    pub fn work(&self) -> Work<'_> {
        Work {
            proved: self.carrying(CARRY_CALLS),
            baseline: self.carrying(baseline::carry::CALLS),
        }
    }

    fn carrying(&self, calls: CarryCalls) -> Box<dyn Fn() + '_> {
        let room = RefCell::new(vec![0; MOST_BYTES]);
        let direction = self.direction();
        Box::new(move || {
            let (mut room, mut out) = (room.borrow_mut(), [0; 2]);
            black_box(match self.file {
                File::Job => (calls.job)(direction, &self.pair.job, &mut room, &mut out),
                File::Certificate => {
                    (calls.certificate)(direction, self.pair.files(), &mut room, &mut out)
                }
            });
            black_box(out);
        })
    }

    /// The pair checked by the library.
    pub fn check(&self) {
        black_box(check(&self.pair.job, &self.pair.certificate));
    }
}

#[cfg(test)]
mod tests {
    use super::*;
    use crate::pairs::{accepted_pairs, beyond_pairs};
    use crate::reference::carry::{certificate, in_room, job};
    use crate::reference::version::Version;

    /// So many of the largest pairs can't go up.
    const TOO_LONG: usize = 1;

    /// What is measured both ways is carried, and the rest refused as the table says.
    #[test]
    fn what_is_measured_is_carried() {
        let corpus = accepted_pairs(Version::One, 7).take(20);
        let with_values = beyond_pairs(7).skip(1).take(1);
        let cases = Cases::new(&corpus.chain(with_values).collect::<Vec<Pair>>());
        let counts: Vec<usize> = cases.groups.iter().map(|of| of.cases.len()).collect();
        assert_eq!(counts[..5], [20, 20, 1, 20, 20]);
        assert_eq!(counts.len(), 5 + 2 * (extremes().len() - TOO_LONG));
        for group in &cases.groups {
            let is_refused = group.name.contains("refused 21");
            for case in &group.cases {
                let carried = match case.file {
                    File::Job => job(case.direction(), &case.pair.job),
                    File::Certificate => certificate(case.direction(), case.pair.files()),
                };
                let carried = in_room(carried, MOST_BYTES);
                let number = carried.err().map_or(0, |refused| refused.number);
                assert_eq!(number, if is_refused { 21 } else { 0 }, "{}", group.name);
                assert_eq!(
                    group.name.ends_with("up"),
                    case.direction() == Direction::Up
                );
            }
        }
    }
}
