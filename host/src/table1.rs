//! The programs of source 000's Table 1: what the paper measured, and what these tools do.

use std::fmt::Write as _;
use std::time::{Duration, Instant};

use crate::check::check;
use crate::corpus::{self, Entry};
use crate::jobs::in_jobs;
use crate::judge::{judge, Ending, Judged};
use crate::pairs::Pair;
use crate::text::counted;

/// A row of the paper's table.
pub struct Program {
    pub name: &'static str,
    pub figure: u32,
    pub time: &'static str,
    /// All signatures that were computed, and those left at the end.
    pub signatures: u32,
    pub left: u32,
    /// The routine of the corpus.
    pub routine: &'static str,
}

/// The table's rows in its order.
pub const PROGRAMS: [Program; 12] = [
    program(
        "EfficientInsert",
        4,
        "0.1 s",
        (44, 40),
        "table1_efficient_insert",
    ),
    program(
        "NonDuplicateInsert",
        5,
        "0.4 s",
        (111, 99),
        "table1_non_duplicate_insert",
    ),
    program("Insert", 6, "2.6 s", (2_343, 1_601), "table1_insert"),
    program(
        "Insert (bug)",
        6,
        "1.4 s",
        (337, 268),
        "wrong_table1_insert",
    ),
    program("Merge", 7, "23.5 s", (11_910, 5_830), "table1_merge"),
    program("Reverse", 8, "1.5 s", (435, 261), "table1_reverse"),
    program(
        "ReverseCyclic",
        9,
        "1.6 s",
        (1_031, 574),
        "table1_reverse_cyclic",
    ),
    program(
        "Partition",
        10,
        "2 m 49 s",
        (21_058, 15_072),
        "table1_partition",
    ),
    program(
        "BubbleSort",
        11,
        "35.9 s",
        (11_023, 10_034),
        "table1_bubble_sort",
    ),
    program(
        "BubbleSortCyclic",
        12,
        "36.6 s",
        (11_142, 10_143),
        "table1_bubble_sort_cyclic",
    ),
    program(
        "BubbleSort (bug)",
        11,
        "1.76 s",
        (198, 182),
        "wrong_table1_bubble_sort",
    ),
    program(
        "InsertionSort",
        13,
        "11 m 53 s",
        (34_843, 23_324),
        "table1_insertion_sort",
    ),
];

const fn program(
    name: &'static str,
    figure: u32,
    time: &'static str,
    (signatures, left): (u32, u32),
    routine: &'static str,
) -> Program {
    Program {
        name,
        figure,
        time,
        signatures,
        left,
        routine,
    }
}

const HEAD: &str = "\
# Table 1 of source 000

The programs that the authors of source 000 measured their prototype by (its appendix, figures 4 to 13), carried over line by line to `host/corpus` with the
paper's own bad configurations and with `steps`, no link followed or set at null or dangling, which the paper hasn't. Each file names its states after the
figure's lines and says what isn't as printed. Time, #Sig. and #Final are the paper's, on its own machine; the others are of the machine that wrote this page:
search is from the routine to the verdict, check is the proved checker alone, the median of 31 calls.

This page is what this command prints; a test sees that all but the times is so:

    cargo run --release --manifest-path host/Cargo.toml --bin corpus -- table1

| program | figure | time | #Sig. | #Final | routine | members | covers | certificate bytes | ends | search | check |
|---|---|---|---|---|---|---|---|---|---|---|---|
";

const FOOT: &str = "
What to know of single rows:

- **NonDuplicateInsert** can't be certified against b2, head's cell linked to *: it frees a cell and keeps a list, and going back over a delete forgets links
  to * (`docs/CORPUS.md`, Delete and keep a list). All else that is forbidden holds.
- **Insert (bug)** as printed never ends out of order, as the text says it does. Where elem has the value of the first cell, the list becomes a ring.
- **BubbleSort (bug)** ends out of order, as the text says. With one cell it also follows null at line 9; with `steps` forbidden that would be what is drawn.
- **InsertionSort** as printed needs a leading cell ahead of the list, since it never puts a cell first.
- **BubbleSort** and **BubbleSortCyclic** keep `change` by states. **Merge** and **BubbleSortCyclic** test for null and compare at one state.
- b17, b18, b24 and b25 (order round a ring) are pictures in the paper; they are read from its words, as `not sorted round` and `not falling round`.
";

/// The page, or what is wrong with the corpus.
pub fn page() -> Result<String, String> {
    let mut page = HEAD.to_string();
    for program in &PROGRAMS {
        page += &row(program, &corpus::find(program.routine)?);
    }
    Ok(page + FOOT)
}

fn row(program: &Program, entry: &Entry) -> String {
    let judged = judge(&entry.routine);
    let mut row = format!(
        "| {} | {} | {} | {} | {} | `{}` |",
        program.name,
        program.figure,
        program.time,
        program.signatures,
        program.left,
        program.routine
    );
    let ending = &judged.ending;
    let pairs = ending.pairs(&entry.routine);
    let check_time = match pairs.is_empty() {
        true => "-".to_string(),
        false => format!("{} µs", time_of_checks(&pairs).as_micros()),
    };
    let cells = [
        ending.in_table(|certificate| certificate.members.len().to_string()),
        ending.in_table(|certificate| certificate.covers.len().to_string()),
        ending.in_table(|certificate| certificate.bytes().len().to_string()),
        end(entry, &judged),
    ];
    write!(
        row,
        " {} | {} ms | {check_time} |",
        cells.join(" | "),
        judged.time.as_millis()
    )
    .expect("a string takes all");
    row + "\n"
}

/// How a routine ends, in few words.
fn end(entry: &Entry, judged: &Judged) -> String {
    match &judged.ending {
        Ending::Certified(..) if judged.ending.is_accepted() => "certified".to_string(),
        Ending::Split(jobs) if judged.ending.is_accepted() => {
            format!("certified {}", in_jobs(jobs))
        }
        Ending::Wrong(wrong) => format!(
            "wrong: a run of {} meets `{}`",
            counted(wrong.run.transitions.len(), "step"),
            entry.routine.origins[wrong.forbidden].text
        ),
        other => other.words(),
    }
}

const CALLS: usize = 31;

/// The time that the proved checker takes for all pairs.
fn time_of_checks(pairs: &[Pair]) -> Duration {
    let mut times: Vec<Duration> = (0..CALLS)
        .map(|_| {
            let begin = Instant::now();
            for Pair { job, certificate } in pairs {
                check(job, certificate);
            }
            begin.elapsed()
        })
        .collect();
    times.sort();
    times[CALLS / 2]
}
