//! The tables, in markdown.

#[cfg(feature = "carrying")]
use super::carries;
use super::suite::{Case, Suite};
use super::{block_lists, calls, joins, tallies, time, Cost, Work};
use crate::baseline::checker::check;
use crate::text::thousands;
use crate::verdict::Verdict;

/// How many of the largest ratios are shown, among pairs of so many instructions.
const SHOWN: usize = 8;
const LONG: f64 = 1_000.0;

/// Measures the time where it is shown, and prints all tables.
pub fn print(
    suite: &mut Suite,
    lists: &[block_lists::Case],
    tallies: &tallies::Cases,
    joins: &joins::Cases,
    #[cfg(feature = "carrying")] carries: &carries::Cases,
    calls: &[Cost],
) {
    summary(suite);
    println!("\n### The corpus without values\n");
    with_time(&suite.corpus, true);
    println!("\n### The corpus with values\n");
    with_time(&suite.corpus_with_values, true);
    println!("\n### Worst cases\n");
    with_time(&suite.extremes, false);
    println!("\n### Version 2: worst cases and every kind on values, the largest ratios\n");
    largest(&suite.values);
    println!("\n### Growth with the members, one cover each\n");
    growth(&suite.in_members);
    println!("\n### Growth with the covers, twenty members\n");
    growth(&suite.in_covers);
    println!("\n### Small pairs, and refusals\n");
    refusals(&suite.refused);
    println!("\n### A cover that breaks a rule\n");
    refusals(&suite.broken);
    println!("\n### Every kind, with its operands standing in every way: the largest ratios\n");
    largest(&suite.sweep);
    println!("\n### Random pairs, accepted and damaged: the largest ratios\n");
    largest(&suite.random);
    println!("\n### Against the quicker baseline, in instructions\n");
    quicker(suite);
    println!("\n### The block list\n");
    block_list(lists);
    println!("\n### The tally\n");
    tally(tallies);
    println!("\n### Two pairs joined\n");
    joined(joins);
    #[cfg(feature = "carrying")]
    {
        println!("\n### Files carried between the versions\n");
        carries.print();
    }
    println!("\n### The other calls\n");
    other_calls(calls);
}

/// The ratios of instructions on the corpus, and the largest on any pair.
fn summary(suite: &mut Suite) {
    summary_of("corpus without values", &suite.corpus);
    summary_of("corpus with values", &suite.corpus_with_values);
    let worst = sorted_by_ratio(suite.cases().map(|case| &*case))[0];
    println!(
        "On any pair measured: at most **{:.2}** times ({}).",
        worst.instructions.ratio(),
        worst.name,
    );
}

/// The ratio of instructions on some pairs in all, and the smallest and largest.
fn summary_of(name: &str, cases: &[Case]) {
    let sorted = sorted_by_ratio(cases);
    let all: Cost = sorted.iter().map(|case| case.instructions).sum();
    println!(
        "Instructions on the {name} in all: **{:.2}** times the baseline's; on its pairs {:.2} to {:.2}.",
        all.ratio(),
        sorted[sorted.len() - 1].instructions.ratio(),
        sorted[0].instructions.ratio(),
    );
}

/// The cases by their ratio of instructions, the largest first.
fn sorted_by_ratio<'a>(cases: impl IntoIterator<Item = &'a Case>) -> Vec<&'a Case> {
    let mut sorted: Vec<&Case> = cases.into_iter().collect();
    sorted.sort_by(|x, y| y.instructions.ratio().total_cmp(&x.instructions.ratio()));
    sorted
}

pub(super) fn heading(columns: &str) {
    let count = columns.matches('|').count() - 1;
    println!("{columns}\n|---{}|", "|--:".repeat(count - 1));
}

fn with_time(cases: &[Case], in_all: bool) {
    heading(
        "| pair | members | covers | bytes | instructions | baseline | ratio | µs | baseline | ratio |",
    );
    let mut times = Vec::new();
    for case in cases {
        let time = time::measure(&Work::of_pair(&case.pair));
        let columns = [
            case.name.clone(),
            sizes(case),
            instructions(case.instructions),
            microseconds(time),
        ];
        println!("| {} |", columns.join(" | "));
        times.push(time);
    }
    if in_all {
        println!(
            "| **in all** | | | | {} | {} |",
            instructions(cases.iter().map(|case| case.instructions).sum()),
            microseconds(times.into_iter().sum()),
        );
    }
}

/// Members, covers and bytes of an accepted pair.
fn sizes(case: &Case) -> String {
    let bytes = thousands((case.pair.job.len() + case.pair.certificate.len()) as u64);
    match check(&case.pair.job, &case.pair.certificate) {
        Verdict::Accepted(counts) => {
            let covers = thousands(counts.covers);
            format!("{} | {covers} | {bytes}", counts.members)
        }
        Verdict::Refused(_) => format!("- | - | {bytes}"),
    }
}

pub(super) fn instructions(cost: Cost) -> String {
    let (proved, baseline) = (
        thousands(cost.proved as u64),
        thousands(cost.baseline as u64),
    );
    format!("{proved} | {baseline} | {:.2}", cost.ratio())
}

fn microseconds(cost: Cost) -> String {
    let (proved, baseline) = (cost.proved / 1e3, cost.baseline / 1e3);
    format!("{proved:.1} | {baseline:.1} | {:.2}", cost.ratio())
}

fn growth(cases: &[Case]) {
    heading("| members | covers | bytes | instructions | baseline | ratio | for a cover |");
    for case in cases {
        let covers = match check(&case.pair.job, &case.pair.certificate) {
            Verdict::Accepted(counts) => counts.covers,
            Verdict::Refused(_) => 0,
        };
        println!(
            "| {} | {} | {:.0} |",
            sizes(case),
            instructions(case.instructions),
            case.instructions.proved / covers as f64,
        );
    }
}

fn refusals(cases: &[Case]) {
    heading("| pair | verdict | instructions | baseline | ratio |");
    for case in cases {
        row_with_verdict(case);
    }
}

fn row_with_verdict(case: &Case) {
    println!(
        "| {} | {} | {} |",
        case.name,
        check(&case.pair.job, &case.pair.certificate),
        instructions(case.instructions),
    );
}

/// The sum of all cases, and the largest ratios where the baseline takes long enough.
fn largest(cases: &[Case]) {
    heading("| pair | verdict | instructions | baseline | ratio |");
    let all: Cost = cases.iter().map(|case| case.instructions).sum();
    println!("| **in all {}** | | {} |", cases.len(), instructions(all));
    let long = cases
        .iter()
        .filter(|case| case.instructions.baseline >= LONG);
    for case in sorted_by_ratio(long).into_iter().take(SHOWN) {
        row_with_verdict(case);
    }
}

/// The corpus and the sweep in all, and the worst cases.
fn quicker(suite: &Suite) {
    heading("| pairs | instructions | baseline | ratio | quicker baseline | ratio |");
    row_with_quicker("**the corpus without values in all**", &suite.corpus);
    for case in &suite.extremes {
        row_with_quicker(&case.name, std::slice::from_ref(case));
    }
    row_with_quicker("**every kind in all**", &suite.sweep);
}

fn row_with_quicker(name: &str, cases: &[Case]) {
    let all: Cost = cases.iter().map(|case| case.instructions).sum();
    let quicker: f64 = cases.iter().map(|case| case.quicker).sum();
    println!(
        "| {name} | {} | {} | {:.2} |",
        instructions(all),
        thousands(quicker as u64),
        all.proved / quicker,
    );
}

/// Call by call, each with its sum behind it; last against the baseline that goes through steps.
fn block_list(cases: &[block_lists::Case]) {
    heading(
        "| call | instructions | baseline | ratio | ratio of time | baseline by steps | ratio |",
    );
    for of_call in cases.chunk_by(|x, y| x.call.name() == y.call.name()) {
        let times: Vec<Cost> = of_call.iter().map(block_lists::Case::time).collect();
        for (case, &time) in of_call.iter().zip(&times) {
            row_with_steps(&case.name(), std::slice::from_ref(case), time);
        }
        let name = format!("**{} in all**", of_call[0].call.name());
        row_with_steps(&name, of_call, times.into_iter().sum());
    }
}

fn row_with_steps(name: &str, cases: &[block_lists::Case], time: Cost) {
    let all: Cost = cases.iter().map(|case| case.instructions).sum();
    let by_steps: f64 = cases.iter().map(|case| case.through_steps).sum();
    println!(
        "| {name} | {} | {:.2} | {} | {:.2} |",
        instructions(all),
        time.ratio(),
        thousands(by_steps as u64),
        all.proved / by_steps,
    );
}

/// Verdicts with a tally and without, what a tally adds to one, and the reports.
fn tally(cases: &tallies::Cases) {
    heading("| calls | instructions | baseline | ratio | ratio of time |");
    for verdicts in &cases.verdicts {
        row_of_tally(&verdicts.taken_in);
        row_of_tally(&verdicts.alone);
        let added = instructions(verdicts.added());
        println!("| **added to a verdict** | {added} | |");
    }
    cases.reports.iter().for_each(row_of_tally);
}

fn row_of_tally(case: &tallies::Case) {
    let time = time::measure(&case.work);
    println!(
        "| {} | {} | {:.2} |",
        case.name,
        instructions(case.instructions),
        time.ratio(),
    );
}

/// Each against the checks of both pairs alone, and against the baseline.
fn joined(cases: &joins::Cases) {
    heading("| pairs | instructions | two checks | more | baseline | ratio |");
    for case in &cases.listings {
        row_joined(&case.name, std::slice::from_ref(case));
    }
    for (owed, behind) in [
        ("little", &cases.behind_fewest),
        ("much", &cases.behind_most),
    ] {
        row_joined(&format!("**the corpus in all, {owed} of it owed**"), behind);
        let more = |case: &&joins::Case| joins::more(case.joined.proved, case.alone);
        let worst = behind.iter().max_by(|x, y| more(x).total_cmp(&more(y)));
        if let Some(case) = worst {
            let name = "of these the one that takes most more";
            row_joined(name, std::slice::from_ref(case));
        }
    }
    for case in &cases.most {
        row_joined(&case.name, std::slice::from_ref(case));
    }
}

fn row_joined(name: &str, cases: &[joins::Case]) {
    let all: Cost = cases.iter().map(|case| case.joined).sum();
    let alone: f64 = cases.iter().map(|case| case.alone).sum();
    println!(
        "| {name} | {} | {} | {:.2} % | {} | {:.2} |",
        thousands(all.proved as u64),
        thousands(alone as u64),
        joins::more(all.proved, alone),
        thousands(all.baseline as u64),
        all.ratio(),
    );
}

fn other_calls(costs: &[Cost]) {
    heading("| calls | ratio of instructions | ratio of time |");
    for ((name, work), cost) in calls::works().iter().zip(costs) {
        let time = time::measure(work);
        println!("| {name} | {:.2} | {:.2} |", cost.ratio(), time.ratio());
    }
}
