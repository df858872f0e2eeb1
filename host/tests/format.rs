//! What docs/FORMAT.md shows is so: its numbers, its predecessors, the usual forbidden shapes and the
//! worked pair; and examples/search.py, written after that page, finds certificates.

use std::collections::BTreeSet;
use std::fs;
use std::path::{Path, PathBuf};
use std::process::Command;

use vorruda_host::check::check;
use vorruda_host::compare::ready::forbid_in_library;
use vorruda_host::corpus;
use vorruda_host::library::write_numbers;
use vorruda_host::reference::facts::Fact;
use vorruda_host::reference::job::{Job, Located};
use vorruda_host::reference::operation::{Operation, LARGER, SMALLER};
use vorruda_host::reference::predecessor::predecessors;
use vorruda_host::reference::ready::Set;
use vorruda_host::reference::shape::Shape;
use vorruda_host::reference::version::Version;
use vorruda_host::verdict::Verdict;

fn project() -> PathBuf {
    Path::new(env!("CARGO_MANIFEST_DIR")).join("..")
}

fn page() -> String {
    fs::read_to_string(project().join("docs/FORMAT.md")).unwrap()
}

/// The lines of the block of code that begins with these words.
fn block<'a>(page: &'a str, begin: &str) -> Vec<&'a str> {
    let from = page.find(begin).expect("the page has the block") + begin.len();
    let (block, _) = page[from..].split_once("\n```").expect("the block ends");
    block.lines().skip(1).collect()
}

/// The cells of the rows of the table with this heading.
fn table<'a>(page: &'a str, heading: &str) -> Vec<Vec<&'a str>> {
    let lines = page.lines().skip_while(|line| *line != heading).skip(2);
    let rows = lines.take_while(|line| line.starts_with('|'));
    rows.map(|row| row.trim_matches('|').split('|').map(str::trim).collect())
        .collect()
}

fn numbers(text: &str) -> Vec<u64> {
    let words = text.split_whitespace();
    words
        .map(|word| word.replace(',', "").parse().unwrap())
        .collect()
}

/// The bytes of lines in hex; from `;` on a line is a remark.
fn hex(lines: &[&str]) -> Vec<u8> {
    let words = lines.iter().filter_map(|line| line.split(';').next());
    let words = words.flat_map(str::split_whitespace);
    words
        .map(|word| u8::from_str_radix(word, 16).unwrap())
        .collect()
}

#[test]
fn the_worked_pair_is_accepted() {
    let page = page();
    let job = hex(&block(&page, "```hex job"));
    let certificate = hex(&block(&page, "```hex certificate"));
    let verdict = check(&job, &certificate);
    let said = format!("The verdict: `{verdict}`");
    assert!(page.contains(&said), "the page doesn't say: {said}");
    assert!(matches!(verdict, Verdict::Accepted(_)), "{verdict}");
}

#[test]
fn numbers_are_written_so() {
    let page = page();
    let rows = table(&page, "| number | bytes, decimal | bytes, hex |");
    assert!(rows.len() >= 5);
    for row in rows {
        let (mut bytes, mut filled) = ([0; 3], [0]);
        assert_eq!(write_numbers(&numbers(row[0]), &mut bytes, &mut filled), 0);
        let written = &bytes[..filled[0] as usize];
        let decimal: Vec<u64> = written.iter().map(|&byte| byte.into()).collect();
        assert_eq!(decimal, numbers(row[1]), "{row:?}");
        assert_eq!(written, hex(&[row[2].trim_matches('`')]), "{row:?}");
    }
}

/// A shape as the page shows it: cells, places of variables, links and facts, with bars between.
fn shape(text: &str) -> Shape {
    let parts: Vec<Vec<u64>> = text.split('|').map(numbers).collect();
    let [cells, variables, links, facts] = &parts[..] else {
        panic!("not four parts: {text}");
    };
    assert_eq!(cells[..], [links.len() as u64], "{text}");
    assert_eq!(facts.len() as u64, 1 + 3 * facts[0], "{text}");
    let facts = facts[1..].chunks(3).map(|fact| match fact[0] {
        0 => Fact::below(fact[1] as usize, fact[2] as usize),
        _ => Fact::equal(fact[1] as usize, fact[2] as usize),
    });
    Shape::of_codes(variables, links).with_facts(facts.collect())
}

#[test]
fn predecessors_are_as_shown() {
    let page = page();
    let mut kinds = BTreeSet::new();
    for line in block(&page, "and facts.\n\n```") {
        let (head, results) = line.split_once(": ").expect(line);
        let (operation, of) = head.split_once(" of ").expect(line);
        let operation = numbers(&operation.replace(|c: char| !c.is_ascii_digit(), " "));
        let operation = Operation {
            kind: operation[0],
            a: operation[1] as usize,
            b: operation[2] as usize,
        };
        let shown: Vec<Shape> = match results {
            "none" => vec![],
            _ => results.split("; ").map(shape).collect(),
        };
        assert_eq!(predecessors(&shape(of), operation), shown, "{line}");
        kinds.insert(operation.kind);
    }
    assert_eq!(kinds, (1..=13).collect());
}

/// The shapes that the library adds for variable 1 at state 0, `n, place, links` as the page has them.
fn added(set: Set) -> Vec<String> {
    let own = Located {
        state: 0,
        shape: Shape::of_codes(&[1], &[]),
    };
    let job = Job {
        version: Version::Two,
        variables: 1,
        states: 1,
        start: 0,
        transitions: vec![],
        forbidden: vec![own],
    };
    let (mut bytes, mut filled) = ([0; 256], [0]);
    let answer = forbid_in_library(&job.bytes(), set, &mut bytes, &mut filled);
    assert_eq!(answer, 0);
    let job = Job::read(&bytes[..filled[0] as usize]).unwrap();
    let shown = |bad: &Located| {
        let numbers = bad.shape.numbers(Version::Two);
        assert_eq!(numbers.last(), Some(&0), "no facts");
        let links: Vec<String> = numbers[2..numbers.len() - 1]
            .iter()
            .map(u64::to_string)
            .collect();
        let parts = [
            numbers[0].to_string(),
            numbers[1].to_string(),
            links.join(" "),
        ];
        parts.join(", ").trim_end_matches(", ").to_string()
    };
    job.forbidden[1..].iter().map(shown).collect()
}

#[test]
fn the_usual_forbidden_shapes_are_those() {
    let page = page();
    let rows = table(&page, "| what | shapes |");
    let sets = [
        Set::NotList {
            variable: 1,
            state: 0,
        },
        Set::LostBlock {
            variable: 1,
            state: 0,
        },
    ];
    assert_eq!(rows.len(), 3);
    for (row, set) in rows.iter().zip(sets) {
        let shown: Vec<&str> = row[1].trim_matches('`').split("` `").collect();
        assert_eq!(shown, added(set), "{row:?}");
    }
}

/// The file that examples/search.py writes for a job, if it finds a certificate.
fn search(name: &str, job: &Job) -> Option<Vec<u8>> {
    let folder = Path::new(env!("CARGO_TARGET_TMPDIR"));
    let [of_job, certificate] = ["job", "cert"].map(|end| folder.join(format!("{name}.{end}")));
    fs::write(&of_job, job.bytes()).unwrap();
    let _ = fs::remove_file(&certificate);
    let searched = Command::new("python3")
        .arg(project().join("examples/search.py"))
        .args([&of_job, &certificate])
        .output()
        .unwrap();
    let said = String::from_utf8(searched.stderr).unwrap();
    match searched.status.code() {
        Some(0) => Some(fs::read(certificate).unwrap()),
        Some(1) => {
            assert!(said.starts_with("no certificate found"), "{name}: {said}");
            assert!(!certificate.exists(), "{name}");
            None
        }
        _ => panic!("{name}: {said}"),
    }
}

/// A job of the corpus, as one of version 2.
fn of_corpus(name: &str) -> Job {
    Job {
        version: Version::Two,
        ..corpus::find(name).unwrap().routine.job
    }
}

/// The job of the worked pair the other way round: each new cell has a larger value.
fn with_larger_values() -> Job {
    let mut job = Job::read(&hex(&block(&page(), "```hex job"))).unwrap();
    let smaller = job.transitions.iter_mut().map(|one| &mut one.operation);
    for operation in smaller.filter(|operation| operation.kind == SMALLER) {
        operation.kind = LARGER;
    }
    job.forbidden[0].shape.facts = vec![Fact::below(0, 1)];
    job
}

/// Jobs with every kind, searched by the example; the proved checker decides.
#[test]
fn the_example_in_python_finds_certificates() {
    if Command::new("python3").arg("--version").output().is_err() {
        println!("python3 is not installed: left out");
        return;
    }
    let names = ["reverse", "delete_rest", "queue_delete", "swap_values"];
    let of_values = ["bubble_sort_values", "find_sorted", "find_smallest"];
    let names = names.into_iter().chain(of_values);
    let mut jobs: Vec<(&str, Job)> = names.map(|name| (name, of_corpus(name))).collect();
    jobs.push(("larger", with_larger_values()));
    let first_version = corpus::find("reverse").unwrap().routine.job;
    assert_eq!(first_version.version, Version::One);
    jobs.push(("first_version", first_version));
    let mut kinds = BTreeSet::new();
    for (name, job) in jobs {
        let certificate = search(name, &job).expect(name);
        let verdict = check(&job.bytes(), &certificate);
        assert!(matches!(verdict, Verdict::Accepted(_)), "{name}: {verdict}");
        let operations = job.transitions.iter().map(|one| one.operation.kind);
        kinds.extend(operations);
    }
    assert_eq!(kinds, (1..=13).collect());
    for name in ["wrong_reverse_ring", "wrong_swap_values"] {
        assert_eq!(search(name, &of_corpus(name)), None, "{name}");
    }
}
