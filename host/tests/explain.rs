//! `vorruda explain` has all refusals of the headers, with the texts of vorruda_text.h, and all rules, ready sets
//! and words of README.md.

mod command_line;

use std::collections::BTreeMap;
use std::fs;
use std::path::Path;

use command_line::vorruda;
use vorruda_host::refusal_text::refusal_text;

fn read(file: &str) -> String {
    let path = Path::new(env!("CARGO_MANIFEST_DIR")).join("..").join(file);
    fs::read_to_string(path).unwrap()
}

/// The texts of the header by their numbers.
fn texts() -> BTreeMap<u32, String> {
    let header = read("include/vorruda_text.h");
    let cases = header.lines().filter_map(|line| {
        let (number, rest) = line
            .trim()
            .strip_prefix("case ")?
            .split_once(": return \"")?;
        Some((
            number.parse().unwrap(),
            rest.strip_suffix("\";")?.to_string(),
        ))
    });
    cases.collect()
}

/// The texts of the command are those of the header, and each number is explained by its own.
#[test]
fn every_refusal_has_the_text_of_the_header() {
    let texts = texts();
    assert!(texts.len() > 25, "{texts:?}");
    let known = (0..=200).filter_map(|number| Some((number, refusal_text(number)?.to_string())));
    assert_eq!(known.collect::<BTreeMap<_, _>>(), texts);
    let all = vorruda(&["explain"]).text;
    for (number, text) in &texts {
        let ran = vorruda(&["explain", &number.to_string()]);
        assert_eq!(ran.status, 0, "{ran:?}");
        assert!(
            ran.text.starts_with(&format!("{number}: {text}\n\n")),
            "{ran:?}"
        );
        assert!(ran.text.contains("\n\nExample:\n  "), "{ran:?}");
        assert!(
            all.contains(&format!("\n  {number:>3}  {text}\n")),
            "{number}"
        );
    }
    assert_eq!(refusal_text(22), None);
    let none = vorruda(&["explain", "99"]);
    assert_eq!((none.status, &none.text[..]), (2, ""), "{none:?}");
}

/// The numbers that the headers call refusals are those with a text.
#[test]
fn every_number_of_the_headers_is_explained() {
    let headers = read("include/vorruda.h") + &read("include/vorruda_list.h");
    let mut explained = 0;
    for line in headers.lines() {
        let Some((name, rest)) = line
            .strip_prefix("#define VORRUDA_")
            .and_then(|rest| rest.split_once(' '))
        else {
            continue;
        };
        let is_refusal = [
            "JOB_LENGTH",
            "CERT_",
            "JOB_",
            "UNREADABLE",
            "TOO_",
            "NO_ROOM",
            "BAD_",
            "HEAP_FULL",
            "START_MEMBER",
            "COVER",
            "VERSIONS_DIFFER",
            "OUTSIDE",
            "LISTING_",
            "TALLY_FULL",
            "JOIN_STATE",
            "JOIN_VARIABLES",
            "JOIN_TRANSITION",
            "JOIN_OWED",
            "NO_LIST",
            "PAST_LIST",
        ];
        let value: Option<u32> = rest
            .trim()
            .split(' ')
            .next()
            .and_then(|value| value.parse().ok());
        let is_refusal = is_refusal.iter().any(|begin| name.starts_with(begin));
        if let (true, Some(number)) = (is_refusal, value) {
            assert_eq!(
                vorruda(&["explain", &number.to_string()]).status,
                0,
                "{name}"
            );
            explained += 1;
        }
    }
    assert!(explained > 25, "{explained}");
}

#[test]
fn rules_sets_and_words_are_explained() {
    let mut wanted: Vec<String> = (1..=6).map(|rule| format!("rule {rule}")).collect();
    wanted.push("->".to_string());
    // The words of README.md, each in the first column of its table.
    let readme = read("README.md");
    let (_, table) = readme.split_once("\n## The words\n").unwrap();
    let (table, _) = table.split_once("\n## ").unwrap();
    let rows = table.lines().filter_map(|line| line.strip_prefix("| "));
    let rows = rows.filter(|row| !row.starts_with('|'));
    let words: Vec<&str> = rows
        .filter_map(|row| row.split_once(" |"))
        .map(|(word, _)| word)
        .collect();
    assert!(words.len() > 7, "{words:?}");
    wanted.extend(words.iter().map(|word| word.replace('\\', "")));
    // The ready sets that host/corpus/README.md names.
    let page = read("host/corpus/README.md");
    let (_, sets) = page.split_once("\n- Ready sets: ").unwrap();
    let (sets, _) = sets.split_once("\n\n").unwrap();
    let sets: Vec<&str> = sets.split('`').skip(1).step_by(2).collect();
    assert!(sets.len() > 10, "{sets:?}");
    wanted.extend(
        sets.iter()
            .map(|set| set.split(':').next().unwrap().to_string()),
    );
    for word in wanted {
        let ran = vorruda(&["explain", &word]);
        assert_eq!(ran.status, 0, "{word}: {ran:?}");
        assert!(
            ran.text.starts_with(&word) || ran.text.contains(&format!(", {word}")),
            "{word}: {ran:?}"
        );
        assert!(ran.text.contains("\n\nExample:\n  "), "{word}: {ran:?}");
    }
    let apart = vorruda(&["explain", "rule", "3"]);
    assert_eq!(apart, vorruda(&["explain", "rule 3"]));
    let near = vorruda(&["explain", "covr"]);
    assert!(near.said.contains("did you mean `cover`?"), "{near:?}");
}
