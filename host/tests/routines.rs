//! What docs/ROUTINES.md shows is so: its lines are lines of a listing, its listings are certified, and
//! the driver's is the one that its table carries over.

use std::fs;
use std::path::Path;

use vorruda_host::corpus::Expected;
use vorruda_host::judge::{judge, Ending};
use vorruda_host::library::translate;
use vorruda_host::routine::parse_listing;

fn page() -> String {
    let path = Path::new(env!("CARGO_MANIFEST_DIR")).join("../docs/ROUTINES.md");
    fs::read_to_string(path).unwrap()
}

/// The listings of the page, with what they forbid.
fn listings(page: &str) -> Vec<&str> {
    let blocks = page.split("```listing\n").skip(1);
    blocks
        .map(|block| block.split("```").next().unwrap())
        .collect()
}

/// The rows of all tables with these headings, as cells.
fn rows(page: &str, is_heading: impl Fn(&str) -> bool) -> Vec<Vec<&str>> {
    let mut rows = Vec::new();
    let mut inside = false;
    for line in page.lines() {
        if !line.starts_with("| ") && !line.starts_with("|-") {
            inside = false;
        } else if is_heading(line) {
            inside = true;
        } else if inside && !line.starts_with("|-") {
            let cells = line.trim_matches('|').split(" | ").map(str::trim);
            rows.push(cells.collect());
        }
    }
    rows
}

/// The lines of a listing in a cell of a table; what stands for other lines is left out.
fn lines(cell: &str) -> Vec<&str> {
    let parts = cell.split("<br>");
    parts
        .filter_map(|part| part.strip_prefix('`')?.strip_suffix('`'))
        .collect()
}

fn text_of(lines: &[&str]) -> String {
    lines.iter().map(|line| format!("{line}\n")).collect()
}

#[test]
fn the_tables_have_lines_of_a_listing() {
    let page = page();
    let rows = rows(&page, |heading| heading.ends_with("| listing |"));
    let mut translated = 0;
    for row in rows {
        let [_, listing] = row[..] else {
            panic!("not two cells: {row:?}");
        };
        let text = text_of(&lines(listing));
        let (mut bytes, mut out) = ([0; 256], [0]);
        let answer = translate(text.as_bytes(), &mut bytes, &mut [0; 64], &mut out);
        assert_eq!(answer, 0, "{listing}, line {}", out[0]);
        translated += usize::from(!text.is_empty());
    }
    assert!(translated >= 30, "{translated}");
}

#[test]
fn the_listings_are_certified() {
    let page = page();
    let listings = listings(&page);
    assert_eq!(listings.len(), 2);
    for listing in &listings {
        let judged = judge(&parse_listing(listing).unwrap());
        assert_eq!(judged.expected(), Some(Expected::Certified), "{listing}");
    }
    let judged = judge(&parse_listing(listings[1]).unwrap());
    let said = format!("It is certified: `{}`", judged.ending.words());
    assert!(page.contains(&said), "the page doesn't say: {said}");
}

#[test]
fn the_driver_is_carried_over_line_by_line() {
    let page = page();
    let rows = rows(&page, |heading| heading == "| C | listing | why |");
    let carried: Vec<&str> = rows.iter().flat_map(|row| lines(row[1])).collect();
    let (listing, _) = listings(&page)[1].split_once("\n\n").unwrap();
    assert_eq!(text_of(&carried), format!("{listing}\n"));

    let in_c = page.split("```c\n").nth(1).unwrap();
    let in_c = in_c.split("```").next().unwrap();
    let words = |text: &str| -> Vec<String> {
        let words = text.replace('`', " ");
        words.split_whitespace().map(str::to_string).collect()
    };
    let of_rows = rows.iter().flat_map(|row| words(row[0]));
    assert_eq!(of_rows.collect::<Vec<_>>(), words(in_c));
}

#[test]
fn the_wrong_driver_is_caught() {
    let page = page();
    let wrong = listings(&page)[1].replace("if p = null\n", "if any\n");
    let judged = judge(&parse_listing(&wrong).unwrap());
    let Ending::Wrong(wrong) = judged.ending else {
        panic!("{}", judged.ending.words());
    };
    let steps = wrong.run.transitions.len();
    let said = format!("draws a run of {steps} steps");
    assert!(page.contains(&said), "the page doesn't say: {said}");
}
