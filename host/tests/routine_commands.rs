//! The subcommands of `vorruda` that take a routine as text, beside `try` and `report`: what they print and write, and
//! their exit status.

mod command_line;

use std::fs;

use command_line::{file, files_in, folder, vorruda, vorruda_in, Ran};
use vorruda_host::check::check;
use vorruda_host::corpus;

#[test]
fn a_run_to_a_mark() {
    let ran = vorruda(&["run", "append", "--to", "0"]);
    assert_eq!(ran.status, 0, "{ran:?}");
    assert!(ran.text.starts_with("A run of "), "{ran:?}");
    assert!(ran.text.contains(" reaches mark 0 (line "), "{ran:?}");
    assert!(ran.text.contains("\n    1  line 3   x := null"), "{ran:?}");
    assert_eq!(vorruda(&["run", "append", "--to=mark 0"]), ran);
    let of_state = vorruda(&["run", "queue", "--to", "end"]);
    assert!(of_state.text.contains(" reaches end ("), "{of_state:?}");

    let none = vorruda(&["run", "warned_mark_unreached", "--to", "0"]);
    assert_eq!(none.status, 1, "{none:?}");
    let said = "No run was found that reaches mark 0 (line 13), among ";
    assert!(none.text.starts_with(said), "{none:?}");
    let unknown = vorruda(&["run", "append", "--to", "7"]);
    assert_eq!(unknown.status, 2);
    assert_eq!(unknown.said, "append: no `7` to run to; expected mark 0\n");
}

#[test]
fn a_listing_is_translated() {
    let job = folder("translated").join("job.bin");
    let ran = vorruda(&["translate", "reverse", "-o", job.to_str().unwrap()]);
    assert_eq!(ran.status, 0, "{ran:?}");
    let routine = corpus::find("reverse").unwrap().routine;
    assert_eq!(fs::read(&job).unwrap(), routine.job.bytes());
    for (number, name) in (1..).zip(&routine.variables) {
        assert!(
            ran.text
                .contains(&format!("\n{name} is variable {number}\n")),
            "{ran:?}"
        );
    }
    let mark = (0..routine.job.states).find(|&state| routine.mark(state).is_some());
    assert!(
        ran.text
            .contains(&format!("\nmark 0 is state {}\n", mark.unwrap())),
        "{ran:?}"
    );
}

/// What is new is certified as it stands, and nothing is written over.
#[test]
fn a_new_listing_is_certified() {
    let folder = folder("new");
    let ran = vorruda_in(&folder, &["new", "mine"]);
    assert_eq!(
        (ran.status, files_in(&folder)),
        (0, vec!["mine.listing".to_string()])
    );
    let tried = vorruda_in(&folder, &["try", "mine.listing"]);
    assert_eq!(tried.status, 0, "{tried:?}");
    assert!(!tried.text.contains("Warning"), "{tried:?}");
    fs::write(folder.join("mine.listing"), "mine").unwrap();
    let again = vorruda_in(&folder, &["new", "mine.listing"]);
    assert_eq!(
        (again.status, &again.said[..]),
        (2, "mine.listing: it is there already\n")
    );
    assert_eq!(fs::read(folder.join("mine.listing")).unwrap(), b"mine");
}

const MISTAKEN: &str = "x = null;\r\n\twhile (x != NULL) {\r\n  x := x->next\r\n}\r\nmark 0\r\n";

#[test]
fn mistakes_are_put_right_as_they_are_guessed() {
    let path = file("mistaken.listing", MISTAKEN);
    let name = path.to_str().unwrap();
    assert_eq!(vorruda(&["try", name]).status, 2);
    let Ran { status, text, said } = vorruda(&["fix", name]);
    assert_eq!(status, 0, "{text}{said}");
    let right = "x := null\nwhile x != null\nx := x.next\nend\nmark 0\n";
    assert_eq!(text, right, "{said}");
    assert!(said.contains("\n  x = null;\n"), "{said}");
    assert_eq!(fs::read_to_string(&path).unwrap(), MISTAKEN);

    let ran = vorruda(&["fix", name, "-o", name]);
    assert_eq!((ran.status, &ran.said[..]), (0, ""), "{ran:?}");
    assert_eq!(fs::read_to_string(&path).unwrap(), right);
    assert_eq!(vorruda(&["try", name]).status, 0);
    let again = vorruda(&["fix", name]);
    assert_eq!((again.status, &again.text[..]), (0, right), "{again:?}");
    assert!(
        again.said.contains("no mistake that can be put right"),
        "{again:?}"
    );
}

#[test]
fn mistakes_that_are_left_are_told() {
    let path = file("half.listing", "x := null;\nfrobnicate the list\n");
    let ran = vorruda(&["fix", path.to_str().unwrap()]);
    assert_eq!(ran.status, 2, "{ran:?}");
    assert!(ran.text.starts_with("x := null\nfrobnicate"), "{ran:?}");
    assert!(
        ran.said.contains("as it is now: 1 mistake\n\nline 2, "),
        "{ran:?}"
    );
}

/// A wrong routine, a right one, a pair of files, a folder without a certificate, and a mistaken file.
#[test]
fn a_release_has_its_sheet() {
    let from = folder("to_release");
    for name in ["append", "wrong_reverse_ring"] {
        let file = format!("{name}.routine");
        fs::copy(corpus::folder().join(&file), from.join(&file)).unwrap();
    }
    let pair = from.join("pair");
    assert_eq!(
        vorruda(&["try", "prepend", "-o", pair.to_str().unwrap()]).status,
        0
    );
    let home = folder("released");
    let all = |more: &[&str]| {
        let from = from.to_str().unwrap();
        vorruda_in(&home, &[&["release", from, "-o", "out"], more].concat())
    };
    let ran = all(&[]);
    assert_eq!((ran.status, &ran.said[..]), (1, ""), "{ran:?}");
    let lines: Vec<&str> = ran.text.lines().collect();
    let covers = |line: &str| -> u64 {
        let (_, behind) = line.split_once(" covers ").unwrap();
        behind.split(' ').next().unwrap().parse().unwrap()
    };
    let [append, wrong, prepend, sheet] = lines[..] else {
        panic!("{ran:?}");
    };
    assert!(append.starts_with("append: accepted bads "), "{ran:?}");
    assert_eq!(
        wrong,
        "wrong_reverse_ring: refused 2 at 0 (none: a run meets it)"
    );
    assert!(prepend.starts_with("pair: accepted bads "), "{ran:?}");
    let sum = covers(append) + covers(prepend);
    let mean = if sum % 2 == 0 {
        format!("{}/1", sum / 2)
    } else {
        format!("{sum}/2")
    };
    assert_eq!(sheet, format!("share 2/3 covers {mean}"));

    let out = home.join("out");
    assert_eq!(
        files_in(&out),
        ["append", "pair", "release.html", "wrong_reverse_ring"]
    );
    assert_eq!(files_in(&out.join("wrong_reverse_ring")), ["job.bin"]);
    let read = |file: &str| fs::read(out.join("append").join(file)).unwrap();
    assert_eq!(check(&read("job.bin"), &read("cert.bin")).number(), 0);
    let page = fs::read_to_string(out.join("release.html")).unwrap();
    let (top, table) = page.split_once("<table class=\"release\">").unwrap();
    assert!(top.contains(sheet) && top.contains("banner bad"), "{top}");
    assert!(top.contains("3 pairs, 2 accepted, 1 refused."), "{top}");
    assert_eq!(table.matches("<tr><td>").count(), 3);

    fs::write(from.join("faulty.listing"), "x := nul\n").unwrap();
    let ran = all(&["append"]);
    assert_eq!(
        (ran.status, &ran.said[..]),
        (2, "vorruda release: two are called append\n")
    );
    let ran = all(&[]);
    assert_eq!(ran.status, 2, "{ran:?}");
    assert!(ran.said.contains("faulty.listing: 1 mistake"), "{ran:?}");
    assert!(ran.text.ends_with(&format!("{sheet}\n")), "{ran:?}");
    let page = fs::read_to_string(out.join("release.html")).unwrap();
    assert!(
        page.contains("1 file can't be read and is not counted."),
        "{page}"
    );
    let none = vorruda_in(&home, &["release", folder("empty").to_str().unwrap()]);
    assert_eq!(none.status, 2, "{none:?}");

    let good = vorruda_in(&home, &["release", "append", "prepend", "-o", "good"]);
    assert_eq!(good.status, 0, "{good:?}");
    let page = fs::read_to_string(home.join("good/release.html")).unwrap();
    assert!(page.contains("banner good"), "{page}");
}

/// Each job of a routine that is certified in two is a pair of the release, in a folder of its own.
#[test]
fn a_release_with_a_routine_in_two_jobs() {
    let home = folder("split_release");
    let name = "table1_bubble_sort_cyclic";
    let split = concat!(env!("CARGO_MANIFEST_DIR"), "/tests/split");
    let routine = format!("{split}/{name}.routine");
    let ran = vorruda_in(&home, &["release", &routine, "-o", "out"]);
    assert_eq!((ran.status, &ran.said[..]), (0, ""));
    let lines: Vec<&str> = ran.text.lines().collect();
    assert_eq!(lines.len(), 3, "{}", ran.text);
    for (number, line) in (1..=2).zip(&lines) {
        let named = format!("{name}_{number}");
        assert!(line.starts_with(&format!("{named}: accepted ")), "{line}");
        let files = home.join("out").join(named);
        assert_eq!(files_in(&files), ["cert.bin", "job.bin"]);
    }
    assert!(lines[2].starts_with("share 1/1 covers "), "{}", lines[2]);
    let again = vorruda_in(&home, &["release", "out", "-o", "again"]);
    assert_eq!((again.status, again.text), (0, ran.text));
}
