//! The help of `vorruda`, its man page, and what it says where it is used wrongly.

mod command_line;

use std::fs;
use std::path::Path;

use command_line::vorruda;

/// The subcommands that the help tells.
fn subcommands() -> Vec<String> {
    let help = vorruda(&["--help"]).text;
    let (_, rows) = help.split_once("\nSubcommands:\n").expect("it tells them");
    let (rows, _) = rows.split_once("\n\n").unwrap();
    let is_first = |line: &&str| line.starts_with("  ") && !line.starts_with("   ");
    let names = rows.lines().filter(is_first);
    names
        .map(|line| line.split_whitespace().next().unwrap().to_string())
        .collect()
}

#[test]
fn every_subcommand_has_help() {
    let wanted = [
        "new",
        "fix",
        "try",
        "run",
        "report",
        "release",
        "check",
        "owed",
        "show",
        "pack",
        "translate",
        "join",
        #[cfg(feature = "carrying")]
        "up",
        #[cfg(feature = "carrying")]
        "down",
        "explain",
        "list",
        "help",
    ];
    assert_eq!(subcommands(), wanted);
    for name in wanted {
        let ran = vorruda(&[name, "--help"]);
        assert_eq!((ran.status, &ran.said[..]), (0, ""), "{name}");
        assert!(
            ran.text.starts_with(&format!("vorruda {name} - ")),
            "{ran:?}"
        );
        assert!(
            ran.text.contains(&format!("\nusage: vorruda {name}")),
            "{ran:?}"
        );
        assert_eq!(vorruda(&["help", name]), ran);
        assert!(
            ran.text.lines().all(|line| line.chars().count() <= 90),
            "{ran:?}"
        );
    }
}

/// The words of a text without the signs of roff and the quotes of the help.
fn words(text: &str) -> String {
    let is_macro = |line: &&str| [".PP", ".nf", ".fi", ".TP", ".br"].contains(line);
    let text: Vec<&str> = text.lines().filter(|line| !is_macro(line)).collect();
    let text = text.join(" ").replace("\\fB", "").replace("\\fR", "");
    let text = text.replace("\\-", "-").replace("\\&", "").replace('`', "");
    text.split_whitespace().collect::<Vec<_>>().join(" ")
}

/// The man page has all of the help, of the command and of each subcommand.
#[test]
fn the_man_page_says_what_the_help_says() {
    let page = vorruda(&["--man"]).text;
    assert!(page.starts_with(".TH VORRUDA 1 "), "{page}");
    let page = words(&page);
    for name in subcommands() {
        let help = vorruda(&[&name, "--help"]).text;
        let mut sections = help.split("\n\n");
        let (_, summary) = sections.next().unwrap().split_once(" - ").unwrap();
        assert!(page.contains(&format!("It {}.", words(summary))), "{name}");
        let usage = sections.next().unwrap().strip_prefix("usage: ").unwrap();
        for kind in [".B", ".SS"] {
            assert!(page.contains(&format!("{kind} {}", words(usage))), "{name}");
        }
        let mut described = 0;
        for section in sections {
            let rows = section.strip_prefix("Options:\n");
            for part in rows.map_or(vec![section], options_in) {
                assert!(page.contains(&words(part)), "{name}: {part}");
                described += 1;
            }
        }
        assert!(described > 0, "{name}");
    }
    let help = vorruda(&["--help"]).text;
    for status in [
        "accepted, or done",
        "refused, or there is no certificate, or no such run",
    ] {
        assert!(help.contains(status) && page.contains(status), "{status}");
    }
}

/// The rows of options, each from its name on.
fn options_in(rows: &str) -> Vec<&str> {
    let begins: Vec<usize> = rows.match_indices("  -").map(|(at, _)| at).collect();
    let begins = begins
        .iter()
        .filter(|&&at| at == 0 || rows[..at].ends_with('\n'));
    let begins: Vec<usize> = begins.copied().collect();
    let ends = begins.iter().skip(1).copied().chain([rows.len()]);
    begins
        .iter()
        .zip(ends)
        .map(|(&begin, end)| &rows[begin..end])
        .collect()
}

#[test]
fn wrong_use_is_told() {
    let rows: [(&[&str], &str); 9] = [
        (&[], "usage: vorruda SUBCOMMAND ...\n"),
        (
            &["chek"],
            "vorruda: no subcommand `chek`; did you mean `check`?\n",
        ),
        (
            &["check", "one"],
            "vorruda check: expected JOB CERT\nusage: vorruda check JOB CERT [--json]\n",
        ),
        (
            &["check", "--jsn", "a", "b"],
            "vorruda check: no option `--jsn`; did you mean `--json`?\n",
        ),
        (
            &["check", "--json=1", "a", "b"],
            "vorruda check: --json has no value\n",
        ),
        (
            &["try", "append", "-o"],
            "vorruda try: expected DIR behind -o\n",
        ),
        (
            &["try", "append", "-o", "a", "-o", "b"],
            "vorruda try: -o stands twice\n",
        ),
        (
            &["translate", "append"],
            "vorruda translate: expected -o JOB\n",
        ),
        (&["list", "all"], "vorruda list: it takes no operand\n"),
    ];
    for (arguments, said) in rows {
        let ran = vorruda(arguments);
        assert_eq!((ran.status, &ran.text[..]), (2, ""), "{ran:?}");
        assert!(ran.said.starts_with(said), "{ran:?}");
    }
    let version = format!("vorruda {}\n", env!("CARGO_PKG_VERSION"));
    assert_eq!(vorruda(&["--version"]).text, version);
}

/// Every page of the project that tells how the command is used tells what there is.
#[test]
fn pages_name_subcommands_that_are_there() {
    let root = Path::new(env!("CARGO_MANIFEST_DIR")).join("..");
    let names = subcommands();
    let mut named = 0;
    for page in [
        "README.md",
        "host/README.md",
        "docs/ROUTINES.md",
        "docs/CORPUS.md",
        "docs/FORMAT.md",
    ] {
        let text = fs::read_to_string(root.join(page)).unwrap();
        for behind in text.split("`vorruda ").skip(1) {
            let name = behind
                .split(|c: char| !c.is_ascii_lowercase())
                .next()
                .unwrap();
            let is_option = behind.starts_with("--");
            assert!(
                is_option || names.iter().any(|known| known == name),
                "{page}: {behind:.40}"
            );
            named += 1;
        }
    }
    assert!(named > 5, "{named}");
}
