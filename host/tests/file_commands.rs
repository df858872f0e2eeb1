//! The subcommands of `vorruda` that take a job and a certificate, beside `check`: what they print and write, and their
//! exit status.

mod command_line;

use std::fs;

use command_line::{file, folder, vorruda, vorruda_in};
use vorruda_host::check::check;

/// The files of two listings as one, and the state of the hand-over.
fn two(name: &str) -> (Vec<String>, String) {
    let folder = folder(name);
    let into = folder.to_str().unwrap();
    let told = vorruda(&[
        "try",
        "load_insert.first",
        "--then",
        "load_insert.second",
        "-o",
        into,
    ]);
    let (_, state) = told.text.split_once(" (state ").unwrap();
    let (state, _) = state.split_once(')').unwrap();
    let files = ["job1.bin", "cert1.bin", "job2.bin", "cert2.bin"];
    let files = files.map(|file| folder.join(file).to_str().unwrap().to_string());
    (files.to_vec(), state.to_string())
}

#[test]
fn two_pairs_are_joined() {
    let (files, state) = two("two_pairs");
    let join = |files: &[String], state: &str| {
        let files: Vec<&str> = files.iter().map(String::as_str).collect();
        vorruda(&[&["join"], &files[..], &["--at", state]].concat())
    };
    let joined = join(&files, &state);
    assert_eq!(joined.status, 0, "{joined:?}");
    assert!(
        joined.text.starts_with("joined; the first accepted bads "),
        "{joined:?}"
    );

    let outside = join(&files, "64");
    let said = "refused 24\nEach pair is right, but the hand-over is no state of the first job.\n";
    assert_eq!((outside.status, &outside.text[..]), (1, said));
    assert_eq!(join(&files, "0").text.lines().next(), Some("refused 26"));
    assert_eq!(join(&files, "x").status, 2);

    // The second ahead of the first: it is refused by the same words as alone.
    let swapped = [&files[2..], &files[..2]].concat();
    let refused = join(&swapped, "0");
    assert_eq!(refused.status, 1, "{refused:?}");
    assert!(
        refused.text.starts_with("pair 1 refused 8 at "),
        "{refused:?}"
    );
    let words = "\nThe empty heap satisfies a member at the start state. That is member ";
    assert!(refused.text.contains(words), "{refused:?}");
    let alone = vorruda(&["check", &files[2], &files[3]]);
    assert!(
        format!("pair 1 {}", alone.text).starts_with(&refused.text),
        "{alone:?}"
    );

    // Nothing is owed at another state that nothing leaves, so some shape isn't listed there.
    let job = fs::read(&files[0]).unwrap();
    let certificate = fs::read(&files[1]).unwrap();
    let mut more = job.clone();
    more[2] += 1;
    assert_eq!(check(&more, &certificate).number(), 0);
    let more = file("one_state_more.bin", more);
    let others = [
        vec![more.to_str().unwrap().to_string()],
        files[1..].to_vec(),
    ]
    .concat();
    let unlisted = join(&others, &job[2].to_string());
    assert_eq!(unlisted.status, 1, "{unlisted:?}");
    let said = "refused 27\nEach pair is right, but a shape that the second owes is not listed by the first at \
                the hand-over.\nNot forbidden by the first at state ";
    assert!(unlisted.text.starts_with(said), "{unlisted:?}");
    assert!(unlisted.text.contains("\n       v1 at #\n"), "{unlisted:?}");
}

#[test]
fn owed_covers_are_numbered_and_drawn() {
    let folder = folder("owed");
    let told = vorruda(&["try", "append", "-o", folder.to_str().unwrap()]);
    assert_eq!(told.status, 0);
    let path = folder.join("cert.bin");
    let name = path.to_str().unwrap();
    let whole = vorruda(&["owed", "append", name]);
    assert_eq!(whole.status, 0, "{whole:?}");
    let mut lines = whole.text.lines();
    let verdict = lines.next().unwrap();
    let (_, covers) = verdict.split_once(" covers ").unwrap();
    let covers: usize = covers.split(' ').next().unwrap().parse().unwrap();
    assert_eq!(
        lines.next(),
        Some(&format!("{covers} covers owed, {covers} there, 0 left.")[..])
    );
    for number in 0..covers {
        assert!(
            whole.text.contains(&format!("\ncover {number}: at byte ")),
            "{number}"
        );
    }
    assert_eq!(whole.text.matches("\nTo be covered at ").count(), covers);
    let short = vorruda(&["owed", "append", name, "--missing"]);
    assert_eq!(short.text.lines().count(), 2, "{short:?}");

    // Without its last cover, and then with a wrong one.
    let bytes = fs::read(&path).unwrap();
    let (_, last) = whole
        .text
        .split_once(&format!("\ncover {}: at byte ", covers - 1))
        .unwrap();
    let last: usize = last.split('\n').next().unwrap().parse().unwrap();
    fs::write(&path, &bytes[..last]).unwrap();
    let cut = vorruda(&["owed", "append", name, "--missing"]);
    let missing = format!(
        "refused 6 at {last}\n{covers} covers owed, {} there, 1 left.\n\ncover {}: missing\n",
        covers - 1,
        covers - 1
    );
    assert!(cut.status == 1 && cut.text.starts_with(&missing), "{cut:?}");
    let (mut broken, first) = (bytes.clone(), first_cover(&whole.text));
    broken[first] = u8::from(broken[first] == 0);
    fs::write(&path, broken).unwrap();
    let ran = vorruda(&["owed", "append", name]);
    assert_eq!(ran.status, 1, "{ran:?}");
    assert!(ran.text.starts_with("refused "), "{ran:?}");
    fs::write(&path, &bytes[..3]).unwrap();
    let unread = vorruda(&["owed", "append", name]);
    assert_eq!((unread.status, &unread.text[..]), (2, ""), "{unread:?}");
}

/// The place of cover 0.
fn first_cover(owed: &str) -> usize {
    let (_, place) = owed.split_once("\ncover 0: at byte ").unwrap();
    place.split('\n').next().unwrap().parse().unwrap()
}

#[test]
fn files_as_text_and_back() {
    let folder = folder("as_text");
    let into = folder.to_str().unwrap();
    assert_eq!(vorruda(&["try", "reverse", "-o", into]).status, 0);
    let shown = vorruda_in(&folder, &["show", "job.bin", "cert.bin"]);
    assert_eq!(shown.status, 0);
    assert!(shown.text.starts_with("job ; "), "{shown:?}");
    assert!(shown.text.contains("\n    0: 1 ; version 1\n"), "{shown:?}");
    fs::write(folder.join("text"), &shown.text).unwrap();
    let packed = vorruda_in(&folder, &["pack", "text", "job2.bin", "cert2.bin"]);
    assert_eq!(packed.status, 0, "{packed:?}");
    let same = |one: &str, other: &str| {
        fs::read(folder.join(one)).unwrap() == fs::read(folder.join(other)).unwrap()
    };
    assert!(same("job.bin", "job2.bin") && same("cert.bin", "cert2.bin"));
    let named = vorruda_in(&folder, &["show", "reverse"]);
    assert!(named.text.contains(", y.next := t -> line "), "{named:?}");

    let rows = [
        (
            "job\n1 x0g\n",
            "text, line 2: `x0g`: expected two hex digits behind x",
        ),
        (
            "job\n1 65536\n",
            "text, line 2: 65536: a number is at most 65,535",
        ),
        ("job\n1 -1\n", "text, line 2: `-1`: expected a number"),
        ("1 2\n", "text, line 1: expected a line `job` first"),
        (
            "certificate\n1\n",
            "text, line 1: `job` has to stand first and `certificate` second",
        ),
        (
            "job\n1\ncertificate\n2\n",
            "text: it has 2 files, but 1 to write are named",
        ),
        ("; nothing\n", "text, line 1: expected `job`"),
    ];
    for (text, said) in rows {
        fs::write(folder.join("text"), text).unwrap();
        let ran = vorruda_in(&folder, &["pack", "text", "none.bin"]);
        assert_eq!((ran.status, &ran.said[..]), (2, &format!("{said}\n")[..]));
        assert!(!folder.join("none.bin").exists(), "{text}");
    }
}
