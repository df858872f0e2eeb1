//! What a person sees of `try`: verdicts, runs, mistakes, and the exit status for scripts.

use std::fs;
use std::path::PathBuf;
use std::process::{Command, Output};

use vorruda_host::corpus;

fn run(arguments: &[&str]) -> Output {
    let command = &mut Command::new(env!("CARGO_BIN_EXE_try"));
    command.args(arguments).output().unwrap()
}

/// The exit status, and what was printed to either stream.
fn tried(arguments: &[&str]) -> (i32, String) {
    let output = run(arguments);
    let text = [output.stdout, output.stderr].concat();
    let status = output.status.code().expect("it ends by itself");
    (status, String::from_utf8(text).unwrap())
}

/// Writes a file of one's own, and gives its path.
fn file(name: &str, content: impl AsRef<[u8]>) -> PathBuf {
    let path = PathBuf::from(env!("CARGO_TARGET_TMPDIR")).join(name);
    fs::write(&path, content).unwrap();
    path
}

#[test]
fn a_certified_routine() {
    let (status, text) = tried(&["reverse"]);
    assert_eq!(status, 0, "{text}");
    assert!(
        text.contains("\naccepted bads 17 members 114 covers 378 links 396\n"),
        "{text}"
    );
    let words = "\nNo run of reverse, on lists of any length, comes to this: at mark 0 (line ";
    assert!(text.contains(words), "{text}");
}

/// What README.md shows of a command, `...` standing for what it leaves out, is what is printed.
#[test]
fn the_readme_shows_what_is_printed() {
    let root = concat!(env!("CARGO_MANIFEST_DIR"), "/..");
    let readme = fs::read_to_string(format!("{root}/README.md")).unwrap();
    let words = |text: &str| text.split_whitespace().collect::<Vec<_>>().join(" ");
    let mut commands = readme.split("    $ make try ROUTINE=").skip(1).peekable();
    assert!(commands.peek().is_some(), "README.md shows no command");
    for block in commands {
        let mut lines = block.lines();
        let name = lines.next().expect("a name behind ROUTINE=");
        let shown = lines.take_while(|line| line.is_empty() || line.starts_with("    "));
        let shown: Vec<&str> = shown.collect();
        let mut command = Command::new(env!("CARGO_BIN_EXE_try"));
        let output = command.arg(name).current_dir(root).output().unwrap();
        let printed = words(&String::from_utf8(output.stdout).unwrap());
        for part in shown.join("\n").split("...") {
            let part = words(part);
            assert!(printed.contains(&part), "{name}: {part}\n{printed}");
        }
    }
}

#[test]
fn a_wrong_routine_shows_a_run() {
    let (status, text) = tried(&["wrong_delete_linked"]);
    assert_eq!(status, 1, "{text}");
    for line in [
        "Wrong: a run of 19 steps meets what is forbidden (# is null, * dangling).",
        "    9  line 10  q := x.next     [2 x t] -> [1 q] -> #",
        "   16  line 12  t = null        [2 x] -> [1 q] -> #",
        "   18  line 20  delete(q)       [2 x] -> *",
        "   19  line 21  end             [2 x] -> *",
        "That is at line 22, `mark 0`, where line 25 forbids `no list: x`. What is met (-> is a \
         link or a path):",
        "       [1 x] -> *",
    ] {
        assert!(text.lines().any(|other| other == line), "{line}\n{text}");
    }
}

/// The warning stands before the verdict, with the run, and the exit status is the verdict's.
#[test]
fn a_run_that_stops_is_a_warning() {
    let (status, text) = tried(&["warned_delete_twice"]);
    assert_eq!(status, 0, "{text}");
    let (before, _) = text.split_once("\naccepted bads ").expect("it is accepted");
    for line in [
        "Warning: a run stops at line 15, `while y != null`: y dangles. The line can't be carried \
         out, and by the rules the run ends there. The verdict says nothing of what the controller \
         does then. Such runs were looked for among ",
        "The run (# is null, * dangling):",
    ] {
        let mut lines = before.lines();
        assert!(lines.any(|other| other.starts_with(line)), "{line}\n{text}");
    }
    assert!(
        before.contains(" heaps, all those of runs with up to "),
        "{text}"
    );
    assert!(before.contains("  line 12  delete(x)"), "{text}");

    let (status, text) = tried(&["warned_mark_unreached"]);
    assert_eq!(status, 0, "{text}");
    let warning =
        "Warning: no run was found that reaches mark 0 (line 13). If there is none, what is \
                   forbidden there says nothing of the routine. Runs were looked for among ";
    assert!(text.contains(warning), "{text}");
    for (name, warning) in [
        ("warned_never_set", "line 10, `x := y`: y was never set. "),
        ("warned_link_of_null", "line 17, `l.next := n`: l is null. "),
        (
            "warned_use_after_delete",
            "line 9, `if h != null`: h dangles. ",
        ),
    ] {
        let (status, text) = tried(&[name]);
        assert_eq!(status, 0, "{text}");
        let warning = format!("\nWarning: a run stops at {warning}");
        assert!(text.contains(&warning), "{text}");
    }
}

/// So is it where the certificate is one's own.
#[test]
fn a_warning_ahead_of_ones_own_certificate() {
    let folder = PathBuf::from(env!("CARGO_TARGET_TMPDIR")).join("warned");
    fs::create_dir_all(&folder).unwrap();
    let (_, text) = tried(&["warned_never_set", folder.to_str().unwrap()]);
    let certificate = folder.join("cert.bin");
    let again = tried(&["warned_never_set", certificate.to_str().unwrap()]);
    assert_eq!(again, (0, text));
}

/// The same routine is certified where that isn't forbidden.
#[test]
fn a_limit_says_what_can_be_done() {
    let known = corpus::folder().join("selection_sort_values.routine");
    let text = fs::read_to_string(known).unwrap();
    let path = file("limit.routine", text + "end lost block: y\n");
    let (status, text) = tried(&[path.to_str().unwrap()]);
    assert_eq!(status, 1, "{text}");
    for said in [
        "\nNo certificate found: 521 members are needed, 512 are allowed.\n",
        "\nNo run was found that meets what is forbidden, among ",
        "\nWhat to do: forbid the lines in two routines that are otherwise the same, ",
        "\nWhat was tried:\n  members as needed: more than 1000 shapes are needed\n",
        "\n  general members, facts first, by heaps of 5 cells and 4 values: 745 members are needed, ",
        "\n  general members, all together, by heaps of 7 cells and 3 values: 521 members are needed, ",
    ] {
        assert!(text.contains(said), "{said}\n{text}");
    }
}

/// Ten times `x := x.next` and then a ring: no list of ten blocks shows it.
#[test]
fn what_is_wrong_on_long_lists_only() {
    let walk = "x := x.next\n".repeat(10);
    let text = format!(
        "x := null\nwhile any\nnew(t)\nt.next := x\nx := t\nend\n{walk}x.next := x\nmark \
         0\n\nforbidden\nmark 0 ring: x\n"
    );
    let path = file("ten.listing", text);
    let (status, text) = tried(&[path.to_str().unwrap()]);
    assert_eq!(status, 1, "{text}");
    assert!(text.contains("\nWrong: a run of "), "{text}");
    assert!(text.contains("[1 x] -> back to [1 x]"), "{text}");
    let (status, text) = tried(&["wrong_ring_behind_ten"]);
    assert_eq!(status, 1, "{text}");
    assert!(text.contains("[1 x] -> back to [1 x]"), "{text}");
    assert!(text.contains("[11 x] -> [10] -> [9] -> "), "{text}");
}

#[test]
fn a_right_routine_beyond_the_rules_says_how_far_was_looked() {
    let (status, text) = tried(&["beyond_delete_first"]);
    assert_eq!(status, 1, "{text}");
    for said in [
        "\nNo certificate exists while line 17 forbids `no list: x` at mark 0 (line 14): by the rules ",
        "\nNo run was found that meets it, among ",
        " heaps, all those of runs with up to 64 cells; and by the lines of the chain alone, among ",
        "\nWhat to do: going back over a delete forgets which links dangle. Set the links again ",
        " Or leave this line out, and see whether all else is certified.\n",
    ] {
        assert!(text.contains(said), "{said}\n{text}");
    }
    let (_, counts) = tried(&["beyond_split_middle"]);
    let said = "\nWhat to do: a path of several cells counts as one link, ";
    assert!(counts.contains(said), "{counts}");
    for line in [
        "  line 14        [1 x] -> *",
        "                   after delete(t)",
        "  line 13        [1 x]",
    ] {
        assert!(text.lines().any(|other| other == line), "{line}\n{text}");
    }
}

#[test]
fn all_routines_are_listed_with_their_titles() {
    let (status, text) = tried(&[]);
    assert_eq!(status, 0, "{text}");
    for entry in corpus::read().unwrap() {
        let row = format!("  {:<24} {}\n", entry.name, entry.routine.title);
        assert!(text.contains(&row), "{row}");
    }
}

#[test]
fn a_name_that_is_unknown() {
    let (status, text) = tried(&["revers"]);
    assert_eq!(status, 2, "{text}");
    assert!(text.contains("\n  reverse\n  reverse_tail\n"), "{text}");
    assert_eq!(text.lines().filter(|line| *line == "  reverse").count(), 1);
}

#[test]
fn a_routine_of_transitions_names_its_states() {
    let (status, text) = tried(&["wrong_queue_empty"]);
    assert_eq!(status, 1, "{text}");
    assert!(text.contains("  put.2    l.next := t     "), "{text}");
    assert!(text.contains("\nThat is at end, where line "), "{text}");
}

/// A file that is a listing has its lines numbered from 1; steps are forbidden where it forbids
/// nothing itself.
#[test]
fn a_plain_listing() {
    let example = concat!(env!("CARGO_MANIFEST_DIR"), "/../examples/reverse.listing");
    let (status, text) = tried(&[example]);
    assert_eq!(status, 0, "{text}");
    let verdict =
        ": Reverses the list x into y.\naccepted bads 16 members 113 covers 377 links 396\nNo run of ";
    assert!(text.contains(verdict), "{text}");
    let words = "reverse.listing, on lists of any length, comes to this: at mark 0 (line 14), y is no \
                 list that ends at null, or a block is lost beside y; anywhere, a link is followed or \
                 set at null or dangling.\n";
    assert!(text.ends_with(words), "{text}");

    let path = file(
        "plain.listing",
        "new(x)\nx.next := null\nwhile x != null\nx := x.next\nend\n",
    );
    let (status, text) = tried(&[path.to_str().unwrap()]);
    assert_eq!(status, 0, "{text}");
    assert!(
        text.contains(": A listing of 5 lines.\naccepted bads 4 "),
        "{text}"
    );

    let path = file("null.listing", "x := null\nx := x.next\nmark 0\n");
    let (status, text) = tried(&[path.to_str().unwrap()]);
    assert_eq!(status, 1, "{text}");
    let line = "That is at line 2, `x := x.next`, where `steps` is forbidden. What is met";
    assert!(text.contains(line), "{text}");

    let path = file("mistake.listing", "x := null\nx :=  x.next\n");
    let (status, text) = tried(&[path.to_str().unwrap()]);
    assert_eq!(status, 2, "{text}");
    let mistake = "mistake.listing: 1 mistake\n\nline 2, column 6: blanks: expected `x := x.next`, with \
                   these and no others\n    2 | x :=  x.next\n      |      ^\nright | x := x.next\n";
    assert!(text.ends_with(mistake), "{text}");
}

const DEAD_END: &str = "\
-- Makes a cell or stops.
variables x
start begin
begin new(x) -> made
begin skip   -> stop
forbidden
made  x at #
";

#[test]
fn a_dead_end_is_a_warning() {
    let path = file("dead_end.routine", DEAD_END);
    let (status, text) = tried(&[path.to_str().unwrap()]);
    assert_eq!(status, 0, "{text}");
    let warning = "Warning: line 5, column 17: `stop`: nothing leaves this state and nothing is \
                   forbidden there\n";
    assert!(text.contains(warning), "{text}");
    assert!(
        text.contains("\naccepted bads 1 members 1 covers 1 links 0\n"),
        "{text}"
    );
}

#[test]
fn a_mistake_names_its_place() {
    let path = file("mistake.routine", DEAD_END.replace("new(x) ", "x := x.nxt"));
    let (status, text) = tried(&[path.to_str().unwrap()]);
    assert_eq!(status, 2, "{text}");
    let mistake =
        "mistake.routine: 1 mistake\n\nline 4, column 12: `x.nxt`: did you mean `x.next`?\n    \
                   4 | begin x := x.nxt-> made\n      |            ^^^^^\n";
    assert!(text.ends_with(mistake), "{text}");
}

/// State 0, new of variable 1, state 1; forbidden there: variable 1 at #. The certificate's member is
/// that shape, or one with the variable at *.
const JOB: [u8; 14] = [1, 1, 2, 0, 1, 0, 6, 1, 0, 1, 1, 1, 0, 1];
const HOLDS: [u8; 6] = [1, 1, 1, 0, 1, 0];
const ELSEWHERE: [u8; 6] = [1, 1, 1, 0, 2, 0];

/// The exit status and what is printed for files with these bytes.
fn tried_pair(name: &str, job: &[u8], certificate: &[u8]) -> (i32, String) {
    let job = file(&format!("{name}_job.bin"), job);
    let certificate = file(&format!("{name}_cert.bin"), certificate);
    tried(&[job.to_str().unwrap(), certificate.to_str().unwrap()])
}

#[test]
fn a_pair_of_ones_own() {
    let (status, text) = tried_pair("holds", &JOB, &HOLDS);
    assert_eq!(status, 0, "{text}");
    let accepted = "accepted bads 1 members 1 covers 1 links 0\nNo run of ";
    assert!(text.starts_with(accepted), "{text}");
    let words = "holds_job.bin, on lists of any length, comes to this: at state 1, `shape 0`.\n";
    assert!(text.ends_with(words), "{text}");
    let elsewhere = "\
refused 9 at 5 rule 3 of 1
v1 stands elsewhere: it is to stand at *, but stands at # in the covered shape.

To be covered at state 1, since `shape 0` is forbidden (cells from 0, -> is a link or a path):
       v1 at #
By member 0, at state 1:
       v1 at *
";
    let refused = tried_pair("elsewhere", &JOB, &ELSEWHERE);
    assert_eq!(refused, (1, elsewhere.to_string()));
}

/// Forbidden is a list whose second cell is below the first; in the member they are equal.
#[test]
fn a_pair_with_facts() {
    let job = [2, 1, 1, 0, 0, 1, 0, 2, 3, 4, 0, 1, 0, 1, 0];
    let certificate = [2, 1, 0, 2, 3, 4, 0, 1, 1, 0, 1, 0, 0, 1];
    let expected = "\
refused 9 at 11 rule 6 of 0
A fact is missing: it isn't told of the covered shape that cell 0 equals cell 1, the images of cells \
0 and 1.

To be covered at state 0, since `shape 0` is forbidden (cells from 0, -> is a link or a path, < and = \
compare values):
       [0 v1] -> [1]
       1 < 0
By member 0, at state 0, with the images 0 1:
       [0 v1] -> [1]
       0 = 1
";
    let refused = tried_pair("facts", &job, &certificate);
    assert_eq!(refused, (1, expected.to_string()));
}

#[test]
fn a_pair_that_does_not_read() {
    let cut = tried_pair("cut", &JOB[..13], &HOLDS);
    assert_eq!(cut, (1, "refused 3 at 13\n".to_string()));
    let empty = tried_pair("empty", &JOB, &[]);
    assert_eq!(empty, (1, "refused 2 at 0\n".to_string()));
    let (status, text) = tried(&["reverse", "missing.bin"]);
    assert_eq!(status, 2, "{text}");
    assert!(text.starts_with("missing.bin: "), "{text}");
    let (status, text) = tried(&["job.bin"]);
    assert_eq!(status, 2, "{text}");
    assert!(text.starts_with("usage: "), "{text}");
}

/// The names are the routine's.
#[test]
fn a_certificate_of_ones_own() {
    let routine = file("own.routine", DEAD_END);
    let folder = PathBuf::from(env!("CARGO_TARGET_TMPDIR")).join("own");
    fs::create_dir_all(&folder).unwrap();
    let (routine, folder) = (routine.to_str().unwrap(), folder.to_str().unwrap());
    let (status, text) = tried(&[routine, folder]);
    assert_eq!(status, 0, "{text}");
    let certificate = format!("{folder}/cert.bin");
    assert_eq!(tried(&[routine, &certificate]), (0, text));

    let mut bytes = fs::read(&certificate).unwrap();
    assert_eq!(bytes, HOLDS);
    bytes[2] = 0;
    fs::write(&certificate, bytes).unwrap();
    let (status, text) = tried(&[routine, &certificate]);
    assert_eq!(status, 1, "{text}");
    let refused = "
refused 9 at 5 rule 1 of 0
The member is at another state: it is to be at made, but is at begin.

To be covered at made, since line 7 forbids `x at #` (cells from 0, -> is a link or a path):
       x at #
By member 0, at begin:
       x at #
";
    assert!(text.ends_with(refused), "{text}");
}
