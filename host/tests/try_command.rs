//! What a person sees of `vorruda try` and `vorruda check`: verdicts, runs, mistakes, and the exit status for
//! scripts.

mod command_line;

use std::fs;
use std::path::Path;

use command_line::{file, files_in, folder, vorruda, vorruda_in};
use vorruda_host::corpus;

/// The exit status of a subcommand, and what was printed to either stream.
fn ran(subcommand: &str, arguments: &[&str]) -> (i32, String) {
    let ran = vorruda(&[&[subcommand], arguments].concat());
    (ran.status, ran.text + &ran.said)
}

fn tried(arguments: &[&str]) -> (i32, String) {
    ran("try", arguments)
}

#[test]
fn a_certified_routine() {
    let (status, text) = tried(&["reverse"]);
    assert_eq!(status, 0, "{text}");
    assert!(
        text.contains("\naccepted bads 17 members 114 covers 378 links 396\n"),
        "{text}"
    );
    let words = "\nNo run of reverse, on lists of any length, comes to this: at mark 0 (line ";
    assert!(text.contains(words), "{text}");
}

/// What README.md shows of a command, `...` standing for what it leaves out, is what is printed.
#[test]
fn the_readme_shows_what_is_printed() {
    let root = concat!(env!("CARGO_MANIFEST_DIR"), "/..");
    let readme = fs::read_to_string(format!("{root}/README.md")).unwrap();
    let words = |text: &str| text.split_whitespace().collect::<Vec<_>>().join(" ");
    let mut commands = readme.split("    $ make try ROUTINE=").skip(1).peekable();
    assert!(commands.peek().is_some(), "README.md shows no command");
    for block in commands {
        let mut lines = block.lines();
        let name = lines.next().expect("a name behind ROUTINE=");
        let shown = lines.take_while(|line| line.is_empty() || line.starts_with("    "));
        let shown: Vec<&str> = shown.collect();
        let printed = words(&vorruda_in(Path::new(root), &["try", name]).text);
        for part in shown.join("\n").split("...") {
            let part = words(part);
            assert!(printed.contains(&part), "{name}: {part}\n{printed}");
        }
    }
}

#[test]
fn a_wrong_routine_shows_a_run() {
    let (status, text) = tried(&["wrong_delete_linked"]);
    assert_eq!(status, 1, "{text}");
    for line in [
        "Wrong: a run of 19 steps meets what is forbidden (# is null, * dangling).",
        "    9  line 10  q := x.next     [2 x t] -> [1 q] -> #",
        "   16  line 12  t = null        [2 x] -> [1 q] -> #",
        "   18  line 20  delete(q)       [2 x] -> *",
        "   19  line 21  end             [2 x] -> *",
        "That is at line 22, `mark 0`, where line 25 forbids `no list: x`. What is met (-> is a \
         link or a path):",
        "       [1 x] -> *",
    ] {
        assert!(text.lines().any(|other| other == line), "{line}\n{text}");
    }
}

/// The warning stands before the verdict, with the run, and the exit status is the verdict's.
#[test]
fn a_run_that_stops_is_a_warning() {
    let (status, text) = tried(&["warned_delete_twice"]);
    assert_eq!(status, 0, "{text}");
    let (before, _) = text.split_once("\naccepted bads ").expect("it is accepted");
    for line in [
        "Warning: a run stops at line 15, `while y != null`: y dangles. The line can't be carried \
         out, and by the rules the run ends there. The verdict says nothing of what the controller \
         does then. Such runs were looked for among ",
        "The run (# is null, * dangling):",
    ] {
        let mut lines = before.lines();
        assert!(lines.any(|other| other.starts_with(line)), "{line}\n{text}");
    }
    assert!(
        before.contains(" heaps, all those of runs with up to "),
        "{text}"
    );
    assert!(before.contains("  line 12  delete(x)"), "{text}");

    let (status, text) = tried(&["warned_mark_unreached"]);
    assert_eq!(status, 0, "{text}");
    let warning =
        "Warning: no run was found that reaches mark 0 (line 13). If there is none, what is \
                   forbidden there says nothing of the routine. Runs were looked for among ";
    assert!(text.contains(warning), "{text}");
    for (name, warning) in [
        ("warned_never_set", "line 10, `x := y`: y was never set. "),
        ("warned_link_of_null", "line 17, `l.next := n`: l is null. "),
        (
            "warned_use_after_delete",
            "line 9, `if h != null`: h dangles. ",
        ),
    ] {
        let (status, text) = tried(&[name]);
        assert_eq!(status, 0, "{text}");
        let warning = format!("\nWarning: a run stops at {warning}");
        assert!(text.contains(&warning), "{text}");
    }
}

/// So is it where the certificate is one's own, below the verdict.
#[test]
fn a_warning_beside_ones_own_certificate() {
    let folder = folder("warned");
    let (_, text) = tried(&["warned_never_set", "-o", folder.to_str().unwrap()]);
    let certificate = folder.join("cert.bin");
    let (status, again) = ran(
        "check",
        &["warned_never_set", certificate.to_str().unwrap()],
    );
    assert_eq!(status, 0, "{again}");
    let (verdict, warning) = again.split_at(again.find("Warning: ").expect("it is warned"));
    assert!(verdict.starts_with("accepted bads "), "{again}");
    let (title, tried) = text.split_once('\n').unwrap();
    assert!(title.starts_with("warned_never_set: "), "{text}");
    assert_eq!(tried, format!("{warning}{verdict}"));
}

/// A verdict for each job, then what all of them say; and each job is written with its certificate.
#[test]
fn a_routine_in_two_jobs() {
    let folder = folder("two_jobs_tried");
    let routine = concat!(
        env!("CARGO_MANIFEST_DIR"),
        "/tests/split/table1_bubble_sort_cyclic.routine"
    );
    let (status, text) = tried(&[routine, "-o", folder.to_str().unwrap()]);
    assert_eq!(status, 0, "{text}");
    let verdicts = [
        "accepted bads 13 members 474 covers 2635 links 2811",
        "accepted bads 28 members 91 covers 145 links 13",
    ];
    let [first, second] = verdicts;
    let told = format!(
        "\njob 1, which forbids `no ring: x` (line 56), `lost block: x` (line 57) and `not sorted \
         round: x` (line 58): {first}\njob 2, which forbids `steps` (line 59): {second}\nCertified in \
         two jobs: each is the routine with a part of what it forbids, and together they forbid all of \
         it.\nNo run of {routine}, on lists of any length, comes to this: at end, x is \
         on no ring, or a block is lost beside x, or the ring from x on is out of order; anywhere, a \
         link is followed or set at null or dangling.\n"
    );
    assert!(text.ends_with(&told), "{text}");
    assert_eq!(fs::read_dir(&folder).unwrap().count(), 4);
    for (number, verdict) in (1..).zip(verdicts) {
        let [job, certificate] = ["job", "cert"].map(|of| format!("{of}{number}.bin"));
        let [job, certificate] = [job, certificate].map(|name| folder.join(name));
        let files = [job.to_str().unwrap(), certificate.to_str().unwrap()];
        let (status, text) = ran("check", &files);
        assert_eq!(status, 0, "{text}");
        assert!(text.starts_with(&format!("{verdict}\n")), "{text}");
    }
}

/// Deals a list to four; that none of their blocks is lost is too much alone.
const DEAL_FOUR: &str = "\
-- Deals the cells of the list x to x itself, y, z and w.
variables  x y z w r t
start      begin
begin      x := null   -> build
build      skip        -> build.1
build.1    new(t)      -> build.2
build.2    t.next := x -> build.3
build.3    x := t      -> build
build      y := null   -> begin.1
begin.1    z := null   -> begin.2
begin.2    w := null   -> begin.3
begin.3    r := x      -> begin.4
begin.4    x := null   -> deal
deal       r != null   -> deal.1
deal.1     t := r      -> deal.2
deal.2     r := r.next -> deal.3
deal.3     skip        -> deal.4
deal.4     t.next := x -> deal.5
deal.5     x := t      -> deal
deal.3     skip        -> deal.6
deal.6     skip        -> deal.7
deal.7     t.next := y -> deal.8
deal.8     y := t      -> deal
deal.6     skip        -> deal.9
deal.9     skip        -> deal.10
deal.10    t.next := z -> deal.11
deal.11    z := t      -> deal
deal.9     skip        -> deal.12
deal.12    t.next := w -> deal.13
deal.13    w := t      -> deal
deal       r = null    -> end
forbidden
end        no list: x
end        lost block: x y z w
steps
";

/// The same routine is certified where that line isn't there.
#[test]
fn a_limit_says_what_can_be_done() {
    let path = file("limit.routine", DEAL_FOUR);
    let (status, text) = tried(&[path.to_str().unwrap()]);
    assert_eq!(status, 1, "{text}");
    for said in [
        "\nNo certificate found: 705 members are needed, 512 are allowed.\n",
        "\nNo run was found that meets what is forbidden, among ",
        "\nOne line alone comes to this limit: line 34 forbids `lost block: x y z w`. What to do: forbid less, or ",
        "\nWhat was tried:\n  members as needed: more than 1000 shapes are needed\n",
        "\n  general members, facts first, by heaps of 6 cells: 763 members are needed, ",
        "\n  forbidden line 1 alone, by heaps of 6 cells: 354 members\n",
        "\n  forbidden line 2 alone, by heaps of 7 cells: 705 members are needed, 512 are allowed\n",
    ] {
        assert!(text.contains(said), "{said}\n{text}");
    }
    let less = DEAL_FOUR.replace("end        lost block: x y z w\n", "");
    let path = file("within.routine", less);
    let (status, text) = tried(&[path.to_str().unwrap()]);
    assert_eq!(status, 0, "{text}");
}

/// Ten times `x := x.next` and then a ring: no list of ten blocks shows it.
#[test]
fn what_is_wrong_on_long_lists_only() {
    let walk = "x := x.next\n".repeat(10);
    let text = format!(
        "x := null\nwhile any\nnew(t)\nt.next := x\nx := t\nend\n{walk}x.next := x\nmark \
         0\n\nforbidden\nmark 0 ring: x\n"
    );
    let path = file("ten.listing", text);
    let (status, text) = tried(&[path.to_str().unwrap()]);
    assert_eq!(status, 1, "{text}");
    assert!(text.contains("\nWrong: a run of "), "{text}");
    assert!(text.contains("[1 x] -> back to [1 x]"), "{text}");
    let (status, text) = tried(&["wrong_ring_behind_ten"]);
    assert_eq!(status, 1, "{text}");
    assert!(text.contains("[1 x] -> back to [1 x]"), "{text}");
    assert!(text.contains("[11 x] -> [10] -> [9] -> "), "{text}");
}

#[test]
fn a_right_routine_beyond_the_rules_says_how_far_was_looked() {
    let (status, text) = tried(&["beyond_delete_first"]);
    assert_eq!(status, 1, "{text}");
    for said in [
        "\nNo certificate exists while line 17 forbids `no list: x` at mark 0 (line 14): by the rules ",
        "\nNo run was found that meets it, among ",
        " heaps, all those of runs with up to 64 cells; and by the lines of the chain alone, among ",
        "\nWhat to do: going back over a delete forgets which links dangle. Set the links again ",
        " Or leave this line out, and see whether all else is certified.\n",
    ] {
        assert!(text.contains(said), "{said}\n{text}");
    }
    let (_, counts) = tried(&["beyond_split_middle"]);
    let said = "\nWhat to do: a path of several cells counts as one link, ";
    assert!(counts.contains(said), "{counts}");
    for line in [
        "  line 14        [1 x] -> *",
        "                   after delete(t)",
        "  line 13        [1 x]",
    ] {
        assert!(text.lines().any(|other| other == line), "{line}\n{text}");
    }
}

#[test]
fn all_routines_are_listed_with_their_titles() {
    let (status, text) = ran("list", &[]);
    assert_eq!(status, 0, "{text}");
    for entry in corpus::read().unwrap() {
        let row = format!("  {:<24} {}\n", entry.name, entry.routine.title);
        assert!(text.contains(&row), "{row}");
    }
}

#[test]
fn a_name_that_is_unknown() {
    let (status, text) = tried(&["revers"]);
    assert_eq!(status, 2, "{text}");
    assert!(text.contains("\n  reverse\n  reverse_tail\n"), "{text}");
    assert_eq!(text.lines().filter(|line| *line == "  reverse").count(), 1);
}

#[test]
fn a_routine_of_transitions_names_its_states() {
    let (status, text) = tried(&["wrong_queue_empty"]);
    assert_eq!(status, 1, "{text}");
    assert!(text.contains("  put.2    l.next := t     "), "{text}");
    assert!(text.contains("\nThat is at end, where line "), "{text}");
}

/// A file that is a listing has its lines numbered from 1; steps are forbidden where it forbids
/// nothing itself.
#[test]
fn a_plain_listing() {
    let example = concat!(env!("CARGO_MANIFEST_DIR"), "/../examples/reverse.listing");
    let (status, text) = tried(&[example]);
    assert_eq!(status, 0, "{text}");
    let verdict =
        ": Reverses the list x into y.\naccepted bads 16 members 113 covers 377 links 396\nNo run of ";
    assert!(text.contains(verdict), "{text}");
    let words = "reverse.listing, on lists of any length, comes to this: at mark 0 (line 14), y is no \
                 list that ends at null, or a block is lost beside y; anywhere, a link is followed or \
                 set at null or dangling.\n";
    assert!(text.ends_with(words), "{text}");

    let path = file(
        "plain.listing",
        "new(x)\nx.next := null\nwhile x != null\nx := x.next\nend\n",
    );
    let (status, text) = tried(&[path.to_str().unwrap()]);
    assert_eq!(status, 0, "{text}");
    assert!(
        text.contains(": A listing of 5 lines.\naccepted bads 4 "),
        "{text}"
    );

    let path = file("null.listing", "x := null\nx := x.next\nmark 0\n");
    let (status, text) = tried(&[path.to_str().unwrap()]);
    assert_eq!(status, 1, "{text}");
    let line = "That is at line 2, `x := x.next`, where `steps` is forbidden. What is met";
    assert!(text.contains(line), "{text}");

    let path = file("mistake.listing", "x := null\nx :=  x.next\n");
    let (status, text) = tried(&[path.to_str().unwrap()]);
    assert_eq!(status, 2, "{text}");
    let mistake = "mistake.listing: 1 mistake\n\nline 2, column 6: blanks: expected `x := x.next`, with \
                   these and no others\n    2 | x :=  x.next\n      |      ^\nright | x := x.next\n";
    assert!(text.ends_with(mistake), "{text}");
}

const DEAD_END: &str = "\
-- Makes a cell or stops.
variables x
start begin
begin new(x) -> made
begin skip   -> stop
forbidden
made  x at #
";

#[test]
fn a_dead_end_is_a_warning() {
    let path = file("dead_end.routine", DEAD_END);
    let (status, text) = tried(&[path.to_str().unwrap()]);
    assert_eq!(status, 0, "{text}");
    let warning = "Warning: line 5, column 17: `stop`: nothing leaves this state and nothing is \
                   forbidden there\n";
    assert!(text.contains(warning), "{text}");
    assert!(
        text.contains("\naccepted bads 1 members 1 covers 1 links 0\n"),
        "{text}"
    );
}

#[test]
fn a_mistake_names_its_place() {
    let path = file("mistake.routine", DEAD_END.replace("new(x) ", "x := x.nxt"));
    let (status, text) = tried(&[path.to_str().unwrap()]);
    assert_eq!(status, 2, "{text}");
    let mistake =
        "mistake.routine: 1 mistake\n\nline 4, column 12: `x.nxt`: did you mean `x.next`?\n    \
                   4 | begin x := x.nxt-> made\n      |            ^^^^^\n";
    assert!(text.ends_with(mistake), "{text}");
}

/// State 0, new of variable 1, state 1; forbidden there: variable 1 at #. The certificate's member is
/// that shape, or one with the variable at *.
const JOB: [u8; 14] = [1, 1, 2, 0, 1, 0, 6, 1, 0, 1, 1, 1, 0, 1];
const HOLDS: [u8; 6] = [1, 1, 1, 0, 1, 0];
const ELSEWHERE: [u8; 6] = [1, 1, 1, 0, 2, 0];

/// The exit status and what is printed for files with these bytes.
fn tried_pair(name: &str, job: &[u8], certificate: &[u8]) -> (i32, String) {
    let job = file(&format!("{name}_job.bin"), job);
    let certificate = file(&format!("{name}_cert.bin"), certificate);
    ran(
        "check",
        &[job.to_str().unwrap(), certificate.to_str().unwrap()],
    )
}

#[test]
fn a_pair_of_ones_own() {
    let (status, text) = tried_pair("holds", &JOB, &HOLDS);
    assert_eq!(status, 0, "{text}");
    let accepted = "accepted bads 1 members 1 covers 1 links 0\nNo run of ";
    assert!(text.starts_with(accepted), "{text}");
    let words = "holds_job.bin, on lists of any length, comes to this: at state 1, `shape 0`.\n";
    assert!(text.ends_with(words), "{text}");
    let elsewhere = "\
refused 9 at 5 rule 3 of 1
v1 stands elsewhere: it is to stand at *, but stands at # in the covered shape.

To be covered at state 1, since `shape 0` is forbidden (cells from 0, -> is a link or a path):
       v1 at #
By member 0, at state 1:
       v1 at *
";
    let refused = tried_pair("elsewhere", &JOB, &ELSEWHERE);
    assert_eq!(refused, (1, elsewhere.to_string()));
}

/// Forbidden is a list whose second cell is below the first; in the member they are equal.
#[test]
fn a_pair_with_facts() {
    let job = [2, 1, 1, 0, 0, 1, 0, 2, 3, 4, 0, 1, 0, 1, 0];
    let certificate = [2, 1, 0, 2, 3, 4, 0, 1, 1, 0, 1, 0, 0, 1];
    let expected = "\
refused 9 at 11 rule 6 of 0
A fact is missing: it isn't told of the covered shape that cell 0 equals cell 1, the images of cells \
0 and 1.

To be covered at state 0, since `shape 0` is forbidden (cells from 0, -> is a link or a path, < and = \
compare values):
       [0 v1] -> [1]
       1 < 0
By member 0, at state 0, with the images 0 1:
       [0 v1] -> [1]
       0 = 1
";
    let refused = tried_pair("facts", &job, &certificate);
    assert_eq!(refused, (1, expected.to_string()));
}

#[test]
fn a_pair_that_does_not_read() {
    let cut = "refused 3 at 13\nA number of the job, or one read alone, can't be read. The place of v1 of \
               forbidden shape 0 is missing: the file ends at byte 13.\n";
    assert_eq!(tried_pair("cut", &JOB[..13], &HOLDS), (1, cut.to_string()));
    let empty = "refused 2 at 0\nThe certificate is empty or longer than 65,536 bytes. It has 0 bytes; 1 to \
                 65,536 are allowed.\n";
    assert_eq!(tried_pair("empty", &JOB, &[]), (1, empty.to_string()));
    let (status, text) = ran("check", &["reverse", "missing.bin"]);
    assert_eq!(status, 2, "{text}");
    assert!(text.starts_with("missing.bin: "), "{text}");
    let (status, text) = ran("check", &["missing.bin", "missing.bin"]);
    assert_eq!(status, 2, "{text}");
    let (status, text) = tried(&[]);
    assert_eq!(status, 2, "{text}");
    assert!(text.contains("\nusage: vorruda try LISTING "), "{text}");
}

/// The names are the routine's.
#[test]
fn a_certificate_of_ones_own() {
    let routine = file("own.routine", DEAD_END);
    let folder = folder("own");
    let routine = routine.to_str().unwrap();
    let (status, text) = tried(&[routine, "-o", folder.to_str().unwrap()]);
    assert_eq!(status, 0, "{text}");
    let certificate = folder.join("cert.bin");
    let check = || ran("check", &[routine, certificate.to_str().unwrap()]);
    let (status, again) = check();
    assert_eq!(status, 0, "{again}");
    assert!(text.ends_with(&again), "{text}");

    let mut bytes = fs::read(&certificate).unwrap();
    assert_eq!(bytes, HOLDS);
    bytes[2] = 0;
    fs::write(&certificate, bytes).unwrap();
    let refused = "\
refused 9 at 5 rule 1 of 0
The member is at another state: it is to be at made, but is at begin.

To be covered at made, since line 7 forbids `x at #` (cells from 0, -> is a link or a path):
       x at #
By member 0, at begin:
       x at #
";
    assert_eq!(check(), (1, refused.to_string()));
}

/// Where there is no certificate the job is written alone, and a certificate of before goes.
#[test]
fn the_job_without_a_certificate() {
    let folder = folder("without");
    let into = folder.to_str().unwrap();
    assert_eq!(tried(&["append", "-o", into]).0, 0);
    assert_eq!(files_in(&folder), ["cert.bin", "job.bin"]);
    assert_eq!(tried(&["wrong_reverse_ring", "-o", into]).0, 1);
    assert_eq!(files_in(&folder), ["job.bin"]);
    let job = corpus::find("wrong_reverse_ring").unwrap().routine.job;
    assert_eq!(fs::read(folder.join("job.bin")).unwrap(), job.bytes());
}
