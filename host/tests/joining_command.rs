//! Two listings as one: those of the corpus end as their names say, and what is told of them holds by the
//! reference; and the command that a person uses.

mod command_line;
mod common;

use std::fs;
use std::path::PathBuf;

use command_line::{folder, vorruda, Ran};
use common::{assert_chain_holds, assert_wrong_run_holds};
use vorruda_host::corpus::{self, Expected};
use vorruda_host::joining::{Joined, Listings, Pairs};
use vorruda_host::judge::Ending;
use vorruda_host::pairs::Pair;
use vorruda_host::reference::join::{join, joined, run};
use vorruda_host::routine::{parse_listing, Routine};
use vorruda_host::search::{search, Outcome};
use vorruda_host::verdict::{JoinVerdict, Mismatch, Verdict};
use vorruda_host::{baseline, check};

fn listing(text: &str) -> Routine {
    parse_listing(text).unwrap_or_else(|mistakes| panic!("{mistakes}"))
}

/// Both listings, whose two pairs are found.
fn found(first: &str, second: &str) -> (Listings, Pairs) {
    let listings = Listings::of(listing(first), listing(second)).unwrap();
    let (_, joined) = listings.judge();
    let Joined::Pairs(pairs) = joined else {
        panic!("no pairs are found");
    };
    (listings, *pairs)
}

const LOAD: &str = "x := null\nwhile any\nnew(t)\nt.next := x\nx := t\nend\nmark 0\n\n\
                    forbidden\nmark 0  no list: x\n";
const LOAD_MORE: &str = "x := null\nnew(x)\nx.next := null\nmark 0\n";
const EDIT: &str = "y := x.next\nx.next := y\nmark 0\n\nforbidden\nmark 0  x at #\nsteps\n";

#[test]
fn listings_end_as_their_names_say() {
    let mut certified = 0;
    let mut wrong = 0;
    let mut beyond = 0;
    for [first, second] in corpus::joined().unwrap() {
        let (name, expected) = (first.name, first.expected);
        assert_eq!(second.expected, expected, "{name}");
        let listings = Listings::of(first.routine, second.routine).unwrap();
        let (judged, both) = listings.judge();
        match (both, &judged.ending) {
            (Joined::Pairs(pairs), _) => {
                assert_eq!(expected, Expected::Certified, "{name}");
                assert!(!judged.outlook.warns(), "{name}");
                assert_joined(&listings, &pairs, &name);
                certified += 1;
            }
            (_, Ending::Wrong(run)) => {
                assert_eq!(expected, Expected::Wrong, "{name}");
                assert_wrong_run_holds(&listings.whole.job, run, &name);
                assert!(listings.handed_over(&judged.ending).is_some(), "{name}");
                wrong += 1;
            }
            (_, Ending::Beyond { chain, .. }) => {
                assert_eq!(expected, Expected::Beyond, "{name}");
                assert_chain_holds(&listings.whole.job, chain, &name);
                assert!(listings.handed_over(&judged.ending).is_some(), "{name}");
                beyond += 1;
            }
            _ => panic!("{name}: neither"),
        }
    }
    let counted = (certified, wrong, beyond);
    assert_eq!(counted, (3, 2, 1));
}

/// By the library, the reference and the baseline; and no run of both over small heaps is wrong.
fn assert_joined(listings: &Listings, pairs: &Pairs, name: &str) {
    let joint = pairs.joint(listings.hand_over);
    let [first, second] = joint.files();
    let verdict = pairs.verdict;
    assert!(
        matches!(verdict, JoinVerdict::Joined(..)),
        "{name}: {verdict}"
    );
    assert_eq!(join(first, second, joint.state), verdict, "{name}");
    let mut out = [0; 8];
    let number = baseline::join::join(first, second, joint.state, &mut out);
    assert_eq!((number, out), (0, verdict.told()), "{name}");
    let program = joined(&pairs.first.job, &pairs.second.job, listings.hand_over);
    let runs = run(&program);
    assert_eq!(runs.forbidden, None, "{name}");
    let last = program.states - 1;
    assert!(
        runs.states.contains(&last),
        "{name}: runs go through both to the end"
    );
}

/// The worked pair: the edit alone is refused for a member at its start.
#[test]
fn an_edit_that_relies_on_its_load_is_refused_alone() {
    let [first, second] = ["load_insert.first", "load_insert.second"].map(corpus::find);
    let listings = Listings::of(first.unwrap().routine, second.unwrap().routine).unwrap();
    let (_, Joined::Pairs(pairs)) = listings.judge() else {
        panic!("no pairs are found");
    };
    let [first, second] = pairs.alone();
    assert!(matches!(first, Verdict::Accepted(_)), "{first}");
    assert_eq!(second.number(), 8);
    let Outcome::Wrong(_) = search(&listings.second.job) else {
        panic!("from the empty heap its first line steps through dangling");
    };
}

/// The first without what is owed, and at a state that it goes on from.
#[test]
fn other_pairs_are_not_joined() {
    let (listings, pairs) = found(LOAD_MORE, EDIT);
    let second = pairs.second.pair();
    let Outcome::Certified(certificate) = search(&listings.first.job) else {
        panic!("the first alone is right");
    };
    let unlisted = Pair {
        job: listings.first.job.bytes(),
        certificate: certificate.bytes(),
    };
    let verdict = |first: &Pair, state| check::join(first.files(), second.files(), state);
    let hand_over = listings.hand_over as u32;
    let not_joined = JoinVerdict::Mismatched;
    assert_eq!(verdict(&unlisted, hand_over), not_joined(Mismatch::Owed));
    let first = pairs.first.pair();
    for state in 0..hand_over {
        assert_eq!(verdict(&first, state), not_joined(Mismatch::Transition));
    }
    let beyond = verdict(&first, hand_over + 1);
    assert_eq!(beyond, not_joined(Mismatch::State));
    assert!(matches!(
        verdict(&first, hand_over),
        JoinVerdict::Joined(..)
    ));
}

/// A letter is the same variable in both, whatever the order in which they are met.
#[test]
fn variables_go_by_their_letters() {
    let (listings, _) = found(LOAD_MORE, "n := null\ny := x.next\nx := n\nmark 0\n");
    for routine in [&listings.first, &listings.second, &listings.whole] {
        assert_eq!(routine.variables, ["x", "n", "y"]);
        assert_eq!(routine.job.variables, 3);
    }
    let operations = (0..3).map(|number| listings.second.operation(number));
    let operations: Vec<String> = operations.collect();
    assert_eq!(operations, ["n := null", "y := x.next", "x := n"]);
    // Of the list x nothing is known where x is another variable.
    let other = "a := null\nnew(a)\na.next := null\nmark 0\n";
    let listings = Listings::of(listing(other), listing(EDIT)).unwrap();
    assert!(matches!(listings.judge().1, Joined::Neither));
}

#[test]
fn listings_that_cannot_be_one_are_told() {
    let refused = |first: &str, second: &str| {
        let listings = Listings::of(listing(first), listing(second));
        listings.err().expect("they can't be one")
    };
    let without_mark = refused("new(x)\nmark 0\nx.next := null\n", EDIT);
    assert!(without_mark.contains("has to end with a mark"));
    let first = "a := b.next\nb := a\nc := b\nd := c\nmark 0\n";
    let second = "e := f.next\nf := e\ng := f\nh := g\ni := h\n";
    let many = refused(first, second);
    assert!(many.contains("9 variables") && many.contains("8 are allowed"));
    let transitions = corpus::find("queue").unwrap().routine;
    let refused = Listings::of(listing(LOAD), transitions).err();
    assert_eq!(
        refused.as_deref(),
        Some("only two listings can be taken as one")
    );
}

/// Two listings as one.
fn try_two(first: &str, second: &str, others: &[&str]) -> Ran {
    vorruda(&[&["try", first, "--then", second], others].concat())
}

#[test]
fn the_command_tells_and_writes_both() {
    let folder = folder("joined");
    let into = ["-o", folder.to_str().unwrap()];
    let Ran { status, text, .. } = try_two("load_insert.first", "load_insert.second", &into);
    assert_eq!(status, 0, "{text}");
    for part in [
        "load_insert.second alone, from the empty heap: refused 8 at",
        "Owed at the hand-over, after line 10 (state 10): ",
        "\n       x at #\n",
        "\njoined; the first accepted bads ",
        "No run of load_insert.first and then load_insert.second as one",
        "at mark 0 (line 5 of the second), x is no list",
    ] {
        assert!(text.contains(part), "{part}: {text}");
    }
    let [job1, cert1, job2, cert2] = ["job1.bin", "cert1.bin", "job2.bin", "cert2.bin"]
        .map(|file| fs::read(folder.join(file)).unwrap());
    let verdict = check::join((&job1, &cert1), (&job2, &cert2), 10);
    assert!(
        text.contains(&format!("\n{verdict}\n")),
        "{verdict}: {text}"
    );
}

/// The second sets what it uses, so nothing is owed.
#[test]
fn the_command_tells_that_nothing_is_owed() {
    let folder = PathBuf::from(env!("CARGO_TARGET_TMPDIR"));
    let second = folder.join("owes_nothing.listing");
    let text = "new(y)\ny.next := null\nmark 0\n\nforbidden\nmark 0  y at #\n";
    fs::write(&second, text).unwrap();
    let Ran { status, text, .. } = try_two("load_clear.first", second.to_str().unwrap(), &[]);
    assert_eq!(status, 0, "{text}");
    assert!(
        text.contains("after line 7 (state 7): nothing.\njoined; "),
        "{text}"
    );
}

#[test]
fn the_command_tells_which_part_goes_wrong() {
    let Ran { status, text, .. } =
        try_two("wrong_load_insert.first", "wrong_load_insert.second", &[]);
    assert_eq!(status, 1, "{text}");
    let handed_over =
        "may hand this over, with which wrong_load_insert.second goes wrong:\n\n       x at #";
    assert!(text.contains(handed_over), "{text}");
    assert!(text.contains("That is at line 1 of the second, `y := x.next`"));

    let folder = PathBuf::from(env!("CARGO_TARGET_TMPDIR"));
    let first = folder.join("first_wrong.listing");
    fs::write(&first, "x := null\nmark 0\n\nforbidden\nmark 0  x at #\n").unwrap();
    let Ran { status, text, .. } = try_two(first.to_str().unwrap(), "load_clear.second", &[]);
    assert_eq!(status, 1, "{text}");
    assert!(text.contains("Not joined, for what "), "{text}");
    assert!(text.contains("That is at line 2 of the first, `mark 0`"));

    let Ran { status, text, .. } =
        try_two("beyond_load_copy.first", "beyond_load_copy.second", &[]);
    assert_eq!(status, 1, "{text}");
    let owed = "and beyond_load_copy.second owes it:\n\n       [1 x] -> *\n";
    assert!(text.contains(owed), "{text}");

    assert_eq!(try_two("load_insert.second", "queue", &[]).status, 2);
    assert_eq!(vorruda(&["try", "load_insert.first", "--then"]).status, 2);
}

/// The page of two listings as one.
fn page_of(name: &str) -> String {
    let folder = PathBuf::from(env!("CARGO_TARGET_TMPDIR")).join("joined_pages");
    let [first, second] = [format!("{name}.first"), format!("{name}.second")];
    let into = folder.to_str().unwrap();
    let ran = vorruda(&["report", &first, "--then", &second, "-o", into]);
    let page = folder.join(format!("{first}_then_{second}.html"));
    assert_eq!(ran.text, format!("{}\n", page.display()));
    fs::read_to_string(page).unwrap()
}

#[test]
fn pages_show_both_and_the_claim() {
    let page = page_of("load_insert");
    for part in [
        "<h2>Joined</h2>",
        "No run of load_insert.first and then load_insert.second, on lists of any length",
        "refused 8 at",
        "<h2>Owed at the hand-over</h2>",
        "A run that reaches mark 0 (line 5 of the second)",
        "<h1>load_insert.second</h1>",
        "y := x.next",
    ] {
        assert!(page.contains(part), "{part}");
    }
    let page = page_of("wrong_load_ring");
    for part in ["Wrong: ", "line 9 of the first", "line 8 of the second"] {
        assert!(page.contains(part), "{part}");
    }
    assert!(!page.contains("Joined"));
}
