//! The pages that `report` writes, as far as can be seen without a browser.

mod command_line;

use std::fs;
use std::path::{Path, PathBuf};

use command_line::{vorruda, vorruda_in};
use vorruda_host::corpus::{self, Expected};
use vorruda_host::judge::{judge, Ending, Judged};
use vorruda_host::reference::checker::check;
use vorruda_host::reference::facts::Fact;
use vorruda_host::reference::heap::Heap;
use vorruda_host::reference::job::{Job, Located, Transition};
use vorruda_host::reference::operation::{Operation, BELOW_VALUE, LARGER, READ};
use vorruda_host::reference::operation::{ASSIGN, NEW, STORE};
use vorruda_host::reference::shape::Shape;
use vorruda_host::reference::version::Version;
use vorruda_host::report::routine_page;
use vorruda_host::routine::{Origin, Routine};
use vorruda_host::search::run::{Run, WrongRun};
use vorruda_host::search::{search, Outcome};

/// Runs the command, and gives the folder of its pages.
fn report(name: &str, arguments: &[&str]) -> PathBuf {
    let folder = Path::new(env!("CARGO_TARGET_TMPDIR")).join(name);
    let into = ["-o", folder.to_str().unwrap()];
    let ran = vorruda(&[&["report"], arguments, &into].concat());
    assert_eq!(ran.status, 0, "{ran:?}");
    assert!(Path::new(ran.text.trim_end()).is_file(), "{ran:?}");
    folder
}

fn page(folder: &Path, name: &str) -> String {
    fs::read_to_string(folder.join(format!("{name}.html"))).unwrap()
}

/// Every tag is closed in its turn, and nothing is fetched from elsewhere.
fn assert_stands_alone(name: &str, page: &str) {
    let mut open = Vec::new();
    for part in page.split('<').skip(1) {
        let (tag, _) = part.split_once('>').expect("a tag ends");
        let tag_name = tag.split([' ', '/']).find(|word| !word.is_empty()).unwrap();
        match tag {
            "!DOCTYPE html" => {}
            _ if tag_name == "meta" || tag.ends_with('/') => {}
            _ if tag.starts_with('/') => assert_eq!(open.pop(), Some(tag_name), "{name}"),
            _ => open.push(tag_name),
        }
        assert!(
            !["script", "link", "img", "iframe"].contains(&tag_name),
            "{name}"
        );
    }
    assert!(open.is_empty(), "{name}: {open:?}");
    for word in ["http:", "https:", "url(", "@import", "src="] {
        assert!(!page.contains(word), "{name}: {word}");
    }
}

/// What stands behind one text, up to another.
fn between<'a>(page: &'a str, from: &str, to: &str) -> Option<&'a str> {
    let (_, behind) = page.split_once(from)?;
    behind.split_once(to).map(|(inner, _)| inner)
}

/// A page without what is folded.
fn unfolded(page: &str) -> String {
    let parts = page.split("<details>");
    let behind = |part: &str| match part.split_once("</details>") {
        Some((_, behind)) => behind.to_string(),
        None => part.to_string(),
    };
    parts.map(behind).collect()
}

/// In the box the last heap is drawn with what is wrong; the listing beside the run has one line
/// marked as the failing one.
fn assert_shows_fault(name: &str, page: &str) {
    let first = between(page, "<section class=\"banner bad\">", "</section>").expect(name);
    assert!(first.contains("<figure>"), "{name}");
    assert!(
        first.contains("cell bad") || first.contains("chip bad"),
        "{name}: {first}"
    );
    let run = between(
        page,
        "<h2>How it comes about</h2>",
        "<section class=\"met\">",
    );
    let listing = between(run.expect(name), "<div class=\"listing\">", "</div>").expect(name);
    assert_eq!(listing.matches("<mark class=\"bad\">").count(), 1, "{name}");
}

/// What can't happen stands below the box, in one part or one for each job: each forbidden shape drawn,
/// each line in loom words.
fn assert_shows_never(name: &str, page: &str, routine: &Routine) {
    let (_, behind) = page.split_once("<h2>Certified").expect(name);
    let parts = behind.split("<h2>").filter_map(|part| {
        let (heading, part) = part.split_once("</h2>")?;
        let is_never = heading.to_lowercase().ends_with("what can't happen");
        is_never.then_some(part)
    });
    let never: String = parts.collect();
    let rows: Vec<&str> = never
        .split("<section class=\"forbidden\">")
        .skip(1)
        .collect();
    for row in &rows {
        let words = between(row, "<p><b>", "</p>").expect(name);
        assert!(words.contains("can't"), "{name}: {words}");
        assert!(row.contains("<div class=\"shapes never\">"), "{name}");
    }
    let shapes = routine.job.forbidden.len();
    assert_eq!(never.matches("<figure>").count(), shapes, "{name}");
    let mut origins: Vec<&Origin> = routine.origins.iter().collect();
    origins.dedup();
    assert_eq!(rows.len(), origins.len(), "{name}");
}

/// What isn't folded of runs changes something; what is folded says which way it goes.
fn assert_folds(name: &str, page: &str) {
    for step in unfolded(page).split("<li value=").skip(1) {
        let (step, _) = step.split_once("</li>").expect(name);
        assert!(step.contains("<figure>"), "{name}: {step}");
    }
    assert!(!page.contains("the routine goes on"), "{name}");
    for step in page.split("<code>while ").skip(1) {
        let (step, _) = step.split_once("</p>").expect(name);
        let is_told = step.contains("enters the loop") || step.contains("leaves the loop");
        assert!(
            is_told || !step.contains("class=\"what\""),
            "{name}: {step}"
        );
    }
    for fold in page.split("<summary>").skip(1) {
        let (summary, _) = fold.split_once("</summary>").expect(name);
        let is_build = summary.starts_with("Build phase, ");
        assert!(is_build || summary.contains("nothing changes; "), "{name}");
    }
}

/// Routines that are right; two of them need two jobs.
fn beside_the_corpus() -> PathBuf {
    Path::new(env!("CARGO_MANIFEST_DIR")).join("tests/split")
}
const SPLIT: [&str; 2] = ["selection_sort_values", "table1_bubble_sort_cyclic"];

#[test]
fn pages_of_the_corpus() {
    assert_pages("corpus_pages", &corpus::folder(), &[]);
}

#[test]
fn pages_beside_the_corpus() {
    assert_pages("split_pages", &beside_the_corpus(), &SPLIT);
}

/// The pages of a folder, in which those of these names need two jobs.
fn assert_pages(name: &str, of: &Path, split: &[&str]) {
    let folder = report(name, &[of.to_str().unwrap()]);
    let index = page(&folder, "index");
    assert_stands_alone("index", &index);
    let entries = corpus::read_folder(of).unwrap().into_iter();
    for entry in entries.map(|file| file.entry.unwrap()) {
        let name = &entry.name;
        let page = page(&folder, name);
        assert_stands_alone(name, &page);
        assert_eq!(page.matches("<svg class=\"graph\"").count(), 1, "{name}");
        let verdict = match entry.expected {
            Expected::Certified if split.contains(&&name[..]) => (
                "good",
                "certified in two jobs",
                "<h2>Certified in two jobs</h2>",
            ),
            Expected::Certified => ("good", "certified", "<h2>Certified</h2>"),
            Expected::Warned => ("open", "certified with a warning", "<h2>Certified</h2>"),
            Expected::Wrong => ("bad", "wrong", "<h2>Wrong: "),
            Expected::Beyond => (
                "open",
                "beyond the rules",
                "<h2>No certificate, and no run found</h2>",
            ),
        };
        let (class, word, heading) = verdict;
        assert!(page.contains(heading), "{name}");
        assert_folds(name, &page);
        assert!(page.contains("<div class=\"listing\">"), "{name}");
        match entry.expected {
            Expected::Wrong => assert_shows_fault(name, &page),
            Expected::Beyond => {}
            Expected::Certified | Expected::Warned => {
                assert_shows_never(name, &page, &entry.routine);
            }
        }
        let is_certified = heading.starts_with("<h2>Certified");
        let routine = &entry.routine;
        for state in (0..routine.job.states).filter(|&state| routine.mark(state).is_some()) {
            let said =
                |words: &str| page.contains(&format!("<h2>{words}{}</h2>", routine.place(state)));
            let is_unreached = said("Warning: no run was found that reaches ");
            let is_reached = said("A run that reaches ");
            assert_eq!(is_reached, is_certified && !is_unreached, "{name}");
        }
        if let Some((before, _)) = page.split_once("<h2>Certified") {
            let warns = before.contains("<h2>Warning: ");
            assert_eq!(warns, entry.expected == Expected::Warned, "{name}");
            assert!(page.contains("\n<p>Looking forward went over "), "{name}");
        }
        let row = index
            .lines()
            .find(|line| line.contains(&format!("<a href=\"{name}.html\">")));
        let in_row = format!("<span class=\"verdict {class}\">{word}</span>");
        assert!(row.is_some_and(|row| row.contains(&in_row)), "{name}");
        let is_marked = page.contains("cell bad") || page.contains("chip bad");
        assert_eq!(is_marked, entry.expected == Expected::Wrong, "{name}");
    }
}

/// Right, wrong, right but beyond the rules, and one with a mistake; each has a row and is counted.
#[test]
fn a_folder_with_a_mistaken_file() {
    let from = Path::new(env!("CARGO_TARGET_TMPDIR")).join("mixed");
    fs::create_dir_all(&from).unwrap();
    for name in ["reverse", "wrong_delete_linked", "beyond_delete_first"] {
        let file = format!("{name}.routine");
        fs::copy(corpus::folder().join(&file), from.join(&file)).unwrap();
    }
    fs::write(from.join("faulty.listing"), "x := nul\n").unwrap();

    // Without a folder for the pages they go to one called report.
    let home = command_line::folder("mixed_home");
    let ran = vorruda_in(&home, &["report", from.to_str().unwrap()]);
    assert_eq!(ran.status, 2, "{ran:?}");
    assert!(ran.said.contains("faulty.listing: 1 mistake"), "{ran:?}");
    assert_eq!(ran.text, "report/index.html\n");

    let folder = home.join("report");
    let index = page(&folder, "index");
    assert_stands_alone("index", &index);
    let totals = ">4 routines: 1 certified, 0 certified with a warning, 1 wrong, 1 beyond the \
                  rules, 0 not found, 1 mistaken file.</p>";
    assert!(index.contains(totals), "{index}");
    assert_eq!(index.matches("<tr><td>").count(), 4);
    let row =
        "<tr><td>faulty</td><td><span class=\"verdict bad\">mistaken file</span></td><td><pre>";
    assert!(index.contains(row), "{index}");
    assert!(!folder.join("faulty.html").exists());
    for name in ["reverse", "wrong_delete_linked", "beyond_delete_first"] {
        assert!(folder.join(format!("{name}.html")).is_file(), "{name}");
    }
}

/// Several files have a table; two of one name would have one page.
#[test]
fn several_files_have_a_table() {
    let folder = report("several", &["append", "prepend"]);
    let index = page(&folder, "index");
    for name in ["append", "prepend"] {
        assert!(
            index.contains(&format!("<a href=\"{name}.html\">")),
            "{index}"
        );
        assert!(folder.join(format!("{name}.html")).is_file(), "{name}");
    }
    let twice = vorruda_in(&folder, &["report", "append", "append"]);
    let said = "vorruda report: two are called append\n";
    assert_eq!((twice.status, &twice.said[..]), (2, said));
    assert!(!folder.join("report").exists());
}

#[test]
fn the_page_of_a_release_stands_alone() {
    let folder = command_line::folder("release_page");
    let files = ["append", "wrong_delete_linked"];
    let ran = vorruda_in(&folder, &["release", files[0], files[1], "-o", "."]);
    assert_eq!(ran.status, 1, "{ran:?}");
    assert_stands_alone("release", &page(&folder, "release"));
}

#[test]
fn the_page_of_a_wrong_routine() {
    let page = page(
        &report("one_page", &["wrong_delete_linked"]),
        "wrong_delete_linked",
    );
    let (first, rest) = page.split_once("<h2>How it comes about</h2>").unwrap();
    for text in [
        "<h2>Wrong: A link dangles</h2>",
        "aria-label=\"[2 x] -&gt; *; t at #, q at *\"",
        "<path class=\"line bad\"",
        "That is at <b>line 22</b>, <code>mark 0</code>, where line 25 of the routine forbids \
         <code>no list: x</code>. It is so since <b>line 20</b>, <code>delete(q)</code>.",
    ] {
        assert!(first.contains(text), "{text}");
    }
    for text in [
        "A run of 19 steps.",
        "<span class=\"where\">line 20</span> <code>delete(q)</code>",
        "<span> 3  new(x)</span>\n<span> 4  x.next := null</span>\n<span> 5  while any</span>\n",
        "<mark class=\"since\">20  delete(q)</mark>\n<span>21  end</span>\n<mark class=\"bad\">22  \
         mark 0</mark>\n",
        "<p>Forbidden at <mark class=\"bad\">line 22</mark>, so since <mark \
         class=\"since\">line 20</mark>.</p>",
        "<summary>Build phase, 8 steps: lines 3 to 9</summary>",
        "<summary><span class=\"where\">lines 15, 18, 12, 19</span> <span class=\"what\">nothing changes; \
         skips the branch; t is null: leaves the loop; q is not null: enters the \
         branch</span></summary>",
        "<code>while any</code> <span class=\"what\">leaves the loop</span>",
        "<code>end</code> <span class=\"what\">goes back to line 5</span>",
    ] {
        assert!(rest.contains(text), "{text}\n{rest}");
    }
    assert_eq!(page.matches("<li value=").count(), 19);
    let shown = unfolded(rest);
    assert_eq!(shown.matches("From here on it is so.").count(), 1);
    // The end of the run, in the box and as the last step.
    assert_eq!(page.matches("<path class=\"line bad\"").count(), 2);
}

#[test]
fn the_page_of_a_certified_routine() {
    let page = page(&report("certified_page", &["reverse"]), "reverse");
    for text in [
        "<h3><span class=\"where\">mark 0 (line 16)</span> <code>no list: y</code></h3>\n<p><b>y ends \
         at null.</b> The hooks can't run round a ring while the pick count climbs",
        "<p><b>Every block is in y.</b> The hooks can't miss a part of the pattern, and no \
         memory is lost.</p>",
        "<p><b>x stands at no block.</b> ",
        "<h3><span class=\"where\">anywhere</span> <code>steps</code></h3>\n<p><b>Where a line follows \
         or sets a link, there is a block.</b> ",
        "<p class=\"where\">line 13</p>\n<figure>",
        "aria-label=\"[1 y] -&gt; back to [1 y]\"",
        "<mark class=\"good\">16  mark 0</mark>",
    ] {
        assert!(page.contains(text), "{text}\n{page}");
    }
}

/// A part for each job: what it forbids, its counts and its shapes. The index counts the routine as
/// certified.
#[test]
fn the_page_of_a_routine_in_two_jobs() {
    let name = "table1_bubble_sort_cyclic";
    let from = Path::new(env!("CARGO_TARGET_TMPDIR")).join("two_jobs");
    fs::create_dir_all(&from).unwrap();
    let file = format!("{name}.routine");
    fs::copy(beside_the_corpus().join(&file), from.join(&file)).unwrap();
    let folder = report("two_jobs_pages", &[from.to_str().unwrap()]);
    let index = page(&folder, "index");
    for text in [
        ">1 routine: 1 certified, 0 certified with a warning, ",
        "<td class=\"number\">474 and 91</td><td class=\"number\">2,635 and 145</td>",
    ] {
        assert!(index.contains(text), "{text}\n{index}");
    }
    let page = page(&folder, name);
    let banner = between(&page, "<h2>Certified in two jobs</h2>", "</section>").unwrap();
    for text in [
        " on lists of any length, comes to this: at end, x is on no ring, or a block is lost beside x, or ",
        "The proved checker has accepted each certificate. Certified in two jobs: each is the routine \
         with a part of what it forbids, and together they forbid all of it.",
    ] {
        assert!(banner.contains(text), "{text}\n{banner}");
    }
    for (heading, forbids, members, shapes) in [
        (
            "<h2>Job 1 of 2: what can't happen</h2>",
            "<p>It forbids <code>no ring: x</code> (line 56), <code>lost block: x</code> (line 57) and \
             <code>not sorted round: x</code> (line 58): accepted bads 13 members 474 ",
            "<dt>members</dt><dd>474</dd>",
            13,
        ),
        (
            "<h2>Job 2 of 2: what can't happen</h2>",
            "<p>It forbids <code>steps</code> (line 59): accepted bads 28 members 91 ",
            "<dt>members</dt><dd>91</dd>",
            28,
        ),
    ] {
        let job = between(&page, heading, "<h2>").expect(heading);
        assert!(job.contains(forbids), "{forbids}\n{job}");
        assert!(job.contains(members), "{members}\n{job}");
        assert_eq!(job.matches("<figure>").count(), shapes);
    }
    assert!(!page.contains("<h2>What is forbidden</h2>"));
    assert!(page.contains("<div><dt>jobs</dt><dd>2</dd></div>"));
}

/// Where one of two certificates is refused, nothing is claimed of the whole, and the page says which.
#[test]
fn the_page_of_two_jobs_of_which_one_is_refused() {
    let file = beside_the_corpus().join("table1_bubble_sort_cyclic.routine");
    let routine = corpus::find(file.to_str().unwrap()).unwrap().routine;
    let mut judged = judge(&routine);
    let Ending::Split(jobs) = &mut judged.ending else {
        panic!("{}", judged.ending.words());
    };
    let job = &mut jobs[1];
    job.certificate.covers[0].member += 1;
    let certificate = job.certificate.bytes();
    job.verdict = check(&job.routine.job.bytes(), &certificate);
    assert!(!judged.ending.is_accepted());
    assert_eq!(judged.expected(), None);
    let page = routine_page("split", &routine, &judged);
    assert_stands_alone("split", &page);
    for text in [
        "<h2>A certificate is refused</h2>",
        "<h2>Job 1 of 2: what can't happen</h2>",
        "<h2>Job 2 of 2: what is forbidden</h2>",
        "<pre>\nTo be covered at ",
    ] {
        assert!(page.contains(text), "{text}");
    }
    assert!(!page.contains("Certified in two jobs"));
    assert!(!page.contains("comes to this"));
}

/// Where the search makes a wrong certificate, the page says what is wrong with it.
#[test]
fn the_page_of_a_refused_certificate() {
    let routine = corpus::find("reverse").unwrap().routine;
    let Outcome::Certified(mut certificate) = search(&routine.job) else {
        panic!("no certificate");
    };
    let cover = certificate
        .covers
        .iter_mut()
        .find(|cover| cover.images.len() > 1);
    cover.expect("a member has two cells").images.fill(0);
    let verdict = check(&routine.job.bytes(), &certificate.bytes());
    let judged = Judged {
        ending: Ending::Certified(certificate, verdict),
        ..judge(&routine)
    };
    let page = routine_page("reverse", &routine, &judged);
    assert_stands_alone("reverse", &page);
    let said = format!(
        "<h2>The certificate is refused</h2>\n<p>{verdict}: Two cells have the image 0: cells 0 and \
         1.</p>\n</section>\n"
    );
    assert!(verdict.to_string().ends_with(" rule 2 of 0"), "{verdict}");
    assert!(page.contains(&said), "{page}");
    assert!(page.contains("<pre>\nTo be covered at line "), "{page}");
    assert!(page.contains("<h2>What is forbidden</h2>"), "{page}");
    assert!(!page.contains("can't happen"), "{page}");
}

/// Each kind with its operands, and the cell or the value that it leaves open.
const STEPS: [(u64, usize, usize, usize); 8] = [
    (NEW, 1, 0, 0),
    (READ, 1, 0, 250),
    (STORE, 1, 0, 0),
    (NEW, 2, 0, 1),
    (LARGER, 2, 1, 65_535),
    (BELOW_VALUE, 1, 2, 0),
    (STORE, 2, 1, 0),
    (ASSIGN, 1, 2, 0),
];

/// Puts a block with a larger value ahead of another; at the end that is forbidden, and equal values.
fn unsorted() -> Routine {
    let transition = |(from, &(kind, a, b, _)): (usize, &(u64, usize, usize, usize))| Transition {
        from: from as u64,
        operation: Operation { kind, a, b },
        to: from as u64 + 1,
    };
    let forbidden = |fact| Located {
        state: STEPS.len() as u64,
        shape: Shape::of_codes(&[3, 0], &[4, 0]).with_facts(vec![fact]),
    };
    let job = Job {
        version: Version::Two,
        variables: 2,
        states: STEPS.len() as u64 + 1,
        start: 0,
        transitions: STEPS.iter().enumerate().map(transition).collect(),
        forbidden: vec![forbidden(Fact::below(1, 0)), forbidden(Fact::equal(0, 1))],
    };
    let origin = |text: &str| Origin {
        line: Some(9),
        text: text.to_string(),
    };
    Routine {
        title: "Sorts wrongly.".to_string(),
        variables: ["x", "y"].map(str::to_string).to_vec(),
        origins: ["not sorted: x", "x at c, c -> d, c = d"]
            .map(origin)
            .to_vec(),
        ..Routine::of_job(job)
    }
}

/// The run through all of its steps.
fn run_of(routine: &Routine) -> WrongRun {
    let mut heaps = vec![Heap::empty(2)];
    for (transition, (_, _, _, choice)) in routine.job.transitions.iter().zip(STEPS) {
        let after = heaps[heaps.len() - 1].after(transition.operation, choice);
        heaps.push(after.expect("the step is enabled"));
    }
    let run = Run {
        transitions: (0..STEPS.len()).collect(),
        heaps,
    };
    WrongRun { run, forbidden: 0 }
}

#[test]
fn the_page_of_a_run_with_values() {
    let routine = unsorted();
    let judged = Judged {
        ending: Ending::Wrong(run_of(&routine)),
        ..judge(&routine)
    };
    let page = routine_page("unsorted", &routine, &judged);
    assert_stands_alone("unsorted", &page);
    for text in [
        "<h2>Wrong: The list is out of order</h2>",
        "<code>read(x)</code> <span class=\"what\">a value is read into x's block: 250</span>",
        "<code>y.num :=&gt; x.num</code> <span class=\"what\">y's block gets a larger value than \
         x's: 65535</span>",
        "<span class=\"what\">x's block has a smaller value than y's: 250 &lt; 65535</span>",
        "aria-label=\"[1 x: 250] -&gt; *; y at *\"",
        ">1: <tspan class=\"value new\">250</tspan></text>",
        ">2: <tspan class=\"value new\">65535</tspan></text>",
        "at the end.\nWhere a block has a value, its pick, it stands in the box",
        "line 9 of the routine forbids <code>not sorted: x</code>.",
        "nothing is said.\nBelow a shape, <code>1 &lt; 2 = 3</code> says",
        "aria-label=\"[1 x] -&gt; [2]; 1 = 2\"",
    ] {
        assert!(page.contains(text), "{text}\n{page}");
    }
    let counted = |text: &str| page.matches(text).count();
    // Two values, in the box and at the end of the run.
    assert_eq!(counted("<tspan class=\"value bad\">"), 4);
    assert_eq!(counted("<span class=\"facts\">2 &lt; 1</span>"), 2);
    assert_eq!(counted("<span class=\"facts\">1 = 2</span>"), 1);
}

/// Of values nothing is said where there are none.
#[test]
fn the_pages_of_routines_without_values() {
    for name in ["wrong_delete_linked", "beyond_delete_first", "reverse"] {
        let page = page(&report("without_values", &[name]), name);
        for text in ["a value", "values", "\"value", "pick, it", "&lt; 2"] {
            let body = page.split_once("<body>").expect("a page has a body").1;
            assert!(!body.contains(text), "{name}: {text}");
        }
    }
}
