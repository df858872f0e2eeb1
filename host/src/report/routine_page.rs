//! The page of one routine.

use super::cells::{Scene, OF_PICTURES};
use super::counts;
use super::fault::{fault, since};
use super::forbidden::{forbidden, of_facts, shape_figure};
use super::graph;
use super::html::{escape, page, prose};
use super::listing::{beside, lines, End};
use super::parts::build_phase;
use super::several_jobs::several_jobs;
use super::steps::{Steps, Wrong};
use crate::beyond::{at_a_limit, Beyond};
use crate::draw;
use crate::excluded;
use crate::judge::{Ending, Judged};
use crate::outlook::Warning;
use crate::reference::certificate::Certificate;
use crate::reference::heap::Heap;
use crate::refused_cover::RefusedCover;
use crate::routine::{Origin, Routine};
use crate::search::chain::Chain;
use crate::search::run::{Run, WrongRun};
use crate::text::counted;
use crate::verdict::Verdict;

/// How to read the colours of a run, and of a wrong one; how to read a chain.
const OF_RUNS: &str = "<span class=\"swatch new\">This colour</span> is what a step changes";
const OF_WRONG_RUNS: &str = ",
<span class=\"swatch bad\">this one</span> what is wrong at the end";
const OF_CHAINS: &str = "\
Each shape may come before the one above it, as far as the rules can tell; the empty heap, with which
every run begins, satisfies the last. A dashed arrow is one link or several.";

/// What is said besides where cells have values.
const OF_VALUES: &str = "
Where a block has a value, its pick, it stands in the box behind the number of the block.";

pub fn routine_page(name: &str, routine: &Routine, judged: &Judged) -> String {
    let mut body = format!(
        "<h1>{}</h1>\n<p class=\"lead\">{}</p>\n",
        escape(name),
        escape(&routine.title)
    );
    for warning in &routine.warnings {
        body += &format!(
            "<p class=\"warning\">Warning: {}</p>\n",
            prose(&warning.to_string())
        );
    }
    let warnings = judged.outlook.warnings(routine);
    let warned: String = warnings
        .iter()
        .map(|warning| warned(routine, warning))
        .collect();
    let Told { verdict, below } = told(name, routine, &judged.ending);
    let boxes = match judged.ending {
        Ending::Wrong(_) => verdict + &warned,
        _ => warned + &verdict,
    };
    body += &format!("{boxes}<p class=\"lead\">{OF_PICTURES}</p>\n{below}");
    body += &other_runs(routine, judged, &warnings);
    body += &format!(
        "<p>Looking forward went over {}.</p>\n",
        judged.outlook.bound
    );
    body += &counts::of_routine(routine, judged);
    let run: &[usize] = match &judged.ending {
        Ending::Wrong(wrong) => &wrong.run.transitions,
        _ => &[],
    };
    let has_forbidden = judged.ending.is_accepted() || matches!(judged.ending, Ending::Split(_));
    if !has_forbidden {
        body += &forbidden(routine, false);
    }
    body += &states(routine, run);
    page(&format!("{name} - Vorruda"), &body)
}

/// The box of a warning, which stands ahead of the verdict; what is wrong goes first.
fn warned(routine: &Routine, Warning { what, meaning, run }: &Warning) -> String {
    let figure = run.map_or(String::new(), |run| {
        Steps::of(routine, run, None).last_figure()
    });
    let text = format!("<p>{}</p>\n{figure}", prose(meaning));
    banner("open", &format!("Warning: {what}"), &text)
}

/// How a routine ends: the box at the top of the page, and what explains it.
pub struct Told {
    pub verdict: String,
    pub below: String,
}

fn told(name: &str, routine: &Routine, ending: &Ending) -> Told {
    match ending {
        Ending::Certified(certificate, verdict) => certified(name, routine, certificate, verdict),
        Ending::Split(jobs) => several_jobs(name, routine, jobs),
        Ending::Wrong(wrong) => of_wrong(routine, wrong),
        Ending::Beyond {
            chain,
            looked,
            along,
        } => {
            let said = Beyond::of(routine, chain, looked, along);
            let words = format!("{} {} {}", said.found, said.looked, said.next);
            Told {
                verdict: said_banner("open", "No certificate, and no run found", &words),
                below: of_chain(routine, chain),
            }
        }
        Ending::Undecided(stuck, bound) => {
            let words = format!(
                "The search gave up: {}. No run was found that meets what is forbidden, among \
                 {bound}. {}",
                stuck.limit,
                at_a_limit(routine, stuck),
            );
            Told {
                verdict: said_banner("open", "No certificate found", &words),
                below: String::new(),
            }
        }
    }
}

/// The runs that warnings are of, and for a certified routine one to each mark; or else the lines of the
/// routine, if they stand beside nothing yet.
fn other_runs(routine: &Routine, judged: &Judged, warnings: &[Warning]) -> String {
    let mut text = String::new();
    for Warning { what, run, .. } in warnings {
        if let Some(run) = run {
            let title = format!("Warning: {what}");
            text += &titled_run(routine, &title, run, ("The run stops at", "open"));
        }
    }
    if let Ending::Certified(..) | Ending::Split(_) = judged.ending {
        for (state, run) in &judged.outlook.arrivals {
            let title = format!("A run that reaches {}", routine.place(*state));
            text += &titled_run(routine, &title, run, ("The run reaches", "good"));
        }
    }
    let has_lines = matches!(judged.ending, Ending::Wrong(_) | Ending::Beyond { .. });
    match text.is_empty() && !has_lines {
        true => lines(routine),
        false => text,
    }
}

/// The verdict, for who reads no further. What stands below the heading is HTML already.
fn banner(class: &str, heading: &str, below: &str) -> String {
    format!(
        "<section class=\"banner {class}\">\n<h2>{}</h2>\n{below}</section>\n",
        prose(heading),
    )
}

/// A verdict in words alone.
pub fn said_banner(class: &str, heading: &str, text: &str) -> String {
    banner(class, heading, &format!("<p>{}</p>\n", prose(text)))
}

fn certified(name: &str, routine: &Routine, certificate: &Certificate, verdict: &Verdict) -> Told {
    if let Verdict::Accepted(_) = verdict {
        let sentence = excluded::sentence(name, routine);
        let text = format!("{sentence} The proved checker has accepted the certificate.");
        return Told {
            verdict: said_banner("good", "Certified", &text),
            below: forbidden(routine, true),
        };
    }
    let (how, below) = match RefusedCover::of(routine, &certificate.bytes(), verdict) {
        Some(cover) => {
            let drawn = escape(&cover.drawn().join("\n"));
            let below = format!("<pre>\n{drawn}\n</pre>\n");
            (format!("{verdict}: {}", cover.how()), below)
        }
        None => (verdict.to_string(), String::new()),
    };
    Told {
        verdict: said_banner("bad", "The certificate is refused", &how),
        below,
    }
}

/// A run with a title, for what isn't forbidden, with the lines beside it; the one that it comes to is
/// marked with words and a colour.
pub fn titled_run(
    routine: &Routine,
    title: &str,
    run: &Run,
    (words, class): (&'static str, &'static str),
) -> String {
    let transitions = &routine.job.transitions;
    let last = run.transitions.last();
    let end = End {
        state: last.map_or(routine.job.start, |&number| transitions[number].to),
        words,
        class,
        since: None,
    };
    format!(
        "<h2>{}</h2>\n<p>A run of {}. {OF_RUNS}.{}</p>\n{}",
        prose(title),
        counted(run.transitions.len(), "step"),
        of_values(&run.heaps),
        beside(routine, &end, &Steps::of(routine, run, None).list()),
    )
}

/// What a run ends with, and then the run from the start on.
fn of_wrong(routine: &Routine, wrong: &WrongRun) -> Told {
    let fault = fault(routine, wrong);
    let WrongRun { run, forbidden } = wrong;
    let bad = &routine.job.forbidden[*forbidden];
    // What was so of the list as it was built isn't news.
    let since = since(routine, wrong, &fault.marks);
    let since = since.filter(|&step| step >= build_phase(routine, run));
    let marked = Wrong {
        marks: fault.marks,
        since,
    };
    let steps = Steps::of(routine, run, Some(&marked));
    let so = since.map_or(String::new(), |step| {
        let number = run.transitions[step];
        let from = routine.job.transitions[number].from;
        format!(
            " It is so since {}.",
            line(routine, from, &routine.operation(number))
        )
    });
    let in_box = format!(
        "<p>{}</p>\n{}<p>That is at {}, where {}.{so}</p>\n",
        prose(&fault.meaning),
        steps.last_figure(),
        line(routine, bad.state, ""),
        forbids(&routine.origins[*forbidden]),
    );
    let end = End {
        state: bad.state,
        words: "Forbidden at",
        class: "bad",
        since: since.map(|step| run.transitions[step]),
    };
    let below = format!(
        "<h2>How it comes about</h2>\n<p>A run of {}. {OF_RUNS}{OF_WRONG_RUNS}.{}</p>\n{}\
         <section class=\"met\">\n<p>The forbidden shape that is met:</p>\n{}</section>\n",
        counted(run.transitions.len(), "step"),
        of_values(&run.heaps),
        beside(routine, &end, &steps.list()),
        shape_figure(routine, *forbidden),
    );
    Told {
        verdict: banner("bad", &format!("Wrong: {}", fault.heading), &in_box),
        below,
    }
}

/// A state with the line of the listing that begins there, or else with what stands for it.
fn line(routine: &Routine, state: u64, otherwise: &str) -> String {
    let name = escape(&routine.states[state as usize]);
    match routine.statement(state).unwrap_or(otherwise) {
        "" => format!("<b>{name}</b>"),
        text => format!("<b>{name}</b>, <code>{}</code>", escape(text)),
    }
}

/// How to read values, where there are any.
fn of_values(heaps: &[Heap]) -> &'static str {
    match heaps.iter().all(|heap| heap.values.is_empty()) {
        true => "",
        false => OF_VALUES,
    }
}

/// Which line forbids a shape.
fn forbids(origin: &Origin) -> String {
    let set = format!("<code>{}</code>", escape(&origin.text));
    match origin.line {
        Some(line) => format!("line {line} of the routine forbids {set}"),
        None => format!("{set} is forbidden"),
    }
}

fn of_chain(routine: &Routine, chain: &Chain) -> String {
    let shapes = draw::shapes(chain, routine);
    let mut list = "<ol class=\"run\">\n".to_string();
    for (link, shape) in chain.links.iter().zip(&shapes) {
        let words = draw::shape(shape, &routine.variables).join("; ");
        let after = link.transition.map_or("the start".to_string(), |number| {
            format!("after <code>{}</code>", escape(&routine.operation(number)))
        });
        list += &format!(
            "<li>\n<p><span class=\"where\">{}</span> {after}</p>\n{}</li>\n",
            escape(&routine.states[usize::from(link.located.state)]),
            Scene::of_shape(shape, &routine.variables).figure(&words),
        );
    }
    let end = End {
        state: routine.job.forbidden[chain.forbidden].state,
        words: "Forbidden at",
        class: "open",
        since: None,
    };
    format!(
        "<h2>Why there is none</h2>\n<p>{OF_CHAINS}{}</p>\n{}",
        of_facts(&shapes),
        beside(routine, &end, &(list + "</ol>\n")),
    )
}

fn states(routine: &Routine, run: &[usize]) -> String {
    let of_run = match run.is_empty() {
        true => "",
        false => " Thick transitions are those of the run.",
    };
    let words = format!(
        "{} and {}",
        counted(routine.states.len(), "state"),
        counted(routine.job.transitions.len(), "transition")
    );
    format!(
        "<section class=\"states\">\n<h2>States and transitions</h2>\n<p>Every run begins at \
         <b>{}</b>. At states with a thick frame something is forbidden.{of_run}</p>\n\
         {}</section>\n",
        escape(&routine.states[routine.job.start as usize]),
        graph::picture(routine, run).element("graph", &words)
    )
}
