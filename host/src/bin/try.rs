//! From the text of a routine to a verdict: translates, searches for a certificate and checks it.
//!
//! `try ROUTINE [FOLDER]`: a file, or the name of a routine of the corpus. With a folder, job.bin and
//! cert.bin are written there. `try ROUTINE CERT.bin` and `try JOB.bin CERT.bin` check a certificate
//! of one's own and tell what a cover breaks that doesn't hold. `try FIRST then SECOND [FOLDER]` takes
//! two listings as one, and writes job1.bin, cert1.bin, job2.bin and cert2.bin. The exit status is 0
//! where the certificate is accepted, or both are joined, 1 where there is none or it is refused, 2 for
//! a mistake in a file. `try` alone lists the routines of the corpus.

use std::fmt::Write as _;
use std::io::{self, IsTerminal as _, Write as _};
use std::path::Path;
use std::process::ExitCode;
use std::{env, fs};

use vorruda_host::beyond::{Beyond, AT_A_LIMIT};
use vorruda_host::check::check;
use vorruda_host::corpus;
use vorruda_host::draw;
use vorruda_host::excluded;
use vorruda_host::joining::{self, Joined, Listings};
use vorruda_host::judge::{judge_unsplit_telling, Ending};
use vorruda_host::outlook::{Outlook, Warning};
use vorruda_host::pairs::Pair;
use vorruda_host::reference::certificate::Certificate;
use vorruda_host::reference::job::{Job, MOST_FORBIDDEN};
use vorruda_host::refused_cover::RefusedCover;
use vorruda_host::routine::Routine;
use vorruda_host::search::attempts::Tried;
use vorruda_host::search::first_look;
use vorruda_host::search::run::WrongRun;
use vorruda_host::text::counted;
use vorruda_host::verdict::{JoinVerdict, Verdict};

const USAGE: &str = "usage: try [ROUTINE [FOLDER]], try FIRST then SECOND [FOLDER], \
                     try ROUTINE CERT.bin or try JOB.bin CERT.bin";

/// What is printed, and the exit status.
type Answer = (String, ExitCode);

fn main() -> ExitCode {
    let arguments: Vec<String> = env::args().skip(1).collect();
    let answer = match &arguments[..] {
        [] => list(),
        [name] if !is_bytes(name) => try_one(name, None),
        [first, then, second, folder @ ..] if then == "then" && folder.len() < 2 => {
            try_two([first, second], folder.first().map(Path::new))
        }
        [name, certificate] if is_bytes(certificate) => try_certificate(name, certificate),
        [name, folder] if !is_bytes(name) => try_one(name, Some(Path::new(folder))),
        _ => Err(USAGE.to_string()),
    };
    match answer {
        Ok((text, status)) => {
            // Whoever reads may stop early.
            let _ = io::stdout().write_all(text.as_bytes());
            status
        }
        Err(what) => {
            eprintln!("{what}");
            ExitCode::from(2)
        }
    }
}

/// The routines of the corpus with their titles.
fn list() -> Result<Answer, String> {
    let mut text = "Routines to try, by name; or give a file of your own.\n\n".to_string();
    for entry in corpus::read()? {
        text += &format!("  {:<24} {}\n", entry.name, entry.routine.title);
    }
    text += "\nTwo listings to try as one, the first and then the second.\n\n";
    for [first, second] in corpus::joined()? {
        for entry in [first, second] {
            text += &format!("  {:<24} {}\n", entry.name, entry.routine.title);
        }
    }
    Ok((text, ExitCode::SUCCESS))
}

fn try_one(name: &str, folder: Option<&Path>) -> Result<Answer, String> {
    let routine = corpus::find(name)?.routine;
    let mut tried = Vec::new();
    show("searching");
    let judged = judge_unsplit_telling(&routine, &mut |attempt| {
        show(&attempt.to_string());
        tried.push(attempt);
    });
    show("");
    let ending = &judged.ending;
    if let (Some(folder), Ending::Certified(certificate, _)) = (folder, ending) {
        write(&routine, certificate, folder)?;
    }
    let status = match ending {
        Ending::Certified(_, verdict) => status_of(verdict),
        _ => ExitCode::FAILURE,
    };
    let mut text = heading(name, &routine);
    warn(&mut text, &routine, &judged.outlook).expect("a string takes all");
    tell(&mut text, name, &routine, ending).expect("a string takes all");
    if let Ending::Undecided(..) = ending {
        tell_tried(&mut text, &tried).expect("a string takes all");
    }
    Ok((text, status))
}

/// Two listings as one.
fn try_two(names: [&str; 2], folder: Option<&Path>) -> Result<Answer, String> {
    let [first, second] = names.map(corpus::find);
    let listings = Listings::of(first?.routine, second?.routine)?;
    let (judged, joined) = listings.judge();
    let [first, second] = names;
    let mut text = heading(first, &listings.first) + &heading(second, &listings.second);
    warn(&mut text, &listings.whole, &judged.outlook).expect("a string takes all");
    let mut status = ExitCode::FAILURE;
    let told = match &joined {
        Joined::Pairs(pairs) => {
            if let Some(folder) = folder {
                write_pairs(pairs, folder)?;
            }
            if let JoinVerdict::Joined(..) = pairs.verdict {
                status = ExitCode::SUCCESS;
            }
            tell_pairs(&mut text, names, &listings, pairs)
        }
        Joined::TooMany(count) => writeln!(
            text,
            "Not joined: with what the second owes at its start the first would forbid {count} shapes; \
             {MOST_FORBIDDEN} are allowed."
        ),
        Joined::Neither => tell_neither(&mut text, names, &listings, &judged.ending),
    };
    told.expect("a string takes all");
    Ok((text, status))
}

/// Tells the verdicts on two pairs, what is owed, and what then can't happen.
fn tell_pairs(
    text: &mut String,
    [first, second]: [&str; 2],
    listings: &Listings,
    pairs: &joining::Pairs,
) -> std::fmt::Result {
    let [of_first, of_second] = pairs.alone();
    writeln!(text, "{first}, which forbids what is owed too: {of_first}")?;
    writeln!(text, "{second} alone, from the empty heap: {of_second}")?;
    let state = &listings.first.states[listings.hand_over as usize];
    write!(
        text,
        "Owed at the hand-over, {state} (state {}): ",
        listings.hand_over
    )?;
    match pairs.owed.len() {
        0 => writeln!(text, "nothing.")?,
        count => writeln!(
            text,
            "{}. {first} doesn't hand over a heap with one of them ({}).\n",
            counted(count, "shape"),
            draw::key(&pairs.owed),
        )?,
    }
    for shape in &pairs.owed {
        for line in draw::shape(shape, &listings.first.variables) {
            writeln!(text, "       {line}")?;
        }
        writeln!(text)?;
    }
    writeln!(text, "{}", pairs.verdict)?;
    match pairs.verdict {
        JoinVerdict::Joined(..) => {
            let both = format!("{first} and then {second} as one");
            writeln!(text, "{}", excluded::sentence(&both, &listings.whole))
        }
        _ => Ok(()),
    }
}

/// Tells why two listings as one have no certificate, and which of the two it is.
fn tell_neither(
    text: &mut String,
    [first, second]: [&str; 2],
    listings: &Listings,
    ending: &Ending,
) -> std::fmt::Result {
    let handed_over = match ending {
        Ending::Beyond { .. } => {
            format!("{first} can't be certified never to hand this over, and {second} owes it")
        }
        _ => format!("{first} may hand this over, with which {second} goes wrong"),
    };
    match listings.handed_over(ending) {
        Some(lines) => {
            writeln!(text, "Not joined: {handed_over}:\n")?;
            for line in lines {
                writeln!(text, "       {line}")?;
            }
            writeln!(text)?;
        }
        None => writeln!(text, "Not joined, for what {first} does:")?,
    }
    tell(text, "both as one", &listings.whole, ending)
}

/// Shows on a terminal how far the search is, in a line that is written over.
fn show(what: &str) {
    if io::stderr().is_terminal() {
        eprint!("\r\x1b[K{what}");
    }
}

/// Tells what was tried for a certificate and where each attempt stopped.
fn tell_tried(text: &mut String, tried: &[Tried]) -> std::fmt::Result {
    writeln!(text, "What was tried:")?;
    tried
        .iter()
        .try_for_each(|attempt| writeln!(text, "  {attempt}"))
}

/// Whether a file is to be taken as the bytes of a job or a certificate.
fn is_bytes(name: &str) -> bool {
    Path::new(name).extension().is_some_and(|end| end == "bin")
}

/// The verdict on a certificate of one's own, for a routine or for a job of one's own.
fn try_certificate(name: &str, certificate: &str) -> Result<Answer, String> {
    let read = |file: &str| fs::read(file).map_err(|error| format!("{file}: {error}"));
    let mut text = String::new();
    let (job, routine) = match is_bytes(name) {
        true => {
            let job = read(name)?;
            let routine = Job::read(&job).ok().map(Routine::of_job);
            (job, routine)
        }
        false => {
            let routine = corpus::find(name)?.routine;
            text = heading(name, &routine);
            (routine.job.bytes(), Some(routine))
        }
    };
    if let Some(routine) = &routine {
        let outlook = Outlook::of(routine, &first_look(&routine.job), None);
        warn(&mut text, routine, &outlook).expect("a string takes all");
    }
    let certificate = read(certificate)?;
    let verdict = check(&job, &certificate);
    let named = routine.as_ref().map(|routine| (name, routine));
    tell_verdict(&mut text, named, &certificate, &verdict).expect("a string takes all");
    Ok((text, status_of(&verdict)))
}

fn status_of(verdict: &Verdict) -> ExitCode {
    match verdict {
        Verdict::Accepted(_) => ExitCode::SUCCESS,
        Verdict::Refused(_) => ExitCode::FAILURE,
    }
}

/// A routine's title, and what may be misspelt in it.
fn heading(name: &str, routine: &Routine) -> String {
    let mut text = format!("{name}: {}\n", routine.title);
    for warning in &routine.warnings {
        text += &format!("Warning: {warning}\n");
    }
    text
}

/// Warns of what a desk may not mean, with the runs that show it.
fn warn(text: &mut String, routine: &Routine, outlook: &Outlook) -> std::fmt::Result {
    for Warning { what, meaning, run } in outlook.warnings(routine) {
        writeln!(text, "Warning: {what}. {meaning}")?;
        if let Some(run) = run {
            writeln!(text, "The run ({}):\n", draw::key_of_run(run))?;
            writeln!(text, "{}", draw::run(run, routine))?;
        }
    }
    Ok(())
}

/// Tells a verdict, and in words what can't happen, or what a cover breaks that doesn't hold. There is
/// no routine where the job can't be read.
fn tell_verdict(
    text: &mut String,
    named: Option<(&str, &Routine)>,
    certificate: &[u8],
    verdict: &Verdict,
) -> std::fmt::Result {
    writeln!(text, "{verdict}")?;
    let Some((name, routine)) = named else {
        return Ok(());
    };
    if let Verdict::Accepted(_) = verdict {
        return writeln!(text, "{}", excluded::sentence(name, routine));
    }
    match RefusedCover::of(routine, certificate, verdict) {
        Some(cover) => writeln!(text, "{}\n\n{}", cover.how(), cover.drawn().join("\n")),
        None => Ok(()),
    }
}

/// Tells how a routine ends, and why.
fn tell(text: &mut String, name: &str, routine: &Routine, ending: &Ending) -> std::fmt::Result {
    match ending {
        Ending::Certified(certificate, verdict) => {
            let named = Some((name, routine));
            tell_verdict(text, named, &certificate.bytes(), verdict)
        }
        Ending::Wrong(wrong) => tell_wrong(text, routine, wrong),
        Ending::Beyond {
            chain,
            looked,
            along,
        } => {
            let said = Beyond::of(routine, chain, looked, along);
            writeln!(text, "{}\n{}\n{}", said.found, said.looked, said.next)?;
            writeln!(
                text,
                "From a forbidden shape back to the empty heap ({}):\n",
                draw::key(&draw::shapes(chain, routine))
            )?;
            text.push_str(&draw::chain(chain, routine));
            writeln!(
                text,
                "\nThat is the start, and the empty heap satisfies the last shape."
            )
        }
        Ending::Split(_) => unreachable!("it isn't split"),
        Ending::Undecided(stuck, bound) => {
            writeln!(text, "No certificate found: {}.", stuck.limit)?;
            writeln!(
                text,
                "No run was found that meets what is forbidden, among {bound}.\n{AT_A_LIMIT}"
            )
        }
    }
}

fn tell_wrong(text: &mut String, routine: &Routine, wrong: &WrongRun) -> std::fmt::Result {
    let WrongRun { run, forbidden } = wrong;
    let steps = counted(run.transitions.len(), "step");
    writeln!(
        text,
        "Wrong: a run of {steps} meets what is forbidden ({}).\n",
        draw::key_of_run(run)
    )?;
    text.push_str(&draw::run(run, routine));
    let bad = &routine.job.forbidden[*forbidden];
    let origin = &routine.origins[*forbidden];
    let state = &routine.states[bad.state as usize];
    let statement = routine.statement(bad.state);
    let statement = statement.map_or(String::new(), |line| format!(", `{line}`"));
    writeln!(
        text,
        "\nThat is at {state}{statement}, where {origin}. What is met ({}):\n",
        draw::key([&bad.shape])
    )?;
    for line in draw::shape(&bad.shape, &routine.variables) {
        writeln!(text, "       {line}")?;
    }
    Ok(())
}

/// Writes job1.bin, cert1.bin, job2.bin and cert2.bin.
fn write_pairs(pairs: &joining::Pairs, folder: &Path) -> Result<(), String> {
    let drafts = [(1, &pairs.first), (2, &pairs.second)];
    for (number, draft) in drafts {
        let Pair { job, certificate } = draft.pair();
        fs::write(folder.join(format!("job{number}.bin")), job)
            .and_then(|()| fs::write(folder.join(format!("cert{number}.bin")), certificate))
            .map_err(|error| format!("{}: {error}", folder.display()))?;
    }
    Ok(())
}

/// Writes job.bin and cert.bin.
fn write(routine: &Routine, certificate: &Certificate, folder: &Path) -> Result<(), String> {
    fs::write(folder.join("job.bin"), routine.job.bytes())
        .and_then(|()| fs::write(folder.join("cert.bin"), certificate.bytes()))
        .map_err(|error| format!("{}: {error}", folder.display()))
}
