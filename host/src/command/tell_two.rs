//! What a person is told of two listings as one.

use std::fmt::{Result, Write as _};

use super::tell;
use crate::draw;
use crate::excluded;
use crate::joining::{Joined, Listings, Pairs};
use crate::judge::Ending;
use crate::reference::job::MOST_FORBIDDEN;
use crate::text::counted;
use crate::verdict::JoinVerdict;

/// Tells how two listings end, and why.
pub fn joined(
    text: &mut String,
    names: [&str; 2],
    listings: &Listings,
    ending: &Ending,
    joined: &Joined,
) -> Result {
    match joined {
        Joined::Pairs(found) => pairs(text, names, listings, found),
        Joined::TooMany(count) => writeln!(
            text,
            "Not joined: with what the second owes at its start the first would forbid {count} shapes; \
             {MOST_FORBIDDEN} are allowed."
        ),
        Joined::Neither => neither(text, names, listings, ending),
    }
}

/// Tells the verdicts on two pairs, what is owed, and what then can't happen.
fn pairs(
    text: &mut String,
    [first, second]: [&str; 2],
    listings: &Listings,
    pairs: &Pairs,
) -> Result {
    let [of_first, of_second] = pairs.alone();
    writeln!(text, "{first}, which forbids what is owed too: {of_first}")?;
    writeln!(text, "{second} alone, from the empty heap: {of_second}")?;
    let state = &listings.first.states[listings.hand_over as usize];
    write!(
        text,
        "Owed at the hand-over, {state} (state {}): ",
        listings.hand_over
    )?;
    match pairs.owed.len() {
        0 => writeln!(text, "nothing.")?,
        count => writeln!(
            text,
            "{}. {first} doesn't hand over a heap with one of them ({}).\n",
            counted(count, "shape"),
            draw::key(&pairs.owed),
        )?,
    }
    for shape in &pairs.owed {
        for line in draw::shape(shape, &listings.first.variables) {
            writeln!(text, "       {line}")?;
        }
        writeln!(text)?;
    }
    writeln!(text, "{}", pairs.verdict)?;
    match pairs.verdict {
        JoinVerdict::Joined(..) => {
            let both = format!("{first} and then {second} as one");
            writeln!(text, "{}", excluded::sentence(&both, &listings.whole))
        }
        _ => Ok(()),
    }
}

/// Tells why two listings as one have no certificate, and which of the two it is.
fn neither(
    text: &mut String,
    [first, second]: [&str; 2],
    listings: &Listings,
    ending: &Ending,
) -> Result {
    let handed_over = match ending {
        Ending::Beyond { .. } => {
            format!("{first} can't be certified never to hand this over, and {second} owes it")
        }
        _ => format!("{first} may hand this over, with which {second} goes wrong"),
    };
    match listings.handed_over(ending) {
        Some(lines) => {
            writeln!(text, "Not joined: {handed_over}:\n")?;
            for line in lines {
                writeln!(text, "       {line}")?;
            }
            writeln!(text)?;
        }
        None => writeln!(text, "Not joined, for what {first} does:")?,
    }
    tell::ending(text, "both as one", &listings.whole, ending)
}
