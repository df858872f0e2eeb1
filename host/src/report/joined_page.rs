//! The page of two listings as one.

use super::cells::{Scene, OF_PICTURES};
use super::forbidden::forbidden;
use super::html::{escape, page};
use super::listing::lines;
use super::routine_page::{routine_page, said_banner, titled_run};
use crate::draw;
use crate::excluded;
use crate::joining::{Joined, Listings, Pairs};
use crate::judge::Judged;
use crate::reference::job::MOST_FORBIDDEN;
use crate::reference::shape::Shape;
use crate::verdict::JoinVerdict;

const OF_OWED: &str = "\
The second listing starts with what the first leaves, and is right where that is none of these. The
first is certified not to hand over a heap with one of them.";

/// What is joined with its claim; else what keeps the two as one from it, as of one routine.
pub fn joined_page(
    names: [&str; 2],
    listings: &Listings,
    judged: &Judged,
    joined: &Joined,
) -> String {
    let name = names.join(" then ");
    match joined {
        Joined::Pairs(pairs) => page_of_pairs(names, listings, judged, pairs),
        Joined::TooMany(count) => {
            let text = format!(
                "With what the second owes at its start the first would forbid {count} shapes; \
                 {MOST_FORBIDDEN} are allowed."
            );
            let body = heading(&name, listings) + &said_banner("open", "Not joined", &text);
            page(
                &format!("{name} - Vorruda"),
                &(body + &both(names, listings, false)),
            )
        }
        Joined::Neither => routine_page(&name, &listings.whole, judged),
    }
}

fn page_of_pairs(names: [&str; 2], listings: &Listings, judged: &Judged, pairs: &Pairs) -> String {
    let name = names.join(" then ");
    let mut body = heading(&name, listings);
    body += &match pairs.verdict {
        JoinVerdict::Joined(..) => {
            let sentence = excluded::sentence(&names.join(" and then "), &listings.whole);
            let text = format!("{sentence} The proved library has joined the two certificates.");
            said_banner("good", "Joined", &text)
        }
        verdict => said_banner("bad", "Not joined", &verdict.to_string()),
    };
    body += &format!("<p class=\"lead\">{OF_PICTURES}</p>\n");
    let [first, second] = pairs.alone();
    body += &format!(
        "<h2>Each alone</h2>\n<dl>\n<div><dt>{}, which forbids what is owed too</dt><dd>{first}</dd></div>\n\
         <div><dt>{}, from the empty heap</dt><dd>{second}</dd></div>\n</dl>\n",
        escape(names[0]),
        escape(names[1]),
    );
    body += &owed(listings, &pairs.owed);
    for (state, run) in &judged.outlook.arrivals {
        let title = format!("A run that reaches {}", listings.whole.place(*state));
        body += &titled_run(&listings.whole, &title, run, ("The run reaches", "good"));
    }
    let is_joined = matches!(pairs.verdict, JoinVerdict::Joined(..));
    body += &both(names, listings, is_joined);
    page(&format!("{name} - Vorruda"), &body)
}

fn heading(name: &str, listings: &Listings) -> String {
    format!(
        "<h1>{}</h1>\n<p class=\"lead\">{}</p>\n",
        escape(name),
        escape(&listings.whole.title)
    )
}

/// The shapes that are owed at the hand-over, drawn.
fn owed(listings: &Listings, shapes: &[Shape]) -> String {
    let variables = &listings.whole.variables;
    let figure = |shape: &Shape| {
        let words = draw::shape(shape, variables).join("; ");
        Scene::of_shape(shape, variables).figure(&words)
    };
    let figures: String = shapes.iter().map(figure).collect();
    let text = match shapes.is_empty() {
        true => "The second listing relies on nothing that the first leaves.",
        false => OF_OWED,
    };
    format!(
        "<h2>Owed at the hand-over</h2>\n<p>{text}</p>\n<section class=\"forbidden\">\n\
         <div class=\"shapes\">\n{figures}</div>\n</section>\n"
    )
}

/// Both listings, each with what it forbids.
fn both(names: [&str; 2], listings: &Listings, is_joined: bool) -> String {
    let routines = [&listings.first, &listings.second].into_iter();
    let parts = names.into_iter().zip(routines).map(|(name, routine)| {
        format!(
            "<h1>{}</h1>\n<p class=\"lead\">{}</p>\n{}{}",
            escape(name),
            escape(&routine.title),
            lines(routine),
            forbidden(routine, is_joined),
        )
    });
    parts.collect()
}
