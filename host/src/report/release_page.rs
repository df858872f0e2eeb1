//! The page of a release: the sheet on top, and a row for each pair of files.

use super::html::{escape, page};
use crate::pairs::Pair;
use crate::text::counted;
use crate::verdict::Verdict;

/// A release: its sheet, what was judged, and the files that can't be read, each with its mistake.
pub struct Release {
    pub sheet: String,
    pub rows: Vec<Released>,
    pub mistakes: Vec<(String, String)>,
}

/// A routine of a release, or one of the jobs that it is certified in.
pub struct Released {
    pub name: String,
    /// Empty where there is no text of it.
    pub title: String,
    /// Why there is no certificate, where one was looked for.
    pub why: Option<String>,
    pub verdict: Verdict,
    pub pair: Pair,
}

/// The page of a release, which needs nothing from elsewhere.
pub fn release_page(release: &Release) -> String {
    let accepted = release.rows.iter();
    let accepted = accepted.filter(|row| matches!(row.verdict, Verdict::Accepted(_)));
    let accepted = accepted.count();
    let unread = release.mistakes.len();
    let is_good = accepted == release.rows.len() && unread == 0;
    let class = if is_good { "good" } else { "bad" };
    let not_counted = match unread {
        0 => String::new(),
        count => format!(
            " {} can't be read and {} not counted.",
            counted(count, "file"),
            if count == 1 { "is" } else { "are" }
        ),
    };
    let rows = release.rows.iter().map(table_row);
    let mistaken = release.mistakes.iter().map(mistaken_row);
    let body = format!(
        "<h1>Release</h1>\n<section class=\"banner {class}\">\n<h2>{}</h2>\n\
         <p>{}, {accepted} accepted, {} refused.{not_counted}</p>\n</section>\n\
         <div class=\"wide\">\n<table class=\"release\">\n<thead>\n<tr><th>routine</th><th>verdict</th>\
         <th>what it does</th></tr>\n</thead>\n<tbody>\n{}{}</tbody>\n</table>\n</div>\n\
         <p>The verdicts and the sheet are the proved library's: the share of accepted certificates, and \
         the covers that one of them has on average.</p>\n",
        escape(&release.sheet),
        counted(release.rows.len(), "pair"),
        release.rows.len() - accepted,
        rows.collect::<String>(),
        mistaken.collect::<String>(),
    );
    page("Release - Vorruda", &body)
}

fn table_row(row: &Released) -> String {
    let (class, verdict) = match &row.verdict {
        Verdict::Accepted(_) => ("good", row.verdict.to_string()),
        Verdict::Refused(_) => match &row.why {
            Some(why) => ("bad", format!("{} ({why})", row.verdict)),
            None => ("bad", row.verdict.to_string()),
        },
    };
    let title = escape(&row.title);
    cells(&row.name, class, &escape(&verdict), &title)
}

fn mistaken_row((name, mistake): &(String, String)) -> String {
    let mistake = format!("<pre>{}</pre>", escape(mistake));
    cells(name, "bad", "mistaken file", &mistake)
}

/// A row, whose last two cells are HTML already.
fn cells(name: &str, class: &str, verdict: &str, what: &str) -> String {
    format!(
        "<tr><td>{}</td><td><span class=\"verdict {class}\">{verdict}</span></td><td>{what}</td></tr>\n",
        escape(name)
    )
}
