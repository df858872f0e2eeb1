//! Pages to look at: what a routine does, or what goes wrong, in pictures. Each is one file that
//! needs nothing from elsewhere.

mod cells;
mod counts;
mod explain;
mod fault;
mod forbidden;
mod graph;
mod html;
mod index_page;
mod joined_page;
mod listing;
mod never;
mod parts;
mod release_page;
mod routine_page;
mod several_jobs;
mod steps;
mod svg;

pub use index_page::{index_page, Row};
pub use joined_page::joined_page;
pub use release_page::{release_page, Release, Released};
pub use routine_page::routine_page;

use std::time::Duration;

fn milliseconds(time: Duration) -> String {
    format!("{:.1}", time.as_secs_f64() * 1e3)
}
