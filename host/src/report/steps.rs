//! The steps of a run with their pictures. Those that build the list, and those that change nothing,
//! are folded.

use std::collections::BTreeSet;
use std::ops::Range;

use super::cells::{Frame, Marks, Scene};
use super::explain;
use super::html::escape;
use super::parts::{changes_nothing, parts, Part};
use crate::draw;
use crate::reference::heap::Heap;
use crate::routine::Routine;
use crate::search::run::Run;
use crate::text::{counted, ranges};

/// What is wrong at the end of a run: what to mark there, and the step since which it is so, from 0.
pub struct Wrong {
    pub marks: Marks,
    pub since: Option<usize>,
}

/// A run to be shown.
pub struct Steps<'a> {
    routine: &'a Routine,
    run: &'a Run,
    frame: Frame,
    /// Nothing where the run isn't wrong.
    wrong: Option<&'a Wrong>,
}

impl<'a> Steps<'a> {
    pub fn of(routine: &'a Routine, run: &'a Run, wrong: Option<&'a Wrong>) -> Steps<'a> {
        Steps {
            routine,
            run,
            frame: Frame::of(&run.heaps),
            wrong,
        }
    }

    /// All steps, as a list.
    pub fn list(&self) -> String {
        let parts = parts(self.routine, self.run, self.wrong.is_some());
        let items: String = parts.iter().map(|part| self.part(part)).collect();
        format!("<ol class=\"run\">\n{items}</ol>\n")
    }

    /// The picture of the last heap, with what is wrong marked.
    pub fn last_figure(&self) -> String {
        self.figure(self.run.heaps.len() - 1, Marks::default())
    }

    /// The number of the last step, if there is one.
    fn last(&self) -> Option<usize> {
        self.run.transitions.len().checked_sub(1)
    }

    fn part(&self, part: &Part) -> String {
        match part {
            Part::Step(step) => self.step(*step),
            Part::Same(steps) => {
                let summary = format!(
                    "<span class=\"where\">{}</span> <span class=\"what\">{}</span>",
                    escape(&self.places(steps.clone())),
                    escape(&self.ways(steps.clone())),
                );
                self.fold("same", &summary, steps.clone(), String::new())
            }
            Part::Build(steps) => {
                let summary = format!(
                    "Build phase, {}: {}",
                    counted(steps.len(), "step"),
                    escape(&self.built(steps.clone())),
                );
                let figure = self.figure(steps.end, Marks::default());
                self.fold("build", &summary, steps.clone(), figure)
            }
        }
    }

    /// Folded steps, and what stands below them, folded or not.
    fn fold(&self, class: &str, summary: &str, steps: Range<usize>, below: String) -> String {
        let items: String = steps.map(|step| self.step(step)).collect();
        format!(
            "<li class=\"fold {class}\">\n<details>\n<summary>{summary}</summary>\n<ol \
             class=\"run\">\n{items}</ol>\n</details>\n{below}</li>\n"
        )
    }

    fn step(&self, step: usize) -> String {
        let number = self.run.transitions[step];
        let from = self.routine.job.transitions[number].from;
        let (before, after) = (&self.run.heaps[step], &self.run.heaps[step + 1]);
        let line = match self.routine.statement(from) {
            Some(statement) => statement.to_string(),
            None => self.routine.operation(number),
        };
        let is_last = self.wrong.is_some() && self.last() == Some(step);
        let is_since = self.wrong.is_some_and(|wrong| wrong.since == Some(step));
        let class = match (is_last, is_since) {
            (true, _) => " class=\"last\"",
            (false, true) => " class=\"since\"",
            (false, false) => "",
        };
        let figure = match changes_nothing(self.run, step) && !is_last {
            true => String::new(),
            false => self.figure(step + 1, changes(before, after)),
        };
        let so = match is_since {
            true => "<p class=\"since\">From here on it is so.</p>\n",
            false => "",
        };
        format!(
            "<li value=\"{}\"{class}>\n<p><span class=\"where\">{}</span> <code>{}</code> <span \
             class=\"what\">{}</span></p>\n{figure}{so}</li>\n",
            step + 1,
            escape(&self.routine.states[from as usize]),
            escape(&line),
            escape(&explain::step(self.routine, number, after)),
        )
    }

    /// The picture of a heap; in the last one what is wrong is marked.
    fn figure(&self, number: usize, changed: Marks) -> String {
        let heap = &self.run.heaps[number];
        let earlier = self.run.heaps[..number].iter();
        let cells: BTreeSet<usize> = earlier
            .flat_map(|heap| heap.links.keys().copied())
            .collect();
        let is_gone = |cell: &usize| !heap.links.contains_key(cell);
        let mut scene = Scene::of_heap(heap, &self.routine.variables, &self.frame);
        scene.gone = cells.into_iter().filter(is_gone).collect();
        scene.changed = changed;
        if let Some(wrong) = self.wrong.filter(|_| number + 1 == self.run.heaps.len()) {
            scene.forbidden = wrong.marks.clone();
        }
        scene.figure(&draw::heap(heap, &self.routine.variables).join("; "))
    }

    /// The states at which steps begin, in their order.
    fn states(&self, steps: Range<usize>) -> Vec<&str> {
        let transitions = &self.routine.job.transitions;
        let states = self.run.transitions[steps]
            .iter()
            .map(|&number| transitions[number].from);
        states
            .map(|state| self.routine.states[state as usize].as_str())
            .collect()
    }

    /// The numbers of the lines at which steps begin, in their order; nothing where states have names.
    fn lines(&self, steps: Range<usize>) -> Option<Vec<usize>> {
        let states = self.states(steps).into_iter();
        states
            .map(|state| state.strip_prefix("line ")?.parse().ok())
            .collect()
    }

    /// Where steps begin, one after the other.
    fn places(&self, steps: Range<usize>) -> String {
        let states = self.states(steps.clone());
        match (self.lines(steps), &states[..]) {
            (Some(lines), [_, _, ..]) => {
                let lines: Vec<String> = lines.iter().map(usize::to_string).collect();
                format!("lines {}", lines.join(", "))
            }
            _ => states.join(", "),
        }
    }

    /// Where the list is built.
    fn built(&self, steps: Range<usize>) -> String {
        let to = self.run.transitions[steps.end - 1];
        let to = self.routine.job.transitions[to].to as usize;
        match self.lines(steps) {
            Some(mut lines) => {
                lines.sort();
                ranges("line", &lines)
            }
            None => format!("up to {}", self.routine.states[to]),
        }
    }

    /// What steps do that change nothing: the ways that they choose, or else what the last one does.
    fn ways(&self, steps: Range<usize>) -> String {
        let said = |step: usize| {
            let number = self.run.transitions[step];
            explain::step(self.routine, number, &self.run.heaps[step + 1])
        };
        let is_choice =
            |&step: &usize| explain::is_choice(self.routine, self.run.transitions[step]);
        let mut ways: Vec<String> = steps.clone().filter(is_choice).map(said).collect();
        if ways.is_empty() {
            ways.extend(steps.last().map(said));
        }
        format!("nothing changes; {}", ways.join("; "))
    }
}

/// What a step has changed.
fn changes(before: &Heap, after: &Heap) -> Marks {
    let cells = after.links.keys().copied();
    let values = after.values.keys().copied();
    let variables = 0..after.variables.len();
    Marks {
        cells: cells
            .clone()
            .filter(|cell| !before.links.contains_key(cell))
            .collect(),
        links: cells
            .filter(|cell| before.links.get(cell) != after.links.get(cell))
            .collect(),
        values: values
            .filter(|cell| before.values.get(cell) != after.values.get(cell))
            .collect(),
        variables: variables
            .filter(|&variable| before.variables[variable] != after.variables[variable])
            .collect(),
    }
}
