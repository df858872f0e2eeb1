//! States and transitions as a picture: the states in a column in the order of the text. A
//! transition to the next state runs straight down, all others along lanes at the right.

use super::svg::{lanes, width_of, Area, Picture, LINE};
use crate::routine::Routine;

const LEFT: i32 = 8;
const SLOT: i32 = 20;
const LANE: i32 = 12;

/// The picture; transitions with the given numbers are drawn as those of a run.
pub fn picture(routine: &Routine, run: &[usize]) -> Picture {
    let graph = Graph::of(routine);
    let mut picture = Picture::default();
    graph.draw_states(&mut picture);
    graph.draw_transitions(&mut picture, run);
    picture
}

/// Where everything stands.
struct Graph<'a> {
    routine: &'a Routine,
    /// The number of the transition that runs straight down from each state, if there is one.
    down: Vec<Option<usize>>,
    /// The others, by state.
    aside: Vec<Vec<usize>>,
    states: Vec<Area>,
    labels: Vec<String>,
}

impl Graph<'_> {
    fn of(routine: &Routine) -> Graph<'_> {
        let transitions = &routine.job.transitions;
        let count = routine.states.len();
        let numbers = 0..transitions.len();
        let labels: Vec<String> = numbers.map(|number| routine.operation(number)).collect();
        let mut down = vec![None; count];
        let mut aside = vec![Vec::new(); count];
        for (number, transition) in transitions.iter().enumerate() {
            let from = transition.from as usize;
            match down[from] {
                None if transition.to == transition.from + 1 => down[from] = Some(number),
                _ => aside[from].push(number),
            }
        }
        let mut graph = Graph {
            routine,
            down,
            aside,
            states: Vec::new(),
            labels,
        };
        let widest = routine.states.iter().map(|name| width_of(name)).max();
        let mut y = 8;
        for state in 0..count {
            let slots = graph.aside[state].len() + usize::from(graph.is_entered(state));
            let height = (SLOT * slots as i32 + 4).max(26);
            graph.states.push(Area {
                x: LEFT,
                y,
                width: widest.unwrap_or(0) + 20,
                height,
            });
            y += height + if graph.down[state].is_some() { 34 } else { 14 };
        }
        graph
    }

    /// Whether a transition comes to a state along a lane.
    fn is_entered(&self, state: usize) -> bool {
        let to = |&number: &usize| self.routine.job.transitions[number].to as usize;
        self.aside
            .iter()
            .flatten()
            .any(|number| to(number) == state)
    }

    fn right(&self) -> i32 {
        self.states.first().map_or(0, |area| area.x + area.width)
    }

    /// The height at which a transition leaves or, without a number, at which a state is entered.
    fn slot(&self, state: usize, transition: Option<usize>) -> i32 {
        let slots = &self.aside[state];
        let leaving = slots.iter().position(|&number| Some(number) == transition);
        let slot = leaving.unwrap_or(slots.len());
        self.states[state].y + 2 + SLOT * slot as i32 + SLOT / 2
    }

    fn draw_states(&self, picture: &mut Picture) {
        let job = &self.routine.job;
        for (state, area) in self.states.iter().enumerate() {
            let number = state as u64;
            let is_watched = job.forbidden.iter().any(|bad| bad.state == number);
            let class = match (is_watched, job.start == number) {
                (true, _) => "state watched",
                (false, true) => "state start",
                (false, false) => "state",
            };
            picture.labelled(*area, class, &self.routine.states[state], None);
        }
    }

    fn draw_transitions(&self, picture: &mut Picture, run: &[usize]) {
        let class = |number: &usize| if run.contains(number) { "ran" } else { "plain" };
        for (state, number) in self.down.iter().enumerate() {
            if let Some(number) = number {
                let (from, to) = (self.states[state], self.states[state + 1]);
                let x = from.x + 24;
                picture.arrow(&[(x, from.y + from.height), (x, to.y)], class(number));
                let label = &self.labels[*number];
                picture.text(x + 10, to.y - 17 - LINE / 2, class(number), label);
            }
        }
        let aside: Vec<usize> = self.aside.iter().flatten().copied().collect();
        let ends: Vec<(i32, i32)> = aside
            .iter()
            .map(|&number| {
                let transition = &self.routine.job.transitions[number];
                let from = self.slot(transition.from as usize, Some(number));
                (from, self.slot(transition.to as usize, None))
            })
            .collect();
        let spans: Vec<(i32, i32)> = ends.iter().map(|&(a, b)| (a.min(b), a.max(b))).collect();
        let widest = aside
            .iter()
            .map(|&number| width_of(&self.labels[number]))
            .max();
        let first = self.right() + widest.unwrap_or(0) + 40;
        for ((number, (from, to)), lane) in aside.iter().zip(ends).zip(lanes(&spans)) {
            let label = &self.labels[*number];
            let begin = self.right();
            let behind = begin + 16 + width_of(label);
            let lane = first + LANE * lane as i32;
            picture.line(&[(begin, from), (begin + 8, from)], class(number));
            picture.text(begin + 12, from - LINE / 2, class(number), label);
            let points = [(behind, from), (lane, from), (lane, to), (begin, to)];
            picture.arrow(&points, class(number));
        }
    }
}

#[cfg(test)]
mod tests {
    use super::*;
    use crate::corpus;

    #[test]
    fn nothing_overlaps_in_the_corpus() {
        for entry in corpus::read().unwrap() {
            let job = &entry.routine.job;
            let areas = picture(&entry.routine, &[]).areas;
            assert_eq!(areas.len(), job.states as usize + job.transitions.len());
            for (index, area) in areas.iter().enumerate() {
                let others = &areas[..index];
                assert!(
                    others.iter().all(|other| !area.overlaps(other)),
                    "{}",
                    entry.name
                );
            }
        }
    }
}
