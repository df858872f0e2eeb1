//! What a routine forbids as drawn shapes, and where none is ever met, in loom words what can't happen.

use super::cells::Scene;
use super::html::escape;
use super::never::Never;
use crate::draw;
use crate::reference::shape::Shape;
use crate::routine::{Forbids, Routine};

/// How to read the shapes, what is so where none is met, and how to read facts on values.
const OF_SHAPES: &str =
    "A dashed arrow is one link or several. Of what isn't drawn nothing is said.";
const NONE_IS_MET: &str = "On lists of any length, none of the drawn shapes comes about. ";
const OF_FACTS: &str = "
Below a shape, <code>1 &lt; 2 = 3</code> says that cell 1 has a smaller value than cell 2, and cell 3
the same as cell 2.";

/// What is forbidden, under a heading.
pub fn forbidden(routine: &Routine, is_never_met: bool) -> String {
    let heading = match is_never_met {
        true => "What can't happen",
        false => "What is forbidden",
    };
    format!("<h2>{heading}</h2>\n{}", rows(routine, is_never_met))
}

/// A row for each line of the routine at a state, and one for `steps`.
pub fn rows(routine: &Routine, is_never_met: bool) -> String {
    let (class, none) = match is_never_met {
        true => ("never", NONE_IS_MET),
        false => ("plain", ""),
    };
    let shapes = routine.job.forbidden.iter().map(|bad| &bad.shape);
    let mut text = format!("<p>{none}{OF_SHAPES}{}</p>\n", of_facts(shapes));
    let key = |number: usize| {
        let origin = &routine.origins[number];
        let is_steps = origin.forbids() == Forbids::Steps;
        let state = routine.job.forbidden[number].state;
        (origin, (!is_steps).then_some(state))
    };
    let numbers: Vec<usize> = (0..routine.job.forbidden.len()).collect();
    for group in numbers.chunk_by(|&one, &other| key(one) == key(other)) {
        let (origin, state) = key(group[0]);
        let (place, figures) = match state {
            Some(state) => (routine.place(state), figures(routine, group)),
            None => ("anywhere".to_string(), figures_of_steps(routine, group)),
        };
        let never = match is_never_met {
            true => never(routine, group[0]),
            false => String::new(),
        };
        text += &format!(
            "<section class=\"forbidden\">\n<h3><span class=\"where\">{}</span> \
             <code>{}</code></h3>\n{never}<div class=\"shapes {class}\">\n{figures}</div>\n</section>\n",
            escape(&place),
            escape(&origin.text),
        );
    }
    text
}

/// What can't happen, of a line by one of its shapes.
fn never(routine: &Routine, number: usize) -> String {
    let Never { instead, meaning } = Never::of(routine, number);
    let (instead, meaning) = (escape(&instead), escape(&meaning));
    format!("<p><b>{instead}.</b> {meaning}</p>\n")
}

fn figures(routine: &Routine, numbers: &[usize]) -> String {
    let figures = numbers.iter().map(|&number| shape_figure(routine, number));
    figures.collect()
}

/// The shapes of `steps`, state by state.
fn figures_of_steps(routine: &Routine, numbers: &[usize]) -> String {
    let state = |number: usize| routine.job.forbidden[number].state;
    let groups = numbers.chunk_by(|&one, &other| state(one) == state(other));
    let group = |group: &[usize]| {
        let place = escape(&routine.states[state(group[0]) as usize]);
        let figures = figures(routine, group);
        format!("<div class=\"step\">\n<p class=\"where\">{place}</p>\n{figures}</div>\n")
    };
    groups.map(group).collect()
}

pub fn shape_figure(routine: &Routine, forbidden: usize) -> String {
    let shape = &routine.job.forbidden[forbidden].shape;
    let words = draw::shape(shape, &routine.variables).join("; ");
    Scene::of_shape(shape, &routine.variables).figure(&words)
}

/// How to read facts, where there are any.
pub fn of_facts<'a>(shapes: impl IntoIterator<Item = &'a Shape>) -> &'static str {
    let mut shapes = shapes.into_iter();
    match shapes.all(|shape| shape.facts.is_empty()) {
        true => "",
        false => OF_FACTS,
    }
}
