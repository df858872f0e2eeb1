//! `vorruda translate`: the job of a routine as a file.

use super::files::Files;
use super::{Answer, Choice, Subcommand};
use crate::corpus;
use crate::routine::Routine;
use crate::text::counted;

pub const TRANSLATE: Subcommand = Subcommand {
    name: "translate",
    operands: "LISTING",
    count: 1..=1,
    options: &[Choice {
        name: "-o",
        value: Some("JOB"),
        is_required: true,
        summary: "the file to write",
    }],
    summary: "writes a routine's job, without looking for a certificate",
    description:
        "The proved call translates the listing, and what the routine forbids is put behind it. \
It is told which variable has which number, and which mark is which state.

  vorruda translate my.listing -o job.bin",
    run: |arguments| {
        let routine = corpus::find(&arguments.operands[0])?.routine;
        let file = arguments.value("-o").expect("it is required");
        let bytes = routine.job.bytes();
        let length = counted(bytes.len(), "byte");
        Files::one(file, bytes).write()?;
        Ok(Answer::done(format!(
            "{file}: {length}\n{}",
            numbers(&routine)
        )))
    },
};

/// Which variable and which mark or state has which number.
fn numbers(routine: &Routine) -> String {
    let variables = routine.variables.iter().zip(1..);
    let variables = variables.map(|(name, number)| format!("{name} is variable {number}\n"));
    let states = (0..routine.job.states).filter_map(|state| match routine.mark(state) {
        Some(mark) => Some(format!("{mark} is state {state}\n")),
        None if routine.statements.is_empty() => Some(format!(
            "{} is state {state}\n",
            routine.states[state as usize]
        )),
        None => None,
    });
    variables.chain(states).collect()
}
