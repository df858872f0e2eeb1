//! The walk over the numbers of a file, each within its range.

use std::fmt;
use std::ops::{Range, RangeInclusive};

use super::{Fault, Field, Fields, Group, Why};
use crate::draw;
use crate::reference::certificate::MOST_MEMBERS;
use crate::reference::cover::{owed, Owed, Reason};
use crate::reference::facts::{Fact, Relation, MOST_FACTS};
use crate::reference::job::{
    Job, Located, Transition, MOST_FORBIDDEN, MOST_STATES, MOST_TRANSITIONS, MOST_VARIABLES,
};
use crate::reference::number;
use crate::reference::operation::{range_of_a, range_of_b, Operation};
use crate::reference::shape::{Shape, MOST_CELLS};
use crate::reference::version::Version;
use crate::routine::{words, Routine};
use crate::text::counted;

/// What the numbers of a cover are of, ahead of its number.
const OF_COVER: &str = " of cover ";

/// A walk over the numbers of a file.
pub struct Walk<'a> {
    bytes: &'a [u8],
    place: usize,
    groups: Vec<Group>,
    /// The numbers of the group that goes on.
    fields: Vec<Field>,
    /// What the group is of, as ` of member 3`.
    of: String,
    /// null and the variables, by number.
    operands: Vec<String>,
    states: Vec<String>,
}

impl<'a> Walk<'a> {
    pub fn new(bytes: &'a [u8], routine: Option<&Routine>) -> Walk<'a> {
        let numbered = |of: &str, first: u64, last: u64| -> Vec<String> {
            (first..=last)
                .map(|number| format!("{of}{number}"))
                .collect()
        };
        let variables = match routine {
            Some(routine) => routine.variables.clone(),
            None => numbered("v", 1, MOST_VARIABLES),
        };
        let states = match routine {
            Some(routine) => routine.states.clone(),
            None => numbered("state ", 0, MOST_STATES - 1),
        };
        Walk {
            bytes,
            place: 0,
            groups: Vec::new(),
            fields: Vec::new(),
            of: String::new(),
            operands: [vec!["null".to_string()], variables].concat(),
            states,
        }
    }

    /// Ends the walk; what was read of a group at the fault stays.
    pub fn finish(mut self, fault: Option<Fault>) -> Fields {
        if !self.fields.is_empty() {
            let says = format!("not read to its end{}", self.of);
            self.end_group(says);
        }
        Fields {
            groups: self.groups,
            end: self.place,
            fault,
        }
    }

    fn end_group(&mut self, says: String) {
        let fields = std::mem::take(&mut self.fields);
        self.groups.push(Group { fields, says });
        self.of.clear();
    }

    /// The next number, which is in a range.
    fn number(&mut self, what: fmt::Arguments, range: Range<u64>) -> Result<u64, Fault> {
        let place = self.place;
        let Some((number, next)) = number::read(self.bytes, place) else {
            let rest = self.bytes.get(place..).unwrap_or_default();
            let ends = rest.len() < 3 && rest.iter().all(|&byte| byte >= 128);
            let why = if ends { Why::Ends } else { Why::NoNumber };
            return Err(self.fault(place, what, why));
        };
        // A number out of its range can be shown all the same.
        self.fields.push(Field { place, number });
        self.place = next;
        match range.contains(&number) {
            true => Ok(number),
            false => Err(self.fault(place, what, Why::Outside(number, range))),
        }
    }

    fn fault(&self, place: usize, what: fmt::Arguments, why: Why) -> Fault {
        Fault {
            place,
            what: format!("{what}{}", self.of),
            is_of_cover: self.of.starts_with(OF_COVER),
            why,
        }
    }

    /// A number that is a group by itself.
    fn alone(
        &mut self,
        what: &str,
        range: Range<u64>,
        says: impl FnOnce(u64) -> String,
    ) -> Result<u64, Fault> {
        let number = self.number(format_args!("{what}"), range)?;
        self.end_group(says(number));
        Ok(number)
    }

    fn version(&mut self) -> Result<Version, Fault> {
        let says = |number| format!("version {number}");
        let number = self.alone("the version", 1..3, says)?;
        Ok(Version::of_number(number))
    }

    pub fn job(&mut self) -> Result<(), Fault> {
        let of = |noun: &'static str| move |number| counted(number as usize, noun);
        let version = self.version()?;
        let most = 1..MOST_VARIABLES + 1;
        let variables = self.alone("the number of variables", most, of("variable"))?;
        let most = 1..MOST_STATES + 1;
        let states = self.alone("the number of states", most, of("state"))?;
        let start = self.number(format_args!("the start state"), 0..states)?;
        self.end_group(format!("starts at {}", self.states[start as usize]));
        let most = 0..MOST_TRANSITIONS + 1;
        let count = self.alone("the number of transitions", most, of("transition"))?;
        for number in 0..count {
            self.of = format!(" of transition {number}");
            self.transition(number, version, variables, states)?;
        }
        let most = 1..MOST_FORBIDDEN + 1;
        let count = self.alone(
            "the number of forbidden shapes",
            most,
            of("forbidden shape"),
        )?;
        for number in 0..count {
            self.located(
                &format!("forbidden shape {number}"),
                version,
                variables,
                states,
            )?;
        }
        Ok(())
    }

    fn transition(
        &mut self,
        number: u64,
        version: Version,
        variables: u64,
        states: u64,
    ) -> Result<(), Fault> {
        let open = |range: RangeInclusive<u64>| *range.start()..*range.end() + 1;
        let from = self.number(
            format_args!("the state that it leaves, the first"),
            0..states,
        )?;
        let kind = self.number(format_args!("the kind"), open(version.kinds()))?;
        let of_a = open(range_of_a(kind, variables));
        let a = self.number(format_args!("operand a (kind {kind})"), of_a)? as usize;
        let of_b = open(range_of_b(kind, variables));
        let b = self.number(format_args!("operand b (kind {kind})"), of_b)? as usize;
        let to = self.number(
            format_args!("the state that it leads to, the last"),
            0..states,
        )?;
        let operation = words(Operation { kind, a, b }, |operand| &self.operands[operand]);
        let [from, to] = [from, to].map(|state| &self.states[state as usize]);
        let says = format!("transition {number}: {from}, {operation} -> {to}");
        self.end_group(says);
        Ok(())
    }

    /// A state and a shape.
    fn located(
        &mut self,
        name: &str,
        version: Version,
        variables: u64,
        states: u64,
    ) -> Result<Located, Fault> {
        self.of = format!(" of {name}");
        let state = self.number(format_args!("the state"), 0..states)?;
        let shape = self.shape(version, variables)?;
        let drawn = draw::shape_as_in_files(&shape, &self.operands[1..]).join("; ");
        let says = format!("{name}, at {}: {drawn}", self.states[state as usize]);
        self.end_group(says);
        Ok(Located { state, shape })
    }

    fn shape(&mut self, version: Version, variables: u64) -> Result<Shape, Fault> {
        let cells = self.number(format_args!("the number of cells"), 0..MOST_CELLS + 1)?;
        let codes = 0..3 + cells;
        let mut places = Vec::new();
        for variable in 1..=variables as usize {
            let name = self.operands[variable].clone();
            places.push(self.number(format_args!("the place of {name}"), codes.clone())?);
        }
        let mut links = Vec::new();
        for cell in 0..cells {
            links.push(self.number(format_args!("the link of cell {cell}"), codes.clone())?);
        }
        let shape = Shape::of_codes(&places, &links);
        match version {
            Version::One => Ok(shape),
            Version::Two => Ok(shape.with_facts(self.facts(cells)?)),
        }
    }

    fn facts(&mut self, cells: u64) -> Result<Vec<Fact>, Fault> {
        let count = self.number(format_args!("the number of facts"), 0..MOST_FACTS + 1)?;
        let mut facts: Vec<Fact> = Vec::new();
        for number in 0..count {
            let below_or_equal = format_args!("below (0) or equal (1) in fact {number}");
            let relation = Relation::ALL[self.number(below_or_equal, 0..2)? as usize];
            let i = self.number(format_args!("i of fact {number}"), 0..cells)? as usize;
            let place = self.place;
            let j = self.number(format_args!("j of fact {number}"), 0..cells)? as usize;
            let fact = Fact { relation, i, j };
            if facts.last().is_some_and(|&last| last >= fact) {
                return Err(self.fault(place, format_args!("j of fact {number}"), Why::Falls));
            }
            facts.push(fact);
        }
        Ok(facts)
    }

    pub fn members(&mut self, job: &Job, members: &mut Vec<Located>) -> Result<(), Fault> {
        let version = self.version()?;
        let says = |number| counted(number as usize, "member");
        let count = self.alone("the number of members", 1..MOST_MEMBERS + 1, says)?;
        // Where the versions differ nothing behind them is read; here it is, as the certificate's own.
        for number in 0..count {
            let name = format!("member {number}");
            members.push(self.located(&name, version, job.variables, job.states)?);
        }
        Ok(())
    }

    /// Reads the covers, and gives the place of each.
    pub fn covers(
        &mut self,
        job: &Job,
        members: &[Located],
        covers: &mut Vec<usize>,
    ) -> Result<(), Fault> {
        for owed in owed(job, members.iter()) {
            let (number, place) = (covers.len(), self.place);
            self.of = format!("{OF_COVER}{number}");
            let range = 0..members.len() as u64;
            let member = self.number(format_args!("the member"), range)? as usize;
            let cells = owed.covered.shape.cells() as u64;
            for cell in 0..members[member].shape.cells() {
                self.number(format_args!("the image of cell {cell}"), 0..cells)?;
            }
            let covered = self.covered(job, &owed);
            self.end_group(format!("cover {number}, of {covered}: by member {member}"));
            covers.push(place);
        }
        Ok(())
    }

    /// What a cover covers, in few words.
    fn covered(&self, job: &Job, owed: &Owed) -> String {
        match owed.reason {
            Reason::Forbidden(number) => format!("forbidden shape {number}"),
            Reason::Before { member, transition } => {
                let Transition { operation, .. } = job.transitions[transition];
                let operation = words(operation, |operand| &self.operands[operand]);
                format!("member {member} before {operation} (transition {transition})")
            }
        }
    }
}
