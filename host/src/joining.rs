//! Two listings as one: the second starts where the first's last mark stands, with what the first leaves.
//! One search over both finds the members; those at the hand-over are what the second owes, and the
//! proved library judges the two pairs.

use crate::check;
use crate::draw;
use crate::judge::{judge_unsplit, Ending, Judged};
use crate::pairs::{Draft, Joint};
use crate::reference::certificate::Certificate;
use crate::reference::job::{Job, Located, Transition, MOST_FORBIDDEN, MOST_VARIABLES};
use crate::reference::join::joined;
use crate::reference::operation::Operation;
use crate::reference::shape::Shape;
use crate::routine::Routine;
use crate::search::covers::certificate_of;
use crate::search::run::WrongRun;
use crate::search::shape as search;
use crate::text::counted;
use crate::verdict::{JoinVerdict, Verdict};

/// Two listings with the same variables, and both as one routine.
pub struct Listings {
    pub first: Routine,
    pub second: Routine,
    /// The state of the first behind its last mark.
    pub hand_over: u64,
    pub whole: Routine,
}

/// Two pairs, with what is owed, and the proved library's verdicts.
pub struct Pairs {
    /// Its job lists what is owed behind its own forbidden shapes.
    pub first: Draft,
    pub second: Draft,
    pub owed: Vec<Shape>,
    pub verdict: JoinVerdict,
}

impl Pairs {
    /// Both as files.
    pub fn joint(&self, hand_over: u64) -> Joint {
        Joint {
            first: self.first.pair(),
            second: self.second.pair(),
            state: hand_over as u32,
        }
    }

    /// The verdicts on each pair alone.
    pub fn alone(&self) -> [Verdict; 2] {
        [&self.first, &self.second].map(|draft| {
            let pair = draft.pair();
            check::check(&pair.job, &pair.certificate)
        })
    }
}

/// How two listings end.
pub enum Joined {
    Pairs(Box<Pairs>),
    /// So many shapes would be forbidden by the first, with those that are owed.
    TooMany(usize),
    /// The two as one have no certificate.
    Neither,
}

impl Listings {
    /// A letter that stands in both is one variable. Variables are numbered as the first listing names
    /// them, and then as the second names others.
    pub fn of(first: Routine, second: Routine) -> Result<Listings, String> {
        if first.statements.is_empty() || second.statements.is_empty() {
            return Err("only two listings can be taken as one".to_string());
        }
        let hand_over = first.job.states - 1;
        if first.mark(hand_over - 1).is_none() {
            return Err("the first listing has to end with a mark: there the second starts".into());
        }
        let mut names = first.variables.clone();
        let others = second.variables.iter();
        names.extend(
            others
                .filter(|name| !first.variables.contains(name))
                .cloned(),
        );
        if names.len() as u64 > MOST_VARIABLES {
            let all = counted(names.len(), "variable");
            let names = names.join(", ");
            return Err(format!(
                "together the listings have {all}, {names}; {MOST_VARIABLES} are allowed"
            ));
        }
        let (first, second) = (renamed(first, &names), renamed(second, &names));
        Ok(Listings {
            whole: whole(&first, &second, hand_over),
            hand_over,
            first,
            second,
        })
    }

    /// Searches both as one, and has the two pairs judged that come out.
    pub fn judge(&self) -> (Judged, Joined) {
        let judged = judge_unsplit(&self.whole);
        let joined = match &judged.ending {
            Ending::Certified(certificate, _) => self.pairs(certificate),
            _ => Joined::Neither,
        };
        (judged, joined)
    }

    /// What the first may hand over where the two as one end so, drawn: a heap with which the second meets
    /// what is forbidden, or a shape that it owes and that can't be excluded. Nothing where it is the
    /// first that goes wrong, or a limit is come to.
    pub fn handed_over(&self, ending: &Ending) -> Option<Vec<String>> {
        match ending {
            Ending::Wrong(WrongRun { run, .. }) => {
                let mut steps = run.transitions.iter();
                let to = |&number: &usize| self.whole.job.transitions[number].to;
                let last = steps.position(|number| to(number) == self.hand_over)?;
                Some(draw::heap(&run.heaps[last + 1], &self.whole.variables))
            }
            Ending::Beyond { chain, .. } => {
                let mut links = chain.links.iter();
                let owed = links.find(|link| u64::from(link.located.state) == self.hand_over)?;
                let shape = owed.located.shape.to_reference(self.whole.variables.len());
                Some(draw::shape(&shape, &self.whole.variables))
            }
            Ending::Certified(..) | Ending::Split(_) | Ending::Undecided(..) => None,
        }
    }

    /// The two pairs, given a certificate of both as one.
    fn pairs(&self, certificate: &Certificate) -> Joined {
        let (first, second) = (&self.first.job, &self.second.job);
        let of_first = members(certificate, |state| (state < first.states).then_some(state));
        let of_second = members(certificate, |state| match state == self.hand_over {
            true => Some(second.start),
            false => state.checked_sub(first.states),
        });
        let at_start = of_second.iter().filter(|of| of.state == second.start);
        let owed: Vec<Shape> = at_start.map(|of| of.shape.clone()).collect();
        let mut first = first.clone();
        first.forbidden.extend(owed.iter().map(|shape| Located {
            state: self.hand_over,
            shape: shape.clone(),
        }));
        if first.forbidden.len() as u64 > MOST_FORBIDDEN {
            return Joined::TooMany(first.forbidden.len());
        }
        let (first, second) = (draft(first, &of_first), draft(second.clone(), &of_second));
        let pairs = [first.pair(), second.pair()];
        let verdict = check::join(pairs[0].files(), pairs[1].files(), self.hand_over as u32);
        Joined::Pairs(Box::new(Pairs {
            first,
            second,
            owed,
            verdict,
        }))
    }
}

/// The members at the states that a map keeps.
fn members(certificate: &Certificate, state: impl Fn(u64) -> Option<u64>) -> Vec<Located> {
    let kept = certificate.members.iter().filter_map(|member| {
        Some(Located {
            state: state(member.state)?,
            shape: member.shape.clone(),
        })
    });
    kept.collect()
}

/// The job with a certificate of these members, which are closed.
fn draft(job: Job, members: &[Located]) -> Draft {
    let members: Vec<search::Located> = members
        .iter()
        .map(|member| search::Located {
            state: member.state as u8,
            shape: search::Shape::of_reference(&member.shape),
        })
        .collect();
    Draft {
        certificate: certificate_of(&job, &members),
        job,
    }
}

/// The routine with its variables numbered as these names are.
fn renamed(routine: Routine, names: &[String]) -> Routine {
    let number = |name: &String| names.iter().position(|known| known == name);
    let number = |name| number(name).expect("each variable is among the names");
    let numbers: Vec<usize> = routine.variables.iter().map(number).collect();
    let operand = |operand: usize| match operand {
        0 => 0,
        variable => 1 + numbers[variable - 1],
    };
    let transition = |step: &Transition| Transition {
        operation: Operation {
            a: operand(step.operation.a),
            b: operand(step.operation.b),
            ..step.operation
        },
        ..*step
    };
    let located = |bad: &Located| {
        let mut shape = bad.shape.clone();
        shape.variables = vec![None; names.len()];
        for (&number, &place) in numbers.iter().zip(&bad.shape.variables) {
            shape.variables[number] = place;
        }
        Located {
            state: bad.state,
            shape,
        }
    };
    let job = Job {
        variables: names.len() as u64,
        transitions: routine.job.transitions.iter().map(transition).collect(),
        forbidden: routine.job.forbidden.iter().map(located).collect(),
        ..routine.job
    };
    Routine {
        variables: names.to_vec(),
        job,
        ..routine
    }
}

/// Both as one routine, whose states say which listing a line is of. The hand-over is the first line of
/// the second.
fn whole(first: &Routine, second: &Routine, hand_over: u64) -> Routine {
    let job = joined(&first.job, &second.job, hand_over);
    let states = |routine: &Routine, of: &str| -> Vec<String> {
        let states = routine.states.iter();
        states.map(|state| format!("{state} of the {of}")).collect()
    };
    let (mut states, of_second) = (states(first, "first"), states(second, "second"));
    states[hand_over as usize] = of_second[0].clone();
    states.extend(of_second);
    let begin = &second.statements[..1];
    let statements = [&first.statements[..], begin, &second.statements[..]].concat();
    let of_first = first.job.forbidden.iter().zip(&first.origins);
    let of_first = of_first.filter(|(bad, _)| bad.state != hand_over);
    let of_first = of_first.map(|(_, origin)| origin);
    Routine {
        title: format!("{} Then: {}", first.title, second.title),
        variables: first.variables.clone(),
        states,
        statements,
        job,
        origins: of_first.chain(&second.origins).cloned().collect(),
        warnings: [&first.warnings[..], &second.warnings].concat(),
    }
}
