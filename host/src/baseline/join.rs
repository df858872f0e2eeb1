//! Two pairs joined, fast: both checked, and then what is owed compared with what is listed as both stand
//! in the bytes.

use super::checker::{check_from, is_of_version_2};
use super::shapes::{number, Shape, Shapes, AHEAD, TRANSITION};
use crate::reference::checker::Start;
use crate::verdict::{Files, JoinVerdict, Mismatch, Verdict};

/// Joins two pairs, with the answer for a host in C.
#[inline(never)]
pub fn join(first: Files, second: Files, state: u32, out: &mut [u64]) -> u32 {
    let verdict = verdict(first, second, state);
    if let Some(room) = out.first_chunk_mut() {
        *room = verdict.told();
    }
    verdict.number()
}

fn verdict(first: Files, second: Files, state: u32) -> JoinVerdict {
    let of_first = match check_from(first.0, first.1, Start::Empty) {
        Verdict::Accepted(counts) => counts,
        Verdict::Refused(refusal) => return JoinVerdict::PairRefused(1, refusal),
    };
    let of_second = match check_from(second.0, second.1, Start::HandedOver) {
        Verdict::Accepted(counts) => counts,
        Verdict::Refused(refusal) => return JoinVerdict::PairRefused(2, refusal),
    };
    match mismatch(first.0, second, state) {
        Some(mismatch) => JoinVerdict::Mismatched(mismatch),
        None => JoinVerdict::Joined(of_first, of_second),
    }
}

fn mismatch(first: &[u8], (job, certificate): Files, state: u32) -> Option<Mismatch> {
    let (variables, states) = (first[1], first[2]);
    if state >= states.into() {
        return Some(Mismatch::State);
    }
    if variables != job[1] {
        return Some(Mismatch::Variables);
    }
    let hand_over = state as u8;
    let (count, at) = number(first, AHEAD);
    let forbidden = at + count * TRANSITION;
    let mut transitions = first[at..forbidden].chunks_exact(TRANSITION);
    if transitions.any(|transition| transition[0] == hand_over) {
        return Some(Mismatch::Transition);
    }
    let listed = Shapes::new(first, forbidden, is_of_version_2(first), variables);
    let owed = Shapes::new(certificate, 1, is_of_version_2(certificate), variables);
    let mut owed = owed.filter(|&(at, _)| at == job[3]);
    let is_listed = |(_, owed): (u8, Shape)| {
        let mut listed = listed.clone();
        listed.any(|(at, shape)| at == hand_over && shape == owed)
    };
    match owed.all(is_listed) {
        true => None,
        false => Some(Mismatch::Owed),
    }
}
