//! Cases, each in some rooms, by calls and by the reference.

use super::outcomes::{self, judged};
use super::{Carrier, Case};
use crate::compare::{between, lent, told, told_as, Tally};
use crate::library::carry::CarryCalls;
use crate::pairs::Pair;
use crate::reference::carry::{self, answer, in_room, Carried, File};
use crate::reference::checker::{check, MOST_BYTES};
use crate::reference::version::Direction;
use crate::verdict::{Broken, Counts, Verdict};

/// The byte that fills the room before a call.
const ROOM: u8 = 0x5a;

/// Longer than any certificate that is carried would be.
const MORE_THAN_ENOUGH: usize = MOST_BYTES + 600;

/// In which rooms a file is carried.
#[derive(Clone, Copy, PartialEq, Eq)]
pub enum Rooms {
    /// None, about the length needed, and more than a file may have; both ways.
    Every,
    /// The next of these; mostly only the way that the version of the job allows.
    Next,
}

/// What a verdict says whatever the version.
type Kept = Result<Counts, (u32, Option<Broken>)>;

fn kept(verdict: Verdict) -> Kept {
    match verdict {
        Verdict::Accepted(counts) => Ok(counts),
        Verdict::Refused(refusal) => Err((refusal.number, refusal.broken)),
    }
}

/// A carrier with its tallies.
struct Compared<'a> {
    carrier: &'a Carrier,
    calls: Tally,
    round_trips: Tally,
}

pub struct Carries<'a> {
    compared: Vec<Compared<'a>>,
    /// Goes on with each call, which takes the next room and the next length for what is told.
    turn: usize,
}

impl<'a> Carries<'a> {
    pub fn new(carriers: &'a [Carrier]) -> Carries<'a> {
        let (calls, trips) = (outcomes::of_calls(), outcomes::of_trips());
        let tally = |title, outcomes: &[String]| {
            let outcomes: Vec<&str> = outcomes.iter().map(String::as_str).collect();
            Tally::new(title, &outcomes)
        };
        let compared = carriers.iter().map(|carrier| Compared {
            carrier,
            calls: tally(carrier.title, &calls),
            round_trips: tally(carrier.round_trips, &trips),
        });
        Carries {
            compared: compared.collect(),
            turn: 0,
        }
    }

    pub fn tallies(self) -> Vec<Tally> {
        let tallies = |of: Compared| [of.calls, of.round_trips];
        self.compared.into_iter().flat_map(tallies).collect()
    }

    /// A pair, the same in the other version, and one file of each with the other's; and there and back.
    pub fn with_others(&mut self, pair: &Pair) {
        self.add(pair, Rooms::Every);
        self.there_and_back(pair);
        let ways = Direction::BOTH.into_iter();
        for other in ways.filter_map(|direction| pair.carried(direction)) {
            self.add(&other, Rooms::Every);
            self.there_and_back(&other);
            for (job, certificate) in [
                (&pair.job, &other.certificate),
                (&other.job, &pair.certificate),
            ] {
                let (job, certificate) = (job.clone(), certificate.clone());
                self.add(&Pair { job, certificate }, Rooms::Next);
            }
        }
    }

    /// Both files of a pair.
    pub fn add(&mut self, pair: &Pair, rooms: Rooms) {
        self.turn += 1;
        let both_ways = rooms == Rooms::Every || self.turn.is_multiple_of(4);
        let directions = match pair.job.first() {
            _ if both_ways => &Direction::BOTH[..],
            Some(2) => &[Direction::Down],
            _ => &[Direction::Up],
        };
        for &direction in directions {
            for file in [File::Job, File::Certificate] {
                let case = Case {
                    direction,
                    file,
                    pair,
                };
                self.in_rooms(case, rooms);
            }
        }
    }

    fn in_rooms(&mut self, case: Case, rooms: Rooms) {
        let carried = match case.file {
            File::Job => carry::job(case.direction, &case.pair.job),
            File::Certificate => carry::certificate(case.direction, case.pair.files()),
        };
        let outcome = outcomes::of_case(case, &carried);
        let needed = carried.as_ref().map_or(20, Vec::len);
        let all = [
            0,
            needed - 1,
            needed,
            needed + 1,
            needed + 9,
            MORE_THAN_ENOUGH,
        ];
        let chosen = match rooms {
            Rooms::Every if carried.is_ok() => &all[..],
            _ => &[all[self.turn % 5]],
        };
        for &room in chosen {
            let in_room = in_room(carried.clone(), room);
            let outcome = match in_room.is_ok() {
                true => outcome.clone(),
                false => outcomes::of_case(case, &in_room),
            };
            self.call(case, &outcome, &in_room, room);
        }
    }

    /// One call of each carrier, which is to give this, in so much room.
    fn call(&mut self, case: Case, outcome: &str, carried: &Carried, room: usize) {
        self.turn += 1;
        let (number, values) = answer(carried);
        let values = match case.file {
            File::Job => &values[..1],
            File::Certificate => &values[..],
        };
        let out_len = self.turn % (values.len() + 3);
        let mut filled = vec![ROOM; room];
        if let Ok(bytes) = carried {
            filled[..bytes.len()].copy_from_slice(bytes);
        }
        let filled = between(ROOM, &filled);
        let expected = (number, told_as(values, out_len), filled, case.pair.clone());
        for of in &mut self.compared {
            let mut out = told(out_len);
            let mut bytes = between(ROOM, &vec![ROOM; room]);
            let pair = case.pair.clone();
            let calls = of.carrier.calls;
            let (room, told) = (lent(&mut bytes), lent(&mut out));
            let number = match case.file {
                File::Job => (calls.job)(case.direction, &pair.job, room, told),
                File::Certificate => (calls.certificate)(case.direction, pair.files(), room, told),
            };
            let called = (number, out, bytes, pair);
            let words = || format!("{outcome}, {out_len} values told");
            of.calls.add(outcome, &expected, &called, words);
        }
    }

    /// A pair that can be carried is judged the same afterwards, and comes back byte for byte.
    pub fn there_and_back(&mut self, pair: &Pair) {
        for direction in Direction::BOTH {
            if pair.carried(direction).is_none() {
                continue;
            }
            let before = kept(check(&pair.job, &pair.certificate));
            let expected = (before, Some(pair.clone()));
            let outcome = outcomes::of_trip(direction, judged(pair));
            for of in &mut self.compared {
                let Carrier { calls, check, .. } = of.carrier;
                let there = carried_by(calls, direction, pair).unwrap_or(pair.clone());
                let after = kept(check(&there.job, &there.certificate));
                let back = carried_by(calls, direction.back(), &there);
                let words = || format!("{pair:?}");
                of.round_trips
                    .add(&outcome, &expected, &(after, back), words);
            }
        }
    }
}

/// The pair as calls carry it, nothing where they don't.
fn carried_by(calls: &CarryCalls, direction: Direction, pair: &Pair) -> Option<Pair> {
    let mut out = [0; 2];
    let mut job = vec![0; MOST_BYTES];
    let of_job = (calls.job)(direction, &pair.job, &mut job, &mut out);
    job.truncate(out[0] as usize);
    let mut certificate = vec![0; MOST_BYTES];
    let files = pair.files();
    let of_certificate = (calls.certificate)(direction, files, &mut certificate, &mut out);
    certificate.truncate(out[0] as usize);
    ((of_job, of_certificate) == (0, 0)).then_some(Pair { job, certificate })
}
