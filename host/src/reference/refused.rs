//! Refusals of the calls that write bytes of a job.

/// A refusal's number, and its place, its line or the length needed.
#[derive(Clone, Copy, Debug, PartialEq, Eq)]
pub struct Refused {
    pub number: u32,
    pub value: usize,
}

/// The bytes, or 12 where the room is too short for them.
pub fn in_room(bytes: Vec<u8>, room: usize) -> Result<Vec<u8>, Refused> {
    match bytes.len() {
        needed if needed > room => Err(Refused {
            number: 12,
            value: needed,
        }),
        _ => Ok(bytes),
    }
}
