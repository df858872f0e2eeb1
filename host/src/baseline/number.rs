//! Numbers as bytes, fast.

use crate::reference::number::{byte_count, Written, LARGEST};

/// The number at a place and the place after it, nothing where none can be read.
#[inline(never)]
pub fn read(bytes: &[u8], at: usize) -> Option<(u64, usize)> {
    let low = byte(bytes, at)?;
    if low < 128 {
        return Some((low, at + 1));
    }
    let middle = byte(bytes, at + 1)?;
    let number = low % 128 + middle % 128 * 128;
    match middle {
        0 => None,
        1..=127 => Some((number, at + 2)),
        _ => match byte(bytes, at + 2)? {
            high @ 1..=3 => Some((number + high * 128 * 128, at + 3)),
            _ => None,
        },
    }
}

fn byte(bytes: &[u8], at: usize) -> Option<u64> {
    bytes.get(at).map(|&byte| byte.into())
}

/// Writes a list of numbers to the first bytes of the output; a refusal touches none of them.
#[inline(never)]
pub fn write_list(numbers: &[u64], output: &mut [u8]) -> Written {
    let mut needed = 0;
    for (index, &number) in numbers.iter().enumerate() {
        if number > LARGEST {
            return Written::TooLarge(index);
        }
        needed += byte_count(number);
    }
    if needed > output.len() {
        return Written::TooShort(needed);
    }
    let mut at = 0;
    for &number in numbers {
        let mut rest = number;
        while rest >= 128 {
            output[at] = rest as u8 | 128;
            rest >>= 7;
            at += 1;
        }
        output[at] = rest as u8;
        at += 1;
    }
    Written::Filled(needed)
}

#[cfg(test)]
mod tests {
    use super::*;
    use crate::random::Random;
    use crate::reference::number as reference;

    #[test]
    fn reads_as_the_reference() {
        let mut random = Random::new(0xc_5eed);
        for _ in 0..200_000 {
            let bytes: Vec<u8> = (0..random.below(5))
                .map(|_| random.pick(&[0, 1, 3, 4, 127, 128, 129, 255]))
                .collect();
            let at = random.below(5);
            assert_eq!(
                read(&bytes, at),
                reference::read(&bytes, at),
                "{bytes:?} at {at}"
            );
        }
    }

    #[test]
    fn writes_as_the_reference() {
        let mut random = Random::new(0xd_5eed);
        let choices = [0, 127, 128, 300, 16_383, 16_384, 65_535, 65_535, 65_536];
        for _ in 0..100_000 {
            let numbers: Vec<u64> = (0..random.below(6))
                .map(|_| random.pick(&choices))
                .collect();
            let room = random.below(16);
            let (mut ours, mut theirs) = (vec![7; room], vec![7; room]);
            let answers = (
                write_list(&numbers, &mut ours),
                reference::write_list(&numbers, &mut theirs),
            );
            assert_eq!(answers.0, answers.1, "{numbers:?} to {room}");
            assert_eq!(ours, theirs);
        }
    }
}
