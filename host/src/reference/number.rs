//! Numbers as bytes: low seven bits first, 128 added to a byte where another follows, in the fewest
//! bytes.

/// The largest number there is; it takes three bytes.
pub const LARGEST: u64 = 65_535;

/// How many bytes a number up to [`LARGEST`] takes.
pub fn byte_count(number: u64) -> usize {
    match number {
        0..=0x7f => 1,
        0x80..=0x3fff => 2,
        _ => 3,
    }
}

/// The bytes of a number up to [`LARGEST`].
pub fn bytes_of(number: u64) -> Vec<u8> {
    let low = (number % 128) as u8;
    match number / 128 {
        0 => vec![low],
        rest => [vec![128 + low], bytes_of(rest)].concat(),
    }
}

/// The number that begins at a place, and the place after it; nothing where none can be read: past
/// the end, above [`LARGEST`], or longer than needed.
pub fn read(bytes: &[u8], at: usize) -> Option<(u64, usize)> {
    let rest = bytes.get(at..)?;
    let last = rest.iter().take(3).position(|&byte| byte < 128)?;
    let length = last + 1;
    let number = rest[..length]
        .iter()
        .rfold(0, |high, &byte| high * 128 + u64::from(byte % 128));
    (number <= LARGEST && byte_count(number) == length).then_some((number, at + length))
}

/// The numbers from the first byte to the last, or the place of the one that can't be read.
pub fn read_list(bytes: &[u8]) -> Result<Vec<u64>, usize> {
    let mut numbers = Vec::new();
    let mut at = 0;
    while at < bytes.len() {
        let (number, next) = read(bytes, at).ok_or(at)?;
        numbers.push(number);
        at = next;
    }
    Ok(numbers)
}

/// What the writer of a list answers.
#[derive(Clone, Copy, Debug, PartialEq, Eq)]
pub enum Written {
    /// So many bytes were filled, from the first on.
    Filled(usize),
    /// Refusal 11: the number at this index is above [`LARGEST`].
    TooLarge(usize),
    /// Refusal 12: the output is too short; this length is needed.
    TooShort(usize),
}

/// Writes a list of numbers to the first bytes of the output. A refusal touches none of them.
pub fn write_list(numbers: &[u64], output: &mut [u8]) -> Written {
    if let Some(index) = numbers.iter().position(|&number| number > LARGEST) {
        return Written::TooLarge(index);
    }
    let bytes: Vec<u8> = numbers.iter().copied().flat_map(bytes_of).collect();
    match output.get_mut(..bytes.len()) {
        None => Written::TooShort(bytes.len()),
        Some(room) => {
            room.copy_from_slice(&bytes);
            Written::Filled(bytes.len())
        }
    }
}

#[cfg(test)]
mod tests {
    use super::*;

    #[test]
    fn numbers_have_the_documented_bytes() {
        let rows: [(u64, &[u8]); 6] = [
            (0, &[0]),
            (127, &[127]),
            (128, &[128, 1]),
            (300, &[172, 2]),
            (16_384, &[128, 128, 1]),
            (65_535, &[255, 255, 3]),
        ];
        for (number, bytes) in rows {
            assert_eq!(bytes_of(number), bytes);
            assert_eq!(read(bytes, 0), Some((number, bytes.len())));
        }
    }

    #[test]
    fn every_number_reads_back() {
        for number in 0..=LARGEST {
            let bytes = bytes_of(number);
            assert_eq!(bytes.len(), byte_count(number));
            assert_eq!(read(&bytes, 0), Some((number, bytes.len())));
        }
    }

    #[test]
    fn unreadable_bytes() {
        let rows: [&[u8]; 7] = [
            &[],
            &[128],
            &[128, 0],
            &[128, 128],
            &[128, 128, 0],
            &[128, 128, 4],
            &[128, 128, 128, 0],
        ];
        for bytes in rows {
            assert_eq!(read(bytes, 0), None, "{bytes:?}");
        }
        assert_eq!(read(&[5], 1), None);
        assert_eq!(read(&[5], usize::MAX), None);
    }

    #[test]
    fn lists_are_written_or_refused() {
        let mut output = [9; 4];
        assert_eq!(write_list(&[], &mut []), Written::Filled(0));
        assert_eq!(write_list(&[300, 5], &mut output), Written::Filled(3));
        assert_eq!(output, [172, 2, 5, 9]);
        assert_eq!(
            write_list(&[65_535, 300], &mut output),
            Written::TooShort(5)
        );
        assert_eq!(
            write_list(&[1, 65_536, 65_537], &mut []),
            Written::TooLarge(1)
        );
        assert_eq!(output, [172, 2, 5, 9]);
        assert_eq!(read_list(&[172, 2, 5, 9]), Ok(vec![300, 5, 9]));
        assert_eq!(read_list(&[172, 2, 128]), Err(2));
    }
}
