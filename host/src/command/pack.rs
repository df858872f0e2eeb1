//! `vorruda pack`: the files of a text that `vorruda show` has printed, or of one like it.

use super::files::{read_text, Files};
use super::show::{BYTE, CERTIFICATE, JOB, PLACE, REMARK};
use super::{Answer, Subcommand};
use crate::library;
use crate::text::counted;

pub const PACK: Subcommand = Subcommand {
    name: "pack",
    operands: "TEXT JOB [CERT]",
    count: 2..=3,
    options: &[],
    summary: "writes the files of a text as `vorruda show` prints it",
    description: "Below a line `job` stand the numbers of the job, below a line `certificate` those of the \
certificate. Numbers go to bytes by the proved call; x and two hex digits are a byte as it is. What stands \
ahead of : and what follows ; is left out. A text without any line `certificate` makes a job alone, and \
CERT has to be given exactly if there is one. TEXT may be -, standard input.

  vorruda show job.bin cert.bin > pair.txt
  vorruda pack pair.txt job.bin cert.bin",
    run: |arguments| {
        let (text, files) = arguments.operands.split_first().expect("there is a text");
        let parts = parts(&read_text(text)?).map_err(|what| format!("{text}, {what}"))?;
        if parts.len() != files.len() {
            let has = counted(parts.len(), "file");
            return Err(format!("{text}: it has {has}, but {} to write are named", files.len()));
        }
        let mut written = Files::default();
        let mut told = String::new();
        for (file, bytes) in files.iter().zip(parts) {
            told += &format!("{file}: {}\n", counted(bytes.len(), "byte"));
            written.add(file, bytes);
        }
        written.write()?;
        Ok(Answer::done(told))
    },
};

/// The bytes of the job, and of the certificate if there is one; or what is wrong, with its line.
pub fn parts(text: &str) -> Result<Vec<Vec<u8>>, String> {
    let mut parts: Vec<Vec<u8>> = Vec::new();
    for (number, line) in text.lines().enumerate() {
        let wrong = |what: String| format!("line {}: {what}", number + 1);
        let line = line.split(REMARK).next().unwrap_or_default().trim();
        let (_, words) = line.split_once(PLACE).unwrap_or(("", line));
        match (words, parts.len()) {
            ("", _) => {}
            (JOB, 0) | (CERTIFICATE, 1) => parts.push(Vec::new()),
            (JOB | CERTIFICATE, _) => {
                let what = format!("`{JOB}` has to stand first and `{CERTIFICATE}` second");
                return Err(wrong(what));
            }
            (_, 0) => return Err(wrong(format!("expected a line `{JOB}` first"))),
            (words, _) => {
                let bytes = bytes(words).map_err(wrong)?;
                parts.last_mut().expect("a part has begun").extend(bytes);
            }
        }
    }
    match parts.is_empty() {
        true => Err(format!("line 1: expected `{JOB}`")),
        false => Ok(parts),
    }
}

/// The bytes of a line's words.
fn bytes(words: &str) -> Result<Vec<u8>, String> {
    let mut bytes = Vec::new();
    for word in words.split_whitespace() {
        match word.strip_prefix(BYTE) {
            Some(hex) => {
                let is_byte = hex.len() == 2 && hex.chars().all(|c| c.is_ascii_hexdigit());
                let byte = u8::from_str_radix(hex, 16).ok().filter(|_| is_byte);
                let wrong = || format!("`{word}`: expected two hex digits behind {BYTE}");
                bytes.push(byte.ok_or_else(wrong)?);
            }
            None => {
                let number = word.parse::<u64>();
                let number = number.map_err(|_| format!("`{word}`: expected a number"))?;
                bytes.extend(written(number)?);
            }
        }
    }
    Ok(bytes)
}

/// The bytes of a number, by the proved call.
fn written(number: u64) -> Result<Vec<u8>, String> {
    let (mut bytes, mut told) = ([0; 3], [0]);
    match library::write_numbers(&[number], &mut bytes, &mut told) {
        0 => Ok(bytes[..told[0] as usize].to_vec()),
        _ => Err(format!("{number}: a number is at most 65,535")),
    }
}
