//! Random listings: right ones, copies with something wrong, and texts of words or bytes.

use super::FOREIGN;
use crate::random::Random;

/// Words of listings and of near misses.
const WORDS: [&str; 30] = [
    "x",
    "y",
    "z",
    "null",
    "=",
    "!=",
    ":=",
    "x.next",
    "y.next",
    ".next",
    "new(x)",
    "delete(y)",
    "new(",
    ")",
    "while",
    "if",
    "any",
    "end",
    "mark",
    "0",
    "7",
    "63",
    "64",
    "00",
    " ",
    "  ",
    "\t",
    "\r",
    "\n",
    "X",
];

/// Bytes of listings and some that are of none.
const BYTES: &[u8] = b"xyznulmarkewhifdt  ::==!().0123456789\n\n\n\n\t\r\x00\x80\xff";

/// Random texts, always the same ones for a seed.
pub struct Listings {
    random: Random,
}

impl Listings {
    pub fn new(seed: u64) -> Listings {
        Listings {
            random: Random::new(seed),
        }
    }
}

impl Iterator for Listings {
    type Item = Vec<u8>;

    /// Right in half of the cases, and damaged in three of ten.
    fn next(&mut self) -> Option<Vec<u8>> {
        let random = &mut self.random;
        Some(match random.below(10) {
            0..=4 => right(random),
            5..=7 => damaged(random),
            8 => soup(random),
            _ => {
                let length = random.below(30);
                (0..length).map(|_| random.pick(BYTES)).collect()
            }
        })
    }
}

/// What a random listing has left to take.
struct Sizes {
    lines: usize,
    names: usize,
    deepest: usize,
}

/// A listing of the grammar; a few have a line, a name or a block more than there may be.
pub fn right(random: &mut Random) -> Vec<u8> {
    let sizes = Sizes {
        lines: random.pick(&[1, 3, 8, 20, 40, 61, 62, 63, 63, 64]),
        names: random.pick(&[0, 1, 2, 3, 4, 8, 8, 9]),
        deepest: random.pick(&[1, 2, 4, 16, 16, 17]),
    };
    let mut lines: Vec<String> = Vec::new();
    let mut marks: Vec<usize> = (0..64).collect();
    let mut open = 0;
    let dense = 2 + random.below(6);
    while lines.len() + open < sizes.lines {
        let may_open = open < sizes.deepest && lines.len() + open + 2 <= sizes.lines;
        let line = match random.below(dense + 3) {
            0 if open > 0 => {
                open -= 1;
                "end".to_string()
            }
            1 | 2 if may_open => {
                open += 1;
                format!("{} {}", random.pick(&["while", "if"]), test(random, &sizes))
            }
            3 => format!("mark {}", marks.swap_remove(random.below(marks.len()))),
            _ => operation(random, &sizes),
        };
        lines.push(line);
    }
    lines.extend((0..open).map(|_| "end".to_string()));
    let text: String = lines.iter().map(|line| format!("{line}\n")).collect();
    text.into_bytes()
}

fn name(random: &mut Random, sizes: &Sizes) -> char {
    let letters = b"tpxaqzmnyb";
    char::from(letters[random.below(sizes.names.max(1))])
}

fn operand(random: &mut Random, sizes: &Sizes) -> String {
    match sizes.names == 0 || random.once_in(4) {
        true => "null".to_string(),
        false => name(random, sizes).to_string(),
    }
}

fn comparison(random: &mut Random, sizes: &Sizes) -> String {
    let (a, b) = (operand(random, sizes), operand(random, sizes));
    format!("{a} {} {b}", random.pick(&["=", "!="]))
}

fn test(random: &mut Random, sizes: &Sizes) -> String {
    match random.once_in(3) {
        true => "any".to_string(),
        false => comparison(random, sizes),
    }
}

fn operation(random: &mut Random, sizes: &Sizes) -> String {
    if sizes.names == 0 || random.once_in(4) {
        return comparison(random, sizes);
    }
    let (a, b) = (name(random, sizes), name(random, sizes));
    match random.below(5) {
        0 => format!("{a} := {}", operand(random, sizes)),
        1 => format!("{a} := {b}.next"),
        2 => format!("{a}.next := {}", operand(random, sizes)),
        3 => format!("new({a})"),
        _ => format!("delete({a})"),
    }
}

/// A right listing with one to three things wrong, each in a line or with a whole one.
fn damaged(random: &mut Random) -> Vec<u8> {
    let text = right(random);
    let lines = text.split_inclusive(|&byte| byte == b'\n');
    let mut lines: Vec<Vec<u8>> = lines.map(<[u8]>::to_vec).collect();
    for _ in 0..1 + random.below(3) {
        if lines.is_empty() {
            break;
        }
        let at = random.below(lines.len());
        match random.below(8) {
            0 => drop(lines.remove(at)),
            1 => lines.insert(at, lines[at].clone()),
            2 => lines.insert(at, b"end\n".to_vec()),
            3 => lines.insert(at, b"while any\n".to_vec()),
            4 => lines.swap(at, 0),
            _ => damage(random, &mut lines[at]),
        }
    }
    lines.concat()
}

/// A line with a byte put in, left out, or another.
fn damage(random: &mut Random, line: &mut Vec<u8>) {
    let at = random.below(line.len().max(1));
    let blanks: Vec<usize> = (0..line.len()).filter(|&at| line[at] == b' ').collect();
    let foreign = random.pick(&FOREIGN);
    match random.below(8) {
        0 => line.insert(at, b' '),
        1 => line.insert(line.len().saturating_sub(1), random.pick(b" \r\t")),
        2 if !blanks.is_empty() => line[random.pick(&blanks)] = foreign,
        3 if !line.is_empty() => drop(line.remove(at)),
        4 if !line.is_empty() => line[at] = random.pick(BYTES),
        5 => line.insert(at, foreign),
        6 if !line.is_empty() => line[at] ^= 1 << random.below(8),
        _ => drop(line.pop()),
    }
}

/// Lines of words that may or may not be of the grammar, between right ones.
fn soup(random: &mut Random) -> Vec<u8> {
    let mut text = String::new();
    for _ in 0..1 + random.below(4) {
        let words: Vec<&str> = (0..random.below(5)).map(|_| random.pick(&WORDS)).collect();
        text += &words.join(random.pick(&[" ", " ", ""]));
        text += random.pick(&["\n", "\n", "\nnew(x)\n", ""]);
    }
    text.into_bytes()
}
