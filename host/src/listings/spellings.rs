//! Single lines: every form with every operand, and right lines with one byte more, less or
//! another.

use super::FOREIGN;

/// Lines with operands to be put in for A and B; not all are of the grammar.
const FORMS: [&str; 24] = [
    "A = B",
    "A != B",
    "A := B",
    "A := B.next",
    "A.next := B",
    "A.next := B.next",
    "A.next = B",
    "A != B.next",
    "new(A)",
    "new(A, B)",
    "delete(A)",
    "delete(A.next)",
    "while A = B",
    "while A != B",
    "while A := B",
    "while A := B.next",
    "while new(A)",
    "while A",
    "if A = B",
    "if A != B",
    "if A.next := B",
    "if delete(B)",
    "if A",
    "mark A",
];

const OPERANDS: [&str; 14] = [
    "x", "y", "a", "z", "null", "any", "end", "", "xy", "nul", "X", "7", "`", "{",
];

/// Lines without operands; not all are of the grammar.
const OTHERS: [&str; 22] = [
    "end",
    "ends",
    "end end",
    "End",
    "while any",
    "if any",
    "while",
    "while ",
    "if",
    "any",
    "while end",
    "while while any",
    "if if any",
    "while not any",
    "mark",
    "marks 0",
    "mark 0 1",
    "skip",
    "else",
    "x ≠ y",
    "",
    "-- x",
];

/// A line of each sort that is of the grammar.
const RIGHT: [&str; 12] = [
    "x = y",
    "null != y",
    "x := y",
    "x := null",
    "x := y.next",
    "x.next := y",
    "new(x)",
    "delete(x)",
    "while x != null",
    "if any",
    "end",
    "mark 17",
];

const MARK_NUMBERS: [&str; 22] = [
    "64", "65", "69", "70", "99", "100", "255", "256", "320", "00", "01", "007", "063", "+1", "-1",
    "1.", "0x1", "6 3", "", " 0", "0 ", "A",
];

/// Each line alone, and between others.
pub fn spellings() -> Vec<Vec<u8>> {
    let mut lines: Vec<Vec<u8>> = OTHERS.iter().map(|line| line.as_bytes().to_vec()).collect();
    for form in FORMS {
        for a in OPERANDS {
            for b in OPERANDS {
                // The operands have no capital B of their own.
                lines.push(form.replace('B', b).replace('A', a).into_bytes());
            }
        }
    }
    lines.extend((0..64).map(|number| format!("mark {number}").into_bytes()));
    lines.extend(MARK_NUMBERS.map(|number| format!("mark {number}").into_bytes()));
    lines.extend(RIGHT.iter().flat_map(|line| misspelt(line.as_bytes())));
    lines.sort();
    lines.dedup();
    lines.iter().flat_map(|line| in_company(line)).collect()
}

/// A line with each byte left out, doubled or another, and with a byte put in at each place.
fn misspelt(line: &[u8]) -> Vec<Vec<u8>> {
    let mut all = Vec::new();
    let with = |from: usize, to: usize, between: &[u8]| -> Vec<u8> {
        [&line[..from], between, &line[to..]].concat()
    };
    for (at, &byte) in line.iter().enumerate() {
        all.push(with(at, at + 1, &[]));
        all.push(with(at, at + 1, &[byte, byte]));
        let others = [byte ^ 32, byte ^ 128, byte + 1, byte - 1, b' ', b'w'];
        let others = others.into_iter().chain(FOREIGN);
        all.extend(others.map(|other| with(at, at + 1, &[other])));
    }
    for at in 0..=line.len() {
        let others = [b' ', b'x', b'=', b')'].into_iter().chain(FOREIGN);
        all.extend(others.map(|other| with(at, at, &[other])));
    }
    all
}

/// The line as the only one, as the last without its byte 10, and as one of several.
fn in_company(line: &[u8]) -> [Vec<u8>; 3] {
    [
        [line, b"\n"].concat(),
        [b"new(x)\n", line].concat(),
        [b"if x != y\n", line, b"\nend\nmark 3\nnew(z)\n"].concat(),
    ]
}
