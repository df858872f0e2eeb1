//! Listings at the limits: lines, names, open blocks and marks, just within and just beyond; and
//! several faults, at one line and at different ones.

/// The letters of the names, in an order that isn't theirs.
const LETTERS: [u8; 10] = *b"qazwsxedcr";

pub fn edges() -> Vec<Vec<u8>> {
    let texts = lengths()
        .into_iter()
        .chain(names())
        .chain(blocks())
        .chain(marks())
        .chain(faults())
        .map(String::into_bytes);
    texts.chain(large()).collect()
}

fn new(letter: u8) -> String {
    format!("new({})\n", char::from(letter))
}

/// Up to 66 lines of one sort; 63 make 64 states.
fn lengths() -> Vec<String> {
    let sorts = [
        "new(x)\n",
        "x = x\n",
        "null != null\n",
        "while any\nend\n",
        "if x = y\nend\n",
    ];
    let mut all = Vec::new();
    for sort in sorts {
        let lines = sort.matches('\n').count();
        for count in 0..=66 / lines {
            all.push(sort.repeat(count));
            all.push(["mark 5\n", &sort.repeat(count)].concat());
        }
    }
    all
}

/// Up to ten names, one or two of them first met at a time, in every way a line names two.
fn names() -> Vec<String> {
    let mut all = Vec::new();
    for count in 0..=LETTERS.len() {
        let named: String = LETTERS[..count].iter().map(|&letter| new(letter)).collect();
        all.push(named.clone());
        for form in ["A = B", "A != B", "A := B", "A := B.next", "A.next := B"] {
            for (a, b) in [('j', 'k'), ('k', 'k'), ('q', 'k'), ('k', 'q'), ('q', 'a')] {
                let line = form
                    .replace('B', &b.to_string())
                    .replace('A', &a.to_string());
                all.push(format!("{named}{line}\nnew(q)\n"));
                all.push(format!("{named}while {line}\nnew(k)\nend\n"));
            }
        }
    }
    all
}

/// Up to 18 blocks in each other, with the right number of ends, fewer and more; and side by side.
fn blocks() -> Vec<String> {
    let heads = ["while any\n", "if any\n", "while x = y\n", "if null != x\n"];
    let mut all = Vec::new();
    for open in 0..=18 {
        for turn in 0..heads.len() {
            let opened: String = (0..open).map(|level| heads[(level + turn) % 4]).collect();
            for ends in (open.max(2) - 2)..=open + 2 {
                let closed = "end\n".repeat(ends);
                all.push(format!("{opened}{closed}"));
                all.push(format!("{opened}mark 1\n{closed}new(y)\n"));
            }
            let pair = heads[turn];
            all.push(format!("{pair}end\n").repeat(open));
            all.push(format!("{opened}{}new(x)\n", "end\nif any\n".repeat(3)));
        }
    }
    all
}

/// Every mark alone and again, near and far; and as many as there is room for.
fn marks() -> Vec<String> {
    let mark = |number: usize| format!("mark {number}\n");
    let mut all = Vec::new();
    for number in 0..64 {
        let (one, next) = (mark(number), mark((number + 1) % 64));
        all.push(format!("new(x)\n{one}{next}"));
        all.push(format!("{one}{one}"));
        all.push(format!("{one}while any\n{next}{one}end\n"));
        all.push((0..63).map(|place| mark((place + number) % 64)).collect());
    }
    all
}

/// Lines that are at fault, some in more than one way, once 16 blocks are open, eight names are met
/// and mark 0 stands.
const FAULTS: [&str; 9] = [
    "new(q)\n",
    "x  := y\n",
    "mark 0\n",
    "if any\n",
    "new(k)\n",
    "while k = q\n",
    "while k := q\n",
    "k := j.next.next\n",
    "end\n",
];

/// Three such lines in every order, on ground where all of them are at fault and on ground where
/// there is room for one name or block more; early, and about the 64th line.
fn faults() -> Vec<String> {
    let mut all = Vec::new();
    for (blocks, names) in [(16, 8), (15, 8), (16, 7), (0, 8)] {
        let opened = "if any\n".repeat(blocks);
        let named: String = LETTERS[..names].iter().map(|&letter| new(letter)).collect();
        let lines = 1 + blocks + names;
        for before in [lines, 61, 62, 63] {
            let filling = "q := q\n".repeat(before - lines);
            let ground = format!("mark 0\n{opened}{named}{filling}");
            for first in FAULTS {
                for second in FAULTS {
                    all.push(format!("{ground}{first}{second}"));
                    let thirds = FAULTS.iter().step_by(2);
                    all.extend(thirds.map(|third| format!("{ground}{first}{second}{third}")));
                }
            }
        }
    }
    all
}

/// Texts, and lines, that are longer than any that is right.
fn large() -> Vec<Vec<u8>> {
    let texts = [
        b"new(x)\n".repeat(20_000),
        b"while any\n".repeat(20_000),
        vec![b'\n'; 70_000],
        vec![b'x'; 200_000],
        [&b"new(x)\n"[..], &[b' '; 70_000]].concat(),
    ];
    let around = [256, 65_536]
        .into_iter()
        .flat_map(|size| size - 9..=size + 1);
    let padded = around.flat_map(|blanks| {
        let blanks = vec![b' '; blanks];
        [
            [b"mark 7", &blanks[..], b"\nend\n"].concat(),
            [b"mark 7\n", &blanks[..], b"new(x)\n"].concat(),
        ]
    });
    texts.into_iter().chain(padded).collect()
}
