//! The layout of a listing: line ends, and blanks around a line. The proved call takes none but the
//! strict one; what differs from it can be put right without a change of meaning.

use super::mistake::Mistake;

/// What some editors write ahead of a text.
pub const BYTE_ORDER_MARK: char = '\u{feff}';

const INDENTED: &str = "indentation: a line of a listing begins with its first word";
const INDENTED_BY_TABS: &str =
    "indentation by a tab: a line of a listing begins with its first word";
const BLANKS_BEHIND: &str = "blanks at the line's end: nothing stands behind the last word";
const CRLF: &str =
    "CRLF line end, as Windows writes it: expected byte 10 without byte 13 before it";
const NO_LINE_END: &str = "no line end: the last line of a listing ends with byte 10 too";

/// The text with its layout put right: no byte order mark, no blanks around a line, byte 10 and
/// nothing else as the end of each, the last one too.
pub fn repaired(text: &str) -> String {
    let text = text.strip_prefix(BYTE_ORDER_MARK).unwrap_or(text);
    let lines = text.split_terminator('\n');
    lines.map(|line| format!("{}\n", line.trim())).collect()
}

/// What is wrong with the layout of a line of a listing, which is told once for all lines.
pub fn mistakes(number: usize, text: &str) -> Vec<Mistake> {
    let line = text.strip_suffix('\n').unwrap_or(text);
    let (before, rest) = line.split_at(line.len() - line.trim_start().len());
    let (content, behind) = rest.split_at(rest.trim_end().len());
    let blanks = behind.strip_suffix('\r').unwrap_or(behind);
    let column = |ahead: &[&str]| 1 + ahead.concat().chars().count();
    let indented = match before.contains('\t') {
        true => INDENTED_BY_TABS,
        false => INDENTED,
    };
    let rows = [
        (!before.is_empty(), column(&[]), before, indented),
        (
            !blanks.is_empty(),
            column(&[before, content]),
            blanks,
            BLANKS_BEHIND,
        ),
        (
            blanks != behind,
            column(&[before, content, blanks]),
            "\r",
            CRLF,
        ),
        (line == text, column(&[line]), "", NO_LINE_END),
    ];
    rows.into_iter()
        .filter(|(is_wrong, ..)| *is_wrong)
        .map(|(_, column, word, what)| Mistake::new(number, column, word, what).told_once())
        .collect()
}

#[cfg(test)]
mod tests {
    use super::*;

    #[test]
    fn layout_that_is_put_right() {
        let right = "while any\nnew(x)\nend\n";
        let rows = [
            right,
            "while any\r\nnew(x)\r\nend\r\n",
            "while any\n  new(x)\n end\n",
            "while any\n\tnew(x)\nend\n",
            "while any \nnew(x)\t \nend  \r\n",
            "while any\nnew(x)\nend",
            "\u{feff}while any\r\n    new(x)\r\nend",
        ];
        for text in rows {
            assert_eq!(repaired(text), right, "{text:?}");
        }
        assert_eq!(repaired(""), "");
        assert_eq!(repaired("a  b\n\n \nc"), "a  b\n\n\nc\n");
    }

    /// Words and the blanks between them stay, and nothing is left to be put right.
    #[test]
    fn only_the_layout_changes() {
        for text in ["x:=y;\r\n", "  x  :=\ty", "\r\n", "é \n\n"] {
            let right = repaired(text);
            assert!(text.split_whitespace().eq(right.split_whitespace()));
            assert_eq!(repaired(&right), right);
            for line in right.split_inclusive('\n') {
                assert_eq!(mistakes(1, line), [], "{line:?}");
            }
        }
    }

    /// A mistake's column, its word and what it is.
    type Found<'a> = (usize, &'a str, &'a str);

    #[test]
    fn what_is_wrong_with_the_layout() {
        let rows: [(&str, &[Found]); 7] = [
            ("x := y\n", &[]),
            ("  x := y\n", &[(1, "  ", INDENTED)]),
            (" \tx := y\n", &[(1, " \t", INDENTED_BY_TABS)]),
            ("x := y \n", &[(7, " ", BLANKS_BEHIND)]),
            ("x := y\r\n", &[(7, "\r", CRLF)]),
            ("x := y", &[(7, "", NO_LINE_END)]),
            (
                " é  \r\n",
                &[
                    (1, " ", INDENTED),
                    (3, "  ", BLANKS_BEHIND),
                    (5, "\r", CRLF),
                ],
            ),
        ];
        for (line, expected) in rows {
            let found = mistakes(7, line);
            let found: Vec<Found> = found
                .iter()
                .map(|mistake| (mistake.column, &mistake.word[..], &mistake.what[..]))
                .collect();
            assert_eq!(found, expected, "{line:?}");
        }
    }
}
