//! Numbers and names for a person.

/// A whole number with commas.
pub fn thousands(number: u64) -> String {
    let digits: Vec<char> = number.to_string().chars().collect();
    let groups = digits.rchunks(3).rev();
    let groups: Vec<String> = groups.map(|group| group.iter().collect()).collect();
    groups.join(",")
}

/// A count with its noun, which is in the plural unless there is one.
pub fn counted(count: usize, noun: &str) -> String {
    let ending = if count == 1 { "" } else { "s" };
    format!("{} {noun}{ending}", thousands(count as u64))
}

/// A small number as a word.
pub fn in_words(number: usize) -> String {
    const WORDS: [&str; 10] = [
        "no", "one", "two", "three", "four", "five", "six", "seven", "eight", "nine",
    ];
    let word = WORDS.get(number).map(|word| word.to_string());
    word.unwrap_or(number.to_string())
}

/// Texts with commas and an `and`.
pub fn listed(texts: &[String]) -> String {
    match texts {
        [before @ .., last] if !before.is_empty() => format!("{} and {last}", before.join(", ")),
        _ => texts.concat(),
    }
}

/// Numbers in rising order with their noun, three neighbours or more together: `lines 3 and 5 to 9`.
pub fn ranges(noun: &str, numbers: &[usize]) -> String {
    let mut ranges: Vec<(usize, usize)> = Vec::new();
    for &number in numbers {
        match ranges.last_mut() {
            Some((_, last)) if number <= *last + 1 => *last = number,
            _ => ranges.push((number, number)),
        }
    }
    let text = |&(first, last): &(usize, usize)| match last - first {
        0 => vec![first.to_string()],
        1 => vec![first.to_string(), last.to_string()],
        _ => vec![format!("{first} to {last}")],
    };
    let texts: Vec<String> = ranges.iter().flat_map(text).collect();
    match &texts[..] {
        [one] if ranges[0].0 == ranges[0].1 => format!("{noun} {one}"),
        _ => format!("{noun}s {}", listed(&texts)),
    }
}

/// Paragraphs, with a blank line between them, in lines of at most so many characters where words allow it.
/// Lines that begin with a blank stay as they are.
pub fn wrapped(text: &str, width: usize) -> String {
    let paragraph = |paragraph: &str| match paragraph.starts_with(' ') {
        true => paragraph.to_string(),
        false => in_lines(paragraph, width),
    };
    let paragraphs: Vec<String> = text.split("\n\n").map(paragraph).collect();
    paragraphs.join("\n\n")
}

fn in_lines(paragraph: &str, width: usize) -> String {
    let mut lines = vec![String::new()];
    for word in paragraph.split_whitespace() {
        let line = lines.last_mut().expect("there is a line");
        match line.chars().count() + 1 + word.chars().count() {
            _ if line.is_empty() => line.push_str(word),
            length if length <= width => *line += &format!(" {word}"),
            _ => lines.push(word.to_string()),
        }
    }
    lines.join("\n")
}

/// A text with what can't be seen written out, as `\t` and `\r`.
pub fn visible(text: &str) -> String {
    let written = |c: char| match c {
        ' ' => " ".to_string(),
        c if c.is_control() || c.is_whitespace() => c.escape_default().to_string(),
        c => c.to_string(),
    };
    text.chars().map(written).collect()
}

/// A name that stands more than once.
pub fn repeated<'a>(names: impl IntoIterator<Item = &'a str>) -> Option<&'a str> {
    let mut names: Vec<&str> = names.into_iter().collect();
    names.sort();
    let two = names.windows(2).find(|two| two[0] == two[1]);
    two.map(|two| two[0])
}

/// The known names that a word may be, misspelt or cut short, nearest first.
pub fn nearest<'a>(word: &str, known: impl IntoIterator<Item = &'a str>) -> Vec<&'a str> {
    let length = word.chars().count();
    let measured = known.into_iter().map(|name| (distance(word, name), name));
    let is_near = |&(far, name): &(usize, &str)| {
        let is_cut_short = length > 2 && name.starts_with(word);
        far < length && far <= 1 + length / 4 || is_cut_short
    };
    let mut near: Vec<(usize, &str)> = measured.filter(is_near).collect();
    near.sort();
    near.into_iter().map(|(_, name)| name).collect()
}

/// How many characters have to be put in, left out, changed or exchanged with the next one to make
/// one word of the other.
fn distance(one: &str, other: &str) -> usize {
    let one: Vec<char> = one.chars().collect();
    let other: Vec<char> = other.chars().collect();
    let mut table = vec![vec![0; other.len() + 1]; one.len() + 1];
    for i in 0..=one.len() {
        for j in 0..=other.len() {
            if i == 0 || j == 0 {
                table[i][j] = i + j;
                continue;
            }
            let changed = table[i - 1][j - 1] + usize::from(one[i - 1] != other[j - 1]);
            let mut least = changed.min(table[i - 1][j] + 1).min(table[i][j - 1] + 1);
            let exchanged =
                i > 1 && j > 1 && one[i - 1] == other[j - 2] && one[i - 2] == other[j - 1];
            if exchanged {
                least = least.min(table[i - 2][j - 2] + 1);
            }
            table[i][j] = least;
        }
    }
    table[one.len()][other.len()]
}

#[cfg(test)]
mod tests {
    use super::*;

    #[test]
    fn numbers_and_texts_in_words() {
        assert_eq!([2, 9, 10].map(in_words), ["two", "nine", "10"]);
        let texts = ["a", "b", "c"].map(str::to_string);
        let listed: Vec<String> = (0..=3).map(|count| listed(&texts[..count])).collect();
        assert_eq!(listed, ["", "a", "a and b", "a, b and c"]);
    }

    #[test]
    fn whole_numbers_have_commas() {
        let rows = [
            (0, "0"),
            (999, "999"),
            (1000, "1,000"),
            (1_234_567, "1,234,567"),
        ];
        for (number, text) in rows {
            assert_eq!(thousands(number), text);
        }
    }

    #[test]
    fn nouns_agree_with_their_count() {
        assert_eq!(counted(0, "step"), "0 steps");
        assert_eq!(counted(1, "step"), "1 step");
        assert_eq!(counted(1000, "step"), "1,000 steps");
    }

    #[test]
    fn neighbours_are_told_together() {
        assert_eq!(ranges("line", &[3]), "line 3");
        assert_eq!(ranges("line", &[3, 4]), "lines 3 and 4");
        assert_eq!(ranges("line", &[3, 4, 5]), "lines 3 to 5");
        assert_eq!(ranges("line", &[3, 3]), "line 3");
        assert_eq!(ranges("line", &[1, 3, 5, 6, 7]), "lines 1, 3 and 5 to 7");
    }

    #[test]
    fn paragraphs_are_wrapped() {
        let text = "one two three\nfour\n\n  as it is, whole\n  and below\n\nlonger-than-that a";
        let lines = "one two\nthree\nfour\n\n  as it is, whole\n  and below\n\nlonger-than-that\na";
        assert_eq!(wrapped(text, 7), lines);
        assert_eq!(wrapped("", 7), "");
    }

    #[test]
    fn what_cannot_be_seen_is_written_out() {
        assert_eq!(visible("a b\t\r"), "a b\\t\\r");
        assert_eq!(visible("\u{a0}\u{2260}"), "\\u{a0}\u{2260}");
    }

    #[test]
    fn names_that_stand_twice() {
        assert_eq!(repeated(["b", "a", "c", "a"]), Some("a"));
        assert_eq!(repeated(["b", "a", "ab"]), None);
        assert_eq!(repeated([]), None);
    }

    #[test]
    fn near_names() {
        let known = ["next", "reverse", "reverse_tail", "walk"];
        assert_eq!(nearest("nxt", known), ["next"]);
        assert_eq!(nearest("enxt", known), ["next"]);
        assert_eq!(nearest("revers", known), ["reverse", "reverse_tail"]);
        assert_eq!(nearest("reverse_tali", known), ["reverse_tail"]);
        assert_eq!(nearest("wlak", known), ["walk"]);
        assert!(nearest("queue", known).is_empty());
        assert!(nearest("z", ["x", "y"]).is_empty());
    }
}
