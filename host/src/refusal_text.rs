//! A text for each refusal: those of include/vorruda_text.h, which hosts in C have.

const HEADER: &str = include_str!("../../include/vorruda_text.h");

/// The text of a refusal; nothing for a number that is none.
pub fn refusal_text(number: u32) -> Option<&'static str> {
    let case = format!("case {number}: return \"");
    let (_, behind) = HEADER.split_once(&case)?;
    behind.split_once("\";").map(|(text, _)| text)
}

#[cfg(test)]
mod tests {
    use super::*;

    #[test]
    fn texts_are_found_by_number() {
        assert_eq!(refusal_text(5), Some("bytes are left after the job"));
        assert_eq!(refusal_text(15), Some("all 64 cells are used"));
        for number in [0, 99, 151] {
            assert_eq!(refusal_text(number), None);
        }
    }
}
