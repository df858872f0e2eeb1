//! Letters for what a listing calls by more than one letter, and for links that are to be loaded.

/// Which letters a listing has, and which are given to its longer names.
pub struct ShortNames {
    taken: Vec<char>,
    given: Vec<(String, char)>,
}

impl ShortNames {
    /// Of a listing that has these names of one letter.
    pub fn of(names: &[String]) -> ShortNames {
        ShortNames {
            taken: names.iter().flat_map(|name| name.chars()).collect(),
            given: Vec::new(),
        }
    }

    /// The letter for a longer name, always the same: its first one if that is free.
    pub fn letter(&mut self, name: &str) -> char {
        if let Some(&(_, letter)) = self.given.iter().find(|(known, _)| known == name) {
            return letter;
        }
        let first = name.chars().next().map(|c| c.to_ascii_lowercase());
        let is_free = |letter: &char| letter.is_ascii_lowercase() && !self.taken.contains(letter);
        let letter = first.filter(is_free).unwrap_or_else(|| self.free());
        self.taken.push(letter);
        self.given.push((name.to_string(), letter));
        letter
    }

    /// A letter that is free, t for a passing one before all others.
    pub fn free(&self) -> char {
        let mut letters = ('t'..='z').chain('a'..='s');
        let free = letters.find(|letter| !self.taken.contains(letter));
        free.unwrap_or('t')
    }
}

#[cfg(test)]
mod tests {
    use super::*;

    #[test]
    fn a_name_has_one_letter() {
        let mut names = ShortNames::of(&["x".to_string(), "t".to_string()]);
        assert_eq!(names.letter("head"), 'h');
        assert_eq!(names.letter("help"), 'u');
        assert_eq!(names.letter("head"), 'h');
        assert_eq!(names.letter("Xs"), 'v');
        assert_eq!(names.letter("_a"), 'w');
        assert_eq!(names.free(), 'y');
    }
}
