//! What can't happen where a certificate is accepted, in words.

use crate::routine::{Forbids, Origin, Routine};

/// One sentence: which routine, and what can't happen at which mark.
pub fn sentence(name: &str, routine: &Routine) -> String {
    let mut at_states: Vec<(u64, Vec<String>)> = Vec::new();
    let mut has_steps = false;
    for (bad, origin) in routine.job.forbidden.iter().zip(&routine.origins) {
        let Some(words) = words(origin) else {
            has_steps = true;
            continue;
        };
        match at_states.last_mut() {
            Some((state, all)) if *state == bad.state => {
                if !all.contains(&words) {
                    all.push(words);
                }
            }
            _ => at_states.push((bad.state, vec![words])),
        }
    }
    let at_state = |(state, all): &(u64, Vec<String>)| {
        format!("at {}, {}", routine.place(*state), all.join(", or "))
    };
    let mut parts: Vec<String> = at_states.iter().map(at_state).collect();
    if has_steps {
        parts.push("anywhere, a link is followed or set at null or dangling".to_string());
    }
    format!(
        "No run of {name}, on lists of any length, comes to this: {}.",
        parts.join("; ")
    )
}

/// What a line forbids; nothing for `steps`, which isn't of one state.
fn words(origin: &Origin) -> Option<String> {
    let (set, of) = match origin.forbids() {
        Forbids::Steps => return None,
        Forbids::Shape => return Some(format!("`{}`", origin.text)),
        Forbids::Set(set, of) => (set, of.join(" and ")),
    };
    Some(match &set[..] {
        "no list" => format!("{of} is no list that ends at null"),
        "lost block" => format!("a block is lost beside {of}"),
        "ring" => format!("{of} leads into a ring"),
        "no ring" => format!("{of} is on no ring"),
        "shared" => format!("{of} share a block"),
        "lost block shared" => format!("a block is lost beside {of}"),
        "not sorted" => format!("{of} is out of order"),
        "not falling" => format!("{of} is not sorted downwards"),
        "not sorted round" => format!("the ring from {of} on is out of order"),
        "not falling round" => format!("the ring from {of} on is not sorted downwards"),
        _ => format!("`{}`", origin.text),
    })
}

#[cfg(test)]
mod tests {
    use super::*;
    use crate::corpus;

    fn said(name: &str) -> String {
        sentence(name, &corpus::find(name).unwrap().routine)
    }

    #[test]
    fn ready_sets_and_shapes_at_their_marks() {
        let reverse =
            "No run of reverse, on lists of any length, comes to this: at mark 0 (line 16), y \
                       is no list that ends at null, or a block is lost beside y, or `x at u`; \
                       anywhere, a link is followed or set at null or dangling.";
        assert_eq!(said("reverse"), reverse);
        let sorted = "No run of copy_sorted, on lists of any length, comes to this: at end, ";
        assert!(said("copy_sorted").starts_with(sorted));
    }

    /// Every line that forbids something is in the sentence, and none twice at a state.
    #[test]
    fn every_line_is_told() {
        for entry in corpus::read().unwrap() {
            let routine = &entry.routine;
            let said = sentence(&entry.name, routine);
            for (bad, origin) in routine.job.forbidden.iter().zip(&routine.origins) {
                assert!(said.contains(&routine.place(bad.state)) || words(origin).is_none());
                let words = words(origin).unwrap_or("anywhere, a link".to_string());
                assert!(said.contains(&words), "{}: {words}", entry.name);
            }
        }
    }
}
