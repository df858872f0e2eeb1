//! What is given behind a subcommand's name: options, and operands.

use super::{help, Choice, Subcommand};
use crate::text::nearest;

/// The options and operands of a call.
pub struct Arguments {
    pub operands: Vec<String>,
    /// Each option that is given, with its value or an empty one.
    options: Vec<(&'static str, String)>,
}

impl Arguments {
    /// Reads what is given, or tells how the subcommand is used.
    pub fn read(subcommand: &Subcommand, given: &[String]) -> Result<Arguments, String> {
        let wrong = |what: String| {
            let usage = help::usage_of(subcommand);
            format!("vorruda {}: {what}\n{usage}", subcommand.name)
        };
        let mut arguments = Arguments {
            operands: Vec::new(),
            options: Vec::new(),
        };
        let mut words = given.iter();
        while let Some(word) = words.next() {
            match word.as_str() {
                "--" => arguments.operands.extend(words.by_ref().cloned()),
                option if is_option(option) => {
                    let (name, behind) = option.split_once('=').unzip();
                    let choice = choice(subcommand, name.unwrap_or(option)).map_err(wrong)?;
                    let behind = behind.or_else(|| match choice.value {
                        Some(_) => words.next().map(String::as_str),
                        None => Some(""),
                    });
                    arguments.take(choice, behind).map_err(wrong)?;
                }
                _ => arguments.operands.push(word.clone()),
            }
        }
        arguments.complete(subcommand).map_err(wrong)?;
        Ok(arguments)
    }

    /// Takes an option with what stands behind it.
    fn take(&mut self, choice: &Choice, value: Option<&str>) -> Result<(), String> {
        let name = choice.name;
        let value = match (choice.value, value) {
            (None, Some(value)) if !value.is_empty() => {
                return Err(format!("{name} has no value"));
            }
            (Some(wanted), None) => return Err(format!("expected {wanted} behind {name}")),
            (_, value) => value.unwrap_or_default().to_string(),
        };
        if self.is_given(name) {
            return Err(format!("{name} stands twice"));
        }
        self.options.push((choice.name, value));
        Ok(())
    }

    /// Whether all is given that has to be, and no more.
    fn complete(&self, subcommand: &Subcommand) -> Result<(), String> {
        let mut options = subcommand.options.iter();
        if let Some(missing) = options.find(|of| of.is_required && !self.is_given(of.name)) {
            return Err(format!("expected {}", help::form_of(missing)));
        }
        match subcommand.count.contains(&self.operands.len()) {
            true => Ok(()),
            false if subcommand.operands.is_empty() => Err("it takes no operand".to_string()),
            false => Err(format!("expected {}", subcommand.operands)),
        }
    }

    pub fn is_given(&self, option: &str) -> bool {
        self.value(option).is_some()
    }

    /// The value of an option, if it is given.
    pub fn value(&self, option: &str) -> Option<&str> {
        let mut options = self.options.iter();
        let found = options.find(|(name, _)| *name == option);
        found.map(|(_, value)| value.as_str())
    }
}

/// Whether a word is an option by its form: - alone and -> are none.
fn is_option(word: &str) -> bool {
    let behind = word
        .strip_prefix('-')
        .and_then(|behind| behind.chars().next());
    behind.is_some_and(|first| first == '-' || first.is_ascii_alphabetic())
}

/// The option of a name, or what to say where there is none.
fn choice(subcommand: &Subcommand, name: &str) -> Result<&'static Choice, String> {
    let mut options = subcommand.options.iter();
    options.find(|choice| choice.name == name).ok_or_else(|| {
        let known = subcommand.options.iter().map(|choice| choice.name);
        match nearest(name, known)[..] {
            [near, ..] => format!("no option `{name}`; did you mean `{near}`?"),
            [] => format!("no option `{name}`"),
        }
    })
}
