//! The command line: words in, a command out. Anything not understood is said in one line, with the usage below it.

use std::collections::VecDeque;

pub struct Words {
    command: String,
    left: VecDeque<String>,
}

/// What was wrong with the command line.
#[derive(Debug)]
pub struct BadUsage(pub String);

impl Words {
    pub fn new(command: &str, words: impl IntoIterator<Item = String>) -> Words {
        Words {
            command: command.to_string(),
            left: words.into_iter().collect(),
        }
    }

    /// Takes `--name` if it is there.
    pub fn flag(&mut self, name: &str) -> bool {
        let at = self.left.iter().position(|word| word == name);
        at.map(|at| self.left.remove(at)).is_some()
    }

    /// Takes `--name VALUE` if it is there.
    pub fn option(&mut self, name: &str) -> Result<Option<String>, BadUsage> {
        let Some(at) = self.left.iter().position(|word| word == name) else {
            return Ok(None);
        };
        self.left.remove(at);
        match self.left.remove(at) {
            Some(value) => Ok(Some(value)),
            None => Err(BadUsage(format!("{name} wants a value"))),
        }
    }

    pub fn needed(&mut self, name: &str) -> Result<String, BadUsage> {
        self.option(name)?
            .ok_or_else(|| BadUsage(format!("{} wants {name}", self.command)))
    }

    /// Takes the next word as a name; '-' is one, a longer word that begins so is an option.
    pub fn operand(&mut self, name: &str) -> Result<String, BadUsage> {
        let command = &self.command;
        match self.left.pop_front() {
            None => Err(BadUsage(format!("{command} wants {name}"))),
            Some(word) if word.len() > 1 && word.starts_with('-') => {
                Err(BadUsage(format!("{command} doesn't know '{word}'")))
            }
            Some(word) => Ok(word),
        }
    }

    pub fn needed_number(&mut self, name: &str) -> Result<u64, BadUsage> {
        let text = self.needed(name)?;
        whole(name, &text)
    }

    /// A number, or the default where the option isn't given.
    pub fn number(&mut self, name: &str, default: u64) -> Result<u64, BadUsage> {
        match self.option(name)? {
            Some(text) => whole(name, &text),
            None => Ok(default),
        }
    }

    /// `A..B`: A and all up to B, B not included.
    pub fn seeds(&mut self) -> Result<std::ops::Range<u64>, BadUsage> {
        let text = self.needed("--seeds")?;
        let Some((from, to)) = text.split_once("..") else {
            return Err(BadUsage(format!("--seeds wants A..B, not '{text}'")));
        };
        let seeds = whole("--seeds", from)?..whole("--seeds", to)?;
        if seeds.is_empty() {
            return Err(BadUsage(format!("--seeds {text} has no seed in it")));
        }
        Ok(seeds)
    }

    /// Nothing may be left over.
    pub fn done(self) -> Result<(), BadUsage> {
        match self.left.front() {
            None => Ok(()),
            Some(word) => Err(BadUsage(format!("{} doesn't know '{word}'", self.command))),
        }
    }
}

fn whole(name: &str, text: &str) -> Result<u64, BadUsage> {
    text.parse()
        .map_err(|_| BadUsage(format!("{name} wants a whole number, not '{text}'")))
}
