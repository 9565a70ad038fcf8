//! The words of a command line after its subcommand.

use crate::shown;

/// What a subcommand takes: how many plain words, which options with a value, those of which one must be given, and which options
/// without a value.
pub struct Takes {
    pub plain: usize,
    pub options: &'static [&'static str],
    pub needed: &'static [&'static [&'static str]],
    pub flags: &'static [&'static str],
}

impl Takes {
    pub const NOTHING: Takes = Takes { plain: 0, options: &[], needed: &[], flags: &[] };
}

/// Plain words, options with their values, and options without one.
#[derive(Debug, Default, PartialEq)]
pub struct Words {
    pub plain: Vec<String>,
    pub help: bool,
    options: Vec<(String, String)>,
    flags: Vec<String>,
}

impl Words {
    pub fn option(&self, name: &str) -> Option<&str> {
        self.options.iter().find(|(known, _)| known == name).map(|(_, value)| value.as_str())
    }

    /// An option that the command line must have; `parse` has seen to it.
    pub fn needed(&self, name: &str) -> &str {
        self.option(name).unwrap_or_default()
    }

    /// Whether an option without a value is given.
    pub fn flag(&self, name: &str) -> bool {
        self.flags.iter().any(|known| known == name)
    }

    /// What the word of an option means, of those that it takes; the first one where it is not given.
    pub fn choice<T: Copy>(&self, name: &str, known: &[(&str, T)]) -> Result<T, String> {
        let Some(word) = self.option(name) else { return Ok(known[0].1) };
        let words: Vec<&str> = known.iter().map(|(known, _)| *known).collect();
        let found = known.iter().find(|(known, _)| *known == word).map(|(_, meant)| *meant);
        found.ok_or_else(|| format!("--{name} takes {}, and not `{}`", words.join(" or "), shown::text(word)))
    }

    fn take_option(&mut self, takes: &Takes, name: &str, value: Option<String>) -> Result<(), String> {
        if !takes.options.contains(&name) {
            return Err(format!("no option is called --{}", shown::text(name)));
        }
        if self.option(name).is_some() {
            return Err(format!("--{name} is given twice"));
        }
        let value = value.ok_or_else(|| format!("--{name} has no value"))?;
        self.options.push((name.to_string(), value));
        Ok(())
    }

    fn take_flag(&mut self, name: &str) -> Result<(), String> {
        if self.flag(name) {
            return Err(format!("--{name} is given twice"));
        }
        self.flags.push(name.to_string());
        Ok(())
    }

    /// Whether all is there that the subcommand needs.
    fn complete(&self, takes: &Takes) -> Result<(), String> {
        if self.plain.len() != takes.plain {
            return Err(format!("{} given, {} wanted", shown::counted(self.plain.len(), "file name"), takes.plain));
        }
        for names in takes.needed {
            match names.iter().filter(|name| self.option(name).is_some()).count() {
                0 => return Err(format!("give --{}", names.join(" or --"))),
                1 => (),
                _ => return Err(format!("give one of --{} alone", names.join(" and --"))),
            }
        }
        Ok(())
    }
}

/// The word after an option, unless that is another option; `--table=--odd` names such a file.
fn value_of<'a>(rest: &mut impl Iterator<Item = &'a String>) -> Option<String> {
    rest.next().filter(|word| !word.starts_with("--")).cloned()
}

pub fn parse(takes: &Takes, words: &[String]) -> Result<Words, String> {
    let mut parsed = Words::default();
    let mut rest = words.iter();
    while let Some(word) = rest.next() {
        match word.as_str() {
            "--help" | "-h" => parsed.help = true,
            "--" => parsed.plain.extend(rest.by_ref().cloned()),
            "-o" => parsed.take_option(takes, "output", value_of(&mut rest))?,
            long if long.starts_with("--") => match long[2..].split_once('=') {
                Some((name, _)) if takes.flags.contains(&name) => return Err(format!("--{name} takes no value")),
                None if takes.flags.contains(&&long[2..]) => parsed.take_flag(&long[2..])?,
                Some((name, value)) => parsed.take_option(takes, name, Some(value.to_string()))?,
                None => parsed.take_option(takes, &long[2..], value_of(&mut rest))?,
            },
            short if short.len() > 1 && short.starts_with('-') => {
                return Err(format!("no option is called {}", shown::text(short)))
            }
            _ => parsed.plain.push(word.clone()),
        }
    }
    match parsed.help {
        true => Ok(parsed),
        false => parsed.complete(takes).map(|()| parsed),
    }
}
