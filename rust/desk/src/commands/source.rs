//! What commands over a scenario or a recording share: its name, the part of it that is shown, and the picture's options.

use super::Failure;
use crate::cells;
use crate::file::Errors;
use crate::run::Window;
use crate::words::Words;

/// The scenario or the recording, and whether it is the latter.
pub fn name(words: &Words) -> (&str, bool) {
    match words.option("recording") {
        Some(name) => (name, true),
        None => (words.needed("scenario"), false),
    }
}

/// The title of a picture: the option's, or the last part of the file's name.
pub fn title<'a>(words: &'a Words, name: &'a str) -> &'a str {
    words.option("title").unwrap_or_else(|| name.rsplit('/').next().unwrap_or(name))
}

/// Options that say how a picture looks need one.
pub fn needs_picture(words: &Words, options: &[&str]) -> Result<(), Failure> {
    match options.iter().find(|option| words.option(option).is_some()) {
        Some(option) if words.option("svg").is_none() => {
            Err(Failure::Usage(format!("--{option} is a picture's: give --svg FILE too")))
        }
        _ => Ok(()),
    }
}

/// The time of an option, in ticks, if it is given.
pub fn time(words: &Words, option: &str) -> Result<Option<u32>, Failure> {
    let time = |text| cells::time(text).map_err(|words| Failure::Usage(format!("--{option}: {words}")));
    words.option(option).map(time).transpose()
}

/// The part between --from and --to, each as in `whole` where it is not given.
pub fn window(words: &Words, whole: Window) -> Result<Window, Failure> {
    let (from, to) = (time(words, "from")?, time(words, "to")?);
    let window = Window { from: from.unwrap_or(whole.from), to: to.unwrap_or(whole.to) };
    match window.to {
        0 => Err(Failure::Usage("--to is before the first tick, at 0.005 s".to_string())),
        to if window.from > to => Err(Failure::Usage("--from is after --to".to_string())),
        _ => Ok(window),
    }
}

/// Whether a run of so many ticks reaches into a window.
pub fn reaches(ticks: u32, window: Window) -> Result<(), Errors> {
    let (from, end) = (cells::seconds_text(window.from), cells::seconds_text(ticks));
    match window.from < ticks {
        true => Ok(()),
        false => Err(vec![format!("--from {from} is not before the end of the run, {end} s")]),
    }
}
