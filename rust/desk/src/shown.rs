//! Text that somebody else wrote, as a message shows it: cut, and without characters that act on a terminal.

/// The most characters that are shown of a text, and of a file's name.
const MOST: usize = 60;
const MOST_OF_NAME: usize = 400;

/// The text, its control characters and those that turn the writing around by their numbers; cut where it is long.
pub fn text(words: &str) -> String {
    cut(words, MOST)
}

/// The name of a file, likewise.
pub fn name(path: &str) -> String {
    match path {
        "" => "(an empty name)".to_string(),
        _ => cut(path, MOST_OF_NAME),
    }
}

fn cut(words: &str, most: usize) -> String {
    let mut shown: String = words.chars().take(most).map(plain).collect();
    let left = words.chars().skip(most).count();
    if left > 0 {
        shown.push_str(&format!("… ({left} more)"));
    }
    shown
}

fn plain(letter: char) -> String {
    match acts(letter) {
        true => letter.escape_unicode().to_string(),
        false => letter.to_string(),
    }
}

/// Whether a character acts on what shows it: it controls a terminal, ends a line, or turns the writing around.
pub fn acts(letter: char) -> bool {
    let turns = matches!(letter, '\u{200e}' | '\u{200f}' | '\u{2028}'..='\u{202e}' | '\u{2066}'..='\u{2069}' | '\u{feff}');
    letter.is_control() || turns
}

/// A count with its noun, `1 setting` and `2 settings`.
pub fn counted(count: usize, noun: &str) -> String {
    match count {
        1 => format!("1 {noun}"),
        _ => format!("{count} {noun}s"),
    }
}
