//! Texts in a picture: how wide they are, cut to a room, and wrapped.

use crate::shown;

/// The widths of the letters from the space to `~` in DejaVu Sans, in thousandths of the text's size.
#[rustfmt::skip]
const WIDTHS: [u16; 95] = [
    317, 400, 459, 837, 636, 950, 779, 274, 390, 390, 500, 837, 317, 360, 317, 336, 636, 636, 636, 636, 636, 636, 636, 636,
    636, 636, 336, 336, 837, 837, 837, 530, 1000, 684, 686, 698, 770, 631, 575, 774, 751, 294, 294, 655, 557, 862, 748, 787,
    603, 787, 694, 634, 610, 731, 684, 988, 685, 610, 685, 390, 336, 390, 837, 500, 500, 612, 634, 549, 634, 615, 352, 634,
    633, 277, 277, 579, 277, 974, 633, 611, 634, 634, 411, 520, 392, 633, 591, 817, 591, 591, 524, 636, 336, 636, 837,
];

/// A letter's width; others than those count as wide ones.
fn letter_width(letter: char) -> u16 {
    match letter {
        ' '..='~' => WIDTHS[letter as usize - ' ' as usize],
        '·' => 317,
        '×' => 837,
        '\u{1f000}'.. => 1400,
        _ => 1080,
    }
}

/// About how wide a text is.
pub fn text_width(words: &str, size: f64) -> f64 {
    words.chars().map(|letter| f64::from(letter_width(letter))).sum::<f64>() * size / 1000.0
}

/// Without characters that act on what shows them, or that a picture's file cannot hold; a line's end is a space.
pub fn plain(words: &str) -> String {
    let spaced = words.chars().map(|letter| if letter.is_whitespace() { ' ' } else { letter });
    spaced.filter(|letter| !shown::acts(*letter) && !matches!(letter, '\u{fffe}'..='\u{ffff}')).collect()
}

/// Room for a line of text of this size.
#[derive(Clone, Copy)]
pub struct Room {
    pub width: f64,
    pub size: f64,
}

const CUT: char = '…';

impl Room {
    pub fn holds(self, words: &str) -> bool {
        self.fitting(words) == words.len()
    }

    /// How many bytes of a text fit.
    fn fitting(self, words: &str) -> usize {
        let mut width = 0.0;
        let is_beyond = |(_, letter): &(usize, char)| {
            width += f64::from(letter_width(*letter)) * self.size / 1000.0;
            width > self.width
        };
        words.char_indices().find(is_beyond).map_or(words.len(), |(at, _)| at)
    }

    /// The text, cut where it is too long.
    pub fn cut(self, words: &str) -> String {
        match self.holds(words) {
            true => words.to_string(),
            false => self.unfinished(words),
        }
    }

    /// As much of a text as there is room for, with a mark that it went on.
    fn unfinished(self, words: &str) -> String {
        let room = Room { width: self.width - text_width(&CUT.to_string(), self.size), ..self };
        words[..room.fitting(words)].trim_end().to_string() + &CUT.to_string()
    }

    /// Lines that fit, of pieces with a joint between them; no more than `most`, and then the last one is unfinished.
    pub fn wrap(self, pieces: &[&str], joint: &str, most: usize) -> Vec<String> {
        let mut lines: Vec<String> = Vec::new();
        for piece in pieces.iter().flat_map(|piece| self.broken(piece)) {
            match lines.last_mut() {
                Some(line) if self.holds(&format!("{line}{joint}{piece}")) => *line = format!("{line}{joint}{piece}"),
                _ => lines.push(piece.to_string()),
            }
        }
        if lines.len() > most {
            lines.truncate(most);
            lines[most - 1] = self.unfinished(&lines[most - 1]);
        }
        lines
    }

    /// A piece in parts that fit, a letter at least.
    fn broken(self, piece: &str) -> Vec<&str> {
        let (mut parts, mut rest) = (Vec::new(), piece);
        while let Some(letter) = rest.chars().next() {
            let (part, after) = rest.split_at(self.fitting(rest).max(letter.len_utf8()));
            parts.push(part);
            rest = after;
        }
        parts
    }
}
