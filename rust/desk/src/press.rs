//! The words for the remembered press: one that was made while the drive ran. The unit has no output for it.

use crate::drive::Way;

/// What a table says when it becomes `now`.
pub fn words(now: Option<Way>) -> &'static str {
    match now {
        Some(Way::Raise) => "raise press remembered",
        Some(Way::Lower) => "lower press remembered",
        None => "remembered press gone",
    }
}

/// Its value in a table for other programs.
pub fn value(now: Option<Way>) -> &'static str {
    match now {
        Some(Way::Raise) => "raise",
        Some(Way::Lower) => "lower",
        None => "none",
    }
}

/// Its short name, for the picture.
pub fn short(way: Way) -> &'static str {
    match way {
        Way::Raise => "remembered: raise",
        Way::Lower => "remembered: lower",
    }
}
