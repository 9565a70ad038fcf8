//! The limits of the readings that a picture shows.

use library::ORGANS;

use crate::inputs::reading_at as reading;
use crate::names::at;

/// A limit of a reading: its slot, and the slot that watches it; none for U_set5, which always counts.
pub struct Limit {
    pub reading: usize,
    pub slot: usize,
    watch: Option<usize>,
}

const LIMITS: [Limit; ORGANS + 1] = [
    Limit { reading: reading("U_AB"), slot: at("U_set5"), watch: None },
    organ("I_high", "I_set1", "XB7"),
    organ("I_bus", "I_set2", "XB8"),
    organ("I_bus", "I_set3", "XB9"),
    organ("U_AB", "U_set1", "XB10"),
    organ("U_AB", "U_set2", "XB11"),
    organ("3U0", "U_set3", "XB12"),
    organ("U2", "U_set4", "XB13"),
];

const fn organ(of: &str, limit: &str, watch: &str) -> Limit {
    Limit { reading: reading(of), slot: at(limit), watch: Some(at(watch)) }
}

/// The limits of some readings that a unit with this sheet watches.
pub fn watched<'a>(readings: &'a [usize], list: &'a [u32]) -> impl Iterator<Item = &'static Limit> + 'a {
    let is_watched = |limit: &Limit| limit.watch.is_none_or(|slot| list[slot] == 1);
    LIMITS.iter().filter(move |limit| readings.contains(&limit.reading) && is_watched(limit))
}
