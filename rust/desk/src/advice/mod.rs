//! Advice on a sheet that is taken: what is allowed and yet does not do what a person means by it. The unit goes by its rules
//! all the same; this only tells what they make of the sheet.

mod bands;
mod drive;
mod watching;

use crate::names::at;
use crate::sheet::{is, said};

/// What is odd, what the unit does with it, and what to do: words to follow the setting at `slot` and its value.
#[derive(Clone, Debug, PartialEq)]
pub struct Advice {
    pub slot: usize,
    pub words: String,
}

/// What each looks at, in a sheet that is taken.
type Look = fn(&[u32]) -> Vec<Advice>;

const LOOKS: [Look; 16] = [
    out_of_service,
    line_without_impedance,
    bands::nothing_left,
    watching::load_without_section,
    drive::end_without_tap,
    watching::section_overloaded,
    watching::loads_crossed,
    watching::never_over,
    bands::high_and_bands,
    bands::low_and_bands,
    watching::voltages_crossed,
    bands::always_accelerated,
    drive::slow_acceleration,
    drive::fast_or_long,
    drive::worn_at_start,
    drive::sliding_taps,
];

/// All advice on a sheet that is taken, in the order of its slots.
pub fn advice(list: &[u32]) -> Vec<Advice> {
    let mut all: Vec<Advice> = LOOKS.iter().flat_map(|look| look(list)).collect();
    all.sort_by_key(|advice| advice.slot);
    all
}

/// One piece of advice, or none.
fn when(odd: bool, slot: usize, words: impl FnOnce() -> String) -> Vec<Advice> {
    match odd {
        true => vec![Advice { slot, words: words() }],
        false => Vec::new(),
    }
}

/// What a trip does to automatic, by the slot that says it.
fn blocking(list: &[u32], mode: usize, blocked: &str) -> String {
    match is(list, mode, "block") {
        true => blocked.to_string(),
        false => ", though automatic goes on".to_string(),
    }
}

fn out_of_service(list: &[u32]) -> Vec<Advice> {
    let words = || "puts the unit out of service: all its outputs stay off; write XB1 = on".to_string();
    when(is(list, at("XB1"), "off"), at("XB1"), words)
}

fn line_without_impedance(list: &[u32]) -> Vec<Advice> {
    let (r, x) = (at("R_set"), at("X_set"));
    when(is(list, at("XB4"), "RX") && list[r] == 0 && list[x] == 0, at("XB4"), || {
        let (r, x) = (said(list, r), said(list, x));
        format!(
            "takes no drop off with {r} and {x}, and still needs the pairs of U_AB and its current; \
             set R_set and X_set, or write XB4 = off"
        )
    })
}
