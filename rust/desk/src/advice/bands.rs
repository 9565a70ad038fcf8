//! Advice on limits of the voltage and the bands: trips within a band, or that stay there, acceleration that always comes,
//! and a drop of all the voltage.

use super::{blocking, is, said, Advice};
use crate::names::{at, BREAKER_RATING, COMPENSATION, CT_RATING, D_U, MODULE, TABLE, U_SUPP};
use crate::value;

/// An edge of each band, with its U_supp. Half of dU_set is a whole number of mV.
fn edges(list: &[u32], edge: fn(u32, u32) -> u32) -> impl Iterator<Item = (usize, u32)> + '_ {
    (U_SUPP..=at("U_supp4")).map(move |slot| (slot, edge(list[slot], list[D_U] / 2)))
}

/// The bands with an odd edge, `U_supp1 (101 V), U_supp3 (103 V)`, or none.
fn bands(list: &[u32], edge: fn(u32, u32) -> u32, odd: impl Fn(u32) -> bool) -> Option<String> {
    let words: Vec<String> = edges(list, edge)
        .filter(|(_, edge)| odd(*edge))
        .map(|(slot, edge)| format!("{} ({})", TABLE[slot].name, value::text(&TABLE[slot], edge)))
        .collect();
    (!words.is_empty()).then(|| words.join(", "))
}

fn upper(middle: u32, half: u32) -> u32 {
    middle + half
}

fn lower(middle: u32, half: u32) -> u32 {
    middle - half
}

/// A limit of U_AB, with its watch, its delay and the edge of a band that it must lie beyond.
struct Limit {
    slot: usize,
    watch: usize,
    delay: usize,
    edge: fn(u32, u32) -> u32,
    /// Whether a voltage is not beyond an edge.
    is_within: fn(u32, u32) -> bool,
    /// Where it drops out, in twentieths of its number.
    drop_out: u32,
    /// Beyond and back, the edge, what a voltage there is and what is done about it, and a number that goes further.
    words: [&'static str; 6],
}

const HIGH: Limit = Limit {
    slot: at("U_set1"),
    watch: at("XB10"),
    delay: at("T12"),
    edge: upper,
    is_within: |voltage, edge| voltage <= edge,
    drop_out: 19,
    words: ["above", "below", "upper", "high", "lowered", "more"],
};

const LOW: Limit = Limit {
    slot: at("U_set2"),
    watch: at("XB11"),
    delay: at("T13"),
    edge: lower,
    is_within: |voltage, edge| voltage >= edge,
    drop_out: 21,
    words: ["below", "above", "lower", "low", "raised", "less"],
};

impl Limit {
    /// Whether, set to `number`, it stays tripped at an edge.
    fn stays(&self, number: u32, edge: u32) -> bool {
        (self.is_within)(self.drop_out * number, 20 * edge)
    }

    /// The nearest number that drops out beyond the edge of each band.
    fn sound(&self, list: &[u32]) -> u32 {
        let (low, high) = TABLE[self.slot].bounds(list[MODULE]);
        let numbers = (low..=high).step_by(TABLE[self.slot].step as usize);
        let sound = numbers.filter(|number| edges(list, self.edge).all(|(_, edge)| !self.stays(*number, edge)));
        sound.min_by_key(|number| number.abs_diff(list[self.slot])).unwrap_or(list[self.slot])
    }
}

pub fn high_and_bands(list: &[u32]) -> Vec<Advice> {
    limit_and_bands(list, &HIGH)
}

pub fn low_and_bands(list: &[u32]) -> Vec<Advice> {
    limit_and_bands(list, &LOW)
}

/// A limit of U_AB that is watched, and the bands, which go by U_AB itself only without compensation.
fn limit_and_bands(list: &[u32], limit: &Limit) -> Vec<Advice> {
    if !is(list, limit.watch, "on") || !is(list, COMPENSATION, "off") {
        return Vec::new();
    }
    let number = list[limit.slot];
    let trips = bands(list, limit.edge, |edge| (limit.is_within)(number, edge));
    let stays = bands(list, limit.edge, |edge| limit.stays(number, edge)).filter(|_| is(list, at("XB15"), "block"));
    let words = match trips {
        Some(bands) => Some(trips_in_band(list, limit, &bands)),
        None => stays.map(|bands| stays_tripped(list, limit, &bands)),
    };
    words.map(|words| Advice { slot: limit.slot, words }).into_iter().collect()
}

/// Of a limit that is not beyond an edge of these bands.
fn trips_in_band(list: &[u32], limit: &Limit, bands: &str) -> String {
    let [beyond, _, edge, side, ..] = limit.words;
    let (name, watch, delay) = (TABLE[limit.slot].name, TABLE[limit.watch].name, said(list, limit.delay));
    let blocked = blocking(list, at("XB15"), ", and from the trip on automatic is blocked");
    format!(
        "is not {beyond} the {edge} edge of the band of {bands}: a voltage that is only {side} trips after \
         {delay}{blocked}; set {name} {beyond} it, or write {watch} = off"
    )
}

/// Of a limit that drops out only on the other side of an edge of these bands, or at it.
fn stays_tripped(list: &[u32], limit: &Limit, bands: &str) -> String {
    let [beyond, back, edge, side, moved, further] = limit.words;
    let (name, watch) = (TABLE[limit.slot].name, TABLE[limit.watch].name);
    let volts = |number: u32| value::text(&TABLE[limit.slot], number);
    let (percent, end, sound) = (limit.drop_out * 5, volts(list[limit.slot] * limit.drop_out / 20), volts(limit.sound(list)));
    format!(
        "drops out at {percent} %, which is not {beyond} the {edge} edge of the band of {bands}: once it has tripped, automatic \
         stays blocked until U_AB is {back} {end}, so that a voltage that is {side} is not {moved}; \
         set {name} to {sound} or {further}, or write {watch} = off"
    )
}

pub fn always_accelerated(list: &[u32]) -> Vec<Advice> {
    let limit = at("U_set5");
    let told = |bands: String| {
        let t3 = said(list, at("T3"));
        let words = format!(
            "is not above the upper edge of the band of {bands}: every voltage above that edge is lowered after {t3}, \
             and never after T1 or T2; set U_set5 above it"
        );
        Advice { slot: limit, words }
    };
    bands(list, upper, |edge| list[limit] <= edge).map(told).into_iter().collect()
}

/// The drop at the module's rated current, in whole mV as the unit has it; before the division it has at most 30 bits.
pub fn nothing_left(list: &[u32]) -> Vec<Advice> {
    let (slot, ct, breaker) = (at("U_comp"), said(list, CT_RATING), said(list, BREAKER_RATING));
    let drop = list[slot] * list[CT_RATING] / list[BREAKER_RATING];
    let told = |voltages: String| {
        let (drop, rated) = (value::text(&TABLE[slot], drop), said(list, MODULE));
        let words = format!(
            "is a drop of {drop} at {rated}, with {ct} and {breaker}: such a current takes off all of {voltages}; \
             set U_comp lower, or correct Inom_ct1 and Inom_bus1"
        );
        Advice { slot, words }
    };
    let voltages = bands(list, |middle, _| middle, |middle| middle <= drop);
    voltages.filter(|_| is(list, COMPENSATION, "U_comp")).map(told).into_iter().collect()
}
