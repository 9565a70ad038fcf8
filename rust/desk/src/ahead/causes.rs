//! What blocks: rule 8's causes, in words. The outputs tell that something is blocked; by what, the contacts, the readings and the
//! sheet tell. A test holds this to the library: a block has a cause here exactly where the unit shows it.

use library::{Brought, FIELDS, HELD, ORGANS};

use crate::cells;
use crate::drive::Way;
use crate::inputs::{bit, is_on, BREAKER, CONTACTS, END_DOWN, END_UP, I_BUS, READINGS, SUPPLY_OFF};
use crate::missing;
use crate::names::{at, rated_amps, MODULE, N_L, N_R, TAP_SOURCE};
use crate::outputs::{RANGE_ERROR, SECTION, SHORT, TAP, TRIPS, WRONG_CODE};
use crate::sheet::{is, is_reversed, needed_readings, said};

/// Contacts that block everything.
const COMMON: [u32; 7] =
    [SUPPLY_OFF, bit("oil_cold"), bit("oil_low"), bit("oil_high"), bit("ext_overcurrent"), bit("ext_block"), bit("local")];
const RAISE: [u32; 2] = [END_UP, bit("ext_raise_block")];
const LOWER: [u32; 2] = [END_DOWN, bit("ext_lower_block")];

/// Organs that watch a current; the others watch a voltage.
const CURRENT_ORGANS: usize = 3;

/// A tick: the sheet, what the tick brought and its outputs.
#[derive(Clone, Copy)]
pub struct Seen<'a> {
    pub list: &'a [u32],
    pub brought: &'a Brought,
    pub outputs: &'a [u32; FIELDS],
}

impl Seen<'_> {
    /// What blocks everything, but for a fault.
    pub fn common(self) -> Vec<String> {
        self.contacts(&COMMON)
    }

    /// What blocks automatic alone.
    pub fn automatic(self) -> Vec<String> {
        let voltage = self.missing_voltage().map(|words| format!("U missing ({words})"));
        let trips = (0..ORGANS).filter_map(|organ| self.trip(organ, mode_of(organ), "block"));
        self.no_section().into_iter().chain(voltage).chain(trips).chain(self.unknown_tap()).collect()
    }

    /// What blocks manual alone.
    pub fn manual(self) -> Vec<String> {
        (0..ORGANS).filter_map(|organ| self.trip(organ, at("XB20"), "on")).collect()
    }

    /// What blocks a way alone.
    pub fn way(self, way: Way) -> Vec<String> {
        let contacts = match way {
            Way::Raise => RAISE,
            Way::Lower => LOWER,
        };
        self.contacts(&contacts).into_iter().chain(self.end_tap(way)).collect()
    }

    fn contacts(self, bits: &[u32]) -> Vec<String> {
        let on = bits.iter().filter(|bit| is_on(self.brought.contacts, **bit));
        on.map(|bit| CONTACTS[*bit as usize].on.trim_start_matches("key: ").to_string()).collect()
    }

    fn is(self, slot: usize, word: &str) -> bool {
        is(self.list, slot, word)
    }

    fn said(self, slot: usize) -> String {
        said(self.list, slot)
    }

    fn no_section(self) -> Option<String> {
        let is_open = !is_on(self.brought.contacts, BREAKER);
        let why = match is_open {
            true => CONTACTS[BREAKER as usize].off.to_string(),
            false => {
                format!("XB3 = on needs a good I_bus above {}, and it is {}", self.said(at("I_set3")), self.reading(I_BUS))
            }
        };
        (self.outputs[SECTION] == 0).then(|| format!("no section ({why})"))
    }

    /// A reading in words, `98.2 V held`.
    fn reading(self, at: usize) -> String {
        cells::with_unit(&cells::reading_text(self.brought.readings[at]), READINGS[at].unit)
    }

    /// Which of the readings that U needs are missing or held.
    pub fn missing_voltage(self) -> Option<String> {
        let words: Vec<String> = needed_readings(self.list).into_iter().filter_map(|at| self.unusable(at)).collect();
        (!words.is_empty()).then(|| words.join(", "))
    }

    fn unusable(self, at: usize) -> Option<String> {
        let (sample, rated) = (self.brought.readings[at], rated_amps(self.list[MODULE]));
        let why = missing::why(at, sample, rated).map(|why| missing::words(why, at, rated));
        let why = why.or((sample.quality == HELD).then(|| "held".to_string()));
        why.map(|why| format!("{} is {why}", READINGS[at].name))
    }

    /// The trip of an organ, where it blocks: by a slot that has this word.
    fn trip(self, organ: usize, slot: usize, word: &str) -> Option<String> {
        let (field, setting) = (TRIPS + organ, self.said(slot));
        (self.outputs[field] == 1 && self.is(slot, word)).then(|| format!("trip of {}, with {setting}", SHORT[field]))
    }

    fn unknown_tap(self) -> Option<String> {
        let blocks = self.is(at("XB16"), "on") && !self.is(TAP_SOURCE, "off") && self.outputs[TAP] == 0;
        let errors = [WRONG_CODE, RANGE_ERROR].into_iter().filter(|field| self.outputs[*field] == 1);
        let errors: String = errors.map(|field| format!(", {}", SHORT[field])).collect();
        blocks.then(|| format!("the tap is not known{errors}, with XB16 = on"))
    }

    /// With XB16 = on, the end that this way comes to.
    fn end_tap(self, way: Way) -> Option<String> {
        let end = if (way == Way::Raise) != is_reversed(self.list) { N_R } else { N_L };
        let is_there = self.is(at("XB16"), "on") && self.outputs[TAP] == self.list[end];
        is_there.then(|| format!("the tap is at its end, {}, with XB16 = on", self.said(end)))
    }
}

/// The slot that says whether a trip of this organ blocks automatic.
fn mode_of(organ: usize) -> usize {
    if organ < CURRENT_ORGANS {
        at("XB14")
    } else {
        at("XB15")
    }
}
