//! Rule 3: is there a section to regulate?

use crate::input::{bit, Input};
use crate::reading::amp_limit;
use crate::sheet::{module_k, slot, Settings};

/// Breaker closed and, with slot 2, Good I_bus above I_set3.
pub fn present(settings: &Settings, input: &Input) -> bool {
    let loaded = match settings[slot::SECTION_NEEDS_CURRENT] {
        0 => true,
        _ => load_current(settings, input),
    };
    input.contacts.on(bit::BREAKER_CLOSED) && loaded
}

fn load_current(settings: &Settings, input: &Input) -> bool {
    match input.i_bus.good(amp_limit(module_k(settings))) {
        Some(current) => current > settings[slot::I_SET3],
        None => false,
    }
}
