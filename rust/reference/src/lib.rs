//! A transformer tap-changer voltage regulator: the rules of one tick.
//!
//! The rules and their numbers are those of the scope paper ("What to make,
//! and the rules of one tick"), changed by ticket 1, "Readings to the nearest
//! thousandth", ticket 2, "Drives without a switching contact", ticket 3,
//! "Compensation along the line's impedance", ticket 4, "The reading tested in
//! another order of work", ticket 5, "The breaker's own rating", ticket 6, "A
//! press while the drive runs", ticket 7, "Panel and dispatcher apart", ticket 8,
//! "When would it move?", and ticket 9, "A journal of changes". A tick is 5 ms.
//! Delays count ticks, voltages are in mV, currents in mA, R and X in mΩ, primary
//! ratings in A.
//!
//! * [`sheet::check`] takes or refuses a setting sheet,
//! * [`tick::tick`] advances a record by one tick and gives its outputs,
//! * [`ahead::ahead`] says on which tick the first command would begin,
//! * [`journal::changes`] records the changes of the outputs, [`journal::write`]
//!   and [`journal::read`] turn a journal into its text and back.

#![forbid(unsafe_code)]

pub mod ahead;
pub mod blocks;
pub mod buttons;
pub mod command;
pub mod continuous;
pub mod dice;
pub mod drive;
pub mod feeder;
pub mod floats;
pub mod front;
pub mod input;
pub mod journal;
pub mod line;
pub mod make;
pub mod make_sheet;
pub mod motor;
pub mod near_journal;
pub mod operator;
pub mod organs;
pub mod phasor;
pub mod plant;
pub mod reading;
pub mod record;
pub mod recording;
pub mod replay;
pub mod scene;
pub mod section;
pub mod sheet;
pub mod stretch;
pub mod tap;
pub mod tick;
pub mod values;
pub mod voltage;
