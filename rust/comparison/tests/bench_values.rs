//! The scope paper's bench values that are not proved together, its five 'wrong and inviting' ones, readings beside a half of a
//! thousandth, and compensation by U_comp with its ratings and along R and X, on the proved library; each tick is held to the
//! second program's as well.

use comparison::convert::{brought, image_of};
use library::{start, tick, Image, Outputs, FIELDS};
use reference::dice::Dice;
use reference::input::{bit, Input, READINGS};
use reference::reading::Reading;
use reference::record::{Record, ORGANS};
use reference::sheet::slot;
use reference::values::BASE;

const BREAKER: u32 = 1 << bit::BREAKER_CLOSED;
const CLOSED: u32 = 1 << bit::SWITCHING;
const AUTOMATIC: u32 = 1 << bit::AUTOMATIC;
const RAISE_BUTTON: u32 = 1 << bit::RAISE_BUTTON;

/// A unit, with the second program beside it.
struct Unit {
    image: Image,
    record: Record,
    dice: Dice,
}

impl Unit {
    /// The worked values' sheet with organs off, and these slots set.
    fn new(slots: &[(usize, u32)]) -> Unit {
        let mut sheet = BASE;
        sheet[slot::ORGANS_ON..][..ORGANS].fill(0);
        for &(slot, number) in slots {
            sheet[slot] = number;
        }
        let started = start(&sheet);
        assert_eq!((started.number, started.slot), (0, 0));
        let record = Record::start(&sheet).expect("a sheet that is taken");
        assert_eq!(started.image, image_of(&record));
        Unit { image: started.image, record, dice: Dice::new(1) }
    }

    fn tick(&mut self, input: &Input) -> [u32; FIELDS] {
        let mut outputs = Outputs { fields: [9; FIELDS] };
        assert_eq!(tick(&mut self.image, &brought(input, &mut self.dice), &mut outputs), 0);
        let second = reference::tick::tick(&self.record, input);
        assert_eq!(outputs.fields, second.outputs);
        self.record = second.next;
        assert_eq!(self.image, image_of(&self.record));
        outputs.fields
    }

    /// The outputs of the last of n ticks.
    fn ticks(&mut self, n: u32, input: &Input) -> [u32; FIELDS] {
        let mut last = [0; FIELDS];
        for _ in 0..n {
            last = self.tick(input);
        }
        last
    }
}

/// A tick with this U_AB, the breaker closed, and these contacts.
fn volts(u_ab: f32, contacts: u32) -> Input {
    let input = Input::of([Reading::Invalid; READINGS], BREAKER | contacts, 0, 0);
    Input { u_ab: Reading::Good(u_ab), ..input }
}

/// A raise begun after T1 = 20 low ticks.
fn raised(slots: &[(usize, u32)]) -> Unit {
    let mut unit = Unit::new(slots);
    assert_eq!(unit.ticks(19, &volts(98.0, AUTOMATIC))[0], 0);
    assert_eq!(unit.tick(&volts(98.0, AUTOMATIC))[0], 1);
    unit
}

#[test]
fn t6_of_100_takes_99_for_fast_and_not_100() {
    for (held, fast) in [(99, 1), (100, 0)] {
        let mut unit = raised(&[(slot::T4, 200), (slot::T6, 100)]);
        unit.ticks(held, &volts(98.0, AUTOMATIC | CLOSED));
        assert_eq!(unit.tick(&volts(98.0, AUTOMATIC))[22], fast, "held for {held}");
    }
}

#[test]
fn a_button_held_from_the_first_tick_commands_nothing() {
    let mut unit = Unit::new(&[]);
    for _ in 0..100 {
        assert_eq!(unit.tick(&volts(100.0, RAISE_BUTTON))[0], 0);
    }
    unit.tick(&volts(100.0, 0));
    assert_eq!(unit.tick(&volts(100.0, RAISE_BUTTON))[0], 1);
}

#[test]
fn t7_of_0_is_off_when_the_contact_closes() {
    for (t7, on) in [(0, 0), (1, 1)] {
        let mut unit = raised(&[(slot::T7, t7)]);
        assert_eq!(unit.tick(&volts(98.0, AUTOMATIC))[0], 1);
        assert_eq!(unit.tick(&volts(98.0, AUTOMATIC | CLOSED))[0], on);
        assert_eq!(unit.tick(&volts(98.0, AUTOMATIC | CLOSED))[0], 0);
    }
}

/// The floats on the two sides of a half of a thousandth, as V or A: the first counts as the thousandth below, the second as the one above.
struct Half {
    below: u32,
    above: u32,
}

impl Half {
    /// This output on a tick of each side; `input` makes the tick of a float.
    fn shows(&self, slots: &[(usize, u32)], field: usize, input: impl Fn(f32) -> Input) -> [u32; 2] {
        [self.below, self.above].map(|bits| Unit::new(slots).tick(&input(f32::from_bits(bits)))[field])
    }
}

/// The half below 100,100 mV, which is the band's edge here: 0x42C83333 V, 100.1, counts as the edge.
#[test]
fn a_voltage_counts_as_the_nearest_thousandth() {
    let edge = [(slot::U_SUPP, 99_600), (slot::DU, 1_000)];
    let high = |bits| Unit::new(&edge).tick(&volts(f32::from_bits(bits), AUTOMATIC))[18];
    assert_eq!(high(0x42C8_3333), 1);
    let half = Half { below: 0x42C8_32F1, above: 0x42C8_32F2 };
    assert_eq!(half.shows(&edge, 18, |x| volts(x, AUTOMATIC)), [0, 1]);
}

/// 100,097 mA trips here and 100,096 does not. In floats 0x42C83168 A, 100,096.4966 mA, would be 100,096.5 and so 100,097.
#[test]
fn a_reading_is_not_multiplied_in_floats() {
    let x = f32::from_bits(0x42C8_3168);
    assert_eq!((x * 1_000.0).round(), 100_097.0);
    let slots = [
        (slot::MODULE, 1),
        (slot::I_SET1, 100_096),
        (slot::I_SET2, 5_000),
        (slot::I_SET3, 500),
        (slot::ORGANS_ON, 1),
        (slot::T9, 0),
    ];
    let half = Half { below: 0x42C8_3168, above: 0x42C8_3169 };
    assert_eq!(half.shows(&slots, 6, |x| Input { i_high: Reading::Good(x), ..volts(100.0, AUTOMATIC) }), [0, 1]);
}

/// A Held reading feeds the organs as the nearest thousandth: 120,001 mV is over U_set1, 90,000 mV is not under U_set2.
#[test]
fn a_held_reading_counts_as_the_nearest_thousandth() {
    let organ = |n| [(slot::ORGANS_ON + n, 1), (slot::T9 + n, 0)];
    let held = |x| Input { u_ab: Reading::Held(x), ..volts(0.0, AUTOMATIC) };
    let over = Half { below: 0x42F0_0041, above: 0x42F0_0042 };
    assert_eq!(over.shows(&organ(3), 9, held), [0, 1]);
    let under = Half { below: 0x42B3_FFBE, above: 0x42B3_FFBF };
    assert_eq!(under.shows(&organ(4), 10, held), [1, 0]);
}

/// The section needs more than 100 mA.
#[test]
fn a_current_counts_as_the_nearest_thousandth() {
    let half = Half { below: 0x3DCD_D2F1, above: 0x3DCD_D2F2 };
    let loaded = |x| Input { i_bus: Reading::Good(x), ..volts(100.0, AUTOMATIC) };
    assert_eq!(half.shows(&[(slot::SECTION_NEEDS_CURRENT, 1)], 2, loaded), [0, 1]);
}

#[test]
fn tap_0_matches_no_empty_sliding_slot() {
    let mut unit = raised(&[(slot::T6, 0)]);
    unit.ticks(30, &volts(98.0, AUTOMATIC | CLOSED));
    assert_eq!(unit.tick(&volts(100.0, AUTOMATIC))[24], 0);
    let shown = unit.tick(&volts(100.0, AUTOMATIC | CLOSED));
    assert_eq!((shown[3], shown[19], shown[24]), (0, 1, 0));
}

#[test]
fn a_band_edge_is_outside() {
    let mut unit = Unit::new(&[]);
    assert_eq!(unit.tick(&volts(99.0, AUTOMATIC))[17], 1);
    assert_eq!(unit.tick(&volts(101.0, AUTOMATIC))[18], 1);
}

/// U_comp 5.1 V with a 5 A module, slot 4 taking bus - coupler, and these ratings.
fn by_u_comp(transformer: u32, breaker: u32) -> [(usize, u32); 9] {
    [
        (slot::MODULE, 1),
        (slot::COMPENSATION, 1),
        (slot::COMPENSATION_CURRENT, 2),
        (slot::U_COMP, 5_100),
        (slot::I_SET1, 5_000),
        (slot::I_SET2, 5_000),
        (slot::I_SET3, 500),
        (slot::TRANSFORMER_RATING, transformer),
        (slot::BREAKER_RATING, breaker),
    ]
}

/// Whether U is low where U_AB has these mV and the coupler these mA, and the bus none.
fn is_low(slots: &[(usize, u32)], u_ab: u32, coupler: u32) -> bool {
    let mut input = volts(u_ab as f32 / 1000.0, AUTOMATIC);
    input.i_bus = Reading::Good(0.0);
    input.i_coupler = Reading::Good(coupler as f32 / 1000.0);
    Unit::new(slots).tick(&input)[17] == 1
}

/// I = -3 mA: the drop is -3 mV and not -4, so 98,997 mV comes to the edge, 99,000, and not past it.
#[test]
fn a_negative_drop_is_rounded_toward_zero() {
    for rating in [1, 1_250, 20_000] {
        let equal = by_u_comp(rating, rating);
        assert_eq!([98_997, 98_998].map(|u_ab| is_low(&equal, u_ab, 3)), [true, false], "{rating} A");
    }
}

/// 2,000 A over 1,250 A: -4.896 mV is -4, and not -5 by rounding down or to nearest. -60.384 is -60; divided twice it would be -59.
/// The other way round -1.9125 is -1.
#[test]
fn the_drop_goes_by_the_ratings() {
    let site = by_u_comp(2_000, 1_250);
    assert_eq!([98_996, 98_997].map(|u_ab| is_low(&site, u_ab, 3)), [true, false]);
    assert_eq!([98_940, 98_941].map(|u_ab| is_low(&site, u_ab, 37)), [true, false]);
    let swapped = by_u_comp(1_250, 2_000);
    assert_eq!([98_999, 99_000].map(|u_ab| is_low(&swapped, u_ab, 3)), [true, false]);
}

/// With the largest ratio each mA is 20.4 V: 4 mA of the coupler lift U to 81.6 V, and 5 mA to 102 V. With the smallest one all of
/// 200 A are 10.2 mV.
#[test]
fn ratings_may_be_far_apart() {
    let large = by_u_comp(20_000, 1);
    assert_eq!([4, 5].map(|coupler| is_low(&large, 0, coupler)), [true, false]);
    let small = by_u_comp(1, 20_000);
    assert_eq!([98_990, 98_991].map(|u_ab| is_low(&small, u_ab, 200_000)), [true, false]);
}

/// A tick with U_AB and I_bus as pairs, real and imaginary part, and no other reading.
fn pairs(u_ab: [f32; 2], i_bus: [f32; 2]) -> Input {
    let mut readings = [Reading::Invalid; READINGS];
    for (place, part) in readings[6..10].iter_mut().zip(u_ab.into_iter().chain(i_bus)) {
        *place = Reading::Good(part);
    }
    Input::of(readings, BREAKER | AUTOMATIC, 0, 0)
}

/// Compensation along this R and X, in mΩ.
fn along(r: u32, x: u32) -> [(usize, u32); 3] {
    [(slot::COMPENSATION, 2), (slot::R, r), (slot::X, x)]
}

/// Whether U is missing, low and high on a tick.
fn judged(slots: &[(usize, u32)], input: &Input) -> [u32; 3] {
    let shown = Unit::new(slots).tick(input);
    [shown[13], shown[17], shown[18]]
}

const MISSING: [u32; 3] = [1, 0, 0];
const LOW: [u32; 3] = [0, 1, 0];
const IN_BAND: [u32; 3] = [0, 0, 0];
const HIGH: [u32; 3] = [0, 0, 1];

/// On both sides of 99,000.5 mV, with either sign: 99,000 is the band's edge.
#[test]
fn a_part_counts_by_its_magnitude() {
    let half = Half { below: 0x42C6_0041, above: 0x42C6_0042 };
    for sign in [1.0, -1.0] {
        assert_eq!(half.shows(&along(0, 0), 17, |x| pairs([sign * x, 0.0], [0.0; 2])), [1, 0]);
        assert_eq!(half.shows(&along(0, 0), 17, |x| pairs([-0.0, sign * x], [-0.0; 2])), [1, 0]);
    }
}

#[test]
fn parts_are_missing_past_either_end_of_their_range() {
    let (volts, amps) = (f32::from_bits(0x4348_0001), f32::from_bits(0x4220_0001));
    for sign in [1.0, -1.0] {
        assert_eq!(judged(&along(0, 0), &pairs([sign * 200.0, 0.0], [0.0; 2])), HIGH);
        assert_eq!(judged(&along(0, 0), &pairs([100.0, sign * volts], [0.0; 2])), MISSING);
        assert_eq!(judged(&along(1, 0), &pairs([100.0, 0.0], [0.0, sign * 40.0])), IN_BAND);
        assert_eq!(judged(&along(1, 0), &pairs([100.0, 0.0], [sign * amps, 0.0])), MISSING);
        assert_eq!(judged(&along(1, 0), &pairs([100.0, 0.0], [0.0, sign * f32::INFINITY])), MISSING);
    }
    assert_eq!(judged(&along(0, 0), &pairs([f32::NAN, 100.0], [0.0; 2])), MISSING);
}

/// 1 mΩ and 1 A are 1.732 mV: 1, and the other way -1. 0.4 A in both parts, 0.69 mV each along R and X, are 1.39 together: 1.
#[test]
fn a_drop_is_divided_once_toward_zero() {
    let u = |mv: f32, i_bus: [f32; 2], x: u32| judged(&along(1, x), &pairs([mv / 1_000.0, 0.0], i_bus));
    assert_eq!((u(99_001.0, [1.0, 0.0], 0), u(99_002.0, [1.0, 0.0], 0)), (LOW, IN_BAND));
    assert_eq!((u(98_999.0, [-1.0, 0.0], 0), u(99_000.0, [-1.0, 0.0], 0)), (LOW, IN_BAND));
    assert_eq!((u(99_001.0, [0.4, -0.4], 1), u(99_002.0, [0.4, -0.4], 1)), (LOW, IN_BAND));
    assert_eq!(u(99_001.0, [0.4, -0.4], 0), IN_BAND);
}

/// 99,000² + 444² lies below 99,001², and 99,000² + 445² above it.
#[test]
fn u_is_the_whole_part_of_the_root() {
    for (im, wanted) in [(0.444, LOW), (0.445, IN_BAND)] {
        for u_ab in [[99.0, im], [-99.0, im], [im, -99.0]] {
            assert_eq!(judged(&along(0, 0), &pairs(u_ab, [0.0; 2])), wanted, "{u_ab:?}");
        }
    }
}

/// R 1.5 and X 3 ohm, 0.8 A: 30 degrees behind U_AB, in phase with it, and 40 ahead.
#[test]
fn the_drop_turns_with_the_current() {
    let turned = |i_bus: [f32; 2]| judged(&along(1_500, 3_000), &pairs([100.4, 0.0], i_bus));
    assert_eq!(turned([0.69282, -0.4]), LOW);
    assert_eq!(turned([0.8, 0.0]), LOW);
    assert_eq!(turned([0.75175, 0.27362]), IN_BAND);
    assert_eq!(turned([0.61284, 0.51423]), HIGH);
}

/// A needed part that is Held or Invalid takes U away; U_AB by itself and the pair that slot 4 does not name are not needed.
#[test]
fn only_the_parts_that_slot_4_names_are_needed() {
    let needed: [&[usize]; 4] = [&[6, 7, 8, 9], &[6, 7, 10, 11], &[6, 7, 8, 9, 10, 11], &[6, 7, 8, 9, 10, 11]];
    for (current, needed) in (0..).zip(needed) {
        let slots = [&along(1_500, 3_000)[..], &[(slot::COMPENSATION_CURRENT, current)]].concat();
        for (place, without) in (0..READINGS).flat_map(|at| [Reading::Held(0.0), Reading::Invalid].map(|r| (at, r))) {
            let mut readings = [Reading::Good(0.0); READINGS];
            readings[6] = Reading::Good(100.0);
            readings[place] = without;
            let wanted = if needed.contains(&place) { MISSING } else { IN_BAND };
            let input = Input::of(readings, BREAKER | AUTOMATIC, 0, 0);
            let input = Input { u_ab: if place == 0 { without } else { Reading::Good(150.0) }, ..input };
            assert_eq!(judged(&slots, &input), wanted, "slot 4 is {current}, reading {place}");
        }
    }
}

/// The organs go by U_AB itself, the band and T3 by the pair.
#[test]
fn organs_stay_with_the_scalar_and_t3_goes_by_the_pair() {
    let watched = [(slot::ORGANS_ON + 3, 1), (slot::T9 + 3, 0), (slot::VOLTAGE_ORGANS_PASS, 1)];
    let delays = [(slot::T1, 40), (slot::T3, 20)];
    let slots = [&along(0, 0)[..], &watched, &delays].concat();
    let input = Input { u_ab: Reading::Good(130.0), ..pairs([100.0, 0.0], [0.0; 2]) };
    let shown = Unit::new(&slots).tick(&input);
    assert_eq!((shown[9], shown[17], shown[18]), (1, 0, 0));
    for (u_ab, lowered) in [([110.0, 0.1], 0), ([0.0, -110.001], 1)] {
        let input = Input { u_ab: Reading::Good(100.0), ..pairs(u_ab, [0.0; 2]) };
        assert_eq!(Unit::new(&slots).ticks(20, &input)[1], lowered, "{u_ab:?}");
    }
}

#[test]
fn no_run_away_after_long_while_the_contact_is_closed() {
    let mut unit = raised(&[(slot::T4, 20)]);
    assert_eq!(unit.ticks(20, &volts(98.0, AUTOMATIC | CLOSED))[21], 0);
    for _ in 0..50 {
        let shown = unit.tick(&volts(98.0, AUTOMATIC | CLOSED));
        assert_eq!((shown[19], shown[21], shown[24]), (0, 1, 0));
    }
}
