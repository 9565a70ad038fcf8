//! Pictures: the band that is drawn is the library's, and long runs stay small.

mod common;

use common::quiet::texts;
use common::runs::Run;
use common::{check_texts, defaults, Dice};
use desk::band::bands;
use desk::inputs::{with, SWITCHING};
use desk::names::CONTINUOUS;
use desk::outputs::{HIGH, LOW};
use desk::picture::{picture, View};
use desk::play::Source;
use desk::run;
use desk::unit::start;
use library::{Brought, Sample, READINGS};

/// A sheet in service with four different voltages to hold.
fn four_voltages() -> Vec<u32> {
    let mut list = defaults(0);
    list[0] = 1;
    list[19..23].copy_from_slice(&[100_000, 95_000, 110_000, 120_000]);
    list
}

fn tick(volts: f32, contacts: u32) -> Brought {
    let mut brought = Brought { contacts, ..Brought::default() };
    brought.readings[0] = Sample { quality: 0, value: volts };
    brought
}

#[test]
fn the_band_that_is_drawn_is_the_one_the_unit_goes_by() {
    let list = four_voltages();
    for keys in 0..8 {
        let contacts = with(0, 0, true) | keys << 16;
        let band = &bands(&[(1, contacts)], 1, &list)[0];
        for half_volts in 160..280 {
            let volts = half_volts as f32 / 2.0;
            let outputs = start(&list).expect("taken").tick(&tick(volts, contacts)).expect("a tick");
            let low = f64::from(volts) <= band.middle - band.half;
            let high = f64::from(volts) >= band.middle + band.half;
            assert_eq!((outputs[LOW] == 1, outputs[HIGH] == 1), (low, high), "keys {keys}, {volts} V");
        }
    }
}

#[test]
fn a_long_noisy_run_gives_a_small_picture() {
    let mut dice = Dice(5);
    let ticks: Vec<Brought> =
        (0..100_000).map(|_| tick(95.0 + dice.below(1000) as f32 / 100.0, 1 | dice.below(2) << 9)).collect();
    let list = four_voltages();
    let unit = start(&list).expect("taken");
    let history = run::history(unit, Source::Recording(&mut ticks.iter().map(|tick| Ok(*tick)))).expect("a run");
    let text = picture(&history, &list, View::whole("<noise & \"quotes\">", history.ticks));
    assert!(text.len() < 600_000, "{}", text.len());
    assert!(text.contains("<title>&lt;noise &amp; &quot;quotes&quot;&gt;</title>"));
}

#[test]
fn a_run_of_one_tick_and_readings_of_every_kind_can_be_drawn() {
    let list = four_voltages();
    for value in [f32::NAN, f32::INFINITY, -1.0, 0.0, 1e30] {
        for quality in [0, 1, 2] {
            let mut brought = tick(0.0, 1);
            brought.readings = [Sample { quality, value }; READINGS];
            let unit = start(&list).expect("taken");
            let history = run::history(unit, Source::Recording(&mut [Ok(brought)].into_iter())).expect("a run");
            let text = picture(&history, &list, View::whole("one tick", history.ticks));
            assert!(!text.contains("NaN") && !text.contains("inf\""), "{value} {quality}");
        }
    }
}

/// Everything at once.
const CROWDED_SHEET: &str = "\
XB1 = on\n\
XB6 = BCD\n\
XB7 = on\n\
XB8 = on\n\
XB9 = on\n\
XB10 = on\n\
XB11 = on\n\
XB12 = on\n\
XB13 = on\n\
XB18 = on\n\
U_supp2 = 104 V\n\
U_set1 = 107 V\n\
U_set2 = 92 V\n\
U_set5 = 106 V\n\
T1 = 5 s\n\
T2 = 5 s\n\
T9 = 1 s\n\
T10 = 1 s\n\
";

const CROWDED: &str = "\
seconds,U_AB,3U0,U2,I_high,I_bus,I_coupler,breaker,automatic,U_supp2,BCD,oil_cold,drive,drive_step\n\
0,100,1,0.5,0.4,0.8,0.2,1,1,0,,0,ok,1.5\n\
10,98,12,,1.5,1.4,0.3\n\
20,98 held,2,7\n\
30,invalid,,1,0.5\n\
35,99,,,,0.05\n\
50,,,,,0.9,,,,1\n\
80,108,,,,,,,,,0x1a\n\
90,90,,,,,,,,,20,1\n\
100,101,,,,,,,,0\n\
110,,,,,,,0\n\
120,end\n\
";

#[test]
fn a_crowded_picture_can_be_read() {
    let text = drawn(CROWDED_SHEET, CROWDED);
    check_texts("crowded", &text);
    for words in ["U_supp1 100 V", "U_supp2 104 V", "I_set3 0.1 A", "trip: U2 over U_set4", "wrong BCD code", "in: oil_cold"] {
        assert!(text.contains(&format!(">{words}</text>")), "{words}");
    }
}

/// All that lies between two ticks of it, be that little or much.
#[test]
fn each_part_of_a_crowded_picture_can_be_read() {
    let run = Run::of(CROWDED_SHEET, CROWDED);
    for from in (0..24_000).step_by(1700) {
        for ticks in [1, 40, 900, 5000, 24_000] {
            check_texts(&format!("{from} {ticks}"), &run.part(from, (from + ticks).min(24_000)));
        }
    }
}

/// Pairs of all kinds beside their scalars, and U_AB as a pair alone.
const CROWDED_PAIRS: &str = "\
seconds,U_AB_phasor,U2,I_high,I_bus,I_bus_phasor,I_coupler,I_coupler_phasor,breaker,automatic,drive\n\
0,100@30,1,0.2,0.6,0.6@0,0.3,0.3@10,1,1,ok\n\
10,,,1.5,0.8,0.8@-20,,0.3@-170\n\
30,101@30 held,,,,,,invalid\n\
40,invalid,,,,0.9@60\n\
45,100@30,5,,,,0.5,0.5@50\n\
80,end\n\
";

fn drawn(sheet: &str, scenario: &str) -> String {
    Run::of(sheet, scenario).picture()
}

#[test]
fn pairs_are_drawn_by_magnitude_and_angle() {
    let sheet = format!("{CROWDED_SHEET}XB4 = RX\nXB5 = bus+coupler\nR_set = 1.5 ohm\nX_set = 3 ohm\nI_set2 = 0.9 A\n");
    let text = drawn(&sheet, CROWDED_PAIRS);
    check_texts("pairs", &text);
    let words = ["|U_AB|, measured", "|I_bus|", "|I_coupler|", "I_bus", "I_coupler", "ahead of U_AB, °", "90"];
    for words in words {
        assert!(text.contains(&format!(">{words}</text>")), "{words}");
    }
    assert!(!text.contains(">U_AB, measured<"), "U_AB comes as a pair alone");
    assert!(text.contains(" · R_set 1.5 ohm · X_set 3 ohm<"));
}

/// Under a picture by U_comp they stand where they are not equal.
#[test]
fn ratings_are_told_where_they_count() {
    let scenario = "seconds,U_AB,I_bus,breaker,automatic\n0,100,0.5,1,1\n1,end\n";
    let under = |sheet: &str| drawn(&format!("XB1 = on\n{sheet}"), scenario);
    let told = " · U_comp 5 V · Inom_ct1 2000 A · Inom_bus1 1250 A<";
    assert!(under("XB4 = U_comp\nInom_bus1 = 1250 A\n").contains(told));
    for equal in ["", "Inom_ct1 = 1 A\nInom_bus1 = 1 A\n"] {
        assert!(under(&format!("XB4 = U_comp\n{equal}")).contains(" · U_comp 5 V<"), "{equal}");
    }
    for without in ["", "XB4 = RX\n"] {
        assert!(!under(&format!("{without}Inom_bus1 = 1250 A\n")).contains("Inom"), "{without}");
    }
}

#[test]
fn only_what_is_brought_is_drawn_of_the_pairs() {
    let rows = "0,100,100@0,1,1\n1,end\n";
    let both = drawn("XB1 = on\nXB4 = RX\n", &format!("seconds,U_AB,U_AB_phasor,breaker,automatic\n{rows}"));
    assert!(both.contains(">U_AB, measured<") && both.contains(">|U_AB|, measured<"));
    assert!(!both.contains("ahead of U_AB") && !both.contains(">current, A<"));
    let current = drawn("XB1 = on\n", "seconds,U_AB,I_bus_phasor,breaker,automatic\n0,100,1@0,1,1\n1,end\n");
    assert!(current.contains(">U_AB<") && current.contains(">|I_bus|<") && current.contains(">current, A<"));
    assert!(!current.contains("|U_AB|") && !current.contains("ahead of U_AB"));
    let none = drawn("XB1 = on\nXB4 = RX\n", "seconds,U_AB,U_AB_phasor,I_bus_re,breaker\n0,100,0@0,0,1\n1,end\n");
    assert!(!none.contains('|') && !none.contains("ahead of U_AB"));
}

/// A part of a pair beyond its bound is missing to the unit, so the pair has no magnitude.
#[test]
fn a_pair_with_a_missing_part_does_not_stretch_the_axis() {
    let with =
        |amps: &str| drawn("XB1 = on\n", &format!("seconds,U_AB,I_bus_re,breaker\n0,100,0.5,1\n5,,{amps}\n9,,0.5\n10,end\n"));
    let axis = |text: &str| -> Vec<String> {
        let texts = texts(text).into_iter().skip_while(|words| *words != "voltage, V");
        texts.take_while(|words| *words != "current, A").map(str::to_string).collect()
    };
    assert_eq!(axis(&with("41")), axis(&with("invalid")));
    assert_ne!(axis(&with("39")), axis(&with("invalid")));
    assert!(with("41").contains(">missing: I_bus_re</text>") && !with("39").contains(">missing: "));
}

/// The picture of a unit whose switching contact closes, or not, for a sheet with this regulation.
fn picture_of(continuous: u32, closed: bool) -> String {
    let mut list = defaults(0);
    list[CONTINUOUS] = continuous;
    let ticks = [tick(100.0, 1), tick(100.0, with(1, SWITCHING, closed))];
    let unit = start(&list).expect("taken");
    let history = run::history(unit, Source::Recording(&mut ticks.iter().map(|tick| Ok(*tick)))).expect("a run");
    picture(&history, &list, View::whole("contact", history.ticks))
}

#[test]
fn the_contact_has_a_lane_where_the_drive_has_a_contact() {
    for (continuous, closed, lane, input) in
        [(0, false, true, false), (0, true, true, false), (1, false, false, false), (1, true, false, true)]
    {
        let text = picture_of(continuous, closed);
        assert_eq!(text.contains(">switching contact</text>"), lane, "{continuous} {closed}");
        assert_eq!(text.contains(">in: switching</text>"), input, "{continuous} {closed}");
        assert_eq!(text.contains("the switching contact, the tap"), continuous == 0);
        assert_eq!(text.contains("XB2 continuous · "), continuous == 1);
        assert_eq!(text.contains(" · T2 60 s · "), continuous == 0);
        check_texts("contact", &text);
    }
}
