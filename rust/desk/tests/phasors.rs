//! Pairs: cells, columns, recordings, the drive that moves one, and a run along R and X.

mod common;

use common::{defaults, file, recorded, to_csv};
use desk::columns;
use desk::inputs::{I_BUS_PAIR, I_COUPLER_PAIR, PAIRS, READINGS, SCALARS, U_AB, U_AB_PAIR};
use desk::names::{COMPENSATION, COMPENSATION_CURRENT};
use desk::outputs::{HIGH, LOW, LOWER, RAISE};
use desk::phasor::{ahead, lengthened, magnitude};
use desk::play::{Player, Source};
use desk::run::{self, History};
use desk::sheet::{self, needed_pairs};
use desk::unit::start;
use desk::{cells, recording, scenario};
use library::{Brought, Sample, FIELDS, GOOD, HELD, INVALID};

fn good(value: f32) -> Sample {
    Sample { quality: GOOD, value }
}

fn pair(text: &str) -> [Sample; 2] {
    cells::phasor(text).unwrap_or_else(|words| panic!("{words}"))
}

fn ticks(text: &str) -> Vec<Brought> {
    let scenario = scenario::read(&file(text)).expect("a good scenario");
    let mut source = Source::Scenario(Player::new(&scenario));
    (1..=scenario.ticks).map(|tick| source.bring(tick, &[0; FIELDS]).expect("a scenario").expect("a tick")).collect()
}

/// The same but for the last bits of the floats, far below a mV.
fn near(a: [Sample; 2], b: [Sample; 2]) -> bool {
    a.iter().zip(b).all(|(a, b)| a.quality == b.quality && (a.value - b.value).abs() < 0.000_02)
}

/// The twelve numbers of a tick.
fn values(tick: &Brought) -> [f32; 12] {
    tick.readings.map(|sample| sample.value)
}

#[test]
fn the_pairs_come_after_the_readings() {
    let names: Vec<&str> = READINGS.iter().map(|reading| reading.name).collect();
    let parts = ["U_AB_re", "U_AB_im", "I_bus_re", "I_bus_im", "I_coupler_re", "I_coupler_im"];
    assert_eq!((SCALARS, &names[SCALARS..]), (6, &parts[..]));
    for (at, pair) in PAIRS.iter().enumerate() {
        assert_eq!(pair.parts, [SCALARS + 2 * at, SCALARS + 2 * at + 1], "{}", pair.name);
        assert_eq!(pair.phasor, format!("{}_phasor", pair.name));
        let unit = READINGS.iter().find(|reading| reading.name == pair.name).expect("its scalar").unit;
        assert!(pair.parts.iter().all(|part| READINGS[*part].unit == unit), "{}", pair.name);
    }
    assert_eq!([U_AB_PAIR, I_BUS_PAIR, I_COUPLER_PAIR].map(|at| PAIRS[at].name), ["U_AB", "I_bus", "I_coupler"]);
}

#[test]
fn parts_have_signs_and_marks() {
    let head = "ticks,U_AB_re,U_AB_im,I_bus_re,I_bus_im,I_coupler_re,I_coupler_im";
    let tick = ticks(&format!("{head}\n0,-86.6,-50 held,invalid,-0.4,-0,nan\n1,end"))[0];
    assert_eq!(values(&tick)[6..11], [-86.6, -50.0, 0.0, -0.4, 0.0]);
    assert!(tick.readings[10].value.is_sign_negative() && tick.readings[11].value.is_nan());
    assert_eq!(tick.readings.map(|sample| sample.quality)[6..], [GOOD, HELD, INVALID, GOOD, GOOD, GOOD]);
    assert_eq!(tick.readings[..6], [Sample::default(); 6]);
}

#[test]
fn a_phasor_is_a_magnitude_and_degrees() {
    for (text, re, im) in [
        ("0.8@-30", 0.692_82, -0.4),
        ("0.8 @ -30", 0.692_82, -0.4),
        ("0.8@330", 0.692_82, -0.4),
        ("100@0", 100.0, 0.0),
        ("100@90", 0.0, 100.0),
        ("100@-90", 0.0, -100.0),
        ("100@180", -100.0, 0.0),
        ("100@-180", -100.0, 0.0),
        ("100@450", 0.0, 100.0),
        ("0@17", 0.0, 0.0),
        ("100.5@60", 50.25, 87.035_55),
        ("1e1@0.0", 10.0, 0.0),
        ("300@0", 300.0, 0.0),
    ] {
        assert_eq!(pair(text), [good(re), good(im)], "{text}");
    }
    assert_eq!(pair("0.8@-30 held"), pair("0.8@-30").map(|part| Sample { quality: HELD, ..part }));
    assert_eq!(pair("invalid"), [Sample { quality: INVALID, value: 0.0 }; 2]);
}

#[test]
fn what_is_no_phasor_is_told() {
    for text in ["", "0.8", "@", "0.8@", "@30", "-0.8@30", "a@30", "0.8@b", "nan@0", "1@inf", "1@2@3", "held", "0.8@-30°"] {
        let told = cells::phasor(text).expect_err(text);
        assert_eq!(
            told,
            format!("`{text}` is no phasor: a magnitude from 0 on and degrees, 0.8@-30 or 0.8@-30 held, or invalid")
        );
    }
}

#[test]
fn a_phasors_column_stands_for_both_parts() {
    let by_phasor = ticks("ticks,I_bus_phasor,U_AB_phasor\n0,0.5@0,100@90 held\n1,invalid\n2,0.4@180,\n3,end");
    let by_parts =
        ticks("ticks,I_bus_re,I_bus_im,U_AB_re,U_AB_im\n0,0.5,0,0 held,100 held\n1,invalid,invalid\n2,-0.4,0\n3,end");
    assert_eq!(by_phasor, by_parts);
    assert_eq!(ticks("ticks,I_coupler_re\n0,-7\n1,end")[0].readings[10..], [good(-7.0), good(0.0)]);
}

/// A number of its own for each part, from the table of the format.
#[test]
fn a_recorded_tick_has_66_bytes_with_twelve_readings_in_their_order() {
    let head = READINGS.iter().fold("ticks".to_string(), |head, reading| format!("{head},{}", reading.name));
    let tick = ticks(&format!("{head},BCD,sensor\n0,1,2,3,4,5,6,-7,8 held,-9,10,invalid,-12,24,13\n1,end"))[0];
    let mut bytes_ = Vec::new();
    bytes_.extend(recording::bytes(&tick));
    assert_eq!((bytes_.len(), recording::BYTES), (66, 66));
    let reading = |at: usize| (bytes_[5 * at], f32::from_le_bytes(bytes_[5 * at + 1..][..4].try_into().expect("4 bytes")));
    let wanted = [1.0, 2.0, 3.0, 4.0, 5.0, 6.0, -7.0, 8.0, -9.0, 10.0, 0.0, -12.0];
    for (at, value) in wanted.into_iter().enumerate() {
        let quality = match at {
            7 => 1,
            10 => 2,
            _ => 0,
        };
        assert_eq!(reading(at), (quality, value), "{}", READINGS[at].name);
    }
    assert_eq!(bytes_[60..], [0, 0, 0, 0, 0x24, 13]);
    assert_eq!(recorded(bytes_.clone()).expect("its own bytes"), [tick]);
    let bad = [&bytes_[..55], &[3][..], &bytes_[56..]].concat();
    let told = recorded(bad).expect_err("a bad quality byte");
    assert_eq!(told, ["file: tick 1: I_coupler_im has the quality byte 3: 0 Good, 1 Held, 2 Invalid"]);
}

#[test]
fn a_recording_shows_the_pairs_that_it_has() {
    let plain = "seconds,U_AB,3U0,U2,I_high,I_bus,I_coupler";
    let shown = |text: &str| to_csv(&ticks(text)).lines().next().expect("a head").to_string();
    assert_eq!(shown("ticks,U_AB,I_bus_phasor\n0,100,0@30\n1,end"), plain);
    assert_eq!(shown("ticks,I_bus_phasor\n0,0.8@90\n1,end"), format!("{plain},I_bus_re,I_bus_im"));
    assert_eq!(shown("ticks,U_AB_im\n0,-0\n1,end"), format!("{plain},U_AB_re,U_AB_im"));
    assert_eq!(shown("ticks,I_coupler_phasor\n0,0@0\n1,0@0 held\n2,end"), format!("{plain},I_coupler_re,I_coupler_im"));
    let csv = to_csv(&ticks("ticks,U_AB_phasor\n0,100@-90\n1,invalid\n2,end"));
    assert_eq!(csv, format!("{plain},U_AB_re,U_AB_im\n0,0,0,0,0,0,0,0,-100\n0.005,,,,,,,invalid,invalid\n0.01,end\n"));
}

#[test]
fn a_longer_pair_keeps_its_angle() {
    assert!(near(lengthened(pair("100@-30"), 1.5), pair("101.5@-30")));
    assert_eq!(lengthened(pair("100@90 held"), -100.5), pair("0@0 held"));
    let odd = [good(f32::NAN), good(1.0)];
    for same in [pair("0@0"), pair("invalid"), odd, [Sample { quality: INVALID, value: 0.0 }, good(1.0)]] {
        assert_eq!(lengthened(same, 1.5), same);
    }
    assert_eq!(lengthened(pair("99.123@17"), 0.0), pair("99.123@17"));
}

#[test]
fn a_pair_has_a_magnitude_and_an_angle_to_another() {
    assert_eq!(magnitude([good(-3.0), Sample { quality: HELD, value: 4.0 }]), Sample { quality: HELD, value: 5.0 });
    for (text, of, degrees) in [
        ("1@0", "100@30", -30.0),
        ("1@60", "100@30", 30.0),
        ("1@170", "100@-170", -20.0),
        ("1@-170", "100@170", 20.0),
        ("1@90", "100@-90", 180.0),
        ("1@-90", "100@90", 180.0),
    ] {
        let Sample { quality, value } = ahead(pair(text), pair(of));
        assert!(quality == GOOD && (value - degrees).abs() < 0.001, "{text} {of}: {value}");
    }
    assert_eq!(ahead(pair("1@0 held"), pair("1@0")).quality, HELD);
    for none in ["0@0", "invalid"] {
        assert_eq!(ahead(pair("1@0"), pair(none)).quality, INVALID);
        assert_eq!(ahead(pair(none), pair("1@0")).quality, INVALID);
    }
}

/// The last tick of a scenario whose drive is told to raise, or to lower, by one tap of 1.5 V from tap 9.
fn after_a_tap(command: usize, columns: &str, cells: &str) -> Brought {
    let text =
        format!("seconds,drive,drive_start,drive_run,drive_tap,drive_step,{columns}\n0,ok,0.01,0.02,9,1.5,{cells}\n0.1,end");
    let scenario = scenario::read(&file(&text)).expect("a good scenario");
    let mut source = Source::Scenario(Player::with_drive(&scenario, &defaults(0)));
    let mut outputs = [0; FIELDS];
    outputs[command] = 1;
    (1..=scenario.ticks).map(|tick| source.bring(tick, &outputs).expect("a scenario").expect("a tick")).last().expect("ticks")
}

#[test]
fn the_drive_moves_u_abs_pair_with_the_scalar() {
    for (command, volts) in [(RAISE, "101.5"), (LOWER, "98.5")] {
        let tick = after_a_tap(command, "U_AB,U_AB_phasor,I_bus_phasor", "100,100@-30,0.8@10");
        assert_eq!(tick.readings[U_AB], good(volts.parse().expect("a number")));
        assert!(near(columns::pair(&tick, U_AB_PAIR), pair(&format!("{volts}@-30"))), "{tick:?}");
        assert_eq!(columns::pair(&tick, I_BUS_PAIR), pair("0.8@10"), "a current stays");
    }
    let parts = after_a_tap(RAISE, "U_AB_re,U_AB_im", "-60,80 held");
    assert_eq!(columns::pair(&parts, U_AB_PAIR), [good(-60.9), Sample { quality: HELD, value: 81.2 }]);
}

#[test]
fn the_drive_moves_what_the_scenario_gives() {
    let scalar = after_a_tap(RAISE, "U_AB", "100");
    assert_eq!((scalar.readings[U_AB], columns::pair(&scalar, U_AB_PAIR)), (good(101.5), pair("0@0")));
    let alone = after_a_tap(RAISE, "U_AB_phasor", "100@0");
    assert_eq!((alone.readings[U_AB], columns::pair(&alone, U_AB_PAIR)), (good(0.0), pair("101.5@0")));
    let neither = after_a_tap(RAISE, "I_bus", "1");
    assert_eq!((neither.readings[U_AB], columns::pair(&neither, U_AB_PAIR)), (good(0.0), pair("0@0")));
    assert_eq!(columns::pair(&after_a_tap(RAISE, "U_AB_phasor", "invalid"), U_AB_PAIR), pair("invalid"));
}

#[test]
fn a_sheet_needs_the_pairs_that_xb4_and_xb5_name() {
    let needed = |compensation: u32, current: u32| {
        let mut list = defaults(0);
        (list[COMPENSATION], list[COMPENSATION_CURRENT]) = (compensation, current);
        needed_pairs(&list).iter().map(|pair| PAIRS[*pair].name).collect::<Vec<_>>()
    };
    for current in 0..4 {
        assert!(needed(0, current).is_empty() && needed(1, current).is_empty());
    }
    assert_eq!(needed(2, 0), ["U_AB", "I_bus"]);
    assert_eq!(needed(2, 1), ["U_AB", "I_coupler"]);
    assert_eq!(needed(2, 2), ["U_AB", "I_bus", "I_coupler"]);
    assert_eq!(needed(2, 3), ["U_AB", "I_bus", "I_coupler"]);
}

/// What is needed by the unit's own word: without it the voltage is neither low nor high.
#[test]
fn the_unit_misses_the_needed_pairs_and_no_other() {
    for current in 0..4 {
        let mut list = defaults(0);
        (list[0], list[COMPENSATION], list[COMPENSATION_CURRENT]) = (1, 2, current);
        let needed = needed_pairs(&list);
        for (part, reading) in READINGS.iter().enumerate().skip(SCALARS) {
            let mut brought = Brought { contacts: 1, ..Brought::default() };
            brought.readings[U_AB].quality = INVALID;
            let low = |brought: &Brought| start(&list).expect("taken").tick(brought).expect("a tick")[LOW] == 1;
            assert!(low(&brought), "0 V is low");
            for quality in [HELD, INVALID] {
                brought.readings[part].quality = quality;
                let is_needed = needed.iter().any(|pair| PAIRS[*pair].parts.contains(&part));
                assert_eq!(low(&brought), !is_needed, "XB5 {current}, {}", reading.name);
            }
        }
    }
}

/// A run along R_set 1.5 and X_set 3 ohm, with T1 1 s and a tap of 1.5 V.
fn along_rx(sheet: &str, head: &str, rows: &str) -> History {
    let sheet = format!("XB1 = on\nXB4 = RX\nR_set = 1.5 ohm\nX_set = 3 ohm\nT1 = 1 s\nT2 = 1 s\n{sheet}");
    let list = sheet::read(&file(&sheet)).expect("a sheet").list;
    let scenario = scenario::read(&file(&format!("seconds,breaker,automatic,drive,{head}\n{rows}"))).expect("a scenario");
    let source = Source::Scenario(Player::with_drive(&scenario, &list));
    run::history(start(&list).expect("taken"), source).expect("a run")
}

#[test]
fn the_drop_goes_by_the_angle() {
    let side = |degrees: &str| {
        let rows = format!("0,1,1,ok,100.4@0,0.8@{degrees}\n0.5,end");
        let history = along_rx("", "U_AB_phasor,I_bus_phasor", &rows);
        (history.outputs[LOW][0].1, history.outputs[HIGH][0].1)
    };
    assert_eq!(side("-30"), (1, 0), "3.84 V less");
    assert_eq!(side("20"), (0, 0), "0.42 V less");
    assert_eq!(side("40"), (0, 1), "1.18 V more");
    assert_eq!(side("0"), (1, 0), "1.99 V less");
}

#[test]
fn both_kinds_of_drive_bring_the_far_end_into_the_band() {
    for kind in ["impulse", "continuous"] {
        let history =
            along_rx(&format!("XB2 = {kind}"), "U_AB,U_AB_phasor,I_bus_phasor", "0,1,1,ok,100.4,100.4@70,0.8@40\n30,end");
        assert_eq!(history.outputs[LOW].last().map(|(_, low)| *low), Some(0), "{kind}");
        assert_eq!(history.readings[U_AB].last().map(|(_, sample)| sample.value), Some(103.4), "two taps, {kind}");
        let moved = PAIRS[U_AB_PAIR].parts.map(|part| history.readings[part].last().expect("a sample").1);
        assert!(near(moved, pair("103.4@70")), "{kind}");
    }
}
