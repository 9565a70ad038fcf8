//! Advice on sheets that are taken: each at its edge, both sides, and what it says of the unit held to the unit.

mod common;

use std::fs;

use common::{avr, bytes, defaults, examples, file, out, Folder};
use desk::advice::{advice, Advice};
use desk::names::TABLE;
use desk::outputs::{at as field, FAULTS};
use desk::play::{Player, Source};
use desk::run::{self, History};
use desk::unit::start;
use desk::{scenario, sheet};
use library::SLOTS;

/// The advice on a text in service, each with its setting's name.
fn advised(text: &str) -> Vec<String> {
    let list = sheet::read(&file(&format!("XB1 = on\n{text}"))).expect("a sheet").list;
    advice(&list).into_iter().map(|Advice { slot, words }| format!("{} {words}", TABLE[slot].name)).collect()
}

/// The one piece of advice on a text.
fn one(text: &str) -> String {
    let told = advised(text);
    assert_eq!(told.len(), 1, "{text}: {told:?}");
    told[0].clone()
}

/// A sheet that gets one piece of advice, which begins so, and one beside it that gets none.
const EDGES: [(&str, &str, &str); 47] = [
    ("U_set5 = 101 V", "U_set5 = 101.1 V", "U_set5 is not above the upper edge of the band of U_supp1 (101 V), U_supp2 (101 V), U_supp3 (101 V), U_supp4 (101 V): every voltage above that edge is lowered after T3 = 20 s, and never after T1 or T2; set U_set5 above it"),
    ("U_supp3 = 109 V", "U_supp3 = 108.9 V", "U_set5 is not above the upper edge of the band of U_supp3 (110 V): "),
    ("U_supp1 = 109 V\ndU_set = 2.1 V", "U_supp1 = 108.9 V\ndU_set = 2.1 V", "U_set5 is not above the upper edge of the band of U_supp1 (110.05 V): "),
    ("XB10 = on\nU_set1 = 101 V\nXB15 = stabilise", "XB10 = on\nU_set1 = 101.1 V\nXB15 = stabilise", "U_set1 is not above the upper edge of the band of U_supp1 (101 V), "),
    ("XB10 = on\nU_set1 = 101 V", "XB10 = off\nU_set1 = 101 V", "U_set1 is not above"),
    ("XB10 = on\nU_set1 = 101 V", "XB10 = on\nU_set1 = 101 V\nXB4 = U_comp", "U_set1 is not above"),
    ("XB10 = on\nU_set1 = 106.3 V", "XB10 = on\nU_set1 = 106.4 V", "U_set1 drops out at 95 %, which is not above the upper edge of the band of U_supp1 (101 V), "),
    ("XB10 = on\nU_set1 = 120 V\nU_supp2 = 113 V\nU_set5 = 130 V", "XB10 = on\nU_set1 = 120.1 V\nU_supp2 = 113 V\nU_set5 = 130 V", "U_set1 drops out at 95 %, which is not above the upper edge of the band of U_supp2 (114 V): once it has tripped, automatic stays blocked until U_AB is below 114 V, so that a voltage that is high is not lowered; set U_set1 to 120.1 V or more, or write XB10 = off"),
    ("XB11 = on\nU_set2 = 99 V\nXB15 = stabilise", "XB11 = on\nU_set2 = 98.9 V\nXB15 = stabilise", "U_set2 is not below the lower edge of the band of U_supp1 (99 V), "),
    ("XB11 = on\nU_set2 = 99 V", "XB11 = off\nU_set2 = 99 V", "U_set2 is not below"),
    ("XB11 = on\nU_set2 = 99 V", "XB11 = on\nU_set2 = 99 V\nXB4 = U_comp", "U_set2 is not below"),
    ("XB11 = on\nU_supp2 = 81 V", "XB11 = on\nU_supp2 = 85.1 V", "U_set2 is not below the lower edge of the band of U_supp2 (80 V): a voltage that is only low trips after T13 = 0.05 s, and from the trip on automatic is blocked; set U_set2 below it, or write XB11 = off"),
    ("XB11 = on\nU_supp2 = 85 V", "XB11 = on\nU_supp2 = 85.1 V", "U_set2 drops out at 105 %, which is not below the lower edge of the band of U_supp2 (84 V): once it has tripped, automatic stays blocked until U_AB is above 84 V, so that a voltage that is low is not raised; set U_set2 to 79.9 V or less, or write XB11 = off"),
    ("XB11 = on\nU_set2 = 94.3 V", "XB11 = on\nU_set2 = 94.2 V", "U_set2 drops out at 105 %, which is not below the lower edge of the band of U_supp1 (99 V), "),
    ("XB11 = on\nU_set2 = 98 V", "XB11 = on\nU_set2 = 98 V\nXB4 = RX\nR_set = 1 ohm", "U_set2 drops out at 105 %"),
    ("T6 = 15.005 s", "T6 = 14.995 s", "T6 is above T4 = 15 s: each commanded move is a fault, 'fast' up to T4 and 'long' beyond; set T6 below T4"),
    ("T6 = 15 s", "T6 = 14.995 s", "T6 is as long as T4: a commanded move that does not last just so long is a fault, 'fast' if it is shorter and 'long' if it is longer; set T6 below T4"),
    ("T6 = 20 s", "T6 = 20 s\nXB2 = continuous", "T6 is above T4"),
    ("T3 = 60.005 s", "T3 = 60 s", "T3 is longer than T2 = 60 s: a voltage above U_set5 = 110 V waits longer for its repeated lower than one that is only high; set T3 below T2"),
    ("T3 = 120.005 s", "T3 = 120 s\nT2 = 120 s", "T3 is longer than T1 = 120 s and T2 = 60 s: a voltage above U_set5 = 110 V waits longer for its lower than one that is only high; set T3 below T1 and T2"),
    ("XB2 = continuous\nT3 = 120.005 s", "XB2 = continuous\nT3 = 120 s", "T3 is longer than T1 = 120 s: a voltage above U_set5 = 110 V waits longer for its lower than one that is only high; set T3 below T1"),
    ("T1 = 19.995 s", "T1 = 20 s", "T3 is longer than T1 = 19.995 s: a voltage above U_set5 = 110 V waits longer for its first lower than "),
    ("T2 = 19.995 s", "T2 = 20 s", "T3 is longer than T2 = 19.995 s: "),
    ("XB6 = BCD\nN_R = 29\nN3 = 30", "XB6 = BCD\nN_R = 30\nN3 = 30", "N3 is outside N_L = 1 to N_R = 29, where the tap never is, and has no part; correct it, or write N3 = empty"),
    ("XB6 = BCD\nN_L = 4\nN10 = 3", "XB6 = BCD\nN_L = 3\nN10 = 3", "N10 is outside N_L = 4 to N_R = 40, "),
    ("XB6 = BCD\nN1 = 9\nN7 = 9", "XB6 = BCD\nN1 = 9\nN7 = 10", "N7 is the tap of N1 too, and has no part; write N7 = empty"),
    ("XB6 = off\nN4 = 9\nN5 = 9", "XB6 = sensor\nN4 = 9", "N4 has no part with XB6 = off: no tap is known, and a drive that goes on by itself is a run-away; "),
    ("XB2 = continuous\nN4 = 9\nN5 = 9", "XB2 = impulse\nXB6 = counted\nN4 = 9", "N4 has no part with XB2 = continuous, where no contact tells of a move; leave N1 to N10 empty"),
    ("XB16 = on\nXB6 = off", "XB16 = on\nXB6 = BCD", "XB16 has no part with XB6 = off: no tap is known, so no end is either, and only the contacts end_up and end_down block there; "),
    ("XB4 = RX", "XB4 = RX\nR_set = 0.001 ohm", "XB4 takes no drop off with R_set = 0 ohm and X_set = 0 ohm, "),
    ("XB4 = RX", "XB4 = RX\nX_set = 0.001 ohm", "XB4 takes no drop off"),
    ("XB8 = on\nXB9 = on\nI_set3 = 1.001 A", "XB8 = on\nXB9 = on\nI_set3 = 1 A", "I_set3 is above I_set2 = 1 A: any reading is over the one or under the other, so that one trips and blocks automatic; set I_set3 below I_set2"),
    ("XB4 = U_comp\nU_comp = 40 V\nInom_bus1 = 800 A", "XB4 = U_comp\nU_comp = 40 V\nInom_bus1 = 801 A", "U_comp is a drop of 100 V at I_nom = 1 A, with Inom_ct1 = 2000 A and Inom_bus1 = 800 A: such a current takes off all of U_supp1 (100 V), U_supp2 (100 V), U_supp3 (100 V), U_supp4 (100 V); set U_comp lower, or correct Inom_ct1 and Inom_bus1"),
    ("XB4 = U_comp\nInom_bus1 = 110 A\nU_supp3 = 90.9 V", "XB4 = U_comp\nInom_bus1 = 110 A\nU_supp3 = 91 V", "U_comp is a drop of 90.909 V at I_nom = 1 A, with Inom_ct1 = 2000 A and Inom_bus1 = 110 A: such a current takes off all of U_supp3 (90.9 V); "),
    ("XB4 = U_comp\nInom_ct1 = 20 kA\nInom_bus1 = 1 A", "XB4 = off\nInom_ct1 = 20 kA\nInom_bus1 = 1 A", "U_comp is a drop of 100000 V at I_nom"),
    ("XB3 = on\nXB8 = on\nI_set3 = 1 A", "XB3 = on\nXB8 = on\nI_set3 = 0.999 A", "I_set3 is not below I_set2 = 1 A: with XB3 = on there is a section only where I_bus is above I_set3, and there it is over I_set2, so that it trips after T10 = 9 s and blocks automatic; set I_set3 below I_set2, or write XB3 = off or XB8 = off"),
    ("XB3 = on\nXB8 = on\nI_set3 = 1 A", "XB3 = on\nI_set3 = 1 A", "I_set3 is not below I_set2"),
    ("XB3 = on\nXB8 = on\nXB14 = stabilise\nI_set3 = 2 A", "XB8 = on\nI_set3 = 2 A", "I_set3 is not below I_set2 = 1 A: with XB3 = on there is a section only where I_bus is above I_set3, and there it is over I_set2, so that it trips after T10 = 9 s, though automatic goes on; "),
    ("XB8 = on\nXB9 = on\nI_set3 = 2 A", "XB8 = on\nI_set3 = 2 A", "I_set3 is above I_set2"),
    ("XB8 = on\nXB9 = on\nI_set3 = 2 A", "XB9 = on\nI_set3 = 2 A", "I_set3 is above I_set2"),
    ("XB14 = stabilise\nXB8 = on\nXB9 = on\nI_set3 = 2 A", "XB8 = on\nXB9 = on\nI_set3 = 0.9 A", "I_set3 is above I_set2 = 1 A: any reading is over the one or under the other, so that one trips, though automatic goes on; "),
    ("XB18 = on\nN_start = 50000", "XB18 = on\nN_start = 49999", "N_start is not below N_max = 50000: the drive is told as worn from the start; "),
    ("XB18 = on\nN_start = 60000", "XB18 = off\nN_start = 60000", "N_start is not below"),
    ("XB3 = on\nXB9 = on", "XB3 = on", "XB9 never trips with XB3 = on: where I_bus is under I_set3 there is no section, and nothing is watched; "),
    ("XB7 = on\nI_set1 = 40 A", "XB7 = on\nI_set1 = 39.999 A", "I_set1 is the largest reading that counts, and one above it is missing: what XB7 watches never trips; "),
    ("I_nom = 5 A\nXB8 = on\nI_set2 = 200 A", "I_nom = 5 A\nXB8 = on\nI_set2 = 40 A", "I_set2 is the largest reading that counts, "),
    ("XB10 = on\nU_set1 = 200 V", "XB10 = on\nU_set1 = 199.9 V", "U_set1 is the largest reading that counts, "),
];

#[test]
fn each_advice_has_its_edge() {
    for (odd, sound, words) in EDGES {
        let told = one(odd);
        assert!(told.starts_with(words), "{told}");
        assert!(told.contains("; set ") || told.contains("write ") || told.contains(" leave "), "{told}");
        assert_eq!(advised(sound), Vec::<String>::new(), "{sound}");
    }
}

#[test]
fn voltage_limits_that_cross_are_told() {
    let sheet = |low: &str, mode: &str| format!("XB10 = on\nXB11 = on\nU_set1 = 90 V\nU_set2 = {low}\nXB15 = {mode}");
    let of_low = |text: &str| advised(text).into_iter().filter(|words| words.starts_with("U_set2 ")).collect::<Vec<_>>();
    let words = "U_set2 is above U_set1 = 90 V: any reading is over the one or under the other, so that one trips and blocks automatic; \
                 set U_set2 below U_set1";
    assert_eq!(of_low(&sheet("90.1 V", "block")), [words]);
    assert!(of_low(&sheet("90.1 V", "stabilise"))[0].contains("so that one trips, though automatic goes on; "));
    assert_eq!(of_low(&sheet("90 V", "block")), Vec::<String>::new());
    assert!(advised(&sheet("90 V", "stabilise"))[0].contains("only high trips after T12 = 0.05 s, though automatic goes on; "));
}

/// What is watched below I_set3 and what never trips there are not told of one sheet.
#[test]
fn loads_do_not_cross_where_the_section_goes_by_them() {
    let told = advised("XB3 = on\nXB8 = on\nXB9 = on\nI_set2 = 0.1 A\nI_set3 = 5 A");
    let heads: Vec<&str> = told.iter().filter_map(|words| words.split(':').next()).collect();
    assert_eq!(heads, ["XB9 never trips with XB3 = on", "I_set3 is not below I_set2 = 0.1 A"]);
}

#[test]
fn defaults_in_service_and_the_examples_get_no_advice() {
    for module in [0, 1] {
        let mut list = defaults(module);
        let told = advice(&list);
        assert_eq!(told.iter().map(|advice| advice.slot).collect::<Vec<_>>(), [0]);
        assert_eq!(told[0].words, "puts the unit out of service: all its outputs stay off; write XB1 = on");
        list[0] = 1;
        assert_eq!(advice(&list), []);
    }
    for story in fs::read_dir(examples()).expect("examples").filter_map(|entry| Some(entry.ok()?.path().join("sheet.txt"))) {
        let Ok(text) = fs::read(&story) else { continue };
        let list = sheet::read(&bytes(text)).expect("a sheet").list;
        assert_eq!(advice(&list), [], "{}", story.display());
    }
}

#[test]
fn advice_is_told_after_what_is_taken_with_its_line() {
    let folder = Folder::new("advice");
    let (text, binary) = (folder.write("a.txt", "T4 = 15 s\n\nT6 = 20 s\n"), folder.path("a.sheet"));
    let output = avr(&["sheet", "check", &text, "-o", &binary]);
    let t6 = "T6 = 20 s is above T4 = 15 s: each commanded move is a fault, 'fast' up to T4 and 'long' beyond; set T6 below T4";
    let service = "puts the unit out of service: all its outputs stay off; write XB1 = on";
    let told = format!(
        "{text}: taken; 2 settings named, {} by default\n{text}: advice: XB1 = off, by default, {service}\n\
         {text}:3: advice: {t6}\n",
        SLOTS - 2
    );
    assert_eq!((out(&output), output.status.code()), (told, Some(0)));
    let told = format!(
        "{binary}: taken; a SHEET, with all {SLOTS} settings\n{binary}: advice: XB1 = off {service}\n{binary}: advice: {t6}\n"
    );
    assert_eq!(out(&avr(&["sheet", "check", &binary])), told);
}

/// A run of a unit in service.
fn run_of(text: &str, rows: &str) -> History {
    let list = sheet::read(&file(&format!("XB1 = on\n{text}"))).expect("a sheet").list;
    let scenario = scenario::read(&file(rows)).expect("a scenario");
    let source = Source::Scenario(Player::with_drive(&scenario, &list));
    run::history(start(&list).expect("taken"), source).expect("a run")
}

fn comes(history: &History, name: &str) -> bool {
    history.outputs[field(name)].iter().any(|(_, now)| *now == 1)
}

#[test]
fn the_unit_does_what_the_advice_says() {
    let rows = "seconds,U_AB,I_bus,breaker,automatic\n0,100,0,1,1\n1,,0.05\n2,,40\n3,,0.5\n4,200\n5,0\n6,end";
    let trip = "I_bus under I_set3";
    assert!(comes(&run_of("XB9 = on", rows), trip) && !comes(&run_of("XB9 = on\nXB3 = on", rows), trip));
    for (watch, limit, below, trip) in [
        ("XB8", "I_set2 = 40 A", "I_set2 = 39.999 A", "I_bus over I_set2"),
        ("XB10", "U_set1 = 200 V", "U_set1 = 199.9 V", "U_AB over U_set1"),
    ] {
        let delays = "T10 = 0 s\nT12 = 0 s";
        assert!(!comes(&run_of(&format!("{watch} = on\n{limit}\n{delays}"), rows), trip), "{limit}");
        assert!(comes(&run_of(&format!("{watch} = on\n{below}\n{delays}"), rows), trip), "{below}");
    }
}

/// A dip to 80 V or a rise to 130 V trips, and then the voltage is at the edge.
#[test]
fn a_limit_that_drops_out_beyond_the_edge_keeps_automatic_blocked() {
    for (watch, limit, dip, edge, command) in [
        ("XB11 = on", ["U_set2 = 94.3 V", "U_set2 = 94.2 V"], "80", "99", "raise"),
        ("XB10 = on", ["U_set1 = 106.3 V", "U_set1 = 106.4 V"], "130", "101", "lower"),
    ] {
        let rows = format!("seconds,U_AB,breaker,automatic\n0,{dip},1,1\n1,{edge}\n20,end");
        let commands = limit.map(|limit| comes(&run_of(&format!("T1 = 5 s\n{watch}\n{limit}"), &rows), command));
        assert_eq!(commands, [false, true], "{watch}");
    }
}

/// 4.9 A is no section, and 5.1 A an overload.
#[test]
fn a_section_by_a_load_over_i_set2_trips() {
    let rows = "seconds,U_AB,I_bus,breaker,automatic\n0,100,4.9,1,1\n5,,5.1\n10,end";
    let run = |least: &str| run_of(&format!("XB3 = on\nXB8 = on\nT10 = 2 s\nI_set2 = 5 A\nI_set3 = {least}"), rows);
    assert_eq!(run("5 A").outputs[field("I_bus over I_set2")], [(1, 0), (1401, 1)]);
    assert_eq!(run("5 A").outputs[field("section")], [(1, 0), (1001, 1)]);
    assert_eq!(run("4.8 A").outputs[field("section")], [(1, 1)]);
}

/// 199 V less 100 V is the lower edge of the band.
#[test]
fn the_drop_at_i_nom_is_the_one_that_is_told() {
    for (module, amps) in [("1 A", "1"), ("5 A", "5")] {
        let low = |volts: &str| {
            let rows = format!("seconds,U_AB,I_bus,breaker,automatic\n0,{volts},{amps},1,1\n1,end");
            comes(&run_of(&format!("I_nom = {module}\nXB4 = U_comp\nU_comp = 40 V\nInom_bus1 = 800 A"), &rows), "low")
        };
        assert_eq!((low("199"), low("199.001")), (true, false), "{module}");
    }
}

#[test]
fn a_t6_above_t4_makes_each_move_a_fault() {
    for (run, fault) in [("1.995", "fast move"), ("2", "fast move"), ("2.005", "long move"), ("9", "long move")] {
        let rows = format!("seconds,U_AB,breaker,automatic,drive,drive_run\n0,95,1,1,ok,{run}\n20,end");
        let sheet = |t6: &str| format!("T1 = 5 s\nT4 = 2 s\nT6 = {t6}");
        assert!(comes(&run_of(&sheet("2.005 s"), &rows), fault), "{run}");
        let sound = run_of(&sheet("2 s"), &rows);
        assert_eq!(FAULTS.into_iter().all(|fault| sound.outputs[fault] == [(1, 0)]), run == "2", "{run}");
    }
}

#[test]
fn a_t3_above_t1_lowers_a_higher_voltage_later() {
    let begins = |volts: &str| {
        let rows = format!("seconds,U_AB,breaker,automatic\n0,{volts},1,1\n30,end");
        run_of("T1 = 10 s", &rows).outputs[field("lower")][1].0
    };
    assert_eq!((begins("109"), begins("111")), (2000, 4000));
}

/// The second lower of a drive that does not help.
#[test]
fn a_t3_above_t2_repeats_the_lower_of_a_higher_voltage_later() {
    let repeated = |volts: &str| {
        let rows = format!("seconds,U_AB,breaker,automatic,drive,drive_run,drive_step\n0,{volts},1,1,ok,2,0\n50,end");
        run_of("T1 = 20 s\nT2 = 10 s\nT3 = 20 s", &rows).outputs[field("lower")][3].0
    };
    assert_eq!(repeated("111") - repeated("109"), 2000);
}
