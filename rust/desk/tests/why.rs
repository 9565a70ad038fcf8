//! Why no command begins in a look ahead: each reason, the decisive one first, and nothing that is not so.

mod common;

use common::{avr, defaults, err, out, Dice, Folder};
use desk::ahead::Seen;
use desk::drive::Way;
use desk::inputs::OUT;
use desk::names::{at, TABLE};
use desk::outputs::{AUTOMATIC_BLOCKED, FAULTS, LOWER_BLOCKED, MANUAL_BLOCKED, RAISE_BLOCKED};
use desk::unit::start;
use library::{Brought, Sample, FIELDS};

/// The reasons that a look from this tick gives.
fn why(sheet: &str, scenario: &str, more: &[&str]) -> Vec<String> {
    let folder = Folder::new(&format!("why-{:?}", std::thread::current().id()));
    let (sheet, csv) = (folder.write("a.txt", format!("XB1 = on\n{sheet}")), folder.write("a.csv", scenario));
    let output = avr(&[&["ahead", "--sheet", &sheet, "--scenario", &csv], more].concat());
    assert!(output.status.success(), "{}", err(&output));
    let text = out(&output);
    let mut lines = text.lines().skip(1);
    assert!(lines.next().is_some_and(|line| line.starts_with("no command begins within ")), "{text}");
    lines.map(|line| line.strip_prefix("  ").expect("an indented reason").to_string()).collect()
}

/// The reasons after 50 ticks of one row, in automatic mode.
fn standing(sheet: &str, columns: &str, cells: &str) -> Vec<String> {
    let scenario = format!("ticks,breaker,automatic,{columns}\n0,1,1,{cells}\n50,end\n");
    why(sheet, &scenario, &["--at", "50 ticks"])
}

const EVERYTHING: &str = "everything is blocked";
const IN_BAND: &str = "the voltage is in band";
const IDLE: &str = "manual mode, and neither of the panel's buttons is pressed; --automatic looks ahead in automatic mode";

#[test]
fn a_unit_that_is_out_is_told_by_that_alone() {
    let service = "the sheet has XB1 = off: the unit is out of service";
    let key = "the key out is on: the regulator is switched out";
    let scenario = |out: u8| format!("ticks,U_AB,breaker,automatic,out,oil_cold\n0,97,1,1,{out},1\n50,end\n");
    let folder = Folder::new("why-out");
    for (sheet, out_key, told) in [("off", 0, vec![service]), ("on", 1, vec![key]), ("off", 1, vec![service, key])] {
        let (sheet, csv) = (folder.write("a.txt", format!("XB1 = {sheet}\n")), folder.write("a.csv", scenario(out_key)));
        let text = out(&avr(&["ahead", "--sheet", &sheet, "--scenario", &csv, "--at", "50 ticks"]));
        assert_eq!(text.lines().skip(2).map(str::trim_start).collect::<Vec<_>>(), told, "{text}");
    }
}

#[test]
fn each_contact_that_blocks_everything_is_named() {
    for (column, words) in [
        ("supply_off", "drive supply off"),
        ("oil_cold", "oil cold"),
        ("oil_low", "oil level low"),
        ("oil_high", "oil level high"),
        ("ext_overcurrent", "external overcurrent"),
        ("ext_block", "external block"),
        ("local", "local drive"),
    ] {
        assert_eq!(standing("", &format!("U_AB,{column}"), "97,1"), [format!("{EVERYTHING}: {words}")]);
        let scenario = format!("ticks,U_AB,breaker,{column}\n0,97,1,1\n50,end\n");
        let manual = why("", &scenario, &["--at", "50 ticks"]);
        assert_eq!(manual, [IDLE.to_string(), format!("{EVERYTHING}: {words}")], "{column}");
    }
    let several = standing("", "U_AB,oil_cold,ext_block", "100,1,1");
    assert_eq!(several, [format!("{EVERYTHING}: oil cold; external block"), IN_BAND.to_string()]);
}

/// A raise on tick 20, and the contact as these rows have it.
fn moved(sheet: &str, rows: &str, more: &[&str]) -> Vec<String> {
    let sheet = format!("T1 = 0.1 s\nT5 = 0.2 s\n{sheet}");
    why(&sheet, &format!("ticks,U_AB,breaker,automatic,sensor,reset,switching\n0,97,1,1,9,0,0\n{rows}100,end\n"), more)
}

fn fault(name: &str, comes: &str) -> Vec<String> {
    vec![format!("the fault '{name}' {comes}: {EVERYTHING}")]
}

const LATCHED: &str = "is latched until reset";

/// One that comes in the look, with what it comes by.
fn coming(name: &str, stays: &str) -> Vec<String> {
    fault(name, &format!("comes within the horizon, as {stays}, and is latched until reset"))
}

#[test]
fn each_fault_is_named_and_whether_it_was_there() {
    let closes = "30,,,,,,1\n";
    assert_eq!(moved("", "", &["--at", "80 ticks"]), fault("not started", LATCHED));
    assert_eq!(moved("", "", &["--at", "30 ticks"]), coming("not started", "the switching contact stays open"));
    assert_eq!(moved("T4 = 0.1 s\n", closes, &["--at", "80 ticks"]), fault("long move", LATCHED));
    assert_eq!(moved("T4 = 0.1 s\n", closes, &["--at", "35 ticks"]), coming("long move", "the switching contact stays closed"));
    assert_eq!(moved("T6 = 1 s\n", &format!("{closes}40,,,,,,0\n"), &["--at", "80 ticks"]), fault("fast move", LATCHED));
    assert_eq!(moved("", "10,,,,,,1\n", &["--at", "15 ticks"]), fault("run-away", LATCHED));
    let pressed = moved("", "10,,,,,1,1\n", &["--at", "15 ticks"]);
    assert_eq!(pressed, fault("run-away", "comes in spite of reset"));
    let unseen = "XB2 = continuous\nT4 = 0.1 s\n";
    assert_eq!(moved(unseen, "", &["--at", "30 ticks"]), coming("long command", "the voltage stays out of band"));
    assert_eq!(moved(unseen, "", &["--at", "80 ticks"]), fault("long command", LATCHED));
}

/// Beside a fault the other reasons are told, too.
#[test]
fn a_fault_comes_before_blocks() {
    let scenario = "ticks,U_AB,breaker,automatic,switching,oil_cold\n0,100,0,1,1,1\n50,end\n";
    let told = [
        "the fault 'run-away' is latched until reset: everything is blocked",
        "everything is blocked: oil cold",
        "automatic is blocked: no section (breaker open)",
        IN_BAND,
    ];
    assert_eq!(why("", scenario, &["--at", "50 ticks"]), told);
}

#[test]
fn a_command_or_a_move_under_way_is_named() {
    let short = |at| ["--at", at, "--horizon", "10 ticks"];
    let closes = "30,,,,,,1\n";
    let open = ", and the switching contact is open";
    let closed = ", and the switching contact is closed";
    assert_eq!(moved("", "", &short("30 ticks")), [format!("an automatic raise command is already on{open}")]);
    assert_eq!(moved("", closes, &short("40 ticks")), [format!("a commanded raise move is under way{closed}")]);
    assert_eq!(moved("XB2 = continuous\n", "", &short("30 ticks")), ["an automatic raise command is already on"]);
    let slides = format!("{closes}40,,,,,,0\n50,,,,,,1\n");
    let own = moved("XB6 = sensor\nN1 = 9\n", &slides, &short("60 ticks"));
    assert_eq!(own, [format!("the drive moves on by itself from a sliding tap, raise{closed}")]);
}

/// Raise on tick 11, and lower on tick 21, in its command.
const PRESSED: &str = "ticks,U_AB,breaker,raise,lower,switching,ext_lower_block\n\
                       0,97,1,0,0,0,0\n10,,,1\n15,,,0\n20,,,,1\n25,,,,0\n30,,,,,1\n40,,,,,0,1\n100,end\n";

#[test]
fn a_press_that_waits_or_is_dropped_is_named() {
    let short = |at| ["--at", at, "--horizon", "10 ticks"];
    let asked = "a manual raise command is already on, and the switching contact is open";
    let waits = "a lower press is remembered until the drive is at rest";
    assert_eq!(why("", PRESSED, &short("28 ticks")), [asked, waits, IDLE]);
    assert_eq!(why("", PRESSED, &short("18 ticks")), [asked, IDLE]);
    let blocked = "lower is blocked: external lower block";
    assert_eq!(why("", PRESSED, &["--at", "41 ticks"]), ["the remembered lower press is dropped", IDLE, blocked]);
    assert_eq!(why("", PRESSED, &["--at", "60 ticks"]), [IDLE, blocked]);
}

#[test]
fn a_section_that_is_absent_is_named_with_its_cause() {
    let scenario = "ticks,U_AB,breaker,automatic\n0,97,0,1\n50,end\n";
    let told = "automatic is blocked: no section (breaker open)";
    assert_eq!(why("", scenario, &["--at", "50 ticks"]), [told]);
    for (cell, amps) in [("0.05", "0.05 A"), ("0.1", "0.1 A"), ("0.5 held", "0.5 A held"), ("invalid", "invalid")] {
        let told =
            format!("automatic is blocked: no section (XB3 = on needs a good I_bus above I_set3 = 0.1 A, and it is {amps})");
        assert_eq!(standing("XB3 = on\n", "U_AB,I_bus", &format!("97,{cell}")), [told]);
    }
}

#[test]
fn a_missing_voltage_is_named_with_its_readings() {
    let missing = |words: &str| [format!("automatic is blocked: U missing ({words})")];
    for (cell, words) in
        [("97 held", "held"), ("invalid", "invalid"), ("250", "beyond 200 V"), ("-1", "below 0"), ("nan held", "no number")]
    {
        assert_eq!(standing("", "U_AB", cell), missing(&format!("U_AB is {words}")));
    }
    for (current, told) in [
        ("bus", "U_AB is held, I_bus is invalid"),
        ("coupler", "U_AB is held, I_coupler is held"),
        ("bus+coupler", "U_AB is held, I_bus is invalid, I_coupler is held"),
    ] {
        let sheet = format!("XB4 = U_comp\nXB5 = {current}\n");
        assert_eq!(standing(&sheet, "U_AB,I_bus,I_coupler", "97 held,invalid,1 held"), missing(told));
        let parts = "U_AB_re,U_AB_im,I_bus_re,I_bus_im,I_coupler_re,I_coupler_im";
        let told = standing(&format!("XB4 = RX\nXB5 = {current}\n"), parts, "97,invalid,1,1 held,1,1");
        let bus = if current == "coupler" { "" } else { ", I_bus_im is held" };
        assert_eq!(told, missing(&format!("U_AB_im is invalid{bus}")), "{current}");
    }
}

#[test]
fn trips_are_named_where_they_block() {
    let currents = "XB7 = on\nXB8 = on\nT9 = 0.05 s\nT10 = 0.05 s\n";
    let told =
        "automatic is blocked: trip of I_high over I_set1, with XB14 = block; trip of I_bus over I_set2, with XB14 = block";
    assert_eq!(standing(currents, "U_AB,I_high,I_bus", "97,2,2"), [told]);
    let told = "automatic is blocked: trip of U2 over U_set4, with XB15 = block";
    assert_eq!(standing("XB13 = on\n", "U_AB,U2", "97,9"), [told]);
    let both = "XB7 = on\nXB14 = stabilise\nXB13 = on\n";
    assert_eq!(standing(both, "U_AB,I_high,U2", "97,2,9"), [told], "the current's trip does not block");
    let scenario = "ticks,U_AB,U2,breaker\n0,97,9,1\n50,end\n";
    let manual = why("XB13 = on\nXB20 = on\n", scenario, &["--at", "50 ticks"]);
    assert_eq!(manual, [IDLE, "manual is blocked: trip of U2 over U_set4, with XB20 = on"]);
    assert_eq!(why("XB13 = on\n", scenario, &["--at", "50 ticks"]), [IDLE], "XB20 = off");
}

/// The organ trips after 9 s, before T1; it has not tripped where the look begins.
#[test]
fn a_trip_that_comes_in_the_look_is_named() {
    let told = standing("XB8 = on\nT1 = 20 s\n", "U_AB,I_bus", "97,2");
    assert_eq!(told, ["automatic is blocked: trip of I_bus over I_set2, with XB14 = block"]);
}

#[test]
fn a_tap_that_is_not_known_is_named() {
    for (source, cell, error) in [("BCD", "0x1a", "wrong BCD code"), ("sensor", "77", "tap range error")] {
        let told = format!("automatic is blocked: the tap is not known, {error}, with XB16 = on");
        assert_eq!(standing(&format!("XB16 = on\nXB6 = {source}\n"), &format!("U_AB,{source}"), &format!("97,{cell}")), [told]);
    }
    let told = "automatic is blocked: the tap is not known, tap range error, with XB16 = on";
    assert_eq!(standing("XB16 = on\nXB6 = sensor\n", "U_AB,sensor", "100,0"), [told, IN_BAND]);
}

/// The way that the voltage asks for, and no other.
#[test]
fn the_direction_that_is_wanted_is_named() {
    let end = |words: &str| format!("the tap is at its end, {words}, with XB16 = on");
    let read = "XB16 = on\nXB6 = sensor\n";
    let back = "XB16 = on\nXB6 = counted-reversed\nN_pos = ";
    let (raise, lower) = ("97,", "103,");
    for (sheet, column, cells, told) in [
        ("", "end_up", [raise, "1"], "raise is blocked: upper end contact closed".to_string()),
        ("", "ext_raise_block", [raise, "1"], "raise is blocked: external raise block".to_string()),
        ("", "end_down", [lower, "1"], "lower is blocked: lower end contact closed".to_string()),
        ("", "ext_lower_block", [lower, "1"], "lower is blocked: external lower block".to_string()),
        (read, "sensor", [raise, "40"], format!("raise is blocked: {}", end("N_R = 40"))),
        (read, "sensor", [lower, "1"], format!("lower is blocked: {}", end("N_L = 1"))),
        (&format!("{back}1\n"), "sensor", [raise, "9"], format!("raise is blocked: {}", end("N_L = 1"))),
        (&format!("{back}40\n"), "sensor", [lower, "9"], format!("lower is blocked: {}", end("N_R = 40"))),
    ] {
        assert_eq!(standing(sheet, &format!("U_AB,{column}"), &cells.concat()), [told]);
    }
    assert_eq!(standing("", "U_AB,end_up,end_down", "100,1,1"), [IN_BAND]);
    let manual = why("", "ticks,U_AB,breaker,end_up,ext_lower_block\n0,97,1,1,1\n9,end\n", &["--at", "9 ticks"]);
    let both = ["raise is blocked: upper end contact closed", "lower is blocked: external lower block"];
    assert_eq!(manual, [IDLE, both[0], both[1]]);
}

#[test]
fn a_timer_that_runs_is_told_with_its_delay() {
    let running = |sheet: &str, volts: &str, horizon: &str| {
        let scenario = format!("ticks,U_AB,breaker,automatic\n0,{volts},1,1\n50,end\n");
        why(sheet, &scenario, &["--at", "50 ticks", "--horizon", horizon])
    };
    let longer = "and the horizon ends before the delay: give a longer --horizon, up to 180 s";
    let told = format!("the timer of a raise has run for 0.75 s of T1 = 1 s, {longer}");
    assert_eq!(running("T1 = 1 s\n", "97", "100 ticks"), [told.clone()]);
    assert_eq!(running("T1 = 1 s\nXB11 = on\nU_set2 = 98 V\nT13 = 0.75 s\n", "97", "100 ticks"), [told], "a trip comes next");
    let told = format!("the timer of a lower has run for 0.255 s of T3 = 0.26 s, {longer}");
    assert_eq!(running("T3 = 0.26 s\n", "120", "1 ticks"), [told]);
}

/// The manual command without a contact began on tick 11 and ends on tick 51, also in automatic mode; then the timer begins.
#[test]
fn a_timer_that_begins_late_is_told_so() {
    let sheet = "XB2 = continuous\nT1 = 180 s\nT4 = 0.2 s\n";
    let look = |more: &[&str]| why(sheet, PRESSED, &[&["--at", "30 ticks", "--automatic"], more].concat());
    let late = "the timer of a raise has run for 179.895 s of T1 = 180 s, \
                and the horizon ends before the delay: look ahead from a later time";
    assert_eq!(look(&[]), [late]);
    let now = "the timer of a raise has not begun, as the drive came to rest on the last tick";
    assert_eq!(look(&["--horizon", "21 ticks"]), [now]);
    assert_eq!(look(&["--horizon", "20 ticks"]), ["a manual raise command is already on"]);
}

#[test]
fn a_button_that_is_held_is_named_for_the_pair_in_use() {
    let held = |buttons: &str| {
        let scenario = format!("ticks,U_AB,raise,lower,remote,remote_raise\n0,97,{buttons}\n50,end\n");
        why("", &scenario, &["--at", "50 ticks"])
    };
    let told = |words: &str| [format!("manual mode, and {words}; --automatic looks ahead in automatic mode")];
    assert_eq!(held("1,0,0,1"), told("raise is held, which is no new press"));
    assert_eq!(held("1,1,0,0"), told("raise and lower are held, which is no new press"));
    assert_eq!(held("1,1,1,1"), told("remote_raise is held, which is no new press"));
    assert_eq!(held("1,1,1,0"), told("neither of the dispatcher's buttons is pressed"));
}

/// A sheet of chance that is taken, with short delays of the organs.
fn chance_sheet(dice: &mut Dice) -> Vec<u32> {
    let mut list = defaults(dice.below(2));
    for (slot, row) in TABLE.iter().enumerate().take(at("XB20") + 1).filter(|(slot, _)| *slot != at("I_nom")) {
        list[slot] = dice.below(row.high + 1);
    }
    (list[at("XB1")], list[at("XB2")]) = (1, u32::from(list[at("XB6")] < 3) & dice.below(2));
    (at("T9")..=at("T15")).for_each(|slot| list[slot] = dice.below(2));
    (list[at("N_L")], list[at("N_R")]) = (1 + dice.below(2), 3 + dice.below(2));
    list[at("N_pos")] = 3;
    list
}

fn chance_tick(dice: &mut Dice) -> Brought {
    let mut brought = Brought { bcd: dice.below(12) as u8, sensor: dice.below(6) as u8, ..Brought::default() };
    for sample in &mut brought.readings {
        let values = [0.0, 0.05, 0.2, 3.0, 97.0, 100.0, 150.0, 201.0, f32::NAN, -1.0];
        *sample = Sample { quality: dice.below(12).saturating_sub(9), value: values[dice.below(10) as usize] };
    }
    let chance = |dice: &mut Dice, bit: u32| u32::from(dice.below(12) == 0) << bit;
    brought.contacts = (0..24).filter(|bit| *bit != OUT).fold(0, |all, bit| all | chance(dice, bit));
    brought.contacts |= u32::from(dice.below(5) > 0);
    brought
}

/// The four blocks by their causes: everything's, and their own.
fn blocks(seen: Seen, outputs: &[u32; FIELDS]) -> [bool; 4] {
    let common = !seen.common().is_empty() || FAULTS.into_iter().any(|field| outputs[field] == 1);
    [seen.automatic(), seen.manual(), seen.way(Way::Raise), seen.way(Way::Lower)].map(|own| common || !own.is_empty())
}

/// A block has a cause in words exactly where the unit shows it.
#[test]
fn the_causes_are_the_units() {
    let mut dice = Dice(8);
    let mut shown = [[0; 2]; 4];
    for _ in 0..2000 {
        let list = chance_sheet(&mut dice);
        let mut unit = start(&list).unwrap_or_else(|refusal| panic!("{refusal:?} {list:?}"));
        for _ in 0..10 {
            let brought = chance_tick(&mut dice);
            let outputs = unit.tick(&brought).expect("a tick");
            let told = blocks(Seen { list: &list, brought: &brought, outputs: &outputs }, &outputs);
            for (at, field) in [AUTOMATIC_BLOCKED, MANUAL_BLOCKED, RAISE_BLOCKED, LOWER_BLOCKED].into_iter().enumerate() {
                assert_eq!(told[at], outputs[field] == 1, "{field} {list:?} {brought:?} {outputs:?}");
                shown[at][outputs[field] as usize] += 1;
            }
        }
    }
    assert!(shown.iter().flatten().all(|count| *count > 500), "{shown:?}");
}
