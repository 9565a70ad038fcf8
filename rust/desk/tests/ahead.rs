//! `avr ahead`: when the first command would begin, by what, and its options and errors. `why.rs` has the reasons where none does.

mod common;

use std::fs::{self, File};
use std::process::{Command, Output};

use common::{avr, defaults, err, examples, out, Folder};
use desk::ahead::{look, Asked, Begin, By, Found};
use desk::cells;
use desk::drive::Way;
use desk::names::at;
use desk::outputs::{BUSY, LOWER, RAISE};
use desk::recording::BYTES;
use desk::unit::{start, Unit};
use library::{Brought, Sample, LONGEST_HORIZON};

const SHEET: &str = "XB1 = on\nU_set5 = 108 V\nT1 = 20 s\nT2 = 10 s\nT3 = 4 s\n";
/// Low from 10 s on and high from 60 s on, in manual mode; automatic from 20 s to 25 s.
const SCENARIO: &str = "seconds,U_AB,breaker,automatic\n0,100,1,0\n10,97\n20,,,1\n25,,,0\n60,109\n70,end\n";

struct Desk {
    folder: Folder,
    sheet: String,
    csv: String,
}

impl Desk {
    fn new(name: &str, sheet: &str, scenario: &str) -> Desk {
        let folder = Folder::new(&format!("ahead-{name}"));
        let (sheet, csv) = (folder.write("a.txt", sheet), folder.write("a.csv", scenario));
        Desk { folder, sheet, csv }
    }

    fn ahead(&self, more: &[&str]) -> Output {
        avr(&[&["ahead", "--sheet", &self.sheet, "--scenario", &self.csv], more].concat())
    }

    /// The line after the one that says what is assumed.
    fn answer(&self, more: &[&str]) -> String {
        let output = self.ahead(more);
        assert!(output.status.success(), "{}", err(&output));
        out(&output).lines().nth(1).expect("an answer").to_string()
    }

    /// Exit status and the first line of standard error; nothing is printed, and no file is left.
    fn wrong(&self, more: &[&str]) -> (i32, String) {
        let output = self.ahead(more);
        assert_eq!(out(&output), "", "{more:?}");
        assert_eq!(self.folder.names(), ["a.csv", "a.txt"], "{more:?}");
        (output.status.code().expect("a status"), err(&output).lines().next().unwrap_or("").to_string())
    }
}

fn usual(name: &str) -> Desk {
    Desk::new(name, SHEET, SCENARIO)
}

const ON: &str = "--automatic";

#[test]
fn it_tells_what_is_assumed_and_when_the_command_begins() {
    let desk = usual("tells");
    let told = |more: &[&str]| out(&desk.ahead(more));
    let switched = "look ahead from 15 s, tick 3000: automatic switched on, readings and other contacts unchanged\n\
                    a raise begins on tick 4000 of the look, 20 s later, at 35 s: automatic, after T1 = 20 s\n";
    assert_eq!(told(&["--at", "15", ON]), switched);
    let running = "look ahead from 22.5 s, tick 4500: automatic mode, readings and contacts unchanged\n\
                   a raise begins on tick 3500 of the look, 17.5 s later, at 40 s: automatic, after T1 = 20 s, \
                   of which 2.5 s had elapsed\n";
    assert_eq!(told(&["--at", "22.5"]), running);
    let manual = "look ahead from 65 s, tick 13000: manual mode, readings and contacts unchanged\n\
                  no command begins within 180 s, up to 245 s:\n  \
                  manual mode, and neither of the panel's buttons is pressed; --automatic looks ahead in automatic mode\n";
    assert_eq!(told(&["--at", "65"]), manual);
    let fast = "a lower begins on tick 800 of the look, 4 s later, at 69 s: automatic, after T3 = 4 s";
    assert_eq!(desk.answer(&["--at", "65", ON]), fast);
    assert_eq!(err(&desk.ahead(&["--at", "65", ON])), "");
}

/// Automatic that is on already is not switched on.
#[test]
fn automatic_adds_nothing_where_it_is_on() {
    let desk = usual("on");
    assert_eq!(out(&desk.ahead(&["--at", "22.5", ON])), out(&desk.ahead(&["--at", "22.5"])));
    assert_ne!(out(&desk.ahead(&["--at", "15", ON])), out(&desk.ahead(&["--at", "15"])));
}

/// The tick at 10 s is the last one before the row at 10 s.
#[test]
fn what_a_row_brings_at_the_time_itself_is_not_read_yet() {
    let desk = usual("row");
    assert!(desk.answer(&["--at", "10", ON]).starts_with("no command begins"));
    let raise = "a raise begins on tick 4000 of the look, 20 s later, at 30.005 s: automatic, after T1 = 20 s";
    assert_eq!(desk.answer(&["--at", "10.005", ON]), raise);
}

#[test]
fn times_are_seconds_or_ticks() {
    let desk = usual("times");
    let wanted = out(&desk.ahead(&["--at", "15", ON, "--horizon", "20"]));
    for (at, horizon) in [("15 s", "20s"), ("3000 ticks", "4000 ticks"), ("3000ticks", "20.000"), ("15.0", "20 s")] {
        assert_eq!(out(&desk.ahead(&["--at", at, ON, "--horizon", horizon])), wanted, "{at} {horizon}");
    }
    assert!(wanted.contains("\na raise begins on tick 4000 "), "{wanted}");
}

/// One tick less does not reach the command.
#[test]
fn the_horizon_ends_with_its_last_tick() {
    let desk = usual("horizon");
    assert!(desk.answer(&["--at", "15", ON, "--horizon", "4000 ticks"]).starts_with("a raise begins on tick 4000 "));
    let short = desk.answer(&["--at", "15", ON, "--horizon", "3999 ticks"]);
    assert_eq!(short, "no command begins within 19.995 s, up to 34.995 s:");
    let longest = Desk::new("longest", &SHEET.replace("T1 = 20 s", "T1 = 180 s"), SCENARIO);
    let told = "a raise begins on tick 36000 of the look, 180 s later, at 195 s: automatic, after T1 = 180 s";
    for more in [vec!["--at", "15", ON], vec!["--at", "15", ON, "--horizon", "180"]] {
        assert_eq!(longest.answer(&more), told);
    }
}

const TAKES: &str = "give 0.005 to 180 s, 1 to 36000 ticks, or leave it out for 180 s";

#[test]
fn a_wrong_horizon_is_told_with_what_it_takes() {
    let desk = usual("bad-horizon");
    for (horizon, told) in [
        ("0", "--horizon looks at no tick"),
        ("0 ticks", "--horizon looks at no tick"),
        ("180.005", "--horizon 180.005 is beyond the longest look ahead"),
        ("36001 ticks", "--horizon 180.005 is beyond the longest look ahead"),
        ("x", "--horizon: the time `x` is not a number"),
        ("1.5 ticks", "--horizon: the time `1.5` is no whole number of ticks"),
        ("0.001", "--horizon: the time `0.001` s is no whole number of ticks of 0.005 s"),
        ("-1", "--horizon: the time `-1` is below 0"),
        ("200000", "--horizon: the time `200000` is beyond 100000 s, 20000000 ticks, the longest run"),
    ] {
        let wanted = (2, format!("avr: {told}: {TAKES}"));
        assert_eq!(desk.wrong(&["--at", "15", "--horizon", horizon]), wanted, "{horizon}");
    }
    assert_eq!(TAKES.matches(&format!("{LONGEST_HORIZON} ticks")).count(), 1);
    assert_eq!(TAKES.matches(&format!("{} s", cells::seconds_text(LONGEST_HORIZON))).count(), 2);
}

#[test]
fn a_time_outside_the_scenario_is_told_with_its_length() {
    let desk = usual("bad-at");
    let late = |at: &str| (1, format!("avr: {}: --at {at} is after its end, 70 s: give a time from 0.005 to 70", desk.csv));
    assert_eq!(desk.wrong(&["--at", "70.005"]), late("70.005"));
    assert_eq!(desk.wrong(&["--at", "14001 ticks"]), late("70.005"));
    assert_eq!(desk.wrong(&["--at", "0"]), (2, "avr: --at is before the first tick, at 0.005 s".to_string()));
    assert_eq!(desk.wrong(&["--at", "soon"]), (2, "avr: --at: the time `soon` is not a number".to_string()));
    assert!(desk.answer(&["--at", "70", ON]).starts_with("a lower begins on tick 800 "), "its last tick");
    assert!(desk.answer(&["--at", "0.005", ON]).starts_with("no command begins"), "its first tick");
}

#[test]
fn a_wrong_command_line_is_told() {
    let desk = usual("words");
    for (more, told) in [
        (vec![], "give --at"),
        (vec!["--at"], "--at has no value"),
        (vec!["--at", "15", "--automatic=on"], "--automatic takes no value"),
        (vec!["--at", "15", ON, ON], "--automatic is given twice"),
        (vec!["--at", "15", "--title", "t"], "--title is a picture's: give --svg FILE too"),
        (vec!["--at", "15", "--from", "1"], "--from is a picture's: give --svg FILE too"),
        (vec!["--at", "15", "--to", "1"], "--to is a picture's: give --svg FILE too"),
        (vec!["--at", "15", "--svg", "-", "--from", "5", "--to", "4"], "--from is after --to"),
        (vec!["--at", "15", "--svg", "-", "--to", "0"], "--to is before the first tick, at 0.005 s"),
        (vec!["--at", "15", "--table", "t"], "no option is called --table"),
        (vec!["--at", "15", "--recording", "r"], "give one of --scenario and --recording alone"),
    ] {
        assert_eq!(desk.wrong(&more), (2, format!("avr: {told}")), "{more:?}");
    }
    let output = avr(&["ahead", "--scenario", &desk.csv, "--at", "1"]);
    assert_eq!((output.status.code(), err(&output).as_str()), (Some(2), "avr: give --sheet\ntry `avr ahead --help`\n"));
    assert!(err(&avr(&["run", ON])).starts_with("avr: no option is called --automatic\n"));
}

#[test]
fn bad_files_are_told_as_a_run_tells_them() {
    let desk = usual("files");
    for (sheet, csv) in
        [("XB1 = maybe\n", SCENARIO), (SHEET, "seconds,U_AB\n0,100\n"), (SHEET, "seconds,drive\n0,odd\n1,end\n")]
    {
        desk.folder.write("a.txt", sheet);
        desk.folder.write("a.csv", csv);
        let ran = avr(&["run", "--sheet", &desk.sheet, "--scenario", &desk.csv]);
        let output = desk.ahead(&["--at", "0.005"]);
        assert_eq!((output.status.code(), out(&output).as_str(), err(&output)), (Some(1), "", err(&ran)));
    }
    let (sheet, none) = (desk.folder.write("a.txt", SHEET), desk.folder.path("none"));
    for kind in ["--scenario", "--recording"] {
        let output = avr(&["ahead", "--sheet", &sheet, kind, &none, "--at", "1"]);
        assert_eq!((output.status.code(), err(&output)), (Some(1), format!("avr: {none}: No such file or directory\n")));
    }
    let twice = avr(&["ahead", "--sheet", "-", "--scenario", "-", "--at", "1"]);
    assert!(err(&twice).starts_with("avr: standard input is asked for twice"), "{}", err(&twice));
}

/// What the sheet looks at and no column gives is remarked on, as of a run.
#[test]
fn remarks_are_on_standard_error() {
    let desk = Desk::new("remarks", "XB1 = on\nXB8 = on\n", SCENARIO);
    let told = "XB8 = on looks at I_bus, which no column gives, so that it is 0: add I_bus";
    assert_eq!(err(&desk.ahead(&["--at", "15"])), format!("avr: {}: {told}\n", desk.csv));
}

#[test]
fn a_recording_is_looked_at_as_its_scenario() {
    let (desk, folder) = (usual("recorded"), Folder::new("ahead-recording"));
    let recording = folder.path("a.rec");
    assert!(avr(&["scenario", "write", &desk.csv, "-o", &recording]).status.success());
    let words =
        |path: &str, at: &str| ["ahead", "--sheet", &desk.sheet, "--recording", path, "--at", at, ON].map(str::to_string);
    let run = |words: &[String]| avr(&words.iter().map(String::as_str).collect::<Vec<_>>());
    for at in ["0.005", "15", "22.5", "70"] {
        assert_eq!(out(&run(&words(&recording, at))), out(&desk.ahead(&["--at", at, ON])), "{at}");
    }
    let late = |name: &str| format!("avr: {name}: --at 71 is after its end, 70 s: give a time from 0.005 to 70\n");
    let output = run(&words(&recording, "71"));
    assert_eq!((output.status.code(), err(&output)), (Some(1), late(&recording)));
    let piped = |at: &str| {
        let mut command = Command::new(env!("CARGO_BIN_EXE_avr"));
        command.args(words("-", at)).stdin(File::open(&recording).expect("a RECORDING")).output().expect("avr runs")
    };
    assert_eq!(out(&piped("22.5")), out(&desk.ahead(&["--at", "22.5"])));
    assert_eq!(err(&piped("71")), late("standard input"), "its length is not known beforehand");
    let cut = folder.write("b.rec", &fs::read(&recording).expect("a RECORDING")[..BYTES * 100]);
    assert_eq!(
        err(&run(&words(&cut, "1"))),
        format!("avr: {cut}: --at 1 is after its end, 0.5 s: give a time from 0.005 to 0.5\n")
    );
}

/// A press in a move: raise at 0.05 s, lower at 0.1 s; the move is over at 0.205 s.
const PRESSED: &str = "ticks,U_AB,breaker,automatic,raise,lower,switching,ext_lower_block\n\
                       0,100,1,0,0,0,0,0\n10,,,,1\n15,,,,0\n20,,,,,1\n25,,,,,0\n30,,,,,,1\n40,,,,,,0\n100,end\n";

#[test]
fn a_remembered_press_is_carried_out_at_rest() {
    let desk = Desk::new("press", "XB1 = on\n", PRESSED);
    let told = "a lower begins on tick 1 of the look, 0.005 s later, at 0.21 s: manual, the remembered press";
    assert_eq!(desk.answer(&["--at", "41 ticks"]), told);
    assert!(desk.answer(&["--at", "41 ticks", ON]).starts_with("no command begins"), "automatic drops it");
}

/// The manual raise of 40 ticks began on tick 11 and ends on tick 51.
#[test]
fn without_a_contact_it_is_carried_out_after_the_command() {
    let desk = Desk::new("press-unseen", "XB1 = on\nXB2 = continuous\nT4 = 0.2 s\n", PRESSED);
    let told = "a lower begins on tick 22 of the look, 0.11 s later, at 0.26 s: manual, the remembered press";
    assert_eq!(desk.answer(&["--at", "30 ticks"]), told);
}

/// Without a contact T2 is not used; the manual command goes on in automatic mode, and the timer begins after it.
#[test]
fn a_drive_without_a_contact_waits_for_t1_or_t3() {
    let sheet = "XB1 = on\nXB2 = continuous\nT1 = 0.5 s\nT2 = 0.3 s\nT3 = 0.2 s\nT4 = 0.2 s\n";
    for (volts, told) in [
        ("97", "a raise begins on tick 121 of the look, 0.605 s later, at 0.755 s: automatic, after T1 = 0.5 s"),
        ("103", "a lower begins on tick 121 of the look, 0.605 s later, at 0.755 s: automatic, after T1 = 0.5 s"),
        ("120", "a lower begins on tick 61 of the look, 0.305 s later, at 0.455 s: automatic, after T3 = 0.2 s"),
    ] {
        let desk = Desk::new("unseen", sheet, &PRESSED.replace("0,100,1", &format!("0,{volts},1")));
        assert_eq!(desk.answer(&["--at", "30 ticks", ON]), told);
    }
}

/// A unit in automatic mode with all three delays of 20 ticks, after a raise and its move.
fn raised(continuous: u32) -> (Vec<u32>, Unit) {
    let mut list = defaults(0);
    (list[at("XB1")], list[at("XB2")]) = (1, continuous);
    for slot in [at("T1"), at("T2"), at("T3"), at("T4")] {
        list[slot] = 20;
    }
    let mut unit = start(&list).expect("taken");
    for (ticks, switching) in [(25, 0), (5, SWITCHING), (1, 0)] {
        for _ in 0..ticks {
            unit.tick(&tick(97.0, BREAKER | AUTOMATIC | switching)).expect("a tick");
        }
    }
    (list, unit)
}

const BREAKER: u32 = 1;
const SWITCHING: u32 = 1 << 1;
const OIL_COLD: u32 = 1 << 3;
const RESET: u32 = 1 << 12;
const AUTOMATIC: u32 = 1 << 14;

fn tick(volts: f32, contacts: u32) -> Brought {
    let mut brought = Brought { contacts, ..Brought::default() };
    brought.readings[0] = Sample { quality: 0, value: volts };
    brought
}

fn found(list: &[u32], unit: &Unit, brought: Brought) -> Found {
    look(unit, &Asked { list, at: 31, brought, switched: false, horizon: LONGEST_HORIZON }).expect("a look")
}

/// The delay is named by what the unit goes by, and not by its length.
#[test]
fn the_delay_in_force_is_named_where_all_are_equal() {
    for (volts, contacts, continuous, way, delay) in [
        (97.0, AUTOMATIC, 0, Way::Raise, "T2"),
        (103.0, AUTOMATIC, 0, Way::Lower, "T1"),
        (120.0, AUTOMATIC, 0, Way::Lower, "T3"),
        (103.0, AUTOMATIC, 1, Way::Lower, "T1"),
        (120.0, AUTOMATIC, 1, Way::Lower, "T3"),
    ] {
        let (list, unit) = raised(continuous);
        let brought = tick(volts, contacts | BREAKER | (RESET * continuous));
        let Found::Begins(Begin { way: found, by: By::Delay { slot, .. }, .. }) = found(&list, &unit, brought) else {
            panic!("{volts} {continuous}: no automatic command");
        };
        assert_eq!((found, slot), (way, Some(at(delay))), "{volts} {continuous}");
    }
}

/// A tick in manual mode brings T1 back.
#[test]
fn a_tick_in_manual_mode_ends_the_repeat() {
    let (list, mut unit) = raised(0);
    let by = |unit: &Unit| match found(&list, unit, tick(97.0, BREAKER | AUTOMATIC)) {
        Found::Begins(Begin { by: By::Delay { slot, elapsed }, tick, .. }) => (slot, elapsed, tick),
        other => panic!("{other:?}"),
    };
    assert_eq!(by(&unit), (Some(at("T2")), 0, 20));
    unit.tick(&tick(97.0, BREAKER | AUTOMATIC)).expect("a tick");
    assert_eq!(by(&unit), (Some(at("T2")), 1, 19));
    unit.tick(&tick(97.0, BREAKER)).expect("a tick");
    assert_eq!(by(&unit), (Some(at("T1")), 0, 20));
}

/// The answer, and the ticks themselves, one by one.
#[test]
fn the_answer_is_that_of_the_ticks() {
    for continuous in [0, 1] {
        let (list, unit) = raised(continuous);
        for volts in [97.0, 99.5, 103.0, 120.0] {
            for contacts in [0, SWITCHING, RESET, OIL_COLD].into_iter().flat_map(|more| [more, more | AUTOMATIC]) {
                let brought = tick(volts, contacts | BREAKER);
                let answer = match found(&list, &unit, brought) {
                    Found::Begins(Begin { tick, way, .. }) => Some((tick, way)),
                    Found::Nothing(reasons) => {
                        assert!(!reasons.is_empty(), "{continuous} {volts} {contacts:x}");
                        None
                    }
                };
                assert_eq!(answer, first_command(unit, brought), "{continuous} {volts} {contacts:x}");
            }
        }
    }
}

fn first_command(mut unit: Unit, brought: Brought) -> Option<(u32, Way)> {
    let mut busy = unit.drive() != desk::unit::Doing::Rests;
    for tick in 1..=LONGEST_HORIZON {
        let outputs = unit.tick(&brought).expect("a tick");
        match (busy, outputs[RAISE], outputs[LOWER]) {
            (false, 1, _) => return Some((tick, Way::Raise)),
            (false, _, 1) => return Some((tick, Way::Lower)),
            _ => busy = outputs[BUSY] == 1,
        }
    }
    None
}

#[test]
fn it_does_not_change_the_unit() {
    let (list, unit) = raised(0);
    let before = unit;
    found(&list, &unit, tick(97.0, BREAKER | AUTOMATIC));
    assert_eq!(unit, before);
}

#[test]
fn help_says_what_is_assumed_and_names_each_option() {
    let help = out(&avr(&["ahead", "--help"]));
    for words in ["--at TIME", "--automatic", "--horizon TIME", "--svg FILE", "--title TEXT", "--from TIME", "--to TIME"] {
        assert!(help.contains(&format!("\n  {words} ")), "{words}");
    }
    let flat = help.split_whitespace().collect::<Vec<_>>().join(" ");
    for words in [
        "up to and including the tick at TIME",
        "Tick 1 of the look is the tick after it.",
        "from 0.005 to 180 s, 1 to 36000 ticks (180 s)",
        "the drive does not answer in it",
    ] {
        assert!(flat.contains(words), "{words}");
    }
    assert_eq!(out(&avr(&["help", "ahead"])), help);
    assert!(out(&avr(&["--help"])).contains("\n  ahead           look ahead from a time"));
}

/// Under each delay in one scenario, as the example stores it.
#[test]
fn the_example_comes_under_each_delay() {
    let stored = fs::read_to_string(examples().join("before-automatic/ahead.txt")).expect("ahead.txt");
    let delays: Vec<&str> = stored.lines().filter_map(|line| line.split_once(", after ")?.1.split(' ').next()).collect();
    assert_eq!(delays, ["T1", "T2", "T3"]);
}
