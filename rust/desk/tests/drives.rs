//! The simulated drive, with a switching contact and without.

mod common;

use common::file;
use desk::drive::{Drive, Nature, Seen, Temper, Way};
use desk::ends::Ends;
use desk::inputs::{is_on, END_DOWN, END_UP};
use desk::motor::Motor;
use desk::outputs::{at as field, LONG, LOWER as LOWER_COMMAND, OPERATIONS, RAISE as RAISE_COMMAND, SUPPLY_TRIP, TAP};
use desk::play::{Player, Source};
use desk::progress::Progress;
use desk::run::{self, History, Window};
use desk::unit::start;
use desk::{ends, scenario, sheet};
use library::Brought;

const RAISE: Seen = Seen { command: Some(Way::Raise), trip: false, reset: false, supply_off: false };
const LOWER: Seen = Seen { command: Some(Way::Lower), trip: false, reset: false, supply_off: false };
const NOTHING: Seen = Seen { command: None, trip: false, reset: false, supply_off: false };
const TRIP: Seen = Seen { command: None, trip: true, reset: false, supply_off: false };
const RESET: Seen = Seen { command: None, trip: false, reset: true, supply_off: false };

/// Taps from 1 to 79.
const WIDE: Ends = Ends { lowest: 1, highest: 79, reversed: false };

fn nature(temper: Temper, start: u32, run: u32) -> Nature {
    Nature { temper, start, run, ..Nature::default() }
}

/// The contact over some ticks of the same kind.
fn over(drive: &mut Drive, nature: &Nature, seen: Seen, ticks: usize) -> String {
    (0..ticks).map(|_| if drive.tick(nature, seen) { '#' } else { '.' }).collect()
}

#[test]
fn it_starts_after_its_delay_and_moves_for_its_time() {
    let (mut drive, ok) = (Drive::new(9, WIDE), nature(Temper::Ok, 3, 4));
    assert_eq!(over(&mut drive, &ok, RAISE, 4), "..##");
    assert_eq!(over(&mut drive, &ok, NOTHING, 5), "##...");
    assert_eq!(drive.tap, 10);
    assert_eq!(over(&mut drive, &ok, LOWER, 9), "..####...");
    assert_eq!(drive.tap, 9);
}

#[test]
fn a_command_that_stays_is_one_command() {
    let (mut drive, ok) = (Drive::new(9, WIDE), nature(Temper::Ok, 1, 2));
    assert_eq!(over(&mut drive, &ok, RAISE, 8), "##......");
    assert_eq!(drive.tap, 10);
}

#[test]
fn a_command_that_goes_before_the_start_is_none() {
    let (mut drive, ok) = (Drive::new(9, WIDE), nature(Temper::Ok, 5, 2));
    assert_eq!(over(&mut drive, &ok, RAISE, 3) + &over(&mut drive, &ok, NOTHING, 6), ".........");
}

#[test]
fn it_can_be_dead() {
    let (mut drive, dead) = (Drive::new(9, WIDE), nature(Temper::DoesNotStart, 1, 2));
    assert_eq!(over(&mut drive, &dead, RAISE, 8), "........");
}

#[test]
fn it_can_run_on_until_its_supply_is_off() {
    let (mut drive, stuck) = (Drive::new(9, WIDE), nature(Temper::RunsOn, 1, 2));
    assert_eq!(over(&mut drive, &stuck, RAISE, 8), "########");
    assert_eq!(over(&mut drive, &stuck, TRIP, 1), "#");
    assert_eq!(over(&mut drive, &stuck, NOTHING, 20), "##################..");
    assert!(drive.supply.off);
    assert_eq!(over(&mut drive, &stuck, RAISE, 3), "...");
    over(&mut drive, &stuck, RESET, 1);
    assert!(!drive.supply.off);
    assert_eq!((over(&mut drive, &stuck, RAISE, 2), drive.tap), ("##".to_string(), 9));
}

#[test]
fn it_can_close_by_itself_once() {
    for (temper, tap) in [(Temper::SelfRaise, 10), (Temper::SelfLower, 8)] {
        let (mut drive, ok, alone) = (Drive::new(9, WIDE), nature(Temper::Ok, 5, 2), nature(temper, 5, 2));
        assert_eq!(over(&mut drive, &ok, NOTHING, 3), "...");
        assert_eq!(over(&mut drive, &alone, NOTHING, 9), "##.......");
        assert_eq!(drive.tap, tap);
    }
}

#[test]
fn it_slides_on() {
    let mut ok = nature(Temper::Ok, 2, 3);
    ok.sliding = vec![10, 11];
    let mut drive = Drive::new(9, WIDE);
    assert_eq!(over(&mut drive, &ok, RAISE, 15), ".###..###..###.");
    assert_eq!(drive.tap, 12);
}

#[test]
fn it_stays_within_its_taps() {
    let ok = nature(Temper::Ok, 1, 1);
    for (first, seen, last) in [(79, RAISE, 79), (1, LOWER, 1)] {
        let mut drive = Drive::new(first, WIDE);
        over(&mut drive, &ok, seen, 5);
        assert_eq!(drive.tap, last);
    }
}

const NARROW: Ends = Ends { lowest: 8, highest: 10, reversed: false };

#[test]
fn at_an_end_a_command_further_is_not_heard() {
    let ok = nature(Temper::Ok, 1, 2);
    for (reversed, up, down) in [(false, 10, 8), (true, 8, 10)] {
        let ends = Ends { reversed, ..NARROW };
        for (first, further, back) in [(up, RAISE, LOWER), (down, LOWER, RAISE)] {
            let mut drive = Drive::new(first, ends);
            assert_eq!((over(&mut drive, &ok, further, 5), drive.tap), (".....".to_string(), first));
            over(&mut drive, &ok, NOTHING, 1);
            assert_eq!((over(&mut drive, &ok, back, 5), drive.tap), ("##...".to_string(), 9));
        }
    }
}

#[test]
fn at_an_end_it_neither_goes_by_itself_nor_slides_on() {
    for (temper, seen, first, last) in [(Temper::SelfRaise, RAISE, 9, 10), (Temper::SelfLower, LOWER, 9, 8)] {
        let mut drive = Drive::new(last, NARROW);
        assert_eq!((over(&mut drive, &nature(temper, 1, 2), NOTHING, 5), drive.tap), (".....".to_string(), last));
        let mut drive = Drive::new(first, NARROW);
        let slides = Nature { sliding: vec![8, 10], ..nature(Temper::Ok, 1, 2) };
        assert_eq!((over(&mut drive, &slides, seen, 9), drive.tap), ("##.......".to_string(), last));
    }
}

/// The tap of a drive without a contact over some ticks of the same kind, from 1 to 9.
fn taps(motor: &mut Motor, nature: &Nature, seen: Seen, ticks: usize) -> String {
    let one = |_| {
        motor.tick(nature, seen);
        motor.tap.to_string()
    };
    (0..ticks).map(one).collect()
}

#[test]
fn without_a_contact_it_goes_from_tap_to_tap_while_its_command_is_on() {
    let (mut motor, ok) = (Motor::new(5, WIDE), nature(Temper::Ok, 2, 3));
    assert_eq!(taps(&mut motor, &ok, NOTHING, 3), "555");
    assert_eq!(taps(&mut motor, &ok, RAISE, 12), "555566677788");
    assert_eq!(taps(&mut motor, &ok, LOWER, 9), "888877766");
}

#[test]
fn its_first_tap_comes_when_the_other_drives_does() {
    for (start, run) in [(0, 0), (1, 1), (2, 3), (7, 0), (0, 4)] {
        let ok = nature(Temper::Ok, start, run);
        let (mut drive, mut motor) = (Drive::new(5, WIDE), Motor::new(5, WIDE));
        while drive.tap == 5 {
            assert_eq!(motor.tap, 5, "{start} {run}");
            drive.tick(&ok, RAISE);
            motor.tick(&ok, RAISE);
        }
        assert_eq!(motor.tap, 6, "{start} {run}");
    }
}

#[test]
fn when_the_command_goes_off_it_stops_and_gives_up_a_tap_not_done() {
    let (mut motor, ok) = (Motor::new(5, WIDE), nature(Temper::Ok, 2, 3));
    assert_eq!(taps(&mut motor, &ok, RAISE, 7) + &taps(&mut motor, &ok, NOTHING, 6), "5555666666666");
    assert_eq!(taps(&mut motor, &ok, RAISE, 4) + &taps(&mut motor, &ok, NOTHING, 1), "66666");
    assert_eq!(taps(&mut motor, &ok, RAISE, 5), "66667");
    assert_eq!(taps(&mut motor, &ok, RAISE, 2) + &taps(&mut motor, &ok, LOWER, 5), "7777776");
}

#[test]
fn without_a_contact_it_can_be_dead_and_come_alive_under_its_command() {
    let mut motor = Motor::new(5, WIDE);
    assert_eq!(taps(&mut motor, &nature(Temper::DoesNotStart, 1, 1), RAISE, 9), "555555555");
    assert_eq!(taps(&mut motor, &nature(Temper::Ok, 1, 1), RAISE, 3), "567");
}

#[test]
fn without_a_contact_it_can_run_on_until_its_supply_is_off() {
    let (mut motor, stuck) = (Motor::new(3, WIDE), nature(Temper::RunsOn, 1, 10));
    assert_eq!(taps(&mut motor, &stuck, NOTHING, 20), "3".repeat(20));
    assert_eq!(taps(&mut motor, &stuck, RAISE, 11), "33333333334");
    assert_eq!(taps(&mut motor, &stuck, NOTHING, 10), "4444444445");
    assert_eq!(taps(&mut motor, &stuck, LOWER, 10), "5555555556");
    assert_eq!(taps(&mut motor, &stuck, TRIP, 1), "6");
    assert_eq!(taps(&mut motor, &stuck, NOTHING, 30), "6".repeat(8) + &"7".repeat(22));
    assert!(motor.supply.off);
}

#[test]
fn the_supply_ends_its_motion_until_reset() {
    let (mut motor, ok) = (Motor::new(5, WIDE), nature(Temper::Ok, 1, 22));
    let tripped = Seen { trip: true, ..RAISE };
    assert_eq!(taps(&mut motor, &ok, tripped, 40), "5".repeat(40));
    assert!(motor.supply.off);
    assert_eq!(taps(&mut motor, &ok, RESET, 1), "5");
    assert!(!motor.supply.off);
    assert_eq!(taps(&mut motor, &ok, RAISE, 23), "5".repeat(22) + "6");
}

#[test]
fn without_a_contact_it_can_take_a_tap_by_itself_once() {
    for (temper, tap) in [(Temper::SelfRaise, '6'), (Temper::SelfLower, '4')] {
        let (mut motor, ok, alone) = (Motor::new(5, WIDE), nature(Temper::Ok, 5, 2), nature(temper, 5, 2));
        assert_eq!(taps(&mut motor, &ok, NOTHING, 3), "555");
        assert_eq!(taps(&mut motor, &alone, NOTHING, 9), format!("55{}", tap.to_string().repeat(7)));
    }
    assert_eq!(taps(&mut Motor::new(5, WIDE), &nature(Temper::SelfRaise, 5, 2), LOWER, 9), "556666666");
    assert_eq!(taps(&mut Motor::new(5, WIDE), &nature(Temper::SelfRaise, 5, 2), LOWER, 10), "5566666665");
}

#[test]
fn without_a_contact_it_does_not_stop_at_a_sliding_tap() {
    let mut ok = nature(Temper::Ok, 2, 3);
    ok.sliding = vec![6];
    let mut motor = Motor::new(5, WIDE);
    assert_eq!(taps(&mut motor, &ok, RAISE, 5) + &taps(&mut motor, &ok, NOTHING, 8), "5555666777777");
    assert_eq!(taps(&mut motor, &ok, LOWER, 5) + &taps(&mut motor, &ok, RAISE, 3), "77776665");
}

#[test]
fn without_a_contact_it_stays_within_its_taps() {
    let ok = nature(Temper::Ok, 1, 1);
    for (first, seen, last) in [(78, RAISE, 79), (2, LOWER, 1)] {
        let mut motor = Motor::new(first, WIDE);
        taps(&mut motor, &ok, seen, 9);
        assert_eq!(motor.tap, last);
    }
}

const SHORT: Ends = Ends { lowest: 4, highest: 6, reversed: false };

#[test]
fn without_a_contact_it_stops_at_an_end() {
    let ok = nature(Temper::Ok, 1, 2);
    for (temper, slides) in [(Temper::Ok, vec![]), (Temper::RunsOn, vec![]), (Temper::Ok, vec![4, 6])] {
        let bad = Nature { temper, sliding: slides, ..ok.clone() };
        let mut motor = Motor::new(5, SHORT);
        assert_eq!(taps(&mut motor, &bad, RAISE, 9), "556666666");
        assert_eq!(taps(&mut motor, &bad, NOTHING, 3), "666");
        assert_eq!(taps(&mut motor, &bad, LOWER, 9), "665544444");
    }
    for (temper, last) in [(Temper::SelfRaise, "6"), (Temper::SelfLower, "4")] {
        let mut motor = Motor::new(last.parse().expect("a tap"), SHORT);
        assert_eq!(taps(&mut motor, &nature(temper, 1, 2), NOTHING, 5), last.repeat(5));
    }
    let mut motor = Motor::new(6, SHORT);
    assert_eq!(taps(&mut motor, &nature(Temper::SelfRaise, 1, 2), LOWER, 3), "665", "no motion delays the command");
    let (mut motor, stuck) = (Motor::new(6, SHORT), nature(Temper::RunsOn, 1, 2));
    assert_eq!(taps(&mut motor, &stuck, RAISE, 1) + &taps(&mut motor, &stuck, LOWER, 3), "6665");
    let mut reversed = Motor::new(5, Ends { reversed: true, ..SHORT });
    assert_eq!(taps(&mut reversed, &ok, RAISE, 6) + &taps(&mut reversed, &ok, LOWER, 9), "554444445566666");
}

#[test]
fn ends_are_the_scenarios_or_the_sheets_and_reach_to_where_it_begins() {
    let list = sheet::read(&file("N_L = 3\nN_pos = 9\nN_R = 17")).expect("a sheet").list;
    let ends = |tap, lowest, highest| {
        let nature = Nature { tap, lowest, highest, ..Nature::default() };
        let Ends { lowest, highest, reversed } = Ends::new(&nature, &list);
        assert!(!reversed);
        (ends::first_tap(&nature, &list), lowest, highest, ends::check(&nature, &list).is_ok())
    };
    assert_eq!(ends(None, None, None), (9, 3, 17, true));
    assert_eq!(ends(Some(20), None, None), (20, 3, 20, true));
    assert_eq!(ends(Some(2), None, None), (2, 2, 17, true));
    assert_eq!(ends(None, Some(9), Some(79)), (9, 9, 79, true));
    assert_eq!(ends(Some(30), Some(16), Some(18)), (30, 16, 30, true));
    assert!(!ends(None, Some(10), None).3 && ends(Some(12), Some(10), None).3);
    assert!(!ends(None, None, Some(8)).3 && ends(None, None, Some(9)).3);
    assert!(!ends(Some(17), Some(17), None).3 && ends(Some(17), Some(16), None).3);
    assert!(!ends(Some(3), None, Some(3)).3 && ends(Some(3), None, Some(4)).3);
}

/// A run of a unit in service, and what each tick brought. A move takes half a second from its command, a tap is 1 V.
fn run_of(sheet: &str, columns: &str, cells: &str) -> (History, Vec<Brought>) {
    let quick = "XB1 = on\nT1 = 1 s\nT2 = 1 s\nT4 = 3 s\nT5 = 1 s\nU_set5 = 200 V\n";
    let list = sheet::read(&file(&format!("{quick}{sheet}"))).expect("a sheet").list;
    let head = "seconds,breaker,automatic,drive,drive_start,drive_run,drive_step,U_AB";
    let text = format!("{head}{columns}\n0,1,1,ok,0.1,0.4,1,{cells}\n20,end");
    let scenario = scenario::read(&file(&text)).expect("a scenario");
    let source = Source::Scenario(Player::with_drive(&scenario, &list));
    let mut ticks = Vec::new();
    let unit = start(&list).expect("taken");
    let history = run::run(unit, source, Window::WHOLE, &mut Progress::usual(), |brought| {
        ticks.push(*brought);
        Ok(())
    });
    (history.expect("a run"), ticks)
}

/// What comes out of ticks, a change each.
fn changes<T: PartialEq>(ticks: &[Brought], of: impl Fn(&Brought) -> T) -> Vec<T> {
    let mut found: Vec<T> = Vec::new();
    for value in ticks.iter().map(of) {
        if found.last() != Some(&value) {
            found.push(value);
        }
    }
    found
}

/// A sheet, a voltage, the taps that come, the contact at the last of them, what is blocked there, and the last voltage.
type Story = (&'static str, &'static str, [u8; 3], u32, &'static str, f32);

const STORIES: [Story; 8] = [
    ("XB6 = counted\nN_pos = 15\nN_R = 17", "90", [15, 16, 17], END_UP, "raise blocked", 92.0),
    ("XB6 = counted\nN_pos = 6\nN_L = 4", "110", [6, 5, 4], END_DOWN, "lower blocked", 108.0),
    ("XB6 = counted-reversed\nN_pos = 6\nN_L = 4", "90", [6, 5, 4], END_UP, "raise blocked", 92.0),
    ("XB6 = counted-reversed\nN_pos = 15\nN_R = 17", "110", [15, 16, 17], END_DOWN, "lower blocked", 108.0),
    ("XB6 = BCD\nN_pos = 15\nN_R = 17", "90", [15, 16, 17], END_UP, "raise blocked", 92.0),
    ("XB2 = continuous\nXB6 = sensor\nN_pos = 15\nN_R = 17", "90", [15, 16, 17], END_UP, "raise blocked", 92.0),
    ("XB2 = continuous\nXB6 = sensor\nN_pos = 6\nN_L = 4", "110", [6, 5, 4], END_DOWN, "lower blocked", 108.0),
    ("XB2 = continuous\nXB6 = BCD\nN_pos = 6\nN_L = 4", "110", [6, 5, 4], END_DOWN, "lower blocked", 108.0),
];

#[test]
fn it_closes_the_contact_of_its_end_where_the_unit_counts_it() {
    for (sheet, volts, taps, end, blocked, last) in STORIES {
        let (history, ticks) = run_of(sheet, "", volts);
        assert_eq!(changes(&ticks, |tick| tick.sensor), taps, "{sheet}");
        assert_eq!(changes(&ticks, |tick| tick.bcd), taps.map(desk::cells::lines_of), "{sheet}");
        let told: Vec<u32> = history.outputs[TAP].iter().map(|(_, tap)| *tap).collect();
        assert_eq!(told, taps.map(u32::from), "{sheet}");
        let other = END_UP + END_DOWN - end;
        assert!(ticks.iter().all(|tick| is_on(tick.contacts, end) == (tick.sensor == taps[2])), "{sheet}");
        assert!(ticks.iter().all(|tick| !is_on(tick.contacts, other)), "{sheet}");
        let closed = 1 + ticks.iter().position(|tick| is_on(tick.contacts, end)).expect("the end") as u32;
        assert_eq!(history.outputs[field(blocked)], [(1, 0), (closed, 1)], "{sheet}");
        assert_eq!(ticks.last().map(|tick| tick.readings[0].value), Some(last), "{sheet}");
        assert!(desk::outputs::FAULTS.into_iter().all(|fault| history.outputs[fault] == [(1, 0)]), "{sheet}");
    }
}

#[test]
fn a_column_of_an_end_contact_stands_in_place_of_the_drives() {
    for (regulation, fault) in [("XB2 = impulse\nXB6 = counted", "not started"), ("XB2 = continuous\nXB6 = BCD", "long move")] {
        let sheet = format!("{regulation}\nN_pos = 16\nN_R = 17");
        let (history, ticks) = run_of(&sheet, ",end_up", "90,open");
        assert_eq!(changes(&ticks, |tick| tick.sensor), [16, 17]);
        assert!(ticks.iter().all(|tick| !is_on(tick.contacts, END_UP)));
        assert_eq!(history.outputs[field(fault)].last().map(|(_, now)| *now), Some(1), "{fault}");
        let (_, ticks) = run_of(&sheet, ",end_down", "90,closed");
        assert!(ticks.iter().all(|tick| is_on(tick.contacts, END_DOWN)));
        assert!(ticks.iter().all(|tick| is_on(tick.contacts, END_UP) == (tick.sensor == 17)));
    }
}

#[test]
fn columns_of_its_ends_stand_in_place_of_the_sheets() {
    let sheet = "XB6 = sensor\nN_pos = 15\nN_R = 17";
    let sensors = |columns, cells| changes(&run_of(sheet, columns, cells).1, |tick| tick.sensor);
    assert_eq!(sensors(",drive_highest", "90,16"), [15, 16]);
    assert_eq!(sensors(",drive_lowest", "110,14"), [15, 14]);
    assert_eq!(sensors(",drive_tap", "90,17"), [17]);
    assert_eq!(sensors(",drive_tap,drive_lowest,drive_highest", "110,5,4,6"), [5, 4]);
}

/// A run of a unit for a drive without a contact: T1 is 5 s, T4 8 s, a tap takes 2 s and is 1 V.
fn continuous(rows: &str) -> History {
    let sheet = "XB1 = on\nXB2 = continuous\nXB6 = sensor\nXB18 = on\nT1 = 5 s\nT2 = 1 s\nT4 = 8 s\n";
    let list = sheet::read(&file(sheet)).expect("a sheet").list;
    let head = "seconds,U_AB,breaker,automatic,raise,local,drive,drive_start,drive_run,drive_tap,drive_step\n";
    let scenario = scenario::read(&file(&format!("{head}{rows}"))).expect("a scenario");
    let source = Source::Scenario(Player::with_drive(&scenario, &list));
    run::history(start(&list).expect("taken"), source).expect("a run")
}

#[test]
fn a_manual_command_takes_the_taps_that_t4_gives_it() {
    let history = continuous("0,100.4,1,0,0,0,ok,0.5,2,9,1\n1,,,,1\n30,end");
    assert_eq!(history.outputs[RAISE_COMMAND], [(1, 0), (201, 1), (1801, 0)]);
    assert_eq!(history.outputs[TAP], [(1, 9), (701, 10), (1101, 11), (1501, 12)]);
    assert_eq!(history.outputs[OPERATIONS], [(1, 0), (1801, 1)]);
}

#[test]
fn a_drive_that_runs_on_is_stopped_by_the_long_command_against_it() {
    let history = continuous("0,98.4,1,1,0,0,runs-on,0.5,2,9,1\n60,end");
    assert_eq!(history.outputs[RAISE_COMMAND], [(1, 0), (1000, 1), (1500, 0)]);
    assert_eq!(history.outputs[LOWER_COMMAND], [(1, 0), (3299, 1), (4899, 0)]);
    assert_eq!(history.outputs[LONG], [(1, 0), (4899, 1)]);
    assert_eq!(history.outputs[SUPPLY_TRIP][1], (4899, 1));
    assert_eq!(history.outputs[TAP].last(), Some(&(4700, 18)));
}

#[test]
fn a_tap_by_itself_is_no_fault() {
    let history = continuous("0,100.4,1,1,0,0,ok,0.5,2,9,1\n1,,,,,,self-lower\n30,end");
    assert_eq!(history.outputs[TAP], [(1, 9), (601, 8)]);
    assert!(desk::outputs::FAULTS.into_iter().all(|fault| history.outputs[fault] == [(1, 0)]));
}

#[test]
fn local_drive_takes_the_command_off_and_the_drive_stops() {
    let history = continuous("0,95.4,1,1,0,0,ok,0.5,2,9,1\n9,,,,,1\n30,end");
    assert_eq!(history.outputs[RAISE_COMMAND], [(1, 0), (1000, 1), (1801, 0)]);
    assert_eq!(history.outputs[TAP], [(1, 9), (1500, 10)]);
    assert_eq!(history.outputs[OPERATIONS], [(1, 0)]);
}

/// The scenario's own contact takes the supply of either drive: a move ends there, and goes no further.
#[test]
fn a_drive_without_supply_does_not_move() {
    for sheet in ["XB6 = counted\n", "XB2 = continuous\nXB6 = sensor\n"] {
        let (_, ticks) = run_of(sheet, ",supply_off", "90,1");
        assert!(ticks.iter().all(|tick| tick.readings[0].value == 90.0), "{sheet}");
    }
    let (mut drive, ok) = (Drive::new(9, WIDE), nature(Temper::Ok, 1, 10));
    assert!((0..5).map(|_| drive.tick(&ok, RAISE)).last().expect("a tick"), "it moves");
    assert!(!drive.tick(&ok, Seen { supply_off: true, ..RAISE }));
    assert!(!drive.tick(&ok, RAISE), "the command is an old one");
}
