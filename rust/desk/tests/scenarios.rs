//! Scenarios and recordings: round trips, marks, times, bad files.

mod common;

use common::{defaults, file, recorded, to_csv, Dice};
use desk::inputs::{is_on, SWITCHING};
use desk::names::CONTINUOUS;
use desk::outputs::RAISE;
use desk::play::{Player, Source};
use desk::recording::{BYTES, READING_BYTES};
use desk::{cells, recording, scenario};
use library::{Brought, Sample, FIELDS, READINGS};

fn ticks(text: &str) -> Vec<Brought> {
    let scenario = scenario::read(&file(text)).expect("a good scenario");
    let mut source = Source::Scenario(Player::new(&scenario));
    (1..=scenario.ticks).map(|tick| source.bring(tick, &[0; FIELDS]).expect("a scenario").expect("a tick")).collect()
}

fn problems(text: &str) -> Vec<String> {
    scenario::read(&file(text)).expect_err("a bad scenario")
}

fn record(ticks: &[Brought]) -> Vec<u8> {
    let mut bytes = Vec::new();
    ticks.iter().for_each(|tick| bytes.extend(recording::bytes(tick)));
    bytes
}

#[test]
fn a_row_stands_from_the_tick_after_its_time_until_the_next() {
    let ticks = ticks("seconds,U_AB,breaker\n0,100,closed\n0.015,99\n0.02,,open\n0.03,end");
    let volts: Vec<f32> = ticks.iter().map(|tick| tick.readings[0].value).collect();
    assert_eq!(volts, [100.0, 100.0, 100.0, 99.0, 99.0, 99.0]);
    let contacts: Vec<u32> = ticks.iter().map(|tick| tick.contacts).collect();
    assert_eq!(contacts, [1, 1, 1, 1, 0, 0]);
}

#[test]
fn seconds_and_ticks_are_two_ways_to_say_it() {
    let seconds = "seconds,U_AB\n0,100\n0.5,98\n1,end";
    let in_ticks = "ticks,U_AB\n0,100\n100,98\n200,end";
    assert_eq!(ticks(seconds), ticks(in_ticks));
}

#[test]
fn readings_have_marks() {
    let ticks = ticks("ticks,U_AB,3U0,U2,I_high,I_bus,I_coupler\n0,98.2 held,invalid,3,0.5,nan,-1\n1,end");
    let quality: Vec<u32> = ticks[0].readings.iter().map(|sample| sample.quality).collect();
    assert_eq!(quality, [1, 2, 0, 0, 0, 0, 0, 0, 0, 0, 0, 0]);
    assert_eq!(ticks[0].readings[0].value, 98.2);
    assert!(ticks[0].readings[4].value.is_nan());
}

#[test]
fn each_contact_has_its_bit() {
    let names = [
        "breaker",
        "switching",
        "supply_off",
        "oil_cold",
        "oil_low",
        "oil_high",
        "end_up",
        "end_down",
        "ext_overcurrent",
        "ext_block",
        "ext_raise_block",
        "ext_lower_block",
        "reset",
        "out",
        "automatic",
        "local",
        "U_supp2",
        "U_supp3",
        "U_supp4",
        "raise",
        "lower",
        "remote",
        "remote_raise",
        "remote_lower",
    ];
    for (bit, name) in names.iter().enumerate() {
        assert_eq!(ticks(&format!("ticks,{name}\n0,1\n1,end"))[0].contacts, 1 << bit, "{name}");
    }
}

#[test]
fn taps_come_on_lines_and_from_the_sensor() {
    let ticks = ticks("ticks,BCD,sensor\n0,24,200\n1,0x1A,0\n2,end");
    assert_eq!((ticks[0].bcd, ticks[0].sensor, ticks[1].bcd), (0x24, 200, 0x1A));
}

/// The ticks of a scenario whose drive is told to raise from the first tick on, for a sheet with this regulation.
fn raised(text: &str, continuous: u32) -> Vec<Brought> {
    let mut list = defaults(0);
    list[CONTINUOUS] = continuous;
    let scenario = scenario::read(&file(text)).expect("a good scenario");
    let mut source = Source::Scenario(Player::with_drive(&scenario, &list));
    let mut outputs = [0; FIELDS];
    outputs[RAISE] = 1;
    (1..=scenario.ticks).map(|tick| source.bring(tick, &outputs).expect("a scenario").expect("a tick")).collect()
}

#[test]
fn the_sheet_says_which_drive_answers() {
    let text = "seconds,U_AB,drive,drive_start,drive_run,drive_tap,drive_step\n0,97,ok,0.01,0.02,9,1.5\n0.1,end";
    let closed = |ticks: &[Brought]| ticks.iter().filter(|tick| is_on(tick.contacts, SWITCHING)).count();
    let last = |ticks: &[Brought]| ticks.last().map(|tick| (tick.readings[0].value, tick.bcd, tick.sensor));
    let (impulse, continuous) = (raised(text, 0), raised(text, 1));
    assert_eq!((closed(&impulse), last(&impulse)), (4, Some((98.5, 0x10, 10))));
    assert_eq!((closed(&continuous), last(&continuous)), (0, Some((103.0, 0x13, 13))));
    let volts: Vec<f32> = continuous.iter().map(|tick| tick.readings[0].value).collect();
    assert_eq!(volts[4..10], [97.0, 98.5, 98.5, 98.5, 98.5, 100.0]);
}

#[test]
fn blanks_quotes_comments_and_idle_rows_are_no_matter() {
    let plain = ticks("ticks,U_AB,breaker\n0,100,on\n2,end");
    let odd = ticks("# a comment\r\n\r\nticks , \"U_AB\",breaker\r\n0, 100 ,\"on\"\r\n,,\r\n# more\r\n2,end,\r\n");
    assert_eq!(plain, odd);
}

fn chance(dice: &mut Dice) -> Brought {
    let mut tick = Brought { contacts: dice.next(), bcd: dice.next() as u8, sensor: dice.next() as u8, ..Brought::default() };
    for sample in &mut tick.readings {
        let quality = dice.below(3);
        let value = match dice.below(4) {
            0 => f32::from_bits(dice.next() << 1 | dice.below(2)),
            1 => 0.0,
            _ => dice.below(400_000) as f32 / 1000.0 - 100.0,
        };
        *sample = Sample { quality, value: if quality == 2 { 0.0 } else { value } };
    }
    tick
}

#[test]
fn recordings_go_to_csv_and_back() {
    let mut dice = Dice(3);
    for _ in 0..40 {
        let made: Vec<Brought> = (0..50).flat_map(|_| vec![chance(&mut dice); 1 + dice.below(3) as usize]).collect();
        let csv = to_csv(&made);
        assert_eq!(record(&ticks(&csv)), record(&made));
        assert_eq!(recorded(record(&made)).expect("its own bytes"), made);
    }
}

#[test]
fn floats_of_every_kind_go_to_text_and_back() {
    let odd = [0, 1, 0x8000_0000, 0x7F80_0000, 0xFF80_0000, 0x7FC0_0000, 0xFFC0_0001, 0x7F80_0001, 0x7F7F_FFFF, 0x42C8_3333];
    for bits in odd {
        for quality in [0, 1] {
            let sample = Sample { quality, value: f32::from_bits(bits) };
            assert_eq!(cells::reading(&cells::reading_text(sample)), Ok(sample), "{bits:x}");
        }
    }
}

#[test]
fn every_bcd_byte_goes_to_text_and_back() {
    for lines in 0..=255 {
        assert_eq!(cells::bcd(&cells::bcd_text(lines)), Ok(lines));
    }
}

#[test]
fn a_tick_has_its_bytes_in_the_order_of_the_format() {
    let recorded = record(&ticks("ticks,U_AB,3U0,breaker,lower,BCD,sensor\n0,1 held,invalid,1,1,24,9\n1,end"));
    let mut wanted = vec![1, 0, 0, 0x80, 0x3F, 2, 0, 0, 0, 0];
    wanted.extend([0; READING_BYTES * (READINGS - 2)]);
    wanted.extend([1, 0, 0x10, 0, 0x24, 9]);
    assert_eq!(recorded, wanted);
}

/// A scenario, HEAD standing for a header, and what is told of it.
const BAD_SCENARIOS: [(&str, &str); 44] = [
    ("", "file: no row is in it: its first row names the columns"),
    ("# nothing\n", "file: no row is in it: its first row names the columns"),
    ("time,U_AB\n0,1\n1,end", "file:1: the first column must be `seconds` or `ticks`, and not `time`"),
    ("ticks,U_AC\n0,1\n1,end", "file:1: no column is called `U_AC`"),
    ("ticks,u_ab\n0,1\n1,end", "file:1: no column is called `u_ab`; U_AB is one"),
    ("ticks,Remote_raise\n0,1\n1,end", "file:1: no column is called `Remote_raise`; remote_raise is one"),
    ("ticks,U_AB,bit21\n0,1,1\n1,end", "file:1: no column is called `bit21`; bit 21 is the column `remote`"),
    ("ticks,bit22\n0,1\n1,end", "file:1: no column is called `bit22`; bit 22 is the column `remote_raise`"),
    ("# old\nticks,bit23\n0,1\n1,end", "file:2: no column is called `bit23`; bit 23 is the column `remote_lower`"),
    ("ticks,bit32\n0,1\n1,end", "file:1: no column is called `bit32`"),
    ("ticks,U_AB,U_AB\n0,1\n1,end", "file:1: the column `U_AB` is there twice"),
    ("ticks,drive_run\n0,1\n1,end", "file:1: the column `drive_run` needs a column `drive`"),
    (
        "ticks,drive,switching\n0\n1,end",
        "file:1: `switching` and `drive` are both there: the simulated drive gives the switching contact",
    ),
    ("HEAD0,1", "file: the last row must be its end: a time and the word `end`"),
    ("HEAD1,1\n2,end", "file:2: the first row must be at time 0"),
    ("HEAD0,1\n5\n5,2\n9,end", "file:4: the time `5` is not after the row before"),
    ("HEAD0,1\n0,end", "file:3: the time `0` is not after the row before"),
    ("HEAD0,end", "file:2: the end comes before any row"),
    ("HEAD0,1\n2,end,3", "file:3: nothing may follow the word `end`"),
    ("HEAD0,1\n2,end\n3,1", "file:4: a row after the end"),
    ("HEAD0,1,1,1,1,1\n2,end", "file:2: 6 cells, and the first row has 5"),
    ("HEAD0,x\n2,end", "file:2: U_AB: `x` is no reading: 98.2, 98.2 held or invalid"),
    ("HEAD0,held\n2,end", "file:2: U_AB: `held` is no reading: 98.2, 98.2 held or invalid"),
    ("ticks,u_ab_phasor\n0,1@0\n1,end", "file:1: no column is called `u_ab_phasor`; U_AB_phasor is one"),
    ("ticks,I_bus_RE\n0,1\n1,end", "file:1: no column is called `I_bus_RE`; I_bus_re is one"),
    (
        "ticks,U_AB_phasor,U_AB,U_AB_im\n0,1@0\n1,end",
        "file:1: `U_AB_im` and `U_AB_phasor` are both there: give U_AB by its parts or by its phasor",
    ),
    (
        "# a comment\nticks,I_coupler_re,I_coupler_im,U_AB_im,I_coupler_phasor\n0,1\n1,end",
        "file:2: `I_coupler_re` and `I_coupler_phasor` are both there: give I_coupler by its parts or by its phasor",
    ),
    ("ticks,I_bus_phasor,I_bus_phasor\n0,1@0\n1,end", "file:1: the column `I_bus_phasor` is there twice"),
    (
        "ticks,I_bus_phasor\n0,0.8\n1,end",
        "file:2: I_bus_phasor: `0.8` is no phasor: a magnitude from 0 on and degrees, 0.8@-30 or 0.8@-30 held, or invalid",
    ),
    ("HEAD0,,yes\n2,end", "file:2: breaker: `yes` is no contact: 1 or 0, on or off, closed or open"),
    ("HEAD0,,,100\n2,end", "file:2: BCD: `100` is no BCD code: a tap from 0 to 79, or lines from 0x00 to 0xff"),
    ("HEAD0,,,,256\n2,end", "file:2: sensor: `256` is no sensor number: 0 to 255"),
    ("HEAD0,1\n1.5,2\n2,end", "file:3: the time `1.5` is no whole number of ticks"),
    ("seconds,U_AB\n0,1\n0.001,2\n1,end", "file:3: the time `0.001` s is no whole number of ticks of 0.005 s"),
    ("seconds,U_AB\n0,1\nx,2\n1,end", "file:3: the time `x` is not a number"),
    (
        "seconds,drive\n0,broken\n1,end",
        "file:2: drive: `broken` is no drive: ok, does-not-start, runs-on, self-raise, self-lower",
    ),
    ("seconds,drive,drive_tap\n0,ok,80\n1,end", "file:2: drive_tap: `80` is no tap of a drive: 1 to 79"),
    (
        "seconds,drive,drive_tap\n0,ok,8\n1,,9\n2,end",
        "file:3: `drive_tap` is the tap at the start, and may stand in the first row only",
    ),
    (
        "seconds,drive,drive_lowest\n0,ok,8\n1,,9\n2,end",
        "file:3: `drive_lowest` is the drive's lowest tap, and may stand in the first row only",
    ),
    (
        "seconds,drive,drive_highest\n0,ok\n1,,9\n2,end",
        "file:3: `drive_highest` is the drive's highest tap, and may stand in the first row only",
    ),
    ("seconds,drive,drive_lowest,drive_highest\n0,ok,9,9\n2,end", "file:2: drive_lowest: 9 is not below drive_highest, 9"),
    ("seconds,drive,drive_lowest\n0,ok,0\n2,end", "file:2: drive_lowest: `0` is no tap of a drive: 1 to 79"),
    ("seconds,drive_highest\n0,9\n2,end", "file:1: the column `drive_highest` needs a column `drive`"),
    ("seconds,drive,drive_step\n0,ok,999\n1,end", "file:2: drive_step: `999` is no voltage from -200 to 200 V"),
];

#[test]
fn bad_scenarios_are_told_with_their_line() {
    let head = "ticks,U_AB,breaker,BCD,sensor\n";
    for (text, told) in BAD_SCENARIOS {
        assert_eq!(problems(&text.replace("HEAD", head)), [told], "{text}");
    }
}

/// One limit and one sentence, however far beyond it a time is, in seconds, in ticks and of a drive.
#[test]
fn times_beyond_the_longest_run_are_told_alike() {
    let far = "99999999999999999999999999";
    for (head, time) in [("ticks", "20000001"), ("ticks", "4294967296"), ("ticks", far), ("seconds", "100000.005")] {
        let told = format!("file:3: the time `{time}` is beyond 100000 s, 20000000 ticks, the longest run");
        assert_eq!(problems(&format!("{head},U_AB\n0,1\n{time},end")), [told]);
    }
    for time in ["21474836.48", "100000.001", far] {
        let told = format!("the time `{time}` is beyond 100000 s, 20000000 ticks, the longest run");
        assert_eq!(problems(&format!("seconds,U_AB\n0,1\n{time},end")), [format!("file:3: {told}")]);
        assert_eq!(problems(&format!("seconds,drive,drive_run\n0,ok,{time}\n1,end")), [format!("file:2: drive_run: {told}")]);
    }
    assert_eq!(scenario::read(&file("ticks,U_AB\n0,1\n20000000,end")).expect("the longest run").ticks, 20_000_000);
}

#[test]
fn all_bad_rows_are_told_at_once() {
    assert_eq!(problems("ticks,U_AB\n0,1\n2,x\n3,y\n4,end").len(), 2);
}

#[test]
fn bad_recordings_are_told() {
    let told = |bytes_: Vec<u8>| recorded(bytes_).expect_err("a bad recording");
    assert_eq!(told(Vec::new()), ["file: no tick is recorded in it"]);
    let short = |tick: usize, got: usize| format!("file: tick {tick} is cut short: {got} of {BYTES} bytes");
    assert_eq!(told(vec![0; BYTES - 1]), [short(1, BYTES - 1)]);
    assert_eq!(told(vec![0; 2 * BYTES + 1]), [short(3, 1)]);
    let mut quality = vec![0; 2 * BYTES];
    quality[BYTES + 2 * READING_BYTES] = 7;
    assert_eq!(told(quality), ["file: tick 2: U2 has the quality byte 7: 0 Good, 1 Held, 2 Invalid"]);
}
