//! Ticks per second on one recording: the proved library through its C boundary, lent and by value, and the second program; and a look
//! ahead over the longest horizon.
//! `benchmark SEED RUNS [lent|value|second|ahead]`: all four, or one alone (for a count of instructions), on the recording of a seed.

use std::time::Instant;

use comparison::convert::{brought, image_of};
use library::{ahead, tick, tick_by_value, Brought, Image, Outputs, FIELDS, LONGEST_HORIZON};
use reference::dice::Dice;
use reference::input::{bit, Input};
use reference::record::Record;
use reference::recording::{tick_from_bytes, TICK_BYTES};
use reference::sheet::{self, slot, Settings};
use reference::voltage::compensated;

const TICKS: usize = 20_000;

/// A sheet and a recording with commands, faults and trips in it.
fn scene(seed: u64) -> (Record, Vec<Input>) {
    let folder = std::env::temp_dir().join(format!("avr-benchmark-{}", std::process::id()));
    std::fs::create_dir_all(&folder).expect("a temporary folder");
    let (sheet, recording) = (folder.join("sheet"), folder.join("recording"));
    reference::make::make(seed, TICKS as u64, &sheet, &recording).expect("a made recording");
    let list = reference::recording::sheet_from_bytes(&std::fs::read(&sheet).expect("the sheet"));
    let bytes = std::fs::read(&recording).expect("the recording");
    std::fs::remove_dir_all(&folder).ok();
    let record = Record::start(&list).expect("a sheet that is taken");
    let input = |tick: &[u8]| tick_from_bytes(tick.try_into().expect("a whole tick")).expect("good qualities");
    let inputs = bytes.chunks_exact(TICK_BYTES).map(input).collect();
    (record, inputs)
}

fn lent(start: &Image, ticks: &[Brought], runs: u32) -> u64 {
    let mut sum = 0;
    let mut outputs = Outputs { fields: [0; FIELDS] };
    for _ in 0..runs {
        let mut image = *start;
        for brought in ticks {
            tick(&mut image, brought, &mut outputs);
            sum += u64::from(outputs.fields[0] + outputs.fields[25]);
        }
    }
    sum
}

fn by_value(start: &Image, ticks: &[Brought], runs: u32) -> u64 {
    let mut sum = 0;
    for _ in 0..runs {
        let mut image = *start;
        for brought in ticks {
            let ticked = tick_by_value(image, *brought);
            sum += u64::from(ticked.outputs.fields[0] + ticked.outputs.fields[25]);
            image = ticked.next;
        }
    }
    sum
}

fn second(start: &Record, ticks: &[Input], runs: u32) -> u64 {
    let mut sum = 0;
    for _ in 0..runs {
        let mut record = start.clone();
        for input in ticks {
            let ticked = reference::tick::tick(&record, input);
            sum += u64::from(ticked.outputs[0] + ticked.outputs[25]);
            record = ticked.next;
        }
    }
    sum
}

/// A look ahead that runs to its horizon: an external block keeps every command from coming.
fn to_the_horizon(start: &Image, first: &Brought, runs: u32) -> u64 {
    let blocked = Brought { contacts: first.contacts | 1 << bit::EXTERNAL_BLOCK, ..*first };
    let mut sum = 0;
    for _ in 0..runs {
        let outlook = ahead(*start, blocked, LONGEST_HORIZON);
        assert_eq!((outlook.refusal, outlook.tick), (0, 0), "no command, within the whole horizon");
        sum += u64::from(outlook.outputs.fields[14]);
    }
    sum
}

/// What the recording is of.
fn told(settings: &Settings) -> String {
    let kind = if sheet::is_continuous(settings) { "without" } else { "with" };
    let way = match settings[slot::COMPENSATION] {
        compensated::NOT => "no compensation",
        compensated::BY_U_COMP => "compensation by U_comp",
        _ => "compensation along R and X",
    };
    format!("a drive {kind} a switching contact, {way}")
}

/// Nanoseconds a tick, and the sum that the ways must share.
fn timed(runs: u32, way: impl Fn(u32) -> u64) -> (f64, u64) {
    let from = Instant::now();
    let sum = way(runs);
    (from.elapsed().as_nanos() as f64 / (f64::from(runs) * TICKS as f64), sum)
}

fn main() {
    let words: Vec<String> = std::env::args().collect();
    let seed: u64 = words.get(1).and_then(|w| w.parse().ok()).unwrap_or(5);
    let runs: u32 = words.get(2).and_then(|w| w.parse().ok()).unwrap_or(20);
    let only = words.get(3).map(String::as_str);
    let (record, inputs) = scene(seed);
    let image = image_of(&record);
    let mut dice = Dice::new(1);
    let ticks: Vec<Brought> = inputs.iter().map(|i| brought(i, &mut dice)).collect();
    match only {
        Some("lent") => println!("{}", lent(&image, &ticks, runs)),
        Some("value") => println!("{}", by_value(&image, &ticks, runs)),
        Some("second") => println!("{}", second(&record, &inputs, runs)),
        Some("ahead") => println!("{}", to_the_horizon(&image, &ticks[0], runs)),
        _ => {
            let (a, x) = timed(runs, |n| lent(&image, &ticks, n));
            let (b, y) = timed(runs, |n| by_value(&image, &ticks, n));
            let (c, z) = timed(runs, |n| second(&record, &inputs, n));
            assert!(x == y && y == z, "the three ways differ");
            println!("{}, {} ticks a way", told(&record.settings), u64::from(runs) * TICKS as u64);
            for (name, ns) in [("proved, lent", a), ("proved, by value", b), ("second program", c)] {
                println!("{name:18} {ns:7.1} ns a tick, {:9.0} ticks a second", 1e9 / ns);
            }
            println!("ratio, lent to second program: {:.2}; by value: {:.2}", a / c, b / c);
            let from = Instant::now();
            to_the_horizon(&image, &ticks[0], runs);
            let ms = from.elapsed().as_secs_f64() * 1e3 / f64::from(runs);
            println!("a look ahead over {LONGEST_HORIZON} ticks: {ms:.1} ms, {:.1} ns a tick", ms * 1e6 / f64::from(LONGEST_HORIZON));
        }
    }
}
