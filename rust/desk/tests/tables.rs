//! Tables for people and for other programs, what they tell of missing readings, and the summary of a run.

mod common;

use common::json::Json;
use common::{avr, defaults, err, out, recorded, Folder};
use desk::inputs::{reading_at, READINGS, SCALARS};
use desk::missing::{most, why};
use desk::names::{at, rated_amps, MODULE};
use desk::outputs::{BLOCKS, TRIPS};
use desk::unit::start;
use library::{Brought, Sample, READINGS as COUNT};

const SHEET: &str = "\
XB1 = on\nXB6 = counted\nXB8 = on\nXB18 = on\nN_start = 49999\nT1 = 2 s\nT5 = 2 s\nT10 = 1 s\nI_set2 = 0.9 A\nN_pos = 9\n";

/// One raise that is done, an overload, a fault, and readings that are missing in each way.
const SCENARIO: &str = "\
seconds,U_AB,3U0,I_bus,breaker,automatic,ext_block,drive,drive_step\n\
0,98,0,0.5,1,1,0,ok,2\n\
10,invalid,0\n\
12,-5\n\
13,198.5\n\
15,nan\n\
16,98,,1\n\
20,,,0.5\n\
22,,-1 held,,,,1\n\
24,96,0,,,,0,does-not-start\n\
40,end\n";

fn run(name: &str, more: &[&str]) -> String {
    let folder = Folder::new(name);
    let (sheet, csv) = (folder.write("a.txt", SHEET), folder.write("a.csv", SCENARIO));
    let output = avr(&[&["run", "--sheet", &sheet, "--scenario", &csv], more].concat());
    assert!(output.status.success(), "{}", err(&output));
    out(&output)
}

const SUMMARY: &str = "
summary of 40 s, 8000 ticks
  commands          2 raises, 0 lowers
  operations        1; the count is 50000, and N_max was reached
";

#[test]
fn a_table_ends_with_the_summary() {
    let table = run("summary", &[]);
    assert!(table.contains(SUMMARY), "{table}");
    let (_, summary) = table.split_once("\nsummary of ").expect("a summary");
    for told in [
        "  blocks            automatic blocked: 4 times, ",
        "  trips             I_bus over I_set2: 1 time, 3 s\n",
        "  faults            not started: 1 time, ",
        "  tap errors        none\n",
        "  missing readings  U_AB, invalid: 2 s\n",
        "                    U_AB, no number: 1 s\n",
        "                    U_AB, below 0: 1 s\n",
        "                    U_AB, beyond 200 V: 2 s\n",
        "                    3U0, below 0: 2 s\n",
    ] {
        assert!(summary.contains(told), "{told}\n{summary}");
    }
}

#[test]
fn the_table_tells_which_readings_are_missing() {
    let table = run("missing", &[]);
    for told in [
        "in   U_AB invalid\n",
        "in   U_AB -3 V, missing: below 0\n",
        "in   U_AB 200.5 V, missing: beyond 200 V\n",
        "in   U_AB bits 0x7fc00000 V, missing: no number\n",
        "in   3U0 -1 V held, missing: below 0\n",
        "in   U_AB 98 V\n",
    ] {
        assert!(table.contains(told), "{told}\n{table}");
    }
}

/// The readings of a recording change on every tick and are not told, but for those that are missing.
#[test]
fn a_table_of_a_recording_tells_which_readings_are_missing() {
    let folder = Folder::new("missing-recorded");
    let (sheet, csv, recording) = (folder.write("a.txt", SHEET), folder.write("a.csv", SCENARIO), folder.path("a.rec"));
    assert!(avr(&["scenario", "write", &csv, "--sheet", &sheet, "-o", &recording]).status.success());
    let table = out(&avr(&["run", "--sheet", &sheet, "--recording", &recording]));
    let told: Vec<&str> = table.lines().filter_map(|line| line.split_once("  in   ")).map(|(_, words)| words).collect();
    let readings: Vec<&&str> = told.iter().filter(|words| words.starts_with("U_AB") || words.starts_with("3U0")).collect();
    assert_eq!(readings, [&"U_AB missing: invalid", &"U_AB counts again", &"3U0 missing: below 0", &"3U0 counts again"]);
    let played = run("missing-played", &[]);
    let summary = |table: &str| table.split_once("\nsummary of ").expect("a summary").1.to_string();
    assert_eq!(summary(&table), summary(&played));
}

/// What is told as missing is what the unit goes by: automatic is blocked without the voltage that it judges.
#[test]
fn what_is_told_as_missing_is_missing_to_the_unit() {
    let sheets: [&[(&str, u32)]; 3] = [&[], &[("XB4", 1), ("XB5", 1)], &[("XB4", 2), ("XB5", 3)]];
    let used = [vec!["U_AB"], vec!["U_AB", "I_coupler"], READINGS[SCALARS..].iter().map(|reading| reading.name).collect()];
    for module in [0, 1] {
        for (sheet, names) in sheets.iter().zip(&used) {
            let mut list = defaults(module);
            list[at("XB1")] = 1;
            sheet.iter().for_each(|(name, value)| list[at(name)] = *value);
            for name in names {
                edges(reading_at(name), &list, |outputs, counts| assert_eq!(outputs[*BLOCKS.start()] == 0, counts, "{name}"));
            }
        }
    }
}

/// So are readings that organs alone look at: one above its limit trips unless it is missing.
#[test]
fn what_is_told_as_missing_trips_no_organ() {
    for module in [0, 1] {
        for (name, organ, watch, delay) in [("I_high", 0, "XB7", "T9"), ("3U0", 5, "XB12", "T14"), ("U2", 6, "XB13", "T15")] {
            let mut list = defaults(module);
            list[at("XB1")] = 1;
            list[at(watch)] = 1;
            list[at(delay)] = 0;
            let reading = reading_at(name);
            let mut tripped = 0;
            edges(reading, &list, |outputs, counts| {
                assert!(counts || outputs[TRIPS + organ] == 0, "{name}");
                tripped += outputs[TRIPS + organ];
            });
            assert_eq!(tripped, 1, "{name} at its most");
        }
    }
}

/// A tick for each number at the edge of what counts, and what the tool says of it.
fn edges(reading: usize, list: &[u32], mut judge: impl FnMut(&[u32], bool)) {
    let rated = rated_amps(list[MODULE]);
    let most = most(reading, rated) as f32;
    let numbers =
        [0.0, -0.0, f32::from_bits(1), -f32::from_bits(1), 0.5, -0.5, most, most.next_up(), -most, (-most).next_down()];
    for value in numbers.into_iter().chain([f32::NAN, f32::INFINITY, f32::NEG_INFINITY]) {
        for quality in [0, 2] {
            let sample = Sample { quality, value };
            let mut brought = Brought { contacts: 1 | 1 << 14, ..Brought::default() };
            brought.readings = [Sample { quality: 0, value: 1.0 }; COUNT];
            brought.readings[reading] = sample;
            let outputs = start(list).expect("taken").tick(&brought).expect("a tick");
            judge(&outputs, why(reading, sample, rated).is_none());
        }
    }
}

#[test]
fn only_inputs_or_outputs_are_told_on_request() {
    let (all, inputs, outputs) = (run("all", &[]), run("in", &["--only", "inputs"]), run("out", &["--only=outputs"]));
    let count = |table: &str, side: &str| table.lines().filter(|line| line.get(22..29) == Some(side)).count();
    for side in ["  in   ", "  out  ", "  unit "] {
        let is_input = side == "  in   ";
        assert_eq!(count(&inputs, side), if is_input { count(&all, side) } else { 0 }, "{side}");
        assert_eq!(count(&outputs, side), if is_input { 0 } else { count(&all, side) }, "{side}");
    }
    assert!(count(&all, "  in   ") > 10 && count(&all, "  out  ") > 10);
}

/// Both of its times are in it, and before them comes what stands.
#[test]
fn a_window_holds_its_own_changes_and_what_stands() {
    let window = told(&run("window", &["--from", "12.005", "--to", "13.005"]));
    let all = told(&run("no-window", &[]));
    let inside = |change: &&[String; 4]| (2401..=2601).contains(&change[1].parse::<u32>().expect("a tick"));
    let (before, seen) = window.split_at(window.iter().position(|change| change[1] == "2401").expect("its beginning"));
    assert_eq!(seen.iter().collect::<Vec<_>>(), all.iter().filter(inside).collect::<Vec<_>>());
    assert_eq!((seen.len(), seen[1][1].as_str()), (2, "2601"));
    let stands: Vec<&str> = before.iter().map(|change| change[3].as_str()).collect();
    let wanted = ["I_bus 0.5 A", "breaker closed", "key: automatic", "section present", "automatic mode"];
    assert!(wanted.iter().all(|words| stands.contains(words)), "{stands:?}");
    for gone in ["RAISE command", "raise command off", "switching contact open", "drive at rest", "U_AB 98 V"] {
        assert!(!stands.contains(&gone), "{gone} does not stand: {stands:?}");
    }
    assert!(stands.contains(&"U_AB invalid") && stands.contains(&"automatic blocked"), "{stands:?}");
    assert!(run("whole-summary", &["--from", "12"]).contains("summary of 40 s"), "the summary is of the whole run");
}

#[test]
fn a_window_may_be_one_tick() {
    let table = run("instant", &["--from", "2", "--to", "2", "--only", "outputs"]);
    let changes: Vec<[String; 4]> = told(&table).into_iter().filter(|change| change[1] == "400").collect();
    assert_eq!(changes.iter().map(|change| change[3].as_str()).collect::<Vec<_>>(), ["RAISE command", "drive busy"]);
    assert!(run("instant-picture", &["--from", "2", "--to", "2", "--svg", "/dev/null"]).contains("RAISE command"));
}

#[test]
fn a_wrong_window_is_told() {
    let folder = Folder::new("windows");
    let (sheet, csv) = (folder.write("a.txt", SHEET), folder.write("a.csv", SCENARIO));
    let told = |more: &[&str]| {
        let output = avr(&[&["run", "--sheet", &sheet, "--scenario", &csv], more].concat());
        (output.status.code().expect("a status"), err(&output).lines().next().unwrap_or_default().to_string())
    };
    assert_eq!(told(&["--from", "5", "--to", "4"]), (2, "avr: --from is after --to".to_string()));
    assert_eq!(told(&["--to", "0"]), (2, "avr: --to is before the first tick, at 0.005 s".to_string()));
    assert_eq!(told(&["--title", "a"]), (2, "avr: --title is a picture's: give --svg FILE too".to_string()));
    assert_eq!(told(&["--table", "--svg", "x"]), (2, "avr: --table has no value".to_string()));
    assert_eq!(told(&["--recording", "x"]), (2, "avr: give one of --scenario and --recording alone".to_string()));
    assert_eq!(told(&["--from", "x"]), (2, "avr: --from: the time `x` is not a number".to_string()));
    assert_eq!(told(&["--from", "40"]), (1, "avr: --from 40 is not before the end of the run, 40 s".to_string()));
    assert_eq!(told(&["--only", "faults"]), (2, "avr: --only takes all or inputs or outputs, and not `faults`".to_string()));
    assert_eq!(told(&["--format", "xml"]), (2, "avr: --format takes text or csv or json, and not `xml`".to_string()));
    assert_eq!(told(&["--to", "500", "--table", "/dev/null"]).0, 0, "a window may end after the run");
}

/// The changes of a table for people, each with its time and tick.
fn told(table: &str) -> Vec<[String; 4]> {
    let (mut time, mut tick, mut changes) = (String::new(), String::new(), Vec::new());
    for line in table.lines().skip(1).take_while(|line| !line.ends_with("  end")) {
        if !line[..11].trim().is_empty() {
            (time, tick) = (line[..11].trim().to_string(), line[11..22].trim().to_string());
        }
        changes.push([time.clone(), tick.clone(), line[24..28].trim().to_string(), line[29..].to_string()]);
    }
    changes
}

#[test]
fn csv_has_the_changes_of_the_table() {
    let (csv, table) = (run("csv", &["--format", "csv"]), run("text", &[]));
    let mut rows = csv.lines();
    assert_eq!(rows.next(), Some("seconds,tick,side,name,value,change"));
    let rows: Vec<[String; 4]> = rows
        .map(|row| {
            let (head, words) = row.split_once(",\"").expect("words");
            let cells: Vec<&str> = head.split(',').collect();
            assert_eq!(cells.len(), 5, "{row}");
            [cells[0], cells[1], cells[2], words.strip_suffix('"').expect("their end")].map(str::to_string)
        })
        .collect();
    assert_eq!(rows, told(&table));
    assert!(csv.contains(",in,U_AB,200.5,\"U_AB 200.5 V, missing: beyond 200 V\"\n"));
    assert!(csv.contains(",in,breaker,1,\"breaker closed\"\n") && csv.contains(",out,raise,1,\"RAISE command\"\n"));
}

#[test]
fn json_has_the_changes_of_the_table_and_the_summary() {
    let (json, table) = (Json::read(&run("json", &["--format=json"])), run("text-of-json", &[]));
    let text = |change: &Json, name: &str| match change.at(name) {
        Json::Text(text) => text.clone(),
        other => panic!("{other:?}"),
    };
    let number = |change: &Json, name: &str| match change.at(name) {
        Json::Number(number) => *number,
        other => panic!("{other:?}"),
    };
    let changes: Vec<[String; 4]> = json
        .at("changes")
        .list()
        .iter()
        .map(|change| {
            let time = format!("{:.3}", number(change, "seconds"));
            [time, number(change, "tick").to_string(), text(change, "side"), text(change, "change")]
        })
        .collect();
    assert_eq!(changes, told(&table));
    let summary = json.at("summary");
    assert_eq!((number(summary, "raises"), number(summary, "lowers"), number(summary, "ticks")), (2.0, 0.0, 8000.0));
    assert_eq!((number(summary, "operations"), number(summary, "count")), (1.0, 50000.0));
    assert_eq!(summary.at("worn"), &Json::Word(true));
    assert_eq!(text(&summary.at("trips").list()[0], "name"), "I_bus over I_set2");
    let missing: Vec<[String; 2]> =
        summary.at("missing_readings").list().iter().map(|one| [text(one, "name"), text(one, "why")]).collect();
    assert_eq!(missing.len(), 5);
    assert!(missing.contains(&["U_AB".to_string(), "beyond 200 V".to_string()]), "{missing:?}");
    let value = |words: &str| {
        let found = json.at("changes").list().iter().find(|change| text(change, "change") == words);
        found.expect("such a change").at("value")
    };
    assert_eq!(value("U_AB 200.5 V, missing: beyond 200 V"), &Json::Number(200.5));
    assert_eq!(value("U_AB invalid"), &Json::Text("invalid".to_string()));
    assert_eq!(summary.at("tap_errors").list(), []);
}

/// Where standard output has neither the table for people nor the JSON, the summary is on standard error.
#[test]
fn the_summary_is_always_told() {
    let folder = Folder::new("always");
    let (sheet, csv, table) = (folder.write("a.txt", SHEET), folder.write("a.csv", SCENARIO), folder.path("t"));
    for (more, aside) in [
        (vec![], false),
        (vec!["--format", "json"], false),
        (vec!["--format", "csv"], true),
        (vec!["--table", &table], true),
        (vec!["--table", &table, "--svg", "-"], true),
    ] {
        let output = avr(&[&["run", "--sheet", &sheet, "--scenario", &csv], &more[..]].concat());
        assert_eq!(err(&output).contains("summary of 40 s, 8000 ticks\n"), aside, "{more:?}");
    }
}

/// A recording in which a reading is no number for long is one change and not thousands.
#[test]
fn a_float_that_is_no_number_stays_the_same() {
    let folder = Folder::new("nan");
    let (sheet, csv) = (folder.write("a.txt", "XB1 = on\n"), folder.write("a.csv", "ticks,U_AB\n0,nan\n500,end\n"));
    let table = out(&avr(&["run", "--sheet", &sheet, "--scenario", &csv]));
    assert_eq!(table.matches("U_AB bits 0x7fc00000 V, missing: no number").count(), 1, "{table}");
    assert_eq!(recorded(avr(&["scenario", "write", &csv, "-o", "-"]).stdout).expect("ticks").len(), 500);
    let shown = folder.path("a.rec");
    assert!(avr(&["scenario", "write", &csv, "-o", &shown]).status.success());
    assert_eq!(out(&avr(&["scenario", "show", &shown])).lines().count(), 3);
}

/// As a unit comes back from out its count begins again, which is no operation, and operations before it stay what they were.
#[test]
fn operations_are_counted_through_out() {
    let folder = Folder::new("through-out");
    let sheet = folder.write("a.txt", "XB1 = on\nXB18 = on\nT1 = 1\nT2 = 1\nT3 = 1\nN_start = 7\n");
    for (rows, told) in [
        ("0,90,1,1,0,ok\n14,,,,1\n15,,,,0\n20,end\n", "operations        4; the count is 8\n"),
        ("0,100,1,1,1,ok\n1,,,,0\n5,end\n", "operations        0; the count is 7\n"),
        ("0,100,1,1,0,ok\n1,,,,1\n5,end\n", "operations        0; the count is 0\n"),
    ] {
        let csv = folder.write("a.csv", format!("seconds,U_AB,breaker,automatic,out,drive\n{rows}"));
        let table = out(&avr(&["run", "--sheet", &sheet, "--scenario", &csv]));
        assert!(table.contains(told), "{told}{table}");
    }
}

/// What goes off as the unit is taken out is told as that, and not as free.
#[test]
fn a_unit_that_is_out_is_neither_free_nor_manual() {
    let folder = Folder::new("words-out");
    let sheet = folder.write("a.txt", "XB1 = on\n");
    let csv = folder.write("a.csv", "seconds,U_AB,breaker,automatic,ext_block,out\n0,100,1,1,1,0\n1,,,,,1\n2,end\n");
    let table = out(&avr(&["run", "--sheet", &sheet, "--scenario", &csv]));
    for told in ["automatic blocked: off, the unit is out", "automatic: off, the unit is out"] {
        assert!(table.contains(told), "{table}");
    }
    assert!(!table.contains(" free\n") && !table.contains("manual mode"), "{table}");
}

/// The tap's source is told, and the other one is not.
#[test]
fn what_the_tap_is_read_from_is_told() {
    let folder = Folder::new("source");
    let csv = folder.write("a.csv", "seconds,U_AB,breaker,BCD,sensor\n0,100,1,20,30\n1,,,0x1a,31\n2,end\n");
    for (source, told, untold) in
        [("BCD", ["BCD 20\n", "BCD 0x1a\n"], "sensor"), ("sensor", ["sensor 30\n", "sensor 31\n"], "in   BCD")]
    {
        let sheet = folder.write("a.txt", format!("XB1 = on\nXB6 = {source}\n"));
        let table = out(&avr(&["run", "--sheet", &sheet, "--scenario", &csv]));
        assert!(told.iter().all(|words| table.contains(words)) && !table.contains(untold), "{table}");
    }
}

/// What a sheet looks at and no column gives, a remark each.
#[test]
fn what_no_column_gives_is_remarked_on() {
    let folder = Folder::new("remarks");
    let remarks = |sheet: &str, columns: &str| {
        let (sheet, csv) = (folder.write("a.txt", sheet), folder.write("a.csv", format!("seconds,{columns}\n0\n1,end\n")));
        let output = avr(&["run", "--sheet", &sheet, "--scenario", &csv]);
        err(&output).replace(&format!("avr: {csv}: "), "")
    };
    let bus = |setting: &str| format!("{setting} looks at I_bus, which no column gives, so that it is 0: add I_bus\n");
    assert_eq!(remarks("XB1 = on\n", "U_AB"), "");
    assert_eq!(remarks("XB1 = on\nXB3 = on\n", "U_AB"), bus("XB3 = on"));
    assert_eq!(remarks("XB1 = on\nXB8 = on\nXB9 = on\n", "U_AB"), bus("XB8 = on"), "a reading is told once");
    assert_eq!(remarks("XB1 = on\nXB4 = U_comp\n", "U_AB"), bus("XB4 = U_comp with XB5 = bus"));
    assert_eq!(remarks("XB1 = on\nXB4 = U_comp\n", "U_AB,I_bus"), "");
    assert!(remarks("XB1 = on\nXB6 = BCD\n", "U_AB").starts_with("XB6 = BCD looks at BCD, "));
    assert_eq!(remarks("XB1 = on\nXB6 = BCD\n", "U_AB,BCD"), "");
    assert_eq!(remarks("XB1 = on\nXB6 = BCD\n", "U_AB,drive"), "");
    assert!(remarks("XB1 = on\n", "I_bus").starts_with("no column gives U_AB"));
    assert!(remarks("XB3 = on\n", "I_high").starts_with("the sheet has XB1 = off: the unit is out of service"));
}
