//! The command line: help, exit statuses, errors with file and line, nothing written on an error.

mod common;

use std::fs;

use common::{avr, between, err, examples, out, Folder};
use desk::cells::{self, LONGEST};
use desk::file::{SCENARIO_MOST, SHEET_MOST};
use desk::inputs::{CONTACTS, PAIRS, READINGS};
use desk::missing::most;
use desk::{recording, sheet};
use library::SLOTS;

const SCENARIO: &str = "seconds,U_AB,breaker,automatic\n0,98,1,1\n1,100\n2,end\n";
const DRIVEN: &str = "seconds,U_AB,breaker,automatic,drive\n0,98,1,1,ok\n2,end\n";
const SHEET: &str = "XB1 = on\nT1 = 0.5 s\nT3 = 0.5 s\nXB6 = counted\n";

#[test]
fn help_is_there_for_each_subcommand() {
    for words in [
        vec!["--help"],
        vec!["help"],
        vec!["sheet", "--help"],
        vec!["sheet", "check", "--help"],
        vec!["sheet", "show", "-h"],
        vec!["sheet", "template", "--help"],
        vec!["sheet", "diff", "--help"],
        vec!["scenario", "--help"],
        vec!["scenario", "write", "--help"],
        vec!["scenario", "show", "--help"],
        vec!["run", "--help"],
        vec!["ahead", "--help"],
        vec!["help", "run"],
        vec!["--help", "sheet", "check"],
    ] {
        let output = avr(&words);
        assert_eq!(output.status.code(), Some(0), "{words:?}");
        assert!(out(&output).contains("usage: avr"), "{words:?}");
        assert_eq!(err(&output), "", "{words:?}");
    }
}

#[test]
fn help_tells_of_a_drive_without_a_contact() {
    for words in ["XB2 = continuous    # for a drive without a switching contact", "with XB2 = impulse also counted"] {
        assert!(out(&avr(&["sheet", "check", "--help"])).contains(words), "{words}");
    }
    for words in ["With XB2 = continuous in the sheet the drive has no switching contact", "up a tap that is not done"] {
        assert!(out(&avr(&["scenario", "write", "--help"])).contains(words), "{words}");
    }
}

#[test]
fn help_tells_of_advice_and_of_the_drives_ends() {
    assert!(out(&avr(&["sheet", "check", "--help"])).contains("A line `advice` tells of settings that are taken"));
    let write = out(&avr(&["scenario", "write", "--help"]));
    for words in [
        "the tap at the start (the sheet's N_pos)",
        "drive_lowest    and drive_highest, the taps at its ends",
        "closes end_up at",
    ] {
        assert!(write.contains(words), "{words}");
    }
}

#[test]
fn help_tells_of_pairs_and_ratings() {
    let check = out(&avr(&["sheet", "check", "--help"]));
    let write = out(&avr(&["scenario", "write", "--help"]));
    for words in ["XB4 = RX ", "R_set = 4.5 ohm ", "up to 80 ohm with I_nom = 5 A, up to 400 ohm with 1 A"] {
        assert!(check.contains(words), "{words}");
    }
    for words in ["Inom_ct1 = 2000 A ", "Inom_bus1 the breaker's", "2 kA"] {
        assert!(check.contains(words), "{words}");
    }
    for pair in &PAIRS {
        let names = [pair.phasor, READINGS[pair.parts[0]].name, READINGS[pair.parts[1]].name];
        assert!(names.iter().all(|name| write.contains(name)), "{}", pair.name);
    }
    assert!(write.contains("`0.8@-30 held`"));
}

#[test]
fn help_tells_of_a_press_while_the_drive_runs() {
    let write = out(&avr(&["scenario", "write", "--help"]));
    assert!(write.contains("made while the drive runs, is remembered, the latest one, and carried out at rest"));
    let run = out(&avr(&["run", "--help"]));
    assert!(run.contains("and `unit` what it remembers: a press made while the drive\nruns."));
}

/// The numbers that documents give are the tool's own.
#[test]
fn help_and_readme_name_the_limits_and_ranges() {
    let (all, write) = (out(&avr(&["--help"])), out(&avr(&["scenario", "write", "--help"])));
    let readme = fs::read_to_string(concat!(env!("CARGO_MANIFEST_DIR"), "/README.md")).expect("its manual page");
    let longest = format!("{} s, {LONGEST} ticks", cells::seconds_text(LONGEST));
    let sizes = format!("of a sheet at most {SHEET_MOST} MiB is read, of a scenario {SCENARIO_MOST} MiB");
    assert!(all.contains(&longest) && all.contains(&sizes), "{all}");
    assert!(readme.replace(',', "").contains(&longest.replace(',', "")));
    assert!(readme.contains(&format!("A sheet has at most {SHEET_MOST} MiB and a scenario {SCENARIO_MOST} MiB.")));
    let (volts, amps) = (most(0, 1), [1, 5].map(|rated| most(3, rated)));
    let ranges = format!("above {volts} V or 40 times I_nom: {} A with I_nom = 1 A, {} A with 5 A.", amps[0], amps[1]);
    assert!(write.split_whitespace().collect::<Vec<_>>().join(" ").contains(&ranges), "{write}");
}

#[test]
fn help_names_every_contact_and_tells_which_buttons_act() {
    let write = out(&avr(&["scenario", "write", "--help"]));
    let list = between(&write, "  contacts ", ": 1 or 0");
    let names: Vec<&str> = CONTACTS.iter().map(|contact| contact.name).filter(|name| !name.starts_with("bit")).collect();
    assert_eq!(list.split_whitespace().collect::<Vec<_>>(), names);
    for words in [
        "while `remote` is off, local mode",
        "`local` is another key, of local drive",
        "a change between local and remote mode drop it",
    ] {
        assert!(write.contains(words), "{words}");
    }
}

#[test]
fn a_group_names_its_subcommands() {
    let sheet = "sheet check, sheet show, sheet template, or sheet diff?\n";
    assert!(err(&avr(&["sheet"])).starts_with(&format!("avr: {sheet}")));
    assert!(err(&avr(&["sheet", "fly"])).starts_with(&format!("avr: no subcommand is called `sheet fly`: {sheet}")));
    assert!(err(&avr(&["scenario"])).starts_with("avr: scenario write, or scenario show?\n"));
    for help in [out(&avr(&["--help"])), out(&avr(&["sheet", "--help"]))] {
        assert!(help.contains("avr sheet template [-o FILE] [--module 5]\n       avr sheet diff A B\n"), "{help}");
    }
}

#[test]
fn a_template_is_printed_or_written_for_a_module() {
    let folder = Folder::new("template");
    let target = folder.path("a.txt");
    assert!(out(&avr(&["sheet", "template"])).contains("\nI_nom      = 1 A "));
    for module in ["5", "5 A", "5A"] {
        let output = avr(&["sheet", "template", "--module", module, "-o", &target]);
        assert_eq!((err(&output), output.status.code()), (format!("avr: the template is in {target}\n"), Some(0)));
        assert_eq!(fs::read_to_string(&target).expect("a template"), out(&avr(&["sheet", "template", "--module=5"])));
        assert_eq!(avr(&["sheet", "check", &target]).status.code(), Some(0));
    }
    let output = avr(&["sheet", "template", "--module", "7\u{1b}"]);
    let told = "avr: --module takes 1 or 5 or 1 A or 5 A or 1A or 5A, and not `7\\u{1b}`\n";
    assert!(err(&output).starts_with(told), "{}", err(&output));
    assert_eq!(output.status.code(), Some(2));
}

#[test]
fn sheets_of_either_kind_are_held_to_each_other() {
    let folder = Folder::new("diff");
    let (text, other, binary) =
        (folder.write("a", SHEET), folder.write("b", "XB1 = on\nT1 = 0.5 s\nT3 = 0.5 s\n"), folder.path("c"));
    avr(&["sheet", "check", &text, "-o", &binary]);
    let same = avr(&["sheet", "diff", &text, &binary]);
    assert_eq!((out(&same).as_str(), same.status.code()), ("no setting differs\n", Some(0)));
    let differ = avr(&["sheet", "diff", &binary, &other]);
    let told = "XB6  counted  -> off  where the tap is read\n1 setting differs\n";
    assert_eq!((out(&differ).as_str(), differ.status.code()), (told, Some(0)));
    let bad = avr(&["sheet", "diff", &folder.path("none"), &folder.write("d", "T1 = 0\n")]);
    assert_eq!((err(&bad).lines().count(), bad.status.code()), (2, Some(1)), "{}", err(&bad));
}

#[test]
fn a_wrong_command_line_is_status_2() {
    for words in [
        vec![],
        vec!["fly"],
        vec!["sheet"],
        vec!["sheet", "fly"],
        vec!["sheet", "check"],
        vec!["sheet", "check", "a", "b"],
        vec!["sheet", "check", "a", "--fast"],
        vec!["sheet", "check", "a", "-o"],
        vec!["sheet", "check", "a", "-x"],
        vec!["sheet", "check", "a", "-o", "b", "-o", "c"],
        vec!["sheet", "template", "a"],
        vec!["sheet", "template", "--module", "6"],
        vec!["sheet", "diff", "a"],
        vec!["scenario", "write", "a"],
        vec!["run"],
        vec!["run", "--sheet", "a"],
        vec!["run", "--sheet", "a", "--scenario", "b", "--recording", "c"],
        vec!["run", "a", "--sheet", "a", "--scenario", "b"],
        vec!["ahead", "--sheet", "a", "--scenario", "b"],
        vec!["ahead", "--sheet", "a", "--at", "1"],
    ] {
        let output = avr(&words);
        assert_eq!(output.status.code(), Some(2), "{words:?}");
        assert_eq!(out(&output), "", "{words:?}");
        assert!(err(&output).starts_with("avr: "), "{words:?}");
    }
}

#[test]
fn a_sheet_is_checked_written_and_shown() {
    let folder = Folder::new("sheet");
    let (text, binary) = (folder.write("a.txt", SHEET), folder.path("a.sheet"));
    let output = avr(&["sheet", "check", &text, "-o", &binary]);
    assert_eq!(output.status.code(), Some(0), "{}", err(&output));
    assert_eq!(out(&output), format!("{text}: taken; 4 settings named, {} by default\n", SLOTS - 4));
    assert_eq!(err(&output), format!("avr: the SHEET is in {binary}\n"));
    assert_eq!(fs::read(&binary).expect("a SHEET").len(), sheet::BYTES);
    assert_eq!(out(&avr(&["sheet", "check", &binary])), format!("{binary}: taken; a SHEET, with all {SLOTS} settings\n"));
    let shown = avr(&["sheet", "show", &binary]);
    assert!(out(&shown).contains("\nT1 = 0.5 s "));
    let (again, second) = (folder.write("b.txt", out(&shown)), folder.path("b.sheet"));
    assert_eq!(avr(&["sheet", "check", &again, &format!("--output={second}")]).status.code(), Some(0));
    assert_eq!(fs::read(&binary).expect("one"), fs::read(&second).expect("two"));
}

#[test]
fn a_refused_sheet_writes_nothing() {
    let folder = Folder::new("refused");
    let text = folder.write("a.txt", "XB1 = on\nU_supp1 = 141 V\n");
    let output = avr(&["sheet", "check", &text, "-o", &folder.path("a.sheet")]);
    assert_eq!((output.status.code(), out(&output).as_str()), (Some(1), ""));
    let told = "U_supp1 = 141 V: it takes 80 V to 140 V in steps of 0.1 V (refusal 2, slot 19)";
    assert_eq!(err(&output), format!("avr: {text}:2: {told}\n"));
    let scenario = folder.write("a.csv", SCENARIO);
    let (table, svg) = (folder.path("t"), folder.path("p"));
    let output = avr(&["run", "--sheet", &text, "--scenario", &scenario, "--table", &table, "--svg", &svg]);
    assert_eq!(output.status.code(), Some(1));
    assert_eq!(folder.names(), ["a.csv", "a.txt"]);
}

#[test]
fn a_counted_tap_without_a_contact_is_told_with_file_and_line() {
    let folder = Folder::new("counted");
    let text = folder.write("a.txt", "XB1 = on\nXB2 = continuous  # no contact\nXB6 = counted\n");
    let told = format!(
        "avr: {text}:2: XB2 = continuous: no contact tells of a move, so XB6 = counted has nothing to count; \
         choose XB6 off, BCD or sensor, or XB2 impulse (refusal 5, slot 63)\n"
    );
    let output = avr(&["sheet", "check", &text, "-o", &folder.path("a.sheet")]);
    assert_eq!((output.status.code(), out(&output).as_str(), err(&output)), (Some(1), "", told.clone()));
    let (scenario, recording) = (folder.write("a.csv", DRIVEN), folder.path("a.rec"));
    for words in [
        vec!["run", "--sheet", &text, "--scenario", &scenario],
        vec!["scenario", "write", &scenario, "--sheet", &text, "-o", &recording],
    ] {
        let output = avr(&words);
        assert_eq!((output.status.code(), out(&output).as_str(), err(&output)), (Some(1), "", told.clone()));
    }
    assert_eq!(folder.names(), ["a.csv", "a.txt"]);
}

#[test]
fn a_compensation_and_a_resistance_out_of_range_are_told() {
    let folder = Folder::new("rx");
    let text = folder.write("a.txt", "I_nom = 5 A\nXB4 = raw 3\nR_set = 400 ohm\n");
    let output = avr(&["sheet", "check", &text, "-o", &folder.path("a.sheet")]);
    let told = format!(
        "avr: {text}:2: XB4 = raw 3: it takes off or U_comp or RX (refusal 2, slot 3)\n\
         avr: {text}:3: R_set = 400 ohm: it takes 0 ohm to 80 ohm in steps of 0.001 ohm with I_nom = 5 A, \
         and 0 ohm to 400 ohm with I_nom = 1 A (refusal 2, slot 64)\n"
    );
    assert_eq!((output.status.code(), out(&output).as_str(), err(&output)), (Some(1), "", told));
    assert_eq!(folder.names(), ["a.txt"]);
}

/// A remark for each pair that is needed and not given, beside what is done all the same.
#[test]
fn a_scenario_without_a_needed_pair_is_remarked_on() {
    let folder = Folder::new("pairs");
    let without = "goes by I_coupler as a pair, which no column gives, so that it is 0: \
                   add I_coupler_phasor, or I_coupler_re and I_coupler_im\n";
    for (current, columns, told) in [
        ("bus", "U_AB_phasor,I_bus_re", vec![]),
        ("bus-coupler", "U_AB_im,I_bus_phasor", vec!["I_coupler"]),
        ("coupler", "U_AB,I_bus_phasor", vec!["U_AB", "I_coupler"]),
        ("bus+coupler", "U_AB,I_bus", vec!["U_AB", "I_bus", "I_coupler"]),
    ] {
        let sheet = folder.write("a.txt", format!("XB1 = on\nXB4 = RX\nXB5 = {current}\n"));
        let csv = folder.write("a.csv", format!("ticks,{columns}\n0\n5,end\n"));
        for words in [
            vec!["run", "--sheet", &sheet, "--scenario", &csv],
            vec!["scenario", "write", &csv, "--sheet", &sheet, "-o", &folder.path("a.rec")],
        ] {
            let output = avr(&words);
            assert!(output.status.success());
            let said: String =
                err(&output).lines().filter(|line| !line.contains(" is in ")).map(|line| format!("{line}\n")).collect();
            let head = format!("avr: {csv}: XB4 = RX with XB5 = {current} goes by ");
            let names: Vec<&str> = said.lines().map(|line| line.strip_prefix(&head).expect("a remark")).collect();
            let names: Vec<&str> = names.iter().filter_map(|line| line.split(' ').next()).collect();
            assert_eq!(names, told, "{said}");
            assert!(!told.contains(&"I_coupler") || said.ends_with(without), "{said}");
        }
    }
    let (sheet, csv) = (folder.write("a.txt", "XB1 = on\n"), folder.write("a.csv", SCENARIO));
    assert_eq!(err(&avr(&["run", "--sheet", &sheet, "--scenario", &csv])), "");
}

#[test]
fn a_refused_binary_sheet_is_not_shown() {
    let folder = Folder::new("binary");
    let zeros = folder.write("zeros", [0; sheet::BYTES]);
    let output = avr(&["sheet", "show", &zeros]);
    assert_eq!((output.status.code(), out(&output).as_str()), (Some(1), ""));
    assert!(err(&output).contains("(refusal 2, slot 19)"));
    let output = avr(&["sheet", "show", &folder.write("short", [0; 4])]);
    assert!(err(&output).contains("(refusal 1, slot 0)"));
}

#[test]
fn a_scenario_is_written_and_shown() {
    let folder = Folder::new("scenario");
    let (csv, recording) = (folder.write("a.csv", SCENARIO), folder.path("a.rec"));
    let output = avr(&["scenario", "write", &csv, "-o", &recording]);
    assert_eq!((out(&output).as_str(), err(&output)), ("", format!("avr: the RECORDING of 400 ticks is in {recording}\n")));
    assert_eq!(fs::read(&recording).expect("a RECORDING").len(), 400 * recording::BYTES);
    let shown = avr(&["scenario", "show", &recording]);
    let wanted = "seconds,U_AB,3U0,U2,I_high,I_bus,I_coupler,breaker,automatic\n0,98,0,0,0,0,0,1,1\n1,100,,,,,,,\n2,end\n";
    assert_eq!(out(&shown), wanted);
    let (again, second) = (folder.write("b.csv", out(&shown)), folder.path("b.rec"));
    avr(&["scenario", "write", &again, "-o", &second]);
    assert_eq!(fs::read(&recording).expect("one"), fs::read(&second).expect("two"));
}

#[test]
fn a_scenario_with_a_drive_needs_a_sheet() {
    let folder = Folder::new("drive");
    let (csv, sheet, recording) = (folder.write("a.csv", DRIVEN), folder.write("a.txt", SHEET), folder.path("a.rec"));
    let output = avr(&["scenario", "write", &csv, "-o", &recording]);
    assert_eq!(output.status.code(), Some(1));
    assert!(err(&output).contains("--sheet"));
    assert_eq!(folder.names(), ["a.csv", "a.txt"]);
    let output = avr(&["scenario", "write", &csv, "-o", &recording, "--sheet", &sheet]);
    assert_eq!(output.status.code(), Some(0), "{}", err(&output));
    assert_eq!(fs::read(&recording).expect("a RECORDING").len(), 400 * recording::BYTES);
}

#[test]
fn a_drive_whose_taps_do_not_go_with_the_sheet_is_told() {
    let folder = Folder::new("ends");
    let sheet = folder.write("a.txt", "XB1 = on\nN_L = 3\nN_pos = 9\nN_R = 17\n");
    for (column, cell, told) in [
        ("drive_lowest", 17, "drive_lowest, 17, is not below the sheet's N_R = 17: give drive_highest too"),
        ("drive_highest", 3, "drive_highest, 3, is not above the sheet's N_L = 3: give drive_lowest too"),
        ("drive_lowest", 10, "the drive begins at the sheet's N_pos = 9, outside its taps 10 to 17: give drive_tap"),
    ] {
        let csv = folder.write("a.csv", format!("seconds,drive,{column}\n0,ok,{cell}\n1,end\n"));
        for words in [
            vec!["run", "--sheet", &sheet, "--scenario", &csv],
            vec!["scenario", "write", &csv, "--sheet", &sheet, "-o", &folder.path("a.rec")],
        ] {
            let output = avr(&words);
            assert_eq!((err(&output), output.status.code()), (format!("avr: {csv}: {told}\n"), Some(1)));
        }
    }
    assert_eq!(folder.names(), ["a.csv", "a.txt"]);
}

/// The lines of a table that are the unit's, with the time and tick they stand under.
fn outputs(table: &str) -> Vec<String> {
    let mut time = String::new();
    let mut lines = Vec::new();
    for line in table.lines() {
        let head = line.get(..22).unwrap_or("").trim();
        if !head.is_empty() {
            time = head.to_string();
        }
        if line.contains("  out  ") || line.contains("  unit ") {
            lines.push(format!("{time} {}", line.get(24..).unwrap_or("")));
        }
    }
    lines
}

#[test]
fn a_recording_of_an_example_runs_as_the_example_does() {
    let folder = Folder::new("replay");
    for story in [
        "two-steps",
        "sliding-tap",
        "long-move",
        "press-in-a-move",
        "panel-and-dispatcher",
        "continuous-in-band",
        "continuous-long",
        "long-feeder",
    ] {
        let place = |name: &str| examples().join(story).join(name).to_str().expect("a plain path").to_string();
        let (sheet, scenario, recording) = (place("sheet.txt"), place("scenario.csv"), folder.path("a.rec"));
        let written = avr(&["scenario", "write", &scenario, "--sheet", &sheet, "-o", &recording]);
        assert!(written.status.success(), "{}", err(&written));
        let replayed = avr(&["run", "--sheet", &sheet, "--recording", &recording]);
        let stored = fs::read_to_string(place("table.txt")).expect("a table");
        assert_eq!(outputs(&out(&replayed)), outputs(&stored), "{story}");
        assert!(outputs(&stored).len() > 5);
    }
}

#[test]
fn a_run_says_what_changed_and_where_the_picture_is() {
    let folder = Folder::new("run");
    let (csv, sheet, svg) = (folder.write("a.csv", SCENARIO), folder.write("a.txt", SHEET), folder.path("a.svg"));
    let output = avr(&["run", "--sheet", &sheet, "--scenario", &csv, "--svg", &svg]);
    assert!(output.status.success(), "{}", err(&output));
    assert!(out(&output).contains("0.500        100  out  RAISE command"), "{}", out(&output));
    assert!(err(&output).contains(&format!("the picture is in {svg}")));
    let picture = fs::read_to_string(&svg).expect("a picture");
    assert!(picture.starts_with("<svg ") && picture.ends_with("</svg>\n"));
}

#[test]
fn the_words_are_those_of_the_drive_in_the_sheet() {
    let folder = Folder::new("words");
    let csv = folder.write("a.csv", "seconds,U_AB,breaker,automatic,drive\n0,98,1,1,does-not-start\n4,end\n");
    let impulse = ["out  drive busy", "out  drive at rest", "out  FAULT: drive not started"];
    let continuous = ["out  drive asked", "out  drive not asked", "out  FAULT: long command"];
    for (kind, told, untold) in [("impulse", impulse, continuous), ("continuous", continuous, impulse)] {
        let sheet = folder.write("a.txt", format!("XB1 = on\nXB2 = {kind}\nT1 = 0.5 s\nT4 = 2 s\nT5 = 2 s\n"));
        let table = out(&avr(&["run", "--sheet", &sheet, "--scenario", &csv]));
        assert!(told.iter().all(|words| table.contains(words)), "{table}");
        assert!(untold.iter().all(|words| !table.contains(words)), "{table}");
    }
}

#[test]
fn files_that_cannot_be_read_or_written_are_told() {
    let folder = Folder::new("files");
    let sheet = folder.write("a.txt", SHEET);
    let output = avr(&["sheet", "check", &folder.path("none")]);
    assert_eq!(output.status.code(), Some(1));
    assert_eq!(err(&output), format!("avr: {}: No such file or directory\n", folder.path("none")));
    for target in [folder.path("none/a.sheet"), folder.path("")] {
        let output = avr(&["sheet", "check", &sheet, "-o", &target]);
        assert_eq!((output.status.code(), out(&output).as_str()), (Some(1), ""), "{target}");
    }
    assert_eq!(folder.names(), ["a.txt"]);
}

#[test]
fn an_input_is_not_written_over() {
    let folder = Folder::new("over");
    let (csv, sheet) = (folder.write("a.csv", SCENARIO), folder.write("a.txt", SHEET));
    for words in [
        vec!["sheet", "check", &sheet, "-o", &sheet],
        vec!["scenario", "write", &csv, "-o", &csv],
        vec!["run", "--sheet", &sheet, "--scenario", &csv, "--svg", &csv],
        vec!["run", "--sheet", &sheet, "--scenario", &csv, "--svg", "new", "--table", "new"],
    ] {
        assert_eq!(avr(&words).status.code(), Some(1), "{words:?}");
    }
    assert_eq!(fs::read_to_string(&csv).expect("still there"), SCENARIO);
    assert_eq!(fs::read_to_string(&sheet).expect("still there"), SHEET);
}

#[test]
fn a_second_target_that_fails_leaves_the_first_unwritten() {
    let folder = Folder::new("two");
    let (csv, sheet) = (folder.write("a.csv", SCENARIO), folder.write("a.txt", SHEET));
    let (table, svg) = (folder.path("t"), folder.path("none/p"));
    let output = avr(&["run", "--sheet", &sheet, "--scenario", &csv, "--table", &table, "--svg", &svg]);
    assert_eq!(output.status.code(), Some(1));
    assert_eq!(folder.names(), ["a.csv", "a.txt"]);
}

#[test]
fn a_device_is_written_in_place() {
    let folder = Folder::new("device");
    let sheet = folder.write("a.txt", SHEET);
    assert!(avr(&["sheet", "check", &sheet, "-o", "/dev/null"]).status.success());
    assert!(!fs::metadata("/dev/null").expect("still there").is_file());
}
