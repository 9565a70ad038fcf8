//! Files as people expect them: protected ones stay, links are followed, nothing is written on an error, and nothing without an
//! end is read to its end.

mod common;

use std::cell::RefCell;
use std::fs::{self, File, OpenOptions, Permissions};
use std::io::{Read, Write};
use std::os::unix::fs::{symlink, MetadataExt, PermissionsExt};
use std::process::{Command, Output, Stdio};
use std::rc::Rc;
use std::time::{Duration, Instant};

use common::{avr, err, out, Folder};
use desk::progress::{line, Progress};
use desk::recording;

const SCENARIO: &str = "seconds,U_AB,breaker,automatic\n0,98,1,1\n1,100\n2,end\n";
const SHEET: &str = "XB1 = on\nT1 = 0.5 s\nXB6 = counted\n";

/// A sheet and a scenario in a folder, and the words of a run over them.
struct Desk {
    folder: Folder,
    sheet: String,
    csv: String,
}

impl Desk {
    fn new(name: &str) -> Desk {
        let folder = Folder::new(name);
        let (sheet, csv) = (folder.write("a.txt", SHEET), folder.write("a.csv", SCENARIO));
        Desk { folder, sheet, csv }
    }

    fn run(&self, more: &[&str]) -> Output {
        avr(&[&["run", "--sheet", &self.sheet, "--scenario", &self.csv], more].concat())
    }

    /// A run with standard output elsewhere.
    fn run_into(&self, stdout: Stdio, more: &[&str]) -> Output {
        let mut command = Command::new(env!("CARGO_BIN_EXE_avr"));
        command.args(["run", "--sheet", &self.sheet, "--scenario", &self.csv]).args(more);
        command.stdout(stdout).stderr(Stdio::piped()).output().expect("avr runs")
    }
}

fn full() -> Stdio {
    OpenOptions::new().write(true).open("/dev/full").expect("a full device").into()
}

#[test]
fn a_protected_file_is_refused_before_the_run() {
    let desk = Desk::new("protected");
    let target = desk.folder.write("p.svg", "old");
    fs::set_permissions(&target, Permissions::from_mode(0o444)).expect("a mode");
    let output = desk.run(&["--svg", &target]);
    assert_eq!((output.status.code(), out(&output).as_str()), (Some(1), ""));
    assert!(err(&output).contains("is protected against writing"), "{}", err(&output));
    assert_eq!(fs::read_to_string(&target).expect("still there"), "old");
}

#[test]
fn mode_number_and_links_stay() {
    let desk = Desk::new("mode");
    let (target, link) = (desk.folder.write("p.svg", "old"), desk.folder.path("link.svg"));
    fs::set_permissions(&target, Permissions::from_mode(0o640)).expect("a mode");
    symlink("p.svg", &link).expect("a link");
    let before = fs::metadata(&target).expect("there");
    assert!(desk.run(&["--svg", &link]).status.success());
    let after = fs::metadata(&target).expect("there");
    assert_eq!((before.mode(), before.uid(), before.ino()), (after.mode(), after.uid(), after.ino()));
    assert!(fs::symlink_metadata(&link).expect("there").is_symlink());
    assert!(fs::read_to_string(&target).expect("a picture").starts_with("<svg "));
}

#[test]
fn a_link_to_nothing_yet_is_followed() {
    let desk = Desk::new("dangling");
    let link = desk.folder.path("link.svg");
    symlink("new.svg", &link).expect("a link");
    assert!(desk.run(&["--svg", &link]).status.success());
    assert!(fs::symlink_metadata(&link).expect("there").is_symlink());
    assert!(fs::read_to_string(desk.folder.path("new.svg")).expect("a picture").starts_with("<svg "));
}

#[test]
fn what_cannot_be_printed_leaves_no_file() {
    let desk = Desk::new("full");
    let (new, old) = (desk.folder.path("new.svg"), desk.folder.write("old.svg", "old"));
    for target in [&new, &old] {
        let output = desk.run_into(full(), &["--svg", target]);
        assert_eq!(output.status.code(), Some(1));
        assert_eq!(err(&output), "avr: standard output: No space left on device\n");
    }
    assert_eq!(fs::read_to_string(&old).expect("still there"), "old");
    assert_eq!(desk.folder.names(), ["a.csv", "a.txt", "old.svg"]);
}

/// The words of a shell that closes standard output.
#[test]
fn a_closed_standard_output_is_an_error() {
    let desk = Desk::new("closed");
    let target = desk.folder.path("p.svg");
    let run = format!("run --sheet {} --scenario {} --svg {target}", desk.sheet, desk.csv);
    for words in [run.as_str(), "--help", "sheet check --help", &format!("sheet check {}", desk.sheet)] {
        let line = format!("{} {words} >&-", env!("CARGO_BIN_EXE_avr"));
        let output = Command::new("sh").args(["-c", &line]).output().expect("a shell");
        assert_eq!(
            (output.status.code(), err(&output).as_str()),
            (Some(1), "avr: standard output is closed, or cannot be written\n"),
            "{words}"
        );
    }
    assert_eq!(desk.folder.names(), ["a.csv", "a.txt"]);
    let null = desk.run_into(Stdio::null(), &["--svg", &target]);
    assert!(null.status.success(), "{}", err(&null));
}

/// Open, but for reading; and a standard input that is open for writing, or not at all.
#[test]
fn standard_input_and_output_that_go_the_wrong_way_are_errors() {
    let desk = Desk::new("ways");
    for (line, told) in [
        (format!("sheet check {} 1</dev/null", desk.sheet), "standard output is closed, or cannot be written"),
        ("sheet check - <&-".to_string(), "standard input: is closed, or cannot be read"),
        ("sheet check - 0>/dev/null".to_string(), "standard input: is closed, or cannot be read"),
        (format!("run --sheet {} --scenario - <&-", desk.sheet), "standard input: is closed, or cannot be read"),
        (format!("run --sheet {} --recording - <&-", desk.sheet), "standard input: is closed, or cannot be read"),
    ] {
        let line = format!("{} {line}", env!("CARGO_BIN_EXE_avr"));
        let output = Command::new("sh").args(["-c", &line]).output().expect("a shell");
        assert_eq!((output.status.code(), err(&output)), (Some(1), format!("avr: {told}\n")), "{line}");
    }
    let empty = Command::new("sh").args(["-c", &format!("{} sheet check - </dev/null", env!("CARGO_BIN_EXE_avr"))]).output();
    assert!(err(&empty.expect("a shell")).contains("no setting is named in it"));
}

/// What is printed into a file is not written over by another part of the same command.
#[test]
fn the_file_of_standard_output_is_no_target() {
    let desk = Desk::new("stdout");
    let target = desk.folder.path("x");
    for svg in [target.as_str(), "/dev/stdout"] {
        let output = desk.run_into(File::create(&target).expect("a file").into(), &["--svg", svg]);
        assert_eq!(output.status.code(), Some(1), "{svg}");
        assert!(err(&output).contains("would be written over another file of this command"), "{}", err(&output));
    }
    assert!(desk.run_into(File::create(&target).expect("a file").into(), &[]).status.success());
}

#[test]
fn a_recording_in_a_pipe_is_shown() {
    let desk = Desk::new("pipe");
    let file = desk.folder.path("a.rec");
    assert!(avr(&["scenario", "write", &desk.csv, "-o", &file]).status.success());
    let line = format!("cat {file} | {} scenario show /dev/stdin", env!("CARGO_BIN_EXE_avr"));
    let shown = Command::new("sh").args(["-c", &line]).output().expect("a shell");
    assert_eq!(out(&shown), out(&avr(&["scenario", "show", &file])), "{}", err(&shown));
}

#[test]
fn a_recording_that_was_broken_off_is_refused() {
    let desk = Desk::new("broken");
    let long = desk.folder.write("long.csv", "seconds,U_AB\n0,98\n100000,end\n");
    let file = desk.folder.path("a.rec");
    let mut child = Command::new(env!("CARGO_BIN_EXE_avr"))
        .args(["scenario", "write", &long, "--sheet", &desk.sheet, "-o", &file])
        .stderr(Stdio::null())
        .spawn()
        .expect("avr runs");
    let enough = |path: &str| fs::metadata(path).is_ok_and(|data| data.len() > 1 << 20);
    while !enough(&file) && child.try_wait().expect("a look").is_none() {
        std::thread::sleep(Duration::from_millis(5));
    }
    child.kill().and_then(|()| child.wait()).expect("its end");
    let whole = fs::metadata(&file).expect("a part").len() / recording::BYTES as u64 * recording::BYTES as u64;
    OpenOptions::new().write(true).open(&file).and_then(|part| part.set_len(whole)).expect("whole ticks");
    let output = avr(&["run", "--sheet", &desk.sheet, "--recording", &file]);
    assert_eq!(
        (output.status.code(), err(&output)),
        (Some(1), format!("avr: {file}: its writing was broken off: write it again\n"))
    );
}

#[test]
fn a_reader_that_goes_away_is_no_error() {
    let desk = Desk::new("gone");
    let (reader, writer) = std::io::pipe().expect("a pipe");
    drop(reader);
    let target = desk.folder.path("p.svg");
    assert!(desk.run_into(writer.into(), &["--svg", &target]).status.success());
    assert!(fs::exists(&target).expect("a look"));
}

/// A second target that cannot be written leaves the first as it was, new or not.
#[test]
fn a_full_device_undoes_what_was_written() {
    let desk = Desk::new("undo");
    let (new, old) = (desk.folder.path("new.txt"), desk.folder.write("old.txt", "old"));
    for table in [&new, &old] {
        let output = desk.run(&["--table", table, "--svg", "/dev/full"]);
        assert_eq!(output.status.code(), Some(1));
        assert_eq!(err(&output), "avr: /dev/full: No space left on device\n");
    }
    assert_eq!(fs::read_to_string(&old).expect("still there"), "old");
    assert_eq!(desk.folder.names(), ["a.csv", "a.txt", "old.txt"]);
}

/// A scenario whose run would take minutes: what is wrong with its outputs is told at once.
#[test]
fn bad_targets_are_told_before_the_run() {
    let desk = Desk::new("before");
    let long = desk.folder.write("long.csv", "seconds,U_AB\n0,98\n100000,end\n");
    let new = desk.folder.path("new");
    let linked = desk.folder.path("linked");
    fs::hard_link(&desk.sheet, &linked).expect("a link");
    for (more, told) in [
        (vec!["--svg", "/none/p"], "No such file or directory"),
        (vec!["--svg", "."], "is a folder"),
        (vec!["--svg", &new, "--table", &new], "would be written over another file of this command"),
        (vec!["--svg", &desk.sheet], "would be written over another file of this command"),
        (vec!["--svg", &linked], "would be written over another file of this command"),
        (vec!["--svg", &format!("{new}/../new")], "No such file or directory"),
    ] {
        let from = Instant::now();
        let output = avr(&[&["run", "--sheet", &desk.sheet, "--scenario", &long], &more[..]].concat());
        assert_eq!((output.status.code(), out(&output).as_str()), (Some(1), ""), "{more:?}");
        assert!(err(&output).contains(told), "{}", err(&output));
        assert!(from.elapsed().as_secs() < 3, "{more:?}");
    }
    assert_eq!(desk.folder.names(), ["a.csv", "a.txt", "linked", "long.csv"]);
}

#[test]
fn standard_input_and_output_stand_for_a_dash() {
    let desk = Desk::new("dash");
    let piped = |words: &[&str], input: &str| {
        let file = File::open(input).expect("an input");
        let mut command = Command::new(env!("CARGO_BIN_EXE_avr"));
        command.args(words).stdin(file).output().expect("avr runs")
    };
    let usual = out(&desk.run(&[]));
    assert_eq!(out(&piped(&["run", "--sheet", "-", "--scenario", &desk.csv], &desk.sheet)), usual);
    assert_eq!(out(&piped(&["run", "--sheet", &desk.sheet, "--scenario", "-", "--table", "-"], &desk.csv)), usual);
    assert_eq!(out(&desk.run(&["--table", "/dev/stdout"])), usual);
    let picture = piped(&["run", "--sheet", &desk.sheet, "--scenario", "-", "--table", "/dev/null", "--svg", "-"], &desk.csv);
    assert!(out(&picture).starts_with("<svg ") && out(&picture).ends_with("</svg>\n"));
    let (file, recording) = (desk.folder.path("a.rec"), avr(&["scenario", "write", &desk.csv, "-o", "-"]).stdout);
    fs::write(&file, &recording).expect("a recording");
    assert_eq!(recording.len(), 400 * recording::BYTES);
    assert_eq!(out(&piped(&["scenario", "show", "-"], &file)), out(&avr(&["scenario", "show", &file])));
    let replayed = piped(&["run", "--sheet", &desk.sheet, "--recording", "-"], &file);
    assert_eq!(out(&replayed), out(&avr(&["run", "--sheet", &desk.sheet, "--recording", &file])));
    let sheet = piped(&["sheet", "check", "-", "-o", "-"], &desk.sheet);
    assert_eq!(sheet.stdout.len(), desk::sheet::BYTES);
    assert!(err(&sheet).starts_with("standard input: taken; "), "{}", err(&sheet));
}

#[test]
fn a_dash_twice_is_a_wrong_command_line() {
    let desk = Desk::new("dashes");
    for words in [
        vec!["run", "--sheet", "-", "--scenario", "-"],
        vec!["run", "--sheet", &desk.sheet, "--scenario", &desk.csv, "--svg", "-"],
        vec!["scenario", "write", "-", "--sheet", "-", "-o", "x"],
    ] {
        assert_eq!(avr(&words).status.code(), Some(2), "{words:?}");
    }
}

#[test]
fn a_file_without_an_end_is_not_read_to_its_end() {
    let desk = Desk::new("endless");
    for words in [
        vec!["sheet", "check", "/dev/zero"],
        vec!["sheet", "show", "/dev/zero"],
        vec!["run", "--sheet", "/dev/zero", "--scenario", &desk.csv],
    ] {
        let output = avr(&words);
        assert_eq!(output.status.code(), Some(1));
        assert_eq!(err(&output), "avr: /dev/zero: is longer than 1 MiB, the most that is read of such a file\n");
    }
    let output = avr(&["run", "--sheet", &desk.sheet, "--scenario", "/dev/zero"]);
    assert_eq!(err(&output), "avr: /dev/zero: is longer than 256 MiB, the most that is read of such a file\n");
}

/// A recording that does not end is given up where the longest run ends; its reader holds it no further than a buffer.
#[test]
fn a_recording_without_an_end_is_given_up() {
    let zeros = Box::new(std::io::repeat(0)) as Box<dyn Read>;
    let mut ticks = recording::Recording::of("zeros".to_string(), zeros);
    let told = ticks.find_map(Result::err).expect("an end");
    assert_eq!(told, ["zeros: it goes on beyond 100000 s, 20000000 ticks, the longest run"]);
}

#[test]
fn the_length_of_a_recording_is_looked_at_first() {
    let desk = Desk::new("length");
    let path = desk.folder.path("a.rec");
    for (bytes, told) in [
        (0, "no tick is recorded in it"),
        (recording::BYTES as u64 + 1, "tick 2 is cut short: 1 of 66 bytes"),
        (20_000_001 * recording::BYTES as u64, "it goes on beyond 100000 s, 20000000 ticks, the longest run"),
        (u64::from(u32::MAX) * 67, "it goes on beyond 100000 s, 20000000 ticks, the longest run"),
    ] {
        File::create(&path).and_then(|file| file.set_len(bytes)).expect("a file with holes");
        let output = avr(&["run", "--sheet", &desk.sheet, "--recording", &path]);
        assert_eq!((output.status.code(), err(&output)), (Some(1), format!("avr: {path}: {told}\n")));
    }
}

/// A day would be 1.1 GB: what a long recording takes while it is run does not grow with it.
#[test]
fn a_long_recording_is_not_held_in_memory() {
    let desk = Desk::new("memory");
    let path = desk.folder.path("a.rec");
    File::create(&path).and_then(|file| file.set_len(3_000_000 * recording::BYTES as u64)).expect("a file with holes");
    let line = format!("ulimit -v 150000; {} run --sheet {} --recording {path}", env!("CARGO_BIN_EXE_avr"), desk.sheet);
    let output = Command::new("sh").args(["-c", &line]).output().expect("a shell");
    assert!(output.status.success(), "{}", err(&output));
    assert!(out(&output).contains("summary of 15000 s, 3000000 ticks"), "{}", out(&output));
    assert_eq!(err(&output), "", "no line of progress without a terminal");
}

/// A terminal that bad text must not reach as it is, nor in full.
#[test]
fn bad_text_is_cut_and_escaped() {
    let desk = Desk::new("text");
    let long = "7".repeat(300_000);
    for (name, text, words) in [
        ("s", format!("XB1 = \u{1b}[31m{long}\n"), vec!["sheet", "check"]),
        ("s", format!("{long}\u{7}\n"), vec!["sheet", "check"]),
        ("s", format!("XB\u{1b}1 = on\nT1 = {long} s\n"), vec!["sheet", "check"]),
        ("c", format!("seconds,\u{1b}[2J{long}\n"), vec!["scenario", "write", "-o", "x"]),
        ("c", format!("seconds,U_AB\n0,\u{1b}{long}x\n{long},1\n"), vec!["scenario", "write", "-o", "x"]),
        ("c", format!("\u{1b}{long},U_AB\n"), vec!["scenario", "write", "-o", "x"]),
    ] {
        let output = avr(&[&words[..], &[&desk.folder.write(name, text)]].concat());
        assert_eq!(output.status.code(), Some(1), "{words:?}");
        let told = err(&output);
        assert!(told.len() < 2000, "{} bytes", told.len());
        assert!(told.chars().all(|letter| letter == '\n' || !letter.is_control()), "{told:?}");
    }
    let output = avr(&["sheet", "check", "none\u{1b}[31m"]);
    assert_eq!(err(&output), "avr: none\\u{1b}[31m: No such file or directory\n");
    for words in [vec!["\u{1b}c"], vec!["sheet", "\u{1b}c"], vec!["run", "--\u{1b}c"], vec!["run", "-\u{1b}"]] {
        let told = err(&avr(&words));
        assert!(told.contains("\\u{1b}") && !told.contains('\u{1b}'), "{told:?}");
    }
}

#[test]
fn a_scenario_in_utf16_is_told() {
    let desk = Desk::new("utf16");
    let scenario: Vec<u8> = "\u{feff}seconds,U_AB\n".encode_utf16().flat_map(u16::to_le_bytes).collect();
    let csv = desk.folder.write("c", scenario);
    let told = format!("avr: {csv}: this is text in UTF-16; save it as UTF-8\n");
    assert_eq!(err(&avr(&["scenario", "write", &csv, "-o", "x"])), told);
}

#[test]
fn not_all_of_many_errors_are_told() {
    let desk = Desk::new("many");
    let rows: String = (1..=1000).map(|row| format!("{row},high\n")).collect();
    let told = err(&avr(&["scenario", "write", &desk.folder.write("c", format!("seconds,U_AB\n0,1\n{rows}")), "-o", "x"]));
    assert_eq!(told.lines().count(), 21);
    assert!(told.ends_with(": and 980 more\n"), "{told}");
}

/// A message that nobody can hear ends no run.
#[test]
fn a_full_standard_error_is_no_trouble() {
    let desk = Desk::new("stderr");
    let mut command = Command::new(env!("CARGO_BIN_EXE_avr"));
    let words = ["run", "--sheet", &desk.sheet, "--scenario", &desk.csv, "--svg", "/dev/null"];
    assert!(command.args(words).stderr(full()).output().expect("avr runs").status.success());
    let mut command = Command::new(env!("CARGO_BIN_EXE_avr"));
    assert_eq!(command.arg("fly").stderr(full()).output().expect("avr runs").status.code(), Some(2));
}

/// A run that is ended from outside leaves its target as it was, and nothing beside it.
#[test]
fn a_run_that_is_killed_leaves_nothing_behind() {
    let desk = Desk::new("killed");
    let long = desk.folder.write("long.csv", "seconds,U_AB\n0,98\n100000,end\n");
    let (table, svg) = (desk.folder.write("t", "old"), desk.folder.path("p"));
    let mut command = Command::new(env!("CARGO_BIN_EXE_avr"));
    command.args(["run", "--sheet", &desk.sheet, "--scenario", &long, "--table", &table, "--svg", &svg]);
    let mut child = command.spawn().expect("avr runs");
    std::thread::sleep(Duration::from_millis(300));
    assert_eq!(child.try_wait().expect("a look"), None, "it runs for longer");
    child.kill().and_then(|()| child.wait()).expect("its end");
    assert_eq!(desk.folder.names(), ["a.csv", "a.txt", "long.csv", "t"]);
    assert_eq!(fs::read_to_string(&table).expect("still there"), "old");
}

/// A terminal of a test: what was written on it.
#[derive(Clone, Default)]
struct Terminal(Rc<RefCell<Vec<u8>>>);

impl Write for Terminal {
    fn write(&mut self, bytes: &[u8]) -> std::io::Result<usize> {
        self.0.borrow_mut().extend(bytes);
        Ok(bytes.len())
    }

    fn flush(&mut self) -> std::io::Result<()> {
        Ok(())
    }
}

#[test]
fn progress_is_a_line_that_goes_away() {
    assert_eq!(line(720_000, Some(1_440_000)), "avr:  50 %, tick 720000 of 1440000");
    let terminal = Terminal::default();
    let mut progress = Progress::new(Duration::ZERO, Some(Box::new(terminal.clone())));
    progress.tick(5, Some(1 << 15));
    progress.tick(1 << 14, Some(1 << 15));
    progress.tick(1 << 15, None);
    progress.end();
    let told = String::from_utf8(terminal.0.borrow().clone()).expect("text");
    let lines: Vec<&str> = told.split('\r').map(str::trim).filter(|line| !line.is_empty()).collect();
    assert_eq!(lines, ["avr:  50 %, tick 16384 of 32768", "avr: tick 32768"]);
    assert!(told.ends_with('\r') && !told.contains('\n'));
}
