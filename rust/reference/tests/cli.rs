//! The command line, with files in a directory of its own for each test.

use std::fs;
use std::path::{Path, PathBuf};
use std::process::{Command, Output};

use reference::make::make;
use reference::record::Record;
use reference::recording::{sheet_from_bytes, sheet_to_bytes, READING_BYTES, SHEET_BYTES, TICK_BYTES};
use reference::scene::Scene;
use reference::sheet::SLOTS;
use reference::values::{AGAINST_200, AGAINST_40, ALONG, BASE, COMPS, HELD_AGAINST_200};
use reference::values::{PARTS_AGAINST_200, PARTS_AGAINST_40, ROOTS};

fn reference(words: &[&str]) -> Output {
    Command::new(env!("CARGO_BIN_EXE_reference")).args(words).output().unwrap()
}

/// A clean directory, and the names of a sheet and a recording in it.
fn files(name: &str) -> (String, String) {
    let directory = PathBuf::from(env!("CARGO_TARGET_TMPDIR")).join(name);
    fs::create_dir_all(&directory).unwrap();
    let path = |file| directory.join(file).to_str().unwrap().to_string();
    (path("sheet"), path("recording"))
}

fn text(bytes: &[u8]) -> String {
    String::from_utf8(bytes.to_vec()).unwrap()
}

#[test]
fn bad_usage() {
    for words in [
        &[][..],
        &["nothing"],
        &["values", "more"],
        &["replay", "one"],
        &["make", "x", "1", "a", "b"],
        &["make", "1", "-1", "a", "b"],
    ] {
        let output = reference(words);
        assert_eq!(output.status.code(), Some(2));
        assert!(output.stdout.is_empty() && !output.stderr.is_empty());
    }
}

/// Lines of ticket 4: three channels, three qualities and two signs.
const FRONTS: usize = 3 * 3 * 2;

#[test]
fn values_have_all_their_lines() {
    let output = reference(&["values"]);
    assert!(output.status.success());
    let lines = text(&output.stdout);
    let readings = AGAINST_200.len() + AGAINST_40.len() + HELD_AGAINST_200.len();
    let parts = PARTS_AGAINST_200.len() + PARTS_AGAINST_40.len();
    let ticket_3 = parts + 1 + ROOTS.len() + ALONG.len() + 1;
    let ticket_5 = COMPS.len() + 1;
    assert_eq!(lines.lines().count(), readings + 1 + FRONTS + ticket_3 + ticket_5 + 4 + 3 * SLOTS + 256);
    assert!(lines.starts_with("reading 200 1120416563 100100\nreading 200 1128792064 200000\n"));
    assert!(lines.contains("\nreading 200 1128792064 200000\nreading 200 1031798784 63\nreadings 20000 "));
    assert!(lines.contains("\nsheet 0 0\nsheet 1 0\nsheet 1 0\nsheet 1 0\nslot 0 "));
    let words: Vec<&str> = lines.lines().map(|line| line.split(' ').next().unwrap()).collect();
    let blocks: Vec<(&str, usize)> = words.chunk_by(|a, b| a == b).map(|block| (block[0], block.len())).collect();
    let before = [("reading", readings), ("readings", 1), ("front", FRONTS), ("part", parts), ("parts", 1)];
    assert_eq!(blocks[..5], before);
    let along = [("root", ROOTS.len()), ("along", ALONG.len() + 1), ("comp", ticket_5)];
    let after = [("sheet", 4), ("slot", SLOTS), ("slot5", SLOTS), ("continuous", SLOTS), ("bcd", 256)];
    assert_eq!(blocks[5..], [&along[..], &after].concat());
}

#[test]
fn values_of_parts_roots_and_lines() {
    let lines = text(&reference(&["values"]).stdout);
    for expected in [
        "\npart 200 3267900211 -100100\npart 200 3276275712 -200000\npart 200 3276275713 missing\n",
        "\npart 200 2147483648 0\n",
        "\npart 200 3179282432 -63\npart 200 1031798784 63\npart 200 3179282431 -62\n",
        "\npart 40 1109393409 missing\nparts 20000 ",
        "\nroot 18446744073709551615 4294967295\nalong 4000 0 100000 0 1000 0 93072\n",
        "\nalong 0 0 -3 4 0 0 5\n",
    ] {
        assert!(lines.contains(expected), "{expected}");
    }
}

#[test]
fn values_by_u_comp() {
    let lines = text(&reference(&["values"]).stdout);
    let comps: Vec<&str> = lines.lines().filter(|line| line.starts_with("comp ")).collect();
    let expected = [
        "comp 1 5100 1250 1250 100000 -3 100003",
        "comp 1 5100 2000 1250 100000 -3 100004",
        "comp 1 5100 2000 1250 100000 3 99996",
        "comp 1 5100 1250 2000 100000 -3 100001",
        "comp 0 5100 2000 1250 100000 -3 100024",
        "comp 1 5100 2000 1250 100000 -37 100060",
        "comp 1 5100 2000 1250 100000 0 100000",
        "comp 1 1000 1 20000 100000 200000 99998",
        "comp 1 1000 1 20000 100000 199999 99999",
        "comp 0 30000 1999 2000 100000 1000 70015",
        "comp 1 40000 20000 20000 100000 200000 -1500000",
        "comp 1 40000 20000 1 200000 -200000 32000200000",
        "comp 0 40000 20000 1 0 40000 -32000000000",
    ];
    assert_eq!(comps[..13], expected);
    assert!(comps[13].starts_with("comp 20000 ") && comps.len() == 14);
}

#[test]
fn the_layout() {
    let output = reference(&["layout"]);
    assert_eq!(text(&output.stdout), "SHEET_BYTES=272\nREADING_BYTES=5\nTICK_BYTES=66\n");
}

#[test]
fn a_made_recording_can_be_replayed() {
    let (sheet, recording) = files("made");
    for seed in ["1", "2", "3"] {
        assert!(reference(&["make", seed, "500", &sheet, &recording]).status.success());
        let made = (fs::read(&sheet).unwrap(), fs::read(&recording).unwrap());
        assert_eq!(made.1.len(), 500 * TICK_BYTES);
        let output = reference(&["replay", &sheet, &recording]);
        assert!(output.status.success());
        let lines = text(&output.stdout);
        assert!(lines.starts_with("0 0\n"));
        assert_eq!(lines.lines().count(), 501);
        let mut scene = Scene::new(seed.parse().unwrap());
        for line in lines.lines().skip(1) {
            let words = scene.next_tick().1.outputs.map(|n| n.to_string());
            assert_eq!(line, words.join(" "));
        }
        // The same seed makes the same files.
        reference(&["make", seed, "500", &sheet, &recording]);
        assert_eq!(fs::read(&sheet).unwrap(), made.0);
        assert_eq!(fs::read(&recording).unwrap(), made.1);
    }
}

#[test]
fn every_25th_made_sheet_is_spoiled() {
    let (sheet, recording) = files("spoiled");
    for seed in ["24", "74"] {
        reference(&["make", seed, "0", &sheet, &recording]);
        assert_eq!(fs::read(&sheet).unwrap().len(), SHEET_BYTES);
    }
    reference(&["make", "99", "0", &sheet, &recording]);
    let output = reference(&["replay", &sheet, &recording]);
    assert_eq!(text(&output.stdout), "1 0\n");
}

#[test]
fn spoiled_sheets_meet_every_refusal() {
    let (sheet, recording) = files("spoiled-ways");
    let mut refusals = [0; 6];
    for seed in (24..10_000).step_by(25) {
        make(seed, 0, Path::new(&sheet), Path::new(&recording)).unwrap();
        let answer = Record::start(&sheet_from_bytes(&fs::read(&sheet).unwrap()));
        let number = answer.err().map_or(0, |refusal| refusal.number);
        assert_eq!(number == 1, seed % 100 == 99);
        refusals[number as usize] += 1;
    }
    for number in [1, 2, 3, 5] {
        assert!(refusals[number] > 0, "{refusals:?}");
    }
    assert!(refusals[5] > 40, "{refusals:?}");
}

#[test]
fn a_refused_sheet_is_the_whole_answer() {
    let (sheet, recording) = files("refused");
    fs::write(&recording, [0; TICK_BYTES]).unwrap();
    let mut wrong = BASE;
    wrong[60] = 41;
    let mut longer = sheet_to_bytes(&BASE);
    longer.push(0);
    for (bytes, answer) in [(sheet_to_bytes(&wrong), "2 60\n"), (longer, "1 0\n"), (Vec::new(), "1 0\n")] {
        fs::write(&sheet, bytes).unwrap();
        let output = reference(&["replay", &sheet, &recording]);
        assert!(output.status.success());
        assert_eq!(text(&output.stdout), answer);
    }
}

/// Replays these bytes on the base sheet.
fn replayed(name: &str, bytes: &[u8]) -> Output {
    let (sheet, recording) = files(name);
    fs::write(&sheet, sheet_to_bytes(&BASE)).unwrap();
    fs::write(&recording, bytes).unwrap();
    reference(&["replay", &sheet, &recording])
}

#[test]
fn an_empty_recording() {
    let output = replayed("empty", &[]);
    assert!(output.status.success());
    assert_eq!(text(&output.stdout), "0 0\n");
}

#[test]
fn a_bad_quality_byte() {
    let mut bytes = [0; 3 * TICK_BYTES];
    let at = TICK_BYTES + 4 * READING_BYTES;
    bytes[at] = 3;
    let output = replayed("quality", &bytes);
    assert_eq!(output.status.code(), Some(1));
    assert_eq!(text(&output.stdout).lines().count(), 2);
    assert!(text(&output.stderr).contains(&format!("at offset {at}")));
}

#[test]
fn a_tick_cut_short() {
    let output = replayed("cut", &[0; 3 * TICK_BYTES - 1]);
    assert_eq!(output.status.code(), Some(1));
    assert_eq!(text(&output.stdout).lines().count(), 3);
    assert!(text(&output.stderr).contains(&format!("ends at offset {}", 3 * TICK_BYTES - 1)));
}

#[test]
fn files_that_are_not_there() {
    let (sheet, recording) = files("absent");
    let output = reference(&["replay", &sheet, &recording]);
    assert_eq!(output.status.code(), Some(1));
    assert!(output.stdout.is_empty() && !output.stderr.is_empty());
}
