//! The examples: each table, picture and look ahead is the stored one, and no text lies on another.

mod common;

use std::fs;

use common::{avr, between, check_texts, err, examples, out, Folder};

const STORIES: [&str; 20] = [
    "acceleration",
    "band-edge",
    "before-automatic",
    "breaker-rating",
    "compensation",
    "continuous-in-band",
    "continuous-long",
    "day",
    "end-stop",
    "fast-move",
    "long-feeder",
    "long-move",
    "manual-keys",
    "not-started",
    "organ-blocks",
    "panel-and-dispatcher",
    "press-in-a-move",
    "run-away",
    "sliding-tap",
    "two-steps",
];

fn read(story: &str, name: &str) -> String {
    let path = examples().join(story).join(name);
    fs::read_to_string(&path).unwrap_or_else(|error| panic!("{}: {error}", path.display()))
}

fn path(story: &str, name: &str) -> String {
    examples().join(story).join(name).to_str().expect("a plain path").to_string()
}

#[test]
fn all_stories_are_named() {
    let entries = fs::read_dir(examples()).expect("examples");
    let folders = entries.filter_map(Result::ok).filter(|entry| entry.path().is_dir());
    let mut names: Vec<String> = folders.map(|entry| entry.file_name().into_string().expect("text")).collect();
    names.sort();
    assert_eq!(names, STORIES);
}

#[test]
fn each_story_is_as_stored() {
    let folder = Folder::new("stories");
    for story in STORIES {
        let (table, picture) = (folder.path("table.txt"), folder.path("picture.svg"));
        let title = between(&read(story, "picture.svg"), "<title>", "</title>").to_string();
        let (sheet, scenario) = (path(story, "sheet.txt"), path(story, "scenario.csv"));
        let words =
            ["run", "--sheet", &sheet, "--scenario", &scenario, "--table", &table, "--svg", &picture, "--title", &title];
        let output = avr(&words);
        assert!(output.status.success(), "{story}: {}", err(&output));
        assert_eq!(fs::read_to_string(&table).expect("a table"), read(story, "table.txt"), "{story}");
        assert_eq!(fs::read_to_string(&picture).expect("a picture"), read(story, "picture.svg"), "{story}");
    }
}

/// What `avr ahead` prints for each line of looks.txt, below the command line, and the picture that one of them names.
#[test]
fn each_look_ahead_is_as_stored() {
    let folder = Folder::new("stories-ahead");
    let mut pictures = 0;
    for story in STORIES.into_iter().filter(|story| examples().join(story).join("looks.txt").is_file()) {
        let (sheet, scenario, svg) = (path(story, "sheet.txt"), path(story, "scenario.csv"), folder.path("ahead.svg"));
        let title = between(&read(story, "ahead.svg"), "<title>", "</title>").to_string();
        let mut told = String::new();
        for line in read(story, "looks.txt").lines() {
            let mut words = vec!["ahead", "--sheet", &sheet, "--scenario", &scenario];
            words.extend(line.split_whitespace().map(|word| if word == "ahead.svg" { &svg } else { word }));
            words.extend(if line.contains("--svg") { vec!["--title", &title] } else { vec![] });
            let output = avr(&words);
            assert!(output.status.success(), "{story}: {}", err(&output));
            told += &format!("$ avr ahead --sheet sheet.txt --scenario scenario.csv {line}\n{}", out(&output));
        }
        assert_eq!(told, read(story, "ahead.txt"), "{story}");
        assert_eq!(fs::read_to_string(&svg).expect("a picture"), read(story, "ahead.svg"), "{story}");
        check_texts(story, &read(story, "ahead.svg"));
        pictures += 1;
    }
    assert!(pictures > 0);
}

/// The load that the unit answers with these ratings is too small with equal ones.
#[test]
fn the_ratings_decide_whether_the_unit_raises() {
    let folder = Folder::new("ratings");
    let lines = read("breaker-rating", "sheet.txt");
    let equal: Vec<&str> = lines.lines().filter(|line| !line.starts_with("Inom_")).collect();
    let (sheet, scenario) = (folder.write("a.txt", &equal.join("\n")), path("breaker-rating", "scenario.csv"));
    let output = avr(&["run", "--sheet", &sheet, "--scenario", &scenario]);
    assert!(output.status.success(), "{}", err(&output));
    assert!(!out(&output).contains(" command\n"), "{}", out(&output));
    assert!(read("breaker-rating", "table.txt").contains("LOWER command"));
}

#[test]
fn each_story_is_told() {
    for (story, told) in [
        ("two-steps", vec!["30.000       6000  out  RAISE command", "44.500       8900  out  RAISE command"]),
        ("acceleration", vec!["8.000       1600  out  LOWER command"]),
        ("not-started", vec!["out  FAULT: drive not started", "fault cleared"]),
        ("run-away", vec!["out  FAULT: run-away", "out  SUPPLY TRIP"]),
        ("long-move", vec!["out  FAULT: long move", "out  SUPPLY TRIP"]),
        ("fast-move", vec!["out  FAULT: fast move"]),
        ("sliding-tap", vec!["out  tap 10", "out  tap 11", "operations 2"]),
        ("end-stop", vec![AT_THE_END, OFF_THE_END]),
        ("manual-keys", vec!["raise button pressed", "out  RAISE command", "out  LOWER command"]),
        ("press-in-a-move", vec![AGAIN, LATEST, RAISE_BLOCKED, MADE_AUTOMATIC]),
        ("panel-and-dispatcher", vec![PANEL_ACTS, DISPATCHER_ACTS, DISPATCHERS_LOWER, MADE_LOCAL]),
        ("organ-blocks", vec!["TRIP: I_bus over I_set2", "out  automatic blocked", "out  automatic free"]),
        ("band-edge", vec!["U_AB 100.0994 V\n     40.005", "U_AB 100.1 V\n                        out  voltage high"]),
        (
            "before-automatic",
            vec!["50.000      10000  out  RAISE", "64.500      12900  out  RAISE", "104.000      20800  out  LOWER"],
        ),
        ("compensation", vec!["I_bus 0.4 A\n                        out  voltage low"]),
        ("breaker-rating", vec!["I_bus 0.5 A\n                        out  voltage low", "20.000       4000  out  RAISE"]),
        ("long-feeder", vec!["20.000       4000  out  RAISE command", "50.000      10000  out  RAISE command", TURNED]),
        ("continuous-in-band", vec!["30.000       6000  out  RAISE command", "out  tap 10", "out  tap 11", IN_BAND]),
        ("continuous-long", vec!["10.000       2000  out  RAISE command", LONG, RESET, AFTER_T1]),
        ("day", vec![AFTER_THE_OIL, MISSING, "external raise block gone", "out  worn: operations have reached N_max"]),
    ] {
        let table = read(story, "table.txt");
        told.iter().for_each(|words| assert!(table.contains(words), "{story}: {words}\n{table}"));
    }
}

/// The voltage stays low, and no command comes until it is high.
const AT_THE_END: &str = "\
                        in   upper end contact closed
                        out  raise blocked
                        out  drive at rest
     27.005       5401  out  tap 17
     45.005       9001  in   U_AB 102.4 V
                        out  voltage no longer low
                        out  voltage high
     55.000      11000  out  LOWER command
";

const OFF_THE_END: &str = "\
                        in   upper end contact open
                        out  raise free
";

/// One command over all taps, which ends in band and counts on that tick.
const IN_BAND: &str = "\
     42.500       8500  in   U_AB 99.4 V
                        in   sensor 12
                        out  raise command off
                        out  tap 12
                        out  voltage no longer low
                        out  drive not asked
                        out  operations 1
     70.000      14000  end
";

/// The T4th tick, 1600, after the first.
const LONG: &str = "\
     18.000       3600  out  raise command off
                        out  automatic blocked
                        out  manual blocked
                        out  raise blocked
                        out  lower blocked
                        out  FAULT: long command
                        out  SUPPLY TRIP
                        out  drive not asked
     18.100       3620  in   drive supply off
";

const RESET: &str = "\
     32.005       6401  in   drive supply on
                        in   reset pressed
";

/// T1 after the reset; T2 would be 37 s.
const AFTER_T1: &str = "\
     33.005       6601  in   reset released
     42.000       8400  out  RAISE command
                        out  drive asked
     46.000       9200  in   U_AB 99.9 V
                        in   BCD 10
                        out  raise command off
";

/// Low from 06:30 on, and raised T1 after the oil is no longer cold, at 06:50.
const AFTER_THE_OIL: &str = "\
  24600.005    4920001  in   oil not cold
                        out  automatic free
                        out  manual free
                        out  raise free
                        out  lower free
  24720.000    4944000  out  RAISE command
";

/// From 11:40 to 11:46.
const MISSING: &str = "\
  42000.005    8400001  in   U_AB invalid
                        out  automatic blocked
  42360.005    8472001  in   U_AB 100.8 V
";

/// The same current, turned from 30 degrees behind the voltage to 30 ahead of it.
const TURNED: &str = "\
     70.005      14001  in   I_bus_im 0.4 A
                        out  voltage high
     80.000      16000  out  LOWER command
";

/// The second raise of the press in the first move.
const AGAIN: &str = "\
     10.510       2102  unit remembered press gone
                        out  RAISE command
                        out  tap 10
";

/// Raise and then lower in the second move.
const LATEST: &str = "\
     14.505       2901  in   lower button pressed
                        unit lower press remembered
     15.005       3001  in   lower button released
     17.010       3402  in   U_AB 103 V
                        in   switching contact open
                        out  drive at rest
     17.015       3403  unit remembered press gone
                        out  LOWER command
";

/// Dropped at rest, since it is blocked there; no command follows when the block has gone.
const RAISE_BLOCKED: &str = "\
     23.520       4704  unit remembered press gone
                        out  tap 10
     30.005       6001  in   external raise block gone
                        out  raise free
     36.005       7201  in   lower button pressed
";

/// Dropped in the move, after which no command follows.
const MADE_AUTOMATIC: &str = "\
     40.005       8001  in   key: automatic
                        unit remembered press gone
                        out  automatic mode
     41.005       8201  in   key: manual
                        out  manual mode
     42.505       8501  in   U_AB 100 V
                        in   switching contact open
                        out  voltage no longer high
                        out  drive at rest
     42.510       8502  out  tap 9
     60.000      12000  end
";

/// Local mode: nothing for the dispatcher, a command for the panel.
const PANEL_ACTS: &str = "\
      2.005        401  in   dispatcher's raise pressed
      2.505        501  in   dispatcher's raise released
      6.005       1201  in   raise button pressed
                        out  RAISE command
";

/// Nothing for a button that is held as remote mode begins, nor for the panel; a command for the button pressed anew.
const DISPATCHER_ACTS: &str = "\
     16.005       3201  in   dispatcher's raise pressed
     18.005       3601  in   key: remote mode
     21.005       4201  in   dispatcher's raise released
     23.005       4601  in   lower button pressed
     23.505       4701  in   lower button released
     26.005       5201  in   dispatcher's raise pressed
                        out  RAISE command
";

/// Pressed in the move and carried out at rest.
const DISPATCHERS_LOWER: &str = "\
     29.005       5801  in   dispatcher's lower pressed
                        unit lower press remembered
     29.505       5901  in   dispatcher's lower released
     32.505       6501  in   U_AB 100.5 V
                        in   switching contact open
                        out  drive at rest
     32.510       6502  unit remembered press gone
                        out  LOWER command
";

/// Dropped by the change of mode, after which no command follows.
const MADE_LOCAL: &str = "\
     35.005       7001  in   dispatcher's raise pressed
                        unit raise press remembered
     35.505       7101  in   dispatcher's raise released
     37.005       7401  in   key: local mode
                        unit remembered press gone
     39.010       7802  in   U_AB 100 V
                        in   switching contact open
                        out  drive at rest
     39.015       7803  out  tap 10
     50.000      10000  end
";

/// Their tables and their pictures, and no other's.
#[test]
fn two_stories_tell_of_a_remembered_press() {
    for story in STORIES {
        let told = ["panel-and-dispatcher", "press-in-a-move"].contains(&story);
        assert_eq!(read(story, "table.txt").contains(" unit "), told, "{story}");
        assert_eq!(read(story, "picture.svg").contains(">remembered: "), told, "{story}");
    }
}

/// At the busbar the voltage is in its band, 97.5 to 102.5 V, on every tick.
#[test]
fn the_long_feeders_busbar_stays_in_band() {
    let table = read("long-feeder", "table.txt");
    let volts: Vec<&str> = table.lines().filter_map(|line| line.split_once("in   U_AB ")?.1.strip_suffix(" V")).collect();
    assert_eq!(volts, ["99.3", "100.8", "102.3", "100.8"]);
}

#[test]
fn no_text_lies_on_another_or_outside_the_picture() {
    for story in STORIES {
        check_texts(story, &read(story, "picture.svg"));
    }
}

#[test]
fn pictures_use_the_palette_only() {
    let known = [
        "#000000", "#E69F00", "#56B4E9", "#009E73", "#F0E442", "#0072B2", "#D55E00", "#CC79A7", "#222222", "#D8D8D8",
        "#666666", "#FFFFFF", "#ECECEC",
    ];
    let look = read("before-automatic", "ahead.svg");
    for (story, text) in STORIES.map(|story| (story, read(story, "picture.svg"))).into_iter().chain([("ahead", look)]) {
        for part in text.split('"').filter(|part| part.starts_with('#')) {
            assert!(known.contains(&part), "{story}: {part}");
        }
    }
}
