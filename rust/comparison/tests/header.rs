//! `c/avr.h`, `rust/library` and the desk tool's tables beside the library's own sources: names, numbers and structs.

mod sources;

use desk::inputs::{CONTACTS, READINGS};
use desk::names::{Module, Slot, TABLE};
use desk::outputs::SHORT;
use sources::{between, c_fields, constant, constants, define, fields, find, paths, read, rows, Field, Row};

/// Capitals, with `_` for all that is no letter or digit: `run-away` is `RUN_AWAY`.
fn capitals(words: &str) -> String {
    words.chars().map(|c| if c.is_ascii_alphanumeric() { c.to_ascii_uppercase() } else { '_' }).collect()
}

/// The outputs' names: the comments of the library's rows, which have their fields' numbers.
fn outputs() -> Vec<String> {
    let source = read("crates/showing/src/lib.rt");
    let body = between(&source, "fn fields(", "\n}");
    let comments = body.lines().filter_map(|line| line.split_once(", // ")).map(|(_, comment)| comment);
    let numbered = comments.filter_map(|comment| comment.split_once(' ')).enumerate();
    let name = |(at, (number, name)): (usize, (&str, &str))| {
        assert_eq!(number, at.to_string(), "the row of output {name}");
        name.to_string()
    };
    numbered.map(name).collect()
}

/// The contacts' names, by bit. The library has the buttons in pairs, the panel's and the dispatcher's; a host has them one by one.
fn contacts() -> Vec<String> {
    let source = read("crates/input/src/lib.rt");
    let body = between(&source, "pub fn decode_contacts", "\n}");
    let mut pair = String::new();
    let mut names: Vec<(usize, String)> = Vec::new();
    for line in body.lines() {
        if let Some((name, rest)) = line.split_once(": (n >> ") {
            let bit = rest.split(')').next().and_then(|bit| bit.parse().ok()).expect("a bit");
            names.push((bit, contact_name(&pair, name.trim())));
        } else if let Some((name, _)) = line.split_once(": Buttons {") {
            pair = name.trim().to_string();
        } else if line.trim() == "}," {
            pair.clear();
        }
    }
    names.sort();
    for (at, (bit, name)) in names.iter().enumerate() {
        assert_eq!(*bit, at, "the bit of {name}");
    }
    names.into_iter().map(|(_, name)| name).collect()
}

fn contact_name(pair: &str, name: &str) -> String {
    match pair {
        "panel" => format!("{name}_button"),
        "dispatcher" => format!("remote_{name}"),
        _ => name.to_string(),
    }
}

fn slots() -> Vec<(String, usize)> {
    constants(&read("crates/slots/src/lib.rt"))
}

fn count_of(constants: &[(String, usize)], name: &str) -> usize {
    constants.iter().find(|(known, _)| known == name).unwrap_or_else(|| panic!("{name} is not there")).1
}

/// The rows of an enum whose numbers are 0, 1, 2 and so on, as many as there should be; and those after them.
fn in_order(header: &str, name: &str, count: usize) -> (Vec<Row>, Vec<Row>) {
    let mut rows = rows(header, name);
    assert!(rows.len() >= count, "{name} has {} rows, and not {count}", rows.len());
    let others = rows.split_off(count);
    for (at, row) in rows.iter().enumerate() {
        assert_eq!(row.number, at, "{}", row.name);
    }
    (rows, others)
}

/// But for the first slots of runs, which stand under names of their own.
#[test]
fn every_row_has_its_meaning() {
    let header = read("c/avr.h");
    let names = header.lines().filter_map(|line| line.strip_prefix("enum ")?.strip_suffix(" {"));
    let rows: Vec<Row> = names.flat_map(|name| rows(&header, name)).collect();
    let idle: Vec<&Row> = rows.iter().filter(|row| row.comment.is_empty()).collect();
    assert!(rows.len() > library::SLOTS + library::FIELDS, "the enums are read");
    assert!(idle.iter().all(|run| rows.iter().any(|row| row.number == run.number && !row.comment.is_empty())), "{idle:?}");
    assert!(idle.iter().all(|run| run.name.starts_with("AVR_SLOT_")), "{idle:?}");
}

#[test]
fn counts_are_the_sources() {
    let header = read("c/avr.h");
    let organs = fields(&read("crates/image/src/lib.rt"), "Image", &named_counts());
    let samples = fields(&read("crates/image_input/src/lib.rt"), "Brought", &[]);
    let counts = [
        ("AVR_SLOTS", library::SLOTS, count_of(&slots(), "SLOTS")),
        ("AVR_FIELDS", library::FIELDS, count_of(&constants(&read("crates/showing/src/lib.rt")), "FIELDS")),
        ("AVR_ORGANS", library::ORGANS, organs.iter().find(|field| field.name == "organ_marks").expect("marks").count),
        ("AVR_READINGS", library::READINGS, samples.iter().filter(|field| field.kind == "Sample").count()),
        (
            "AVR_LONGEST_HORIZON",
            library::LONGEST_HORIZON as usize,
            constant(&read("crates/ahead/src/lib.rt"), "LONGEST_HORIZON"),
        ),
    ];
    for (name, ours, theirs) in counts {
        assert_eq!((define(&header, name), ours), (theirs, theirs), "{name}");
    }
}

/// Each slot that the library names has that name in C; the others have the manual's, or that of the organ they switch on.
#[test]
fn slots_have_the_librarys_names() {
    let (rows, runs) = in_order(&read("c/avr.h"), "avr_slot", library::SLOTS);
    let named = slots();
    let all: Vec<&Row> = rows.iter().chain(&runs).collect();
    for (name, number) in named.iter().filter(|(name, _)| name != "SLOTS") {
        let row = all.iter().find(|row| row.name == format!("AVR_SLOT_{name}"));
        assert_eq!(row.unwrap_or_else(|| panic!("AVR_SLOT_{name} is not there")).number, *number, "{name}");
    }
    let (first, trips) =
        (count_of(&named, "ORGANS_ON"), outputs().iter().position(|o| o == "I_high over I_set1").expect("trips"));
    for row in &rows {
        let of_its_own = |(name, _): &&(String, usize)| row.name == format!("AVR_SLOT_{name}");
        let name = match row.number.checked_sub(first) {
            Some(organ) if organ < library::ORGANS => format!("ON_{}", capitals(&outputs()[trips + organ])),
            _ => named.iter().find(of_its_own).map_or_else(|| capitals(TABLE[row.number].name), |(name, _)| name.clone()),
        };
        assert_eq!(row.name, format!("AVR_SLOT_{name}"));
    }
    assert!(runs.iter().all(|run| named.contains(&(run.name.replace("AVR_SLOT_", ""), run.number))), "{runs:?}");
}

/// A number of a slot's range for every module: `100k` is 100 with 1 A and 500 with 5 A, `400000/k` 400,000 and 80,000.
fn end(slot: &Slot, number: u32) -> String {
    match slot.module {
        Module::Times if number > 0 => format!("{number}k"),
        Module::Over if number > 0 => format!("{number}/k"),
        _ => number.to_string(),
    }
}

/// The comment of a slot begins with the manual's name and ends with the range; a test of the desk tool holds its ranges to the
/// library at every edge.
#[test]
fn slots_have_the_manuals_names_and_their_ranges() {
    let (rows, _) = in_order(&read("c/avr.h"), "avr_slot", library::SLOTS);
    for (row, slot) in rows.iter().zip(&TABLE) {
        let step = if slot.step == 1 { String::new() } else { format!(", step {}", slot.step) };
        let range = format!("; {}-{}{step}", end(slot, slot.low), end(slot, slot.high));
        assert!(row.comment.starts_with(&format!("{}: ", slot.name)), "{}: {}", row.name, row.comment);
        assert!(row.comment.ends_with(&range), "{}: {} has another range than{range}", row.name, row.comment);
    }
}

#[test]
fn contacts_have_the_librarys_names() {
    let rows = rows(&read("c/avr.h"), "avr_contact");
    let names: Vec<String> = rows.iter().map(|row| row.name.clone()).collect();
    let wanted: Vec<String> = contacts().iter().map(|name| format!("AVR_CONTACT_{}", capitals(name))).collect();
    assert_eq!(names, wanted);
    for (bit, row) in rows.iter().enumerate() {
        assert_eq!(row.number, 1 << bit, "{}", row.name);
    }
}

/// The desk tool's columns are shorter: `breaker`, `ext_block`.
#[test]
fn the_desk_tools_contacts_are_the_librarys() {
    let names = contacts();
    for (name, contact) in names.iter().zip(&CONTACTS) {
        let short = contact.name.trim_start_matches("ext_").to_ascii_lowercase();
        assert!(name.contains(&short), "the column {} stands for {name}", contact.name);
    }
    assert!(CONTACTS[names.len()..].iter().all(|contact| contact.name.starts_with("bit")));
}

/// The manual calls the library's `u0` 3U0.
#[test]
fn the_desk_tools_readings_are_the_librarys() {
    let fields = fields(&read("crates/image_input/src/lib.rt"), "Brought", &[]);
    let names: Vec<&str> = fields.iter().filter(|field| field.kind == "Sample").map(|field| field.name.as_str()).collect();
    let desk: Vec<String> = READINGS.iter().map(|reading| reading.name.to_ascii_lowercase().replace("3u0", "u0")).collect();
    assert_eq!(desk, names);
}

#[test]
fn outputs_have_the_librarys_names() {
    let (rows, others) = in_order(&read("c/avr.h"), "avr_out", library::FIELDS);
    let names: Vec<String> = rows.iter().map(|row| row.name.clone()).collect();
    let wanted: Vec<String> = outputs().iter().map(|name| format!("AVR_OUT_{}", capitals(name))).collect();
    assert_eq!(names, wanted);
    assert_eq!(others, []);
}

/// The desk tool's words for an output, where they do not have the library's in them.
const DESK_WORDS: [(&str, &str); 3] =
    [("wrong code", "wrong BCD code"), ("asked or moving", "drive busy"), ("operations at least N_max", "worn: N_max reached")];

#[test]
fn the_desk_tools_outputs_are_the_librarys() {
    for (name, short) in outputs().iter().zip(SHORT) {
        let other = DESK_WORDS.iter().find(|(library, _)| library == name);
        let held = other.map_or(short.contains(name.as_str()), |(_, desk)| *desk == short);
        assert!(held, "the desk tool calls the output {name} {short}");
    }
}

/// The numbers that the library's sources name, and that a length in a struct may name.
fn named_counts() -> Vec<(String, usize)> {
    paths("crates", ".rt").iter().flat_map(|path| constants(&read(path))).collect()
}

/// The structs of the boundary: the source, the name there, in C and in Rust.
const STRUCTS: [(&str, &str, &str, &str); 10] = [
    ("coding_drive/src/lib.rt", "DriveImage", "avr_drive", "DriveImage"),
    ("coding_wait/src/lib.rt", "WaitImage", "avr_wait", "WaitImage"),
    ("coding_keys/src/lib.rt", "KeyImage", "avr_keys", "KeyImage"),
    ("image/src/lib.rt", "Image", "avr_image", "Image"),
    ("image_input/src/lib.rt", "Sample", "avr_sample", "Sample"),
    ("image_input/src/lib.rt", "Brought", "avr_brought", "Brought"),
    ("hosting/src/lib.rt", "Outputs", "avr_outputs", "Outputs"),
    ("boundary/src/lib.rt", "Started", "avr_started", "Started"),
    ("hosting/src/lib.rt", "ImageTicked", "avr_ticked", "Ticked"),
    ("hosting_ahead/src/lib.rt", "ImageOutlook", "avr_outlook", "Outlook"),
];

/// Rust has the readings in one list.
fn with_readings(mut fields: Vec<Field>) -> Vec<Field> {
    let readings = fields.iter().take_while(|field| field.kind == "Sample").count();
    if readings > 0 {
        let list = Field { name: "readings".to_string(), kind: "Sample".to_string(), count: readings };
        fields.splice(..readings, [list]);
    }
    fields
}

#[test]
fn structs_have_the_librarys_fields() {
    let (header, rust) = (read("c/avr.h"), read("rust/library/src/lib.rs"));
    let counts = constants(&rust);
    for (path, name, in_c, in_rust) in STRUCTS {
        let source = fields(&read(&format!("crates/{path}")), name, &named_counts());
        assert!(!source.is_empty(), "{name}");
        assert_eq!(c_fields(&header, in_c), source, "{in_c}");
        assert_eq!(fields(&rust, in_rust, &counts), with_readings(source), "{in_rust}");
    }
}

/// The arms `Enum::Case => number` of a function, `Some(Enum::Case)` and `None` among them.
fn arms(path: &str, function: &str) -> Vec<(String, usize)> {
    let source = read(path);
    let body = between(&source, &format!("pub fn {function}("), "\n\n");
    let lines = body.lines().filter_map(|line| line.trim().split_once(" => "));
    let case = |case: &str| {
        let case = case.trim_start_matches("Some(");
        let name = case.split_once("::").map_or(case, |(_, name)| name);
        name.split([' ', ')']).next().unwrap_or("").to_string()
    };
    lines.filter_map(|(name, number)| Some((case(name), number.trim_end_matches(',').parse().ok()?))).collect()
}

/// What a function that asks a refusal for its number gives where there is none, in `map_or`.
fn accepted(path: &str, function: &str) -> usize {
    let source = read(path);
    let body = between(&source, &format!("pub fn {function}<T>("), "\n\n").to_string();
    between(&body, "map_or(", ",").parse().expect("a number")
}

/// The other kinds are held by what the library does: `kinds.rs`.
#[test]
fn faults_and_refusals_have_the_librarys_numbers() {
    let header = read("c/avr.h");
    let faults = ["AVR_FAULT_NONE", "AVR_FAULT_RUN_AWAY", "AVR_FAULT_NOT_STARTED", "AVR_FAULT_LONG", "AVR_FAULT_FAST"];
    let answers = ["AVR_REFUSED_LENGTH", "AVR_REFUSED_RANGE", "AVR_REFUSED_TAP_ORDER", "AVR_REFUSED_COUNTED"];
    let ticks = ["AVR_REFUSED_IMAGE"];
    let looks = ["AVR_REFUSED_IMAGE", "AVR_REFUSED_HORIZON"];
    let enums = [
        ("avr_fault", arms("crates/coding_fault/src/lib.rt", "fault_number"), &faults[..]),
        ("avr_answer", arms("crates/sheet/src/lib.rt", "number"), &answers[..]),
        ("avr_answer", arms("crates/rules/src/lib.rt", "number"), &ticks[..]),
        ("avr_answer", arms("crates/ahead/src/lib.rt", "number"), &looks[..]),
    ];
    let taken = find(&rows(&header, "avr_answer"), "AVR_ACCEPTED");
    assert_eq!(taken, accepted("crates/sheet/src/lib.rt", "number"), "AVR_ACCEPTED, of a sheet");
    assert_eq!(arms("crates/rules/src/lib.rt", "refusal_in"), [("Ok(_".to_string(), taken)], "AVR_ACCEPTED, of a tick");
    for (name, arms, rows_of_c) in enums {
        assert_eq!(arms.len(), rows_of_c.len(), "{arms:?}");
        for ((case, number), row) in arms.iter().zip(rows_of_c) {
            assert_eq!(find(&rows(&header, name), row), *number, "{row} is {case}");
        }
    }
}
