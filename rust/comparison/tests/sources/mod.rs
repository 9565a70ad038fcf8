//! Reads names, numbers and structs out of `c/avr.h` and of the sources in `crates/` and `rust/library`.
#![allow(dead_code)]

use std::fs;
use std::path::{Path, PathBuf};

/// A place in the repository.
fn place(path: &str) -> PathBuf {
    Path::new(env!("CARGO_MANIFEST_DIR")).join("../..").join(path)
}

/// A file of the repository.
pub fn read(path: &str) -> String {
    fs::read_to_string(place(path)).unwrap_or_else(|error| panic!("{path}: {error}"))
}

/// The files below a folder of the repository whose names end so.
pub fn paths(folder: &str, end: &str) -> Vec<String> {
    let entries = fs::read_dir(place(folder)).unwrap_or_else(|error| panic!("{folder}: {error}"));
    let names = entries.map(|entry| entry.expect("an entry").file_name().into_string().expect("a plain name"));
    let below = |path: String| match place(&path).is_dir() {
        true => paths(&path, end),
        false => vec![path],
    };
    names.map(|name| format!("{folder}/{name}")).flat_map(below).filter(|path| path.ends_with(end)).collect()
}

/// What stands between two marks.
pub fn between<'a>(text: &'a str, from: &str, to: &str) -> &'a str {
    let (_, rest) = text.split_once(from).unwrap_or_else(|| panic!("`{from}` is not there"));
    rest.split_once(to).unwrap_or_else(|| panic!("`{to}` does not follow `{from}`")).0
}

/// A row of an enum in C.
#[derive(Debug, PartialEq)]
pub struct Row {
    pub name: String,
    pub number: usize,
    pub comment: String,
}

/// The rows `NAME = number, /* comment */` of an enum; a number may be `1 << n` or the name of a row before.
pub fn rows(header: &str, name: &str) -> Vec<Row> {
    let mut rows: Vec<Row> = Vec::new();
    for line in between(header, &format!("enum {name} {{"), "};").lines() {
        let (code, comment) = line.split_once("/*").unwrap_or((line, ""));
        let Some((name, value)) = code.split_once('=') else { continue };
        let value = value.trim().trim_end_matches(',').trim();
        let number = number(value).unwrap_or_else(|| find(&rows, value));
        let comment = comment.trim_end().trim_end_matches("*/").trim().to_string();
        rows.push(Row { name: name.trim().to_string(), number, comment });
    }
    rows
}

/// The number of a name.
pub fn find(rows: &[Row], name: &str) -> usize {
    let row = rows.iter().find(|row| row.name == name);
    row.unwrap_or_else(|| panic!("no row is called {name}")).number
}

/// `12`, or `1 << 3`.
fn number(value: &str) -> Option<usize> {
    match value.strip_prefix("1 << ") {
        Some(bit) => bit.parse().ok().map(|bit: u32| 1 << bit),
        None => value.parse().ok(),
    }
}

/// The number of a `#define`.
pub fn define(header: &str, name: &str) -> usize {
    let rest = between(header, &format!("#define {name} "), "\n");
    rest.split_whitespace().next().and_then(|n| n.parse().ok()).unwrap_or_else(|| panic!("{name} is no number: {rest}"))
}

/// The whole numbers that a source names: `const NAME: usize = number;`.
pub fn constants(source: &str) -> Vec<(String, usize)> {
    let lines = source.lines().filter_map(|line| line.trim().trim_start_matches("pub ").strip_prefix("const "));
    let named = lines.filter_map(|line| line.trim_end_matches(';').split_once(": usize = "));
    named.filter_map(|(name, value)| value.parse().ok().map(|number| (name.to_string(), number))).collect()
}

/// The number of one constant, of whichever type: `const NAME: u32 = 36_000;`.
pub fn constant(source: &str, name: &str) -> usize {
    let rest = between(source, &format!("const {name}: "), ";");
    let number = rest.split_once(" = ").map(|(_, number)| number.trim().replace('_', ""));
    number.and_then(|number| number.parse().ok()).unwrap_or_else(|| panic!("{name} is no number: {rest}"))
}

/// A field of a struct: its name, its type in Rust's words, and how many of it there are.
#[derive(Clone, Debug, PartialEq)]
pub struct Field {
    pub name: String,
    pub kind: String,
    pub count: usize,
}

/// The fields `pub name: Type,` of a struct in Rattle or Rust. `counts` gives a length that has a name.
pub fn fields(source: &str, name: &str, counts: &[(String, usize)]) -> Vec<Field> {
    let body = between(source, &format!("pub struct {name} {{"), "}");
    let lines = body.lines().filter_map(|line| line.trim().strip_prefix("pub "));
    lines.filter_map(|line| line.trim_end_matches(',').split_once(": ")).map(|(name, kind)| field(name, kind, counts)).collect()
}

fn field(name: &str, kind: &str, counts: &[(String, usize)]) -> Field {
    let list = kind.strip_prefix('[').and_then(|kind| kind.strip_suffix(']')).and_then(|kind| kind.split_once("; "));
    let (kind, count) = list.map_or((kind, 1), |(kind, length)| (kind, length_of(length, counts)));
    Field { name: name.to_string(), kind: kind.to_string(), count }
}

fn length_of(length: &str, counts: &[(String, usize)]) -> usize {
    let named = || counts.iter().find(|(name, _)| name == length).map(|(_, number)| *number);
    length.parse().ok().or_else(named).unwrap_or_else(|| panic!("the length {length} is not known"))
}

/// The types of C, in Rust's words.
const KINDS: [(&str, &str); 9] = [
    ("uint32_t", "u32"),
    ("uint8_t", "u8"),
    ("float", "f32"),
    ("avr_drive", "DriveImage"),
    ("avr_wait", "WaitImage"),
    ("avr_keys", "KeyImage"),
    ("avr_image", "Image"),
    ("avr_sample", "Sample"),
    ("avr_outputs", "Outputs"),
];

/// The fields `type name;` or `type name[LENGTH];` of a struct in C.
pub fn c_fields(header: &str, name: &str) -> Vec<Field> {
    let (body, _) = header.split_once(&format!("}} {name};")).unwrap_or_else(|| panic!("no struct is called {name}"));
    let (_, body) = body.rsplit_once("typedef struct {").expect("a struct begins");
    body.lines().filter_map(|line| line.split_once(';')).map(|(code, _)| c_field(header, code.trim())).collect()
}

fn c_field(header: &str, code: &str) -> Field {
    let (kind, name) = code.split_once(' ').expect("a type and a name");
    let kind = KINDS.iter().find(|(c, _)| *c == kind).unwrap_or_else(|| panic!("the type {kind} is not known")).1;
    let (name, count) = match name.split_once('[') {
        Some((name, length)) => (name, define(header, length.trim_end_matches(']'))),
        None => (name, 1),
    };
    Field { name: name.to_string(), kind: kind.to_string(), count }
}
