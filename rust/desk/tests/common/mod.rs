//! What the tests share.
#![allow(dead_code)]

pub mod json;
pub mod quiet;
pub mod runs;

use std::fs;
use std::io::Cursor;
use std::path::{Path, PathBuf};
use std::process::{Command, Output};

use desk::file::{Errors, File};
use desk::names::{MODULE, TABLE};
use desk::recording::Recording;
use desk::run::Window;
use desk::show;
use desk::table::{Form, Only, Wanted};
use desk::text::text_width;
use library::Brought;

/// All of a scenario's run, for people.
pub const WHOLE_TABLE: Wanted = Wanted { form: Form::Text, only: Only::All, readings: true, window: Window::WHOLE };

/// The ticks of a recording.
pub fn recorded(bytes: Vec<u8>) -> Result<Vec<Brought>, Errors> {
    Recording::of("file".to_string(), Box::new(Cursor::new(bytes))).collect()
}

/// Ticks as a scenario.
pub fn to_csv(ticks: &[Brought]) -> String {
    let ticks = || ticks.iter().map(|tick| Ok(*tick));
    let mut text = String::new();
    let put = |line: &str| {
        text.push_str(line);
        Ok(true)
    };
    show::rows(&show::used(ticks()).expect("columns"), ticks(), put).expect("rows");
    text
}

pub fn file(text: &str) -> File {
    File { name: "file".to_string(), bytes: text.as_bytes().to_vec() }
}

pub fn bytes(bytes: Vec<u8>) -> File {
    File { name: "file".to_string(), bytes }
}

/// The sheet of defaults, for a 1 A or a 5 A module.
pub fn defaults(module: u32) -> Vec<u32> {
    let mut list: Vec<u32> = TABLE.iter().map(|slot| slot.default_for(module)).collect();
    list[MODULE] = module;
    list
}

/// Chance numbers, always the same.
pub struct Dice(pub u64);

impl Dice {
    pub fn next(&mut self) -> u32 {
        self.0 = self.0.wrapping_mul(6364136223846793005).wrapping_add(1442695040888963407);
        (self.0 >> 33) as u32
    }

    pub fn below(&mut self, end: u32) -> u32 {
        self.next() % end
    }
}

/// A folder of its own for a test.
pub struct Folder(pub PathBuf);

impl Folder {
    pub fn new(name: &str) -> Folder {
        let path = std::env::temp_dir().join(format!("avr-{name}-{}", std::process::id()));
        drop(fs::remove_dir_all(&path));
        fs::create_dir_all(&path).expect("a folder for the test");
        Folder(path)
    }

    pub fn path(&self, name: &str) -> String {
        self.0.join(name).to_str().expect("a plain path").to_string()
    }

    pub fn write(&self, name: &str, bytes: impl AsRef<[u8]>) -> String {
        fs::write(self.0.join(name), bytes).expect("a file of the test");
        self.path(name)
    }

    pub fn names(&self) -> Vec<String> {
        let entries = fs::read_dir(&self.0).expect("the test's folder");
        let mut names: Vec<String> = entries.map(|e| e.expect("an entry").file_name().into_string().expect("text")).collect();
        names.sort();
        names
    }
}

impl Drop for Folder {
    fn drop(&mut self) {
        drop(fs::remove_dir_all(&self.0));
    }
}

pub fn avr(words: &[&str]) -> Output {
    Command::new(env!("CARGO_BIN_EXE_avr")).args(words).output().expect("avr runs")
}

pub fn out(output: &Output) -> String {
    String::from_utf8(output.stdout.clone()).expect("text")
}

pub fn err(output: &Output) -> String {
    String::from_utf8(output.stderr.clone()).expect("text")
}

pub fn examples() -> PathBuf {
    Path::new(env!("CARGO_MANIFEST_DIR")).join("../../examples")
}

/// What stands between two marks.
pub fn between<'a>(text: &'a str, from: &str, to: &str) -> &'a str {
    let rest = text.split_once(from).expect("the first mark").1;
    rest.split_once(to).expect("the second mark").0
}

struct Place {
    left: f64,
    right: f64,
    top: f64,
    bottom: f64,
    words: String,
}

/// Words as a reader sees them.
fn plain_text(words: &str) -> String {
    words.replace("&lt;", "<").replace("&gt;", ">").replace("&quot;", "\"").replace("&amp;", "&")
}

/// The box of a `<text>` line.
fn text_box(line: &str) -> Place {
    let number = |name: &str| -> f64 { between(line, &format!(" {name}=\""), "\"").parse().expect("a number") };
    let (x, y, size) = (number("x"), number("y"), number("font-size"));
    let words = between(line, ">", "<").to_string();
    let width = text_width(&plain_text(&words), size);
    let left = match between(line, "text-anchor=\"", "\"") {
        "start" => x,
        "middle" => x - width / 2.0,
        _ => x - width,
    };
    Place { left, right: left + width, top: y - size * 0.8, bottom: y + size * 0.1, words }
}

/// No text of a picture lies on another or outside.
pub fn check_texts(name: &str, picture: &str) {
    let places: Vec<Place> = picture.lines().filter(|line| line.starts_with("<text")).map(text_box).collect();
    let height: f64 = between(picture, " height=\"", "\"").parse().expect("a number");
    assert!(places.len() > 20, "{name}");
    for (at, a) in places.iter().enumerate() {
        let inside = a.left >= 0.0 && a.right <= 1120.0 && a.top >= 0.0 && a.bottom <= height;
        assert!(inside, "{name}: {} is outside", a.words);
        for b in &places[at + 1..] {
            let apart = a.right <= b.left || b.right <= a.left || a.bottom <= b.top || b.bottom <= a.top;
            assert!(apart, "{name}: {} lies on {}", a.words, b.words);
        }
    }
}
