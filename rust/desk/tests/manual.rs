//! The manual, docs/MANUAL.md: it names what the tool names, gives the table's defaults, and its links lead somewhere.

mod common;

use std::fs;
use std::path::PathBuf;

use common::examples;
use desk::help;
use desk::inputs::{CONTACTS, READINGS};
use desk::names::{find, Kind, ABSENT, TABLE};
use desk::outputs::{short, BLOCKS, BUSY, FAULTS, LONG, SHORT, TRIPS};
use desk::value;

/// A page has some 500 words; tables are shorter on it.
const MOST_WORDS: usize = 2_600;

fn folder() -> PathBuf {
    examples().join("../docs")
}

fn manual() -> String {
    fs::read_to_string(folder().join("MANUAL.md")).expect("docs/MANUAL.md")
}

/// One line, so that a phrase is found wherever its lines break.
fn flat(text: &str) -> String {
    text.split_whitespace().collect::<Vec<_>>().join(" ")
}

/// What stands in backticks, and what follows each.
fn ticked(text: &str) -> Vec<(&str, &str)> {
    let pieces = text.match_indices('`').map(|(at, _)| at).collect::<Vec<_>>();
    assert!(pieces.len().is_multiple_of(2), "a backtick is left over");
    pieces.chunks(2).map(|pair| (&text[pair[0] + 1..pair[1]], &text[pair[1] + 1..])).collect()
}

/// What the links lead to.
fn links(text: &str) -> Vec<&str> {
    text.split("](").skip(1).map(|rest| rest.split_once(')').expect("the link's end").0).collect()
}

/// The contacts and keys without the bits that the unit ignores.
fn contacts() -> impl Iterator<Item = &'static str> {
    CONTACTS.iter().map(|contact| contact.name).filter(|name| !name.starts_with("bit"))
}

fn is_word(name: &str) -> bool {
    TABLE.iter().any(|slot| matches!(slot.kind, Kind::Words(words) if words.contains(&name)))
}

#[test]
fn every_setting_contact_and_reading_is_named() {
    let text = manual();
    let names = TABLE.iter().map(|slot| slot.name).chain(contacts()).chain(READINGS.iter().map(|reading| reading.name));
    let named = ticked(&text);
    for name in names {
        assert!(named.iter().any(|(ticked, _)| *ticked == name), "`{name}` is not in the manual");
    }
}

#[test]
fn nothing_else_is_named() {
    let known = |name: &str| {
        find(name).is_some()
            || is_word(name)
            || contacts().any(|contact| contact == name)
            || READINGS.iter().any(|reading| reading.name == name)
            || ABSENT.iter().any(|(absent, _)| *absent == name)
            || name == "avr"
    };
    for (name, _) in ticked(&manual()) {
        assert!(known(name), "`{name}` is nowhere else");
    }
}

#[test]
fn blocks_trips_and_faults_have_their_short_names() {
    let text = flat(&manual());
    let trips = TRIPS..*BLOCKS.start();
    for field in trips.chain(BLOCKS).chain(FAULTS) {
        assert!(text.contains(SHORT[field]), "{}", SHORT[field]);
    }
    for field in [LONG, BUSY] {
        let unseen = short(field, true);
        assert!(text.to_lowercase().contains(&format!("'{unseen}'")), "{unseen}");
    }
}

#[test]
fn the_help_and_the_manual_name_things_alike() {
    let (text, helped) = (flat(&manual()), flat(&[help::ALL, help::SHEET_CHECK, help::SCENARIO_WRITE, help::RUN].concat()));
    for name in [
        "local mode",
        "remote mode",
        "local drive",
        "the panel's",
        "the dispatcher's",
        "is remembered",
        "carried out",
        "drop it",
        "switching contact",
        "is missing",
        "real and imaginary part",
        "worked at its own place",
    ] {
        assert!(text.contains(name), "the manual has no '{name}'");
        assert!(helped.contains(name), "the help has no '{name}'");
    }
}

#[test]
fn the_defaults_are_the_table_s() {
    let text = flat(&manual());
    let mut given = 0;
    for (name, rest) in ticked(&text) {
        let Some((slot, bracket)) = find(name).zip(rest.strip_prefix(" (")) else { continue };
        let default = bracket.split_once(')').expect("a bracket's end").0;
        assert_eq!(value::number(&TABLE[slot], default), Ok(TABLE[slot].default), "`{name}` ({default})");
        given += 1;
    }
    assert!(given >= TABLE.len() - 9, "only {given} defaults: each setting has one, but for N2 to N10");
}

#[test]
fn its_links_lead_somewhere() {
    let text = manual();
    let pictures = links(&text).iter().filter(|link| link.ends_with("picture.svg")).count();
    assert!(pictures >= 4, "only {pictures} pictures");
    for link in links(&text) {
        assert!(folder().join(link).is_file(), "{link} is not there");
    }
}

#[test]
fn it_stays_short() {
    let words = manual().split_whitespace().filter(|word| word.contains(char::is_alphanumeric)).count();
    assert!(words <= MOST_WORDS, "{words} words");
}

#[test]
fn the_readmes_lead_to_it() {
    for (name, link) in [("../README.md", "docs/MANUAL.md"), ("../rust/desk/README.md", "../../docs/MANUAL.md")] {
        let text = fs::read_to_string(folder().join(name)).expect(name);
        assert!(links(&text).contains(&link), "{name} does not lead to the manual");
    }
}
