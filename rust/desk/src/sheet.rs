//! Sheets: text to numbers, numbers to text, the binary file, and why a sheet is refused.

use library::SLOTS;

use crate::file::{Errors, File, UTF16};
use crate::inputs::{I_BUS, I_BUS_PAIR, I_COUPLER, I_COUPLER_PAIR, PAIRS, U_AB, U_AB_PAIR};
use crate::names::{
    self, ABSENT, COMPENSATION, COMPENSATION_CURRENT, CONTINUOUS, D_U, MODULE, N_L, N_POS, N_R, TABLE, TAP_SOURCE,
};
use crate::shown::{self, counted};
use crate::unit::{self, Refusal, COUNTED, LENGTH, RANGE, TAP_ORDER};
use crate::value;

/// Bytes of a whole SHEET.
pub const BYTES: usize = 4 * SLOTS;

/// Where a sheet's numbers come from.
#[derive(Clone, Debug, PartialEq)]
pub enum Origin {
    /// Text, with the line of each setting that it names; the others have their defaults.
    Text(Vec<Option<usize>>),
    /// A SHEET, which holds them all.
    Binary,
}

/// A list and where it comes from; to a reader outside, one that the library takes.
#[derive(Clone, Debug, PartialEq)]
pub struct Sheet {
    pub list: Vec<u32>,
    pub origin: Origin,
}

impl Sheet {
    /// The line that gives a slot its number, if one does.
    pub fn line(&self, slot: usize) -> Option<usize> {
        match &self.origin {
            Origin::Text(lines) => lines.get(slot).copied().flatten(),
            Origin::Binary => None,
        }
    }

    /// Whether a slot has its number because the text does not name it.
    pub fn is_left_out(&self, slot: usize) -> bool {
        self.origin != Origin::Binary && self.line(slot).is_none()
    }

    /// Words about a slot, with the line that gives it its number.
    pub fn says(&self, file: &File, slot: usize, words: &str) -> String {
        says(file, self.line(slot), words)
    }

    /// What the file gives, in words.
    pub fn told(&self) -> String {
        match &self.origin {
            Origin::Text(lines) => {
                let named = lines.iter().flatten().count();
                format!("{} named, {} by default", counted(named, "setting"), SLOTS - named)
            }
            Origin::Binary => format!("a SHEET, with all {SLOTS} settings"),
        }
    }
}

/// Words about a file, with the line that they are about, if there is one.
fn says(file: &File, line: Option<usize>, words: &str) -> String {
    match line {
        Some(line) => file.says_at(line, words),
        None => file.says(words),
    }
}

/// Reads a sheet, as text or as a SHEET; a file with a zero byte is no text, unless it is in UTF-16.
pub fn read(file: &File) -> Result<Sheet, Errors> {
    match file.bytes.contains(&0) {
        true => read_binary(file),
        false => from_text(file),
    }
}

/// Reads a SHEET. One without a zero byte would have each number out of range.
pub fn read_binary(file: &File) -> Result<Sheet, Errors> {
    let is_text = !file.bytes.is_empty() && !file.bytes.contains(&0) && std::str::from_utf8(&file.bytes).is_ok();
    if file.is_utf16() {
        return Err(vec![file.says(UTF16)]);
    }
    if is_text {
        return Err(vec![file.says("this is text and no SHEET; `avr sheet check` reads it")]);
    }
    judged(file, from_bytes(file)?, Vec::new(), &[])
}

/// A SHEET of another length is a list of another length; the library has the word.
fn from_bytes(file: &File) -> Result<Sheet, Errors> {
    if !file.bytes.len().is_multiple_of(4) {
        let length = file.bytes.len();
        return Err(vec![file.says(&format!("{length} bytes are no list of 32-bit numbers; a SHEET has {BYTES}"))]);
    }
    let list = file.bytes.chunks_exact(4).map(|b| u32::from_le_bytes([b[0], b[1], b[2], b[3]])).collect();
    Ok(Sheet { list, origin: Origin::Binary })
}

/// The SHEET of a list.
pub fn to_bytes(list: &[u32]) -> Vec<u8> {
    list.iter().flat_map(|number| number.to_le_bytes()).collect()
}

/// The line and the value of each setting that a text names.
type Texts = [Option<(usize, String)>; SLOTS];

/// What is wrong with a sheet: its line, if it has one, and words.
type Wrong = (Option<usize>, String);

fn from_text(file: &File) -> Result<Sheet, Errors> {
    let mut texts: Texts = std::array::from_fn(|_| None);
    let mut errors: Vec<Wrong> = Vec::new();
    for (line, text) in file.lines()? {
        errors.extend(take_line(&mut texts, line, text).err().map(|words| (Some(line), words)));
    }
    if errors.is_empty() && texts.iter().all(Option::is_none) {
        return Err(vec![file.says(NO_SETTING)]);
    }
    let (sheet, bad) = numbers(&texts);
    let slots: Vec<usize> = bad.iter().map(|(slot, _)| *slot).collect();
    errors.extend(bad.into_iter().map(|(slot, words)| (sheet.line(slot), words)));
    judged(file, sheet, errors, &slots)
}

/// What is told of a text without a setting.
const NO_SETTING: &str = "no setting is named in it: begin with what `avr sheet template` prints, or with one line, `XB1 = on`";

/// Notes the value of one line: its slot, its line and its text.
fn take_line(texts: &mut Texts, line: usize, text: &str) -> Result<(), String> {
    let text = text.split('#').next().unwrap_or("").trim();
    if text.is_empty() {
        return Ok(());
    }
    let (name, value) = text.split_once('=').ok_or_else(|| format!("`{}` is not `name = value`", shown::text(text)))?;
    let (name, value) = (name.trim(), value.trim());
    let slot = names::find(name).ok_or_else(|| unknown(name))?;
    if let Some((before, _)) = &texts[slot] {
        return Err(format!("{name} is given again; line {before} gives it too"));
    }
    texts[slot] = Some((line, value.to_string()));
    Ok(())
}

fn unknown(name: &str) -> String {
    if let Some((_, why)) = ABSENT.iter().find(|(absent, _)| *absent == name) {
        return format!("{name} is no setting of this unit: {why}");
    }
    let near = names::near(name).map(|near| format!("; {near} is one")).unwrap_or_default();
    format!("no setting is called `{}`{near}", shown::text(name))
}

/// The sheet of the texts, and the slots whose text is no value, with why; they have their defaults. The module comes first:
/// defaults and ranges of currents and impedances hang on it.
fn numbers(texts: &Texts) -> (Sheet, Vec<(usize, String)>) {
    let module = match &texts[MODULE] {
        Some((_, text)) => value::number(&TABLE[MODULE], text).unwrap_or(TABLE[MODULE].default),
        None => TABLE[MODULE].default,
    };
    let mut list: Vec<u32> = TABLE.iter().map(|slot| slot.default_for(module)).collect();
    let mut bad = Vec::new();
    for (at, text) in texts.iter().enumerate() {
        let Some((_, text)) = text else { continue };
        match number(at, text, module) {
            Ok(number) => list[at] = number,
            Err(words) => bad.push((at, words)),
        }
    }
    let lines = texts.iter().map(|text| text.as_ref().map(|(line, _)| *line)).collect();
    (Sheet { list, origin: Origin::Text(lines) }, bad)
}

/// The number of a slot's text, or in words why it is none.
fn number(at: usize, text: &str, module: u32) -> Result<u32, String> {
    let slot = &TABLE[at];
    if text.is_empty() {
        return Err(format!("{} has no value", slot.name));
    }
    value::number(slot, text).map_err(|why| {
        let (text, takes) = (shown::text(text), value::range(slot, module));
        format!("{} = {text}: {why}; it {takes} (slot {at})", slot.name)
    })
}

/// The sheet, if nothing is wrong with its text and the library takes it. Else all that is wrong, from the top of the text to its
/// end; the slots of `bad` have a text that is no value.
fn judged(file: &File, sheet: Sheet, mut errors: Vec<Wrong>, bad: &[usize]) -> Result<Sheet, Errors> {
    let told = |refusal: Refusal| (sheet.line(refusal.slot as usize), explain(&sheet.list, refusal));
    errors.extend(sure_refusals(&sheet.list, bad).into_iter().map(told));
    errors.sort_by_key(|(line, _)| line.unwrap_or(usize::MAX));
    match errors.is_empty() {
        true => Ok(sheet),
        false => Err(file.first_of(errors.iter().map(|(line, words)| says(file, *line, words)).collect())),
    }
}

/// The refusals that come whatever is meant by the texts that are no values: the order of the taps hangs on each of them, and a
/// range on the module. A counted tap is not refused beside a default of XB2 or XB6.
fn sure_refusals(list: &[u32], bad: &[usize]) -> Vec<Refusal> {
    let mut found = refusals(list);
    if bad.iter().any(|slot| (N_POS..=N_L).contains(slot)) {
        found.retain(|refusal| refusal.number != TAP_ORDER);
    }
    if bad.contains(&MODULE) {
        let mut other = list.to_vec();
        other[MODULE] = 1 - list[MODULE];
        let other = refusals(&other);
        found.retain(|refusal| other.contains(refusal));
    }
    found
}

/// Each refusal of a list, all from the library: what it names gets its default, and the list is tried again. Defaults are in
/// range, in order and not continuous, so no refusal comes twice.
pub fn refusals(list: &[u32]) -> Vec<Refusal> {
    let mut list = list.to_vec();
    let mut found: Vec<Refusal> = Vec::new();
    while let Err(refusal) = unit::start(&list) {
        let at = refusal.slot as usize;
        if refusal.number != TAP_ORDER || !found.iter().any(is_of_taps) {
            found.push(refusal);
        }
        let mended = match refusal.number {
            RANGE | COUNTED => at..=at,
            TAP_ORDER => N_POS..=N_L,
            _ => break,
        };
        for slot in mended {
            list[slot] = TABLE[slot].default_for(list[MODULE]);
        }
    }
    found
}

/// A tap out of range: its default may be out of order, which is not the sheet's fault.
fn is_of_taps(refusal: &Refusal) -> bool {
    (N_POS..=N_L).contains(&(refusal.slot as usize))
}

/// A refusal in words: name, value, range and step or what else it must be, number and slot.
pub fn explain(list: &[u32], refusal: Refusal) -> String {
    let Refusal { number, slot } = refusal;
    let tail = format!("(refusal {number}, slot {slot})");
    if number == LENGTH {
        return format!("the list has {}, a sheet has {SLOTS} {tail}", counted(list.len(), "number"));
    }
    let at = slot as usize;
    let (name, value) = (TABLE[at].name, value::text(&TABLE[at], list[at]));
    if number == COUNTED {
        return format!("{name} = {value}: {} {tail}", nothing_to_count(list));
    }
    let takes = value::range(&TABLE[at], list[MODULE]);
    let must = match (number, at) {
        (TAP_ORDER, N_R) => format!(", and must be above N_L = {}", list[N_L]),
        (TAP_ORDER, N_POS) => format!(", and must lie from N_L = {} to N_R = {}", list[N_L], list[N_R]),
        _ => String::new(),
    };
    format!("{name} = {value}: it {takes}{must} {tail}")
}

/// Why a tap is not counted without a switching contact, and what to do.
fn nothing_to_count(list: &[u32]) -> String {
    let source = value::text(&TABLE[TAP_SOURCE], list[TAP_SOURCE]);
    format!("no contact tells of a move, so XB6 = {source} has nothing to count; choose XB6 off, BCD or sensor, or XB2 impulse")
}

/// A setting, `T4 = 15 s`.
pub fn said(list: &[u32], slot: usize) -> String {
    format!("{} = {}", TABLE[slot].name, value::text(&TABLE[slot], list[slot]))
}

/// Whether a slot has a word.
pub fn is(list: &[u32], slot: usize, word: &str) -> bool {
    value::text(&TABLE[slot], list[slot]) == word
}

/// Whether the sheet is for a drive without a switching contact.
pub fn is_continuous(list: &[u32]) -> bool {
    list[CONTINUOUS] == 1
}

/// Whether a raise goes to the lower number of a tap: rules 7 and 8.
pub fn is_reversed(list: &[u32]) -> bool {
    list[TAP_SOURCE] == COUNTED_REVERSED
}

/// The tap's source of a drive whose raise goes to the lower number.
const COUNTED_REVERSED: u32 = 4;

/// The compensations that a sheet may choose, but for none.
pub const BY_U_COMP: u32 = 1;
pub const ALONG_RX: u32 = 2;

/// The pairs without which a unit with this sheet has no voltage to judge.
pub fn needed_pairs(list: &[u32]) -> &'static [usize] {
    match (list[COMPENSATION], list[COMPENSATION_CURRENT]) {
        (ALONG_RX, 0) => &[U_AB_PAIR, I_BUS_PAIR],
        (ALONG_RX, 1) => &[U_AB_PAIR, I_COUPLER_PAIR],
        (ALONG_RX, _) => &[U_AB_PAIR, I_BUS_PAIR, I_COUPLER_PAIR],
        _ => &[],
    }
}

/// The currents of a compensation by U_comp.
pub fn needed_currents(list: &[u32]) -> &'static [usize] {
    match (list[COMPENSATION], list[COMPENSATION_CURRENT]) {
        (BY_U_COMP, 0) => &[I_BUS],
        (BY_U_COMP, 1) => &[I_COUPLER],
        (BY_U_COMP, _) => &[I_BUS, I_COUPLER],
        _ => &[],
    }
}

/// The readings without which a unit with this sheet has no voltage to judge, parts of pairs among them.
pub fn needed_readings(list: &[u32]) -> Vec<usize> {
    match list[COMPENSATION] {
        ALONG_RX => needed_pairs(list).iter().flat_map(|pair| PAIRS[*pair].parts).collect(),
        _ => [U_AB].iter().chain(needed_currents(list)).copied().collect(),
    }
}

/// The sheet as text: every slot, with what it means.
pub fn to_text(list: &[u32]) -> String {
    let mut text = format!("# Setting sheet. {SLOTS} settings; a line left out takes its default.\n");
    for (at, slot) in TABLE.iter().enumerate() {
        let setting = format!("{} = {}", slot.name, value::text(slot, list[at]));
        text.push_str(&format!("{setting:<24}# {}\n", slot.meaning));
    }
    text
}

/// The middle of the band and half its width, in V, of U_supp `which` (0 to 3).
pub fn band(list: &[u32], which: usize) -> (f64, f64) {
    let volts = |slot: usize| f64::from(list[slot]) / 1000.0;
    (volts(names::U_SUPP + which), volts(D_U) / 2.0)
}
