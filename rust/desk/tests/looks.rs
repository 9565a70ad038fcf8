//! The picture of a look ahead: where it begins, the mark of its command, how far it goes, and that its ticks have the command of
//! the answer.

mod common;

use std::fs;
use std::process::Output;

use common::quiet::texts;
use common::{avr, between, check_texts, err, examples, out, Folder};
use desk::ahead::{agrees, Asked, Begin, By, Found};
use desk::drive::Way;
use desk::outputs::{BUSY, LOWER, RAISE};
use desk::run::History;
use desk::svg::{short, BLUE, GREY, INK, VERMILLION};
use library::Brought;

const SHEET: &str = "XB1 = on\nT1 = 20 s\nT3 = 4 s\nT5 = 1 s\n";
/// Manual and low from 10 s on, high from 60 s on.
const SCENARIO: &str = "seconds,U_AB,breaker,automatic\n0,100,1,0\n10,97\n60,120\n70,end\n";
const ON: &str = "--automatic";
const REPEATS: &str = "from here on the readings repeat";

struct Desk {
    folder: Folder,
    sheet: String,
    csv: String,
}

impl Desk {
    fn new(name: &str) -> Desk {
        let folder = Folder::new(&format!("looks-{name}"));
        let (sheet, csv) = (folder.write("a.txt", SHEET), folder.write("a.csv", SCENARIO));
        Desk { folder, sheet, csv }
    }

    fn ahead(&self, more: &[&str]) -> Output {
        avr(&[&["ahead", "--sheet", &self.sheet, "--scenario", &self.csv], more].concat())
    }

    /// The picture, in which no text lies on another.
    fn drawn(&self, more: &[&str]) -> String {
        let svg = self.folder.path("a.svg");
        let output = self.ahead(&[more, &["--svg", &svg]].concat());
        assert_eq!(err(&output), format!("avr: the picture is in {svg}\n"), "{more:?}");
        let picture = fs::read_to_string(&svg).expect("a picture");
        check_texts(&format!("{more:?}"), &picture);
        picture
    }
}

/// Where the upright lines of a colour stand that begin above the panels.
fn lines(picture: &str, colour: &str) -> Vec<f64> {
    let of_colour = format!(" stroke=\"{colour}\" stroke-width=\"1.6\"");
    let lines = picture.lines().filter(|line| line.starts_with("<line") && line.contains(&of_colour));
    lines.map(|line| between(line, "x1=\"", "\"").parse().expect("a number")).collect()
}

/// Where a time is drawn, in a picture between two times.
fn place(time: f64, from: f64, to: f64) -> f64 {
    short(205.0 + 765.0 * (time - from) / (to - from)).parse().expect("a number")
}

/// A raise at 35 s of a look from 15 s: half of T5 is shown after it, less than 5 % of the time.
#[test]
fn the_command_and_the_beginning_of_the_look_are_marked() {
    let text = Desk::new("marks").drawn(&["--at", "15", ON]);
    assert_eq!(lines(&text, GREY), [place(15.0, 0.0, 35.5)]);
    assert_eq!(lines(&text, BLUE), [place(35.0, 0.0, 35.5)]);
    let texts = texts(&text);
    for words in ["from here on the readings repeat, automatic switched on", "raise, after 20 s", "from 35 s", "a.csv"] {
        assert!(texts.contains(&words), "{words}: {texts:?}");
    }
    assert!(texts.contains(&"faults: none"), "what an unanswered command comes to is not shown");
}

#[test]
fn a_lower_has_its_own_colour() {
    let text = Desk::new("lower").drawn(&["--at", "65", ON]);
    assert_eq!((lines(&text, BLUE), lines(&text, VERMILLION)), (vec![], vec![place(69.0, 0.0, 69.5)]));
    assert!(texts(&text).contains(&"lower, after 4 s"));
}

/// What is shaded is the look.
#[test]
fn the_look_is_shaded() {
    let text = Desk::new("shade").drawn(&["--at", "15", ON]);
    let shade = text.lines().find(|line| line.contains("fill-opacity=\"0.6\"")).expect("a shade");
    let number = |name: &str| -> f64 { between(shade, &format!(" {name}=\""), "\"").parse().expect("a number") };
    assert_eq!(number("x"), place(15.0, 0.0, 35.5));
    assert!((number("x") + number("width") - 970.0).abs() < 0.2);
}

/// It ends at the horizon, with the decisive reason.
#[test]
fn a_look_without_a_command_ends_at_the_horizon() {
    let desk = Desk::new("nothing");
    let text = desk.drawn(&["--at", "15", ON, "--horizon", "5"]);
    assert_eq!((lines(&text, GREY), lines(&text, INK)), (vec![place(15.0, 0.0, 20.0)], vec![970.0]));
    let label = "no command within 5 s: the timer of a raise has run for 5 s of T1 = 20 s";
    assert!(texts(&text).iter().any(|words| words.starts_with(label)), "{:?}", texts(&text));
    let text = desk.drawn(&["--at", "15"]);
    assert!(texts(&text).contains(&REPEATS), "nothing is switched on");
    assert!(texts(&text)
        .iter()
        .any(|words| words.starts_with("no command within 180 s: manual mode, and neither of the panel")));
    assert_eq!(lines(&text, GREY), [place(15.0, 0.0, 195.0)]);
}

#[test]
fn a_part_of_it_has_what_lies_in_the_part() {
    let desk = Desk::new("part");
    let text = desk.drawn(&["--at", "15", ON, "--from", "10", "--to", "30", "--title", "from ten to thirty"]);
    assert_eq!((lines(&text, GREY), lines(&text, BLUE)), (vec![place(15.0, 10.0, 30.0)], vec![]));
    let told = texts(&text);
    assert!(told.contains(&"from ten to thirty") && told.contains(&"from 10 s to 30 s of 35.5 s"), "{told:?}");
    let text = desk.drawn(&["--at", "15", ON, "--from", "30"]);
    assert_eq!((lines(&text, GREY), lines(&text, BLUE)), (vec![], vec![place(35.0, 30.0, 35.25)]));
    let shade = text.lines().find(|line| line.contains("fill-opacity=\"0.6\"")).expect("a shade");
    assert!(shade.contains(" x=\"205\"") && shade.contains(" width=\"765\""), "all of it is the look: {shade}");
    let text = desk.drawn(&["--at", "15", ON, "--to", "12"]);
    assert!(lines(&text, GREY).is_empty() && !text.contains("fill-opacity=\"0.6\""));
}

#[test]
fn a_part_after_its_end_is_refused() {
    let desk = Desk::new("late");
    let svg = desk.folder.path("a.svg");
    let output = desk.ahead(&["--at", "15", ON, "--svg", &svg, "--from", "36"]);
    let told = "avr: --from 36 is not before the end of the run, 35.005 s\n".to_string();
    assert_eq!((output.status.code(), out(&output).as_str(), err(&output)), (Some(1), "", told));
    assert_eq!(desk.folder.names(), ["a.csv", "a.txt"]);
}

/// The answer is then on standard error.
#[test]
fn a_picture_may_go_to_standard_output() {
    let desk = Desk::new("standard");
    let output = desk.ahead(&["--at", "15", ON, "--svg", "-"]);
    assert_eq!(out(&output), desk.drawn(&["--at", "15", ON]));
    assert_eq!(err(&output), out(&desk.ahead(&["--at", "15", ON])));
}

#[test]
fn no_input_is_written_over() {
    let desk = Desk::new("over");
    for input in [&desk.sheet, &desk.csv] {
        let output = desk.ahead(&["--at", "15", "--svg", input]);
        assert_eq!(output.status.code(), Some(1));
        assert!(err(&output).contains("would be written over another file of this command"), "{}", err(&output));
    }
    assert_eq!(fs::read_to_string(&desk.csv).expect("still there"), SCENARIO);
}

/// From each part of it, the look long or short beside it.
#[test]
fn each_look_of_the_example_can_be_read() {
    let folder = Folder::new("looks-example");
    let path = |name: &str| examples().join("before-automatic").join(name).to_str().expect("a plain path").to_string();
    let (sheet, csv, svg) = (path("sheet.txt"), path("scenario.csv"), folder.path("a.svg"));
    for at in ["0.005", "0.01", "10", "20", "45", "50.2", "52", "55", "66", "75", "91", "104", "115"] {
        for more in [&[][..], &[ON], &["--horizon", "1 ticks"], &[ON, "--horizon", "30", "--from", "40"]] {
            let words = ["ahead", "--sheet", &sheet, "--scenario", &csv, "--svg", &svg, "--at", at];
            let output = avr(&[&words, more].concat());
            let before = err(&output).contains("--from 40 is not before");
            assert!(output.status.success() || before, "{at} {more:?}: {}", err(&output));
            if !before {
                check_texts(&format!("{at} {more:?}"), &fs::read_to_string(&svg).expect("a picture"));
            }
        }
    }
}

/// A history with these commands, each of one tick, and the drive busy from one tick to another.
fn history(commands: &[(usize, u32)], busy: (u32, u32)) -> History {
    let mut history = History { ticks: 100, ..History::default() };
    history.outputs.iter_mut().for_each(|signal| signal.push((1, 0)));
    commands.iter().for_each(|(field, tick)| history.outputs[*field].extend([(*tick, 1), (tick + 1, 0)]));
    history.outputs[BUSY].extend([(busy.0, 1), (busy.1, 0)]);
    history
}

fn begins(tick: u32, way: Way) -> Found {
    Found::Begins(Begin { tick, way, by: By::Manual })
}

/// Ticks that are drawn and an answer that is another are an error, either way.
#[test]
fn ticks_and_answer_must_agree() {
    let asked = Asked { list: &[], at: 10, brought: Brought::default(), switched: false, horizon: 50 };
    let nothing = || Found::Nothing(Vec::new());
    let told = |commands: &[(usize, u32)], busy, found: Found| agrees(&history(commands, busy), &asked, &found);
    let raised = [(RAISE, 30)];
    assert_eq!(told(&raised, (30, 40), begins(20, Way::Raise)), Ok(()));
    assert_eq!(told(&[], (99, 100), nothing()), Ok(()));
    assert_eq!(told(&[(LOWER, 5)], (5, 9), nothing()), Ok(()), "before the look");
    assert_eq!(told(&raised, (8, 40), nothing()), Ok(()), "the drive was busy, so that none begins");
    assert_eq!(told(&[(RAISE, 40), (LOWER, 30)], (30, 35), begins(20, Way::Lower)), Ok(()), "the first one");
    for (found, answer) in [
        (begins(19, Way::Raise), "a raise on tick 19"),
        (begins(21, Way::Raise), "a raise on tick 21"),
        (begins(20, Way::Lower), "a lower on tick 20"),
        (nothing(), "no command"),
    ] {
        let words =
            format!("the ticks that are drawn have a raise on tick 20, and the look ahead {answer}: please report this");
        assert_eq!(told(&raised, (30, 40), found), Err(vec![words]));
    }
    assert!(told(&[], (99, 100), begins(20, Way::Raise)).is_err());
}
