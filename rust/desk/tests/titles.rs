//! Titles and names: they wrap or are cut, and stay in the picture.

mod common;

use common::quiet::{quiet, sheet};
use common::{between, check_texts};
use desk::picture::{picture, View};
use desk::text::{text_width, Room};

fn titled(title: &str) -> String {
    picture(&quiet(2000), &sheet(true), View::whole(title, 2000))
}

/// The lines of a title.
fn lines(picture: &str) -> Vec<&str> {
    let large = picture.lines().filter(|line| line.contains(" font-size=\"18\""));
    large.map(|line| between(line, ">", "<")).collect()
}

/// The height at which the panels begin.
fn top(picture: &str) -> f64 {
    between(picture, "<line x1=\"205\" y1=\"", "\"").parse().expect("a number")
}

#[test]
fn a_long_title_wraps_and_pushes_the_rest_down() {
    let words = "what the unit does when the load rises in the morning";
    let (one, two) = (titled(words), titled(&[words; 3].join(", and ")));
    assert_eq!(lines(&one), [words]);
    assert_eq!(lines(&two).join(" "), [words; 3].join(", and "));
    assert_eq!(lines(&two).len(), 2);
    assert!(top(&two) > top(&one) + 15.0);
    [one, two].iter().for_each(|text| check_texts("title", text));
}

#[test]
fn a_very_long_title_ends_after_three_lines() {
    for title in ["word ".repeat(400), "W".repeat(900), "ж".repeat(70_000), "长".repeat(300), "i".repeat(2000)] {
        let text = titled(&title);
        let lines = lines(&text);
        assert_eq!(lines.len(), 3);
        assert!(lines[2].ends_with('…') && !lines[1].ends_with('…'));
        assert!(lines.iter().all(|line| text_width(line, 18.0) <= 1080.0));
        check_texts("title", &text);
    }
}

/// A file of text holds none of them; a line's end parts words.
#[test]
fn characters_that_act_are_left_out_of_a_title() {
    let text = titled("one\ntwo\tthree\u{7}\u{1b}[31m \u{202e}four\u{2066}\u{ffff}\u{0} <five> & \"six\"");
    assert_eq!(lines(&text), ["one two three[31m four &lt;five&gt; &amp; &quot;six&quot;"]);
    assert_eq!(between(&text, "<title>", "</title>"), "one two three[31m four &lt;five&gt; &amp; &quot;six&quot;");
    assert!(text.chars().all(|letter| !letter.is_control() || letter == '\n'));
    assert_eq!(lines(&titled("")), [""; 0]);
}

/// No setting is broken in two.
#[test]
fn the_settings_wrap_between_settings() {
    let room = Room { width: 100.0, size: 10.0 };
    let lines = room.wrap(&["U_supp1 100 V", "dU_set 2 V", "T1 20 s", "T2 10 s"], " · ", 3);
    assert_eq!(lines, ["U_supp1 100 V", "dU_set 2 V · T1 20 s", "T2 10 s"]);
}

#[test]
fn a_name_without_room_is_cut() {
    let room = Room { width: 60.0, size: 10.0 };
    assert_eq!(room.cut("in: breaker"), "in: breaker");
    assert_eq!(room.cut("in: breaker and all that follows"), "in: break…");
    assert!(text_width(&room.cut("in: breaker and all that follows"), 10.0) <= 60.0);
    assert_eq!(Room { width: 0.0, size: 10.0 }.cut("in"), "…");
}
