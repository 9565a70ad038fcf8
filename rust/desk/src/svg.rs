//! SVG elements, written one after the other.

use std::fmt::Write;

use crate::text::plain;

/// The Okabe-Ito colours, which a colour-blind reader can tell apart.
pub const BLACK: &str = "#000000";
pub const ORANGE: &str = "#E69F00";
pub const SKY: &str = "#56B4E9";
pub const GREEN: &str = "#009E73";
pub const YELLOW: &str = "#F0E442";
pub const BLUE: &str = "#0072B2";
pub const VERMILLION: &str = "#D55E00";
pub const PURPLE: &str = "#CC79A7";

pub const INK: &str = "#222222";
pub const FAINT: &str = "#D8D8D8";
pub const GREY: &str = "#666666";
pub const PALE: &str = "#ECECEC";
pub const WHITE: &str = "#FFFFFF";

const FONT: &str = "DejaVu Sans, Verdana, Arial, sans-serif";

/// Where a text stands at its point.
#[derive(Clone, Copy)]
pub enum Anchor {
    Start,
    Middle,
    End,
}

/// A text's look: its size in pixels, its colour and its anchor.
#[derive(Clone, Copy)]
pub struct Style<'a> {
    pub size: f64,
    pub colour: &'a str,
    pub anchor: Anchor,
}

/// A line's look: its colour, its width and its dashes, `""` for none.
#[derive(Clone, Copy)]
pub struct Pen<'a> {
    pub colour: &'a str,
    pub width: f64,
    pub dashes: &'a str,
}

/// A rectangle.
#[derive(Clone, Copy)]
pub struct Area {
    pub x: f64,
    pub y: f64,
    pub width: f64,
    pub height: f64,
}

#[derive(Default)]
pub struct Svg {
    body: String,
}

impl Svg {
    pub fn new() -> Svg {
        Svg::default()
    }

    fn add(&mut self, element: std::fmt::Arguments) {
        self.body.write_fmt(element).expect("a string takes all");
        self.body.push('\n');
    }

    /// Puts another below all that is here.
    pub fn over(&mut self, other: Svg) {
        self.body.insert_str(0, &other.body);
    }

    pub fn line(&mut self, from: (f64, f64), to: (f64, f64), pen: Pen) {
        let (a, b, c, d) = (short(from.0), short(from.1), short(to.0), short(to.1));
        self.add(format_args!(r#"<line x1="{a}" y1="{b}" x2="{c}" y2="{d}"{}/>"#, stroke(pen)));
    }

    pub fn path(&mut self, path: &str, pen: Pen) {
        self.add(format_args!(r#"<path d="{path}" fill="none" stroke-linejoin="round"{}/>"#, stroke(pen)));
    }

    /// A filled shape.
    pub fn shape(&mut self, path: &str, colour: &str) {
        self.add(format_args!(r#"<path d="{path}" fill="{colour}"/>"#));
    }

    pub fn area(&mut self, area: Area, colour: &str, opacity: f64) {
        self.add(format_args!(r#"<rect{} fill="{colour}" fill-opacity="{opacity}"/>"#, place(area)));
    }

    pub fn frame(&mut self, area: Area, fill: &str, pen: Pen) {
        self.add(format_args!(r#"<rect{} fill="{fill}"{}/>"#, place(area), stroke(pen)));
    }

    pub fn text(&mut self, at: (f64, f64), words: &str, style: Style) {
        let (x, y) = (short(at.0), short(at.1));
        let Style { size, colour, .. } = style;
        let (anchor, words) = (anchor(style.anchor), escape(words));
        self.add(format_args!(
            r#"<text x="{x}" y="{y}" font-size="{size}" fill="{colour}" text-anchor="{anchor}">{words}</text>"#
        ));
    }

    /// The whole document.
    pub fn document(&self, width: f64, height: f64, title: &str, description: &str) -> String {
        let (width, height) = (short(width), short(height));
        let (title, description) = (escape(title), escape(description));
        format!(
            concat!(
                r#"<svg xmlns="http://www.w3.org/2000/svg" width="{w}" height="{h}" viewBox="0 0 {w} {h}" "#,
                "role=\"img\" font-family=\"{font}\">\n<title>{title}</title>\n<desc>{desc}</desc>\n",
                "<rect width=\"{w}\" height=\"{h}\" fill=\"#FFFFFF\"/>\n{body}</svg>\n"
            ),
            w = width,
            h = height,
            font = FONT,
            title = title,
            desc = description,
            body = self.body
        )
    }
}

/// A tenth of a pixel, without idle zeros.
pub fn short(number: f64) -> String {
    let text = format!("{number:.1}");
    text.strip_suffix(".0").map(str::to_string).unwrap_or(text)
}

fn place(area: Area) -> String {
    let Area { x, y, width, height } = area;
    format!(r#" x="{}" y="{}" width="{}" height="{}""#, short(x), short(y), short(width), short(height))
}

fn stroke(pen: Pen) -> String {
    let dashes = match pen.dashes {
        "" => String::new(),
        dashes => format!(r#" stroke-dasharray="{dashes}""#),
    };
    format!(r#" stroke="{}" stroke-width="{}"{dashes}"#, pen.colour, short(pen.width))
}

fn anchor(anchor: Anchor) -> &'static str {
    match anchor {
        Anchor::Start => "start",
        Anchor::Middle => "middle",
        Anchor::End => "end",
    }
}

fn escape(words: &str) -> String {
    plain(words).replace('&', "&amp;").replace('<', "&lt;").replace('>', "&gt;").replace('"', "&quot;")
}
