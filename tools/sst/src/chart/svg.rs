//! A drawing as a document of SVG.

use super::draw::{Drawn, END_RADIUS, Frame, Ink, LEAVE_RADIUS, LINE_HEIGHT, START_RADIUS, text_width};
use super::item::Shape;
use super::shade::Shade;
use std::fmt::Write;

const STYLE: &str = "\
text{font:12px 'DejaVu Sans Mono',monospace;fill:#000;text-anchor:middle;dominant-baseline:central}\
.title{font-weight:bold;text-anchor:start}.note{fill:#555;text-anchor:start}\
.line{fill:none;stroke:#333;stroke-width:1.2}.frame{fill:none;stroke:#999;stroke-dasharray:4 3}\
.shape{fill:#fff;stroke:#000;stroke-width:1.2}.value{fill:#e8e8e8;stroke:none}.otherwise{fill:#fff;stroke:none}\
.solid{fill:#333}.italic{font-style:italic}\
.line.n,.n .shape{stroke:#bbb}.n text{fill:#aaa}.n .value{fill:#f6f6f6;stroke:none}.n .solid{fill:#bbb}\
.s1 .shape{fill:#e3eef8}.s2 .shape{fill:#bcd5eb}.s3 .shape{fill:#84b0d9}.s4 .shape{fill:#2f6fae}.s5 .shape{fill:#0f3f78}\
.s4 text,.s5 text{fill:#fff}";

/// The document, with a title.
pub fn document(title: &str, page: &Drawn) -> String {
    let (width, height) = (page.width, page.down);
    let title = escaped(title);
    let mut out = format!(
        "<svg xmlns=\"http://www.w3.org/2000/svg\" width=\"{width}\" height=\"{height}\" viewBox=\"0 0 {width} {height}\">\n\
         <title>{title}</title>\n<style>{STYLE}</style>\n<rect width=\"{width}\" height=\"{height}\" fill=\"#fff\"/>\n"
    );
    for ink in &page.ink {
        out.push_str(&element(ink));
        out.push('\n');
    }
    out.push_str("</svg>\n");
    out
}

fn class(shade: Shade) -> String {
    match shade {
        Shade::Plain => "p".to_string(),
        Shade::Never => "n".to_string(),
        Shade::Level(level) => format!("s{level}"),
    }
}

fn element(ink: &Ink) -> String {
    match ink {
        Ink::Line(points, shade) => {
            let never = if *shade == Shade::Never { " n" } else { "" };
            format!("<path class=\"line{never}\" d=\"{}\"/>", path(points))
        }
        Ink::Shape { at, shape, lines, shade } => {
            format!("<g class=\"{}\">{}{}</g>", class(*shade), outline(*shape, at), texts(*shape, at, lines))
        }
        Ink::Frame(Frame { x, y, width, height }) => {
            format!("<rect class=\"frame\" x=\"{x}\" y=\"{y}\" width=\"{width}\" height=\"{height}\" rx=\"8\"/>")
        }
        Ink::Head(x, y) => format!("<path class=\"solid\" d=\"M{} {y}l8 -4v8z\"/>", x - 4),
        Ink::Leave(x, y, shade) => format!(
            "<g class=\"{}\"><circle class=\"shape\" cx=\"{x}\" cy=\"{y}\" r=\"{LEAVE_RADIUS}\"/>{}</g>",
            class(*shade),
            text(*x, *y, ">", "")
        ),
        Ink::Start(x, y) => format!("<circle class=\"solid\" cx=\"{x}\" cy=\"{y}\" r=\"{START_RADIUS}\"/>"),
        Ink::End(x, y, shade) => {
            let shade = if *shade == Shade::Never { "n" } else { "p" };
            format!(
                "<g class=\"{shade}\"><circle class=\"shape\" cx=\"{x}\" cy=\"{y}\" r=\"{END_RADIUS}\"/>\
                 <circle class=\"solid\" cx=\"{x}\" cy=\"{y}\" r=\"{}\"/></g>",
                END_RADIUS - 3
            )
        }
        Ink::Title(x, y, title) => text(*x, *y, title, "title"),
        Ink::Note(x, y, note) => text(*x, *y, note, "note"),
    }
}

/// The most that a corner is rounded.
const CORNER: i32 = 6;

/// A line through points, its corners rounded.
fn path(points: &[(i32, i32)]) -> String {
    let mut points = points.to_vec();
    points.dedup();
    let straight = |a: (i32, i32), b: (i32, i32), c: (i32, i32)| (a.0 == b.0 && b.0 == c.0) || (a.1 == b.1 && b.1 == c.1);
    let mut out = String::new();
    for (i, point) in points.iter().enumerate() {
        let neighbours = if i > 0 { points.get(i - 1).zip(points.get(i + 1)) } else { None };
        match neighbours {
            Some((before, behind)) if !straight(*before, *point, *behind) => {
                let (a, b) = (toward(*point, *before), toward(*point, *behind));
                _ = write!(out, "L{} {}Q{} {} {} {}", a.0, a.1, point.0, point.1, b.0, b.1);
            }
            _ => _ = write!(out, "{}{} {}", if i > 0 { 'L' } else { 'M' }, point.0, point.1),
        }
    }
    out
}

/// From a corner toward the next point, no farther than half the way.
fn toward(from: (i32, i32), to: (i32, i32)) -> (i32, i32) {
    let part = |from: i32, to: i32| from + ((to - from) / 2).clamp(-CORNER, CORNER);
    (part(from.0, to.0), part(from.1, to.1))
}

fn outline(shape: Shape, at: &Frame) -> String {
    let Frame { x, y, width, height } = *at;
    let (right, bottom, middle) = (x + width, y + height, y + height / 2);
    let rect = |class: &str, radius: i32| {
        format!("<rect class=\"{class}\" x=\"{x}\" y=\"{y}\" width=\"{width}\" height=\"{height}\" rx=\"{radius}\"/>")
    };
    match shape {
        Shape::Token => rect("shape", 0),
        Shape::Rule => rect("shape", 11),
        Shape::Value => rect("shape value", 3),
        Shape::Otherwise => rect("shape otherwise", 3),
        Shape::Output => {
            format!("<path class=\"shape\" d=\"M{x} {y}H{}L{right} {middle}L{} {bottom}H{x}z\"/>", right - 9, right - 9)
        }
        Shape::Error => format!(
            "<path class=\"shape\" d=\"M{} {y}H{}L{right} {middle}L{} {bottom}H{}L{x} {middle}z\"/>",
            x + 9,
            right - 9,
            right - 9,
            x + 9
        ),
        Shape::Operation => {
            let bars = format!("M{} {y}V{bottom}M{} {y}V{bottom}", x + 5, right - 5);
            format!("<path class=\"shape\" d=\"M{x} {y}H{right}V{bottom}H{x}z{bars}\"/>")
        }
    }
}

fn texts(shape: Shape, at: &Frame, lines: &[String]) -> String {
    let class = if shape == Shape::Otherwise { "italic" } else { "" };
    let point = if shape == Shape::Output { 3 } else { 0 };
    let first = at.y + at.height / 2 - LINE_HEIGHT * (lines.len() as i32 - 1) / 2;
    let line = |(i, line): (usize, &String)| text(at.x + at.width / 2 - point, first + LINE_HEIGHT * i as i32, line, class);
    lines.iter().enumerate().map(line).collect()
}

/// A line of text, as wide as it was measured in every font.
fn text(x: i32, y: i32, line: &str, class: &str) -> String {
    let class = if class.is_empty() { String::new() } else { format!(" class=\"{class}\"") };
    let width = text_width(line);
    format!("<text{class} x=\"{x}\" y=\"{y}\" textLength=\"{width}\" lengthAdjust=\"spacingAndGlyphs\">{}</text>", escaped(line))
}

/// Text between tags: what SVG takes for its own is escaped, and control characters are shown by their numbers.
fn escaped(text: &str) -> String {
    let mut out = String::new();
    for sign in text.chars() {
        match sign {
            '&' => out.push_str("&amp;"),
            '<' => out.push_str("&lt;"),
            '>' => out.push_str("&gt;"),
            '"' => out.push_str("&quot;"),
            _ if sign.is_control() || matches!(sign as u32, 0xFFFE | 0xFFFF) => _ = write!(out, "\\x{:02X}", sign as u32),
            _ => out.push(sign),
        }
    }
    out
}

#[cfg(test)]
mod tests {
    use super::*;

    #[test]
    fn paths_and_texts() {
        assert_eq!(path(&[(0, 0), (10, 0)]), "M0 0L10 0");
        assert_eq!(path(&[(0, 0), (10, 0), (10, 0), (20, 0)]), "M0 0L10 0L20 0");
        assert_eq!(path(&[(0, 0), (10, 0), (10, 40), (20, 40)]), "M0 0L5 0Q10 0 10 6L10 34Q10 40 15 40L20 40");
        assert_eq!(escaped("<a&\"\u{1}>"), "&lt;a&amp;&quot;\\x01&gt;");
    }
}
