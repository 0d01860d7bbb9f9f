//! Where each part of a chart stands. A part begins at its origin, on the track that it stands on; x goes to the right, y down.

use super::item::{Chart, Item, Shape, Step, Track};
use super::shade::{MOST, Shade, Shades};
use crate::place::columns;

/// What is drawn.
#[derive(Clone, Debug)]
pub enum Ink {
    /// A line with rounded corners.
    Line(Vec<(i32, i32)>, Shade),
    /// A shape with lines of text in its middle.
    Shape {
        at: Frame,
        shape: Shape,
        lines: Vec<String>,
        shade: Shade,
    },
    /// The frame around a cycle.
    Frame(Frame),
    /// The head of an arrow to the left.
    Head(i32, i32),
    /// The mark at which a cycle is left.
    Leave(i32, i32, Shade),
    /// The marks at which a rule begins and ends.
    Start(i32, i32),
    End(i32, i32, Shade),
    Title(i32, i32, String),
    Note(i32, i32, String),
}

#[derive(Clone, Copy, Debug)]
pub struct Frame {
    pub x: i32,
    pub y: i32,
    pub width: i32,
    pub height: i32,
}

/// A part that is drawn.
pub struct Drawn {
    pub width: i32,
    /// How far it reaches above its origin and below it.
    pub up: i32,
    pub down: i32,
    /// Where its track goes on, below the origin, if it does.
    pub out: Option<i32>,
    pub ink: Vec<Ink>,
}

/// The width of the page, which fits a sheet of A4.
const PAGE: i32 = 700;
const MARGIN: i32 = 16;
/// What is left for actions at least, however deep they stand.
const LEAST_ROOM: i32 = 260;
/// The track between two actions.
const GAP: i32 = 14;
/// Between tracks, and between rows.
const BETWEEN: i32 = 10;
/// Where tracks part and join.
const BEND: i32 = 20;
/// From a cycle's frame to what it holds.
const INSIDE: i32 = 30;
pub const LINE_HEIGHT: i32 = 15;
pub const LEAVE_RADIUS: i32 = 9;
pub const END_RADIUS: i32 = 7;
pub const START_RADIUS: i32 = 5;

/// The width of a text: columns of a font of 12 pixels.
pub fn text_width(text: &str) -> i32 {
    (columns(text) * 29).div_ceil(4) as i32
}

impl Ink {
    fn moved(&mut self, dx: i32, dy: i32) {
        match self {
            Ink::Line(points, _) => points.iter_mut().for_each(|(x, y)| (*x, *y) = (*x + dx, *y + dy)),
            Ink::Shape { at, .. } | Ink::Frame(at) => (at.x, at.y) = (at.x + dx, at.y + dy),
            Ink::Head(x, y)
            | Ink::Leave(x, y, _)
            | Ink::Start(x, y)
            | Ink::End(x, y, _)
            | Ink::Title(x, y, _)
            | Ink::Note(x, y, _) => (*x, *y) = (*x + dx, *y + dy),
        }
    }
}

impl Drawn {
    fn empty() -> Drawn {
        Drawn { width: 0, up: 0, down: 0, out: Some(0), ink: Vec::new() }
    }

    /// Takes another part in, at some distance.
    fn put(&mut self, part: Drawn, dx: i32, dy: i32) {
        self.width = self.width.max(dx + part.width);
        self.up = self.up.max(part.up - dy);
        self.down = self.down.max(part.down + dy);
        self.ink.extend(part.ink.into_iter().map(|mut ink| {
            ink.moved(dx, dy);
            ink
        }));
    }

    fn line(&mut self, points: &[(i32, i32)], shade: Shade) {
        self.ink.push(Ink::Line(points.to_vec(), shade));
    }
}

/// The page of all charts below a legend.
pub fn page(charts: &[Chart], shades: &Shades) -> Drawn {
    let mut page = Drawn::empty();
    let legend = legend(shades.are_there());
    let mut y = MARGIN + legend.up;
    let below = legend.down;
    page.put(legend, MARGIN, y);
    y += below;
    for chart in charts {
        let drawn = rule(chart, shades);
        y += 3 * BETWEEN + drawn.up;
        let below = drawn.down;
        page.put(drawn, MARGIN, y);
        y += below;
    }
    (page.width, page.down) = (page.width.max(PAGE) + MARGIN, y + MARGIN);
    page
}

/// What the shapes are, and the shades where there are some.
fn legend(shaded: bool) -> Drawn {
    let shapes = [
        (Shape::Token, "token read"),
        (Shape::Rule, "rule called"),
        (Shape::Output, "output"),
        (Shape::Error, "error"),
        (Shape::Operation, "operation"),
        (Shape::Value, "value"),
    ];
    let mut parts: Vec<Drawn> = shapes.map(|(shape, text)| sample(shape, text, Shade::Plain)).into();
    parts.push(with_note(leave(Shade::Plain), "leaves the loop"));
    parts.push(with_note(end(Shade::Plain), "returns"));
    if shaded {
        let shades = [("never executed", Shade::Never), ("seldom", Shade::Level(1)), ("often", Shade::Level(MOST))];
        parts.extend(shades.map(|(text, shade)| sample(Shape::Token, text, shade)));
    }
    let mut all = Drawn::empty();
    let (mut x, mut y) = (0, 0);
    for part in parts {
        if x + part.width > PAGE - MARGIN {
            (x, y) = (0, y + 3 * BETWEEN);
        }
        let width = part.width;
        all.put(part, x, y);
        x += width + GAP;
    }
    all
}

fn sample(shape: Shape, text: &str, shade: Shade) -> Drawn {
    shaded(&Step { shape, lines: vec![text.to_string()], location: None }, shade)
}

fn with_note(mut mark: Drawn, text: &str) -> Drawn {
    let x = mark.width + 6;
    mark.ink.push(Ink::Note(x, 0, text.to_string()));
    mark.width = x + text_width(text);
    mark
}

/// The chart of a rule below its name.
fn rule(chart: &Chart, shades: &Shades) -> Drawn {
    let mut all = Drawn::empty();
    let body = sequence(&chart.items, PAGE - 4 * BEND, shades);
    let (behind, out) = (BEND + body.width, body.out);
    all.line(&[(START_RADIUS, 0), (BEND, 0)], Shade::Plain);
    all.ink.push(Ink::Start(START_RADIUS, 0));
    all.put(body, BEND, 0);
    if let Some(out) = out {
        all.line(&[(behind, out), (behind + GAP, out)], Shade::Plain);
        all.put(end(Shade::Plain), behind + GAP, out);
    }
    titled(all, chart, shades.rule(chart.rule))
}

/// A chart with the rule's name, its line and what is told of it above.
fn titled(mut chart: Drawn, of: &Chart, told: &str) -> Drawn {
    let name = of.of.as_ref().map_or_else(|| of.rule.name.clone(), |value| format!("{} >> {value}", of.rule.name));
    let told = if told.is_empty() { String::new() } else { format!(": {told}") };
    let note = format!("line {}{told}", of.rule.line);
    let (x, y) = (text_width(&name) + 2 * GAP, -(chart.up.max(BETWEEN) + LINE_HEIGHT));
    chart.width = chart.width.max(x + text_width(&note));
    chart.up = LINE_HEIGHT - y;
    chart.ink.push(Ink::Title(0, y, name));
    chart.ink.push(Ink::Note(x, y, note));
    chart
}

/// Actions one behind the other, in as many rows as they need.
fn sequence(items: &[Item], room: i32, shades: &Shades) -> Drawn {
    let mut rows = Vec::new();
    let (mut parts, mut width) = (Vec::new(), 0);
    for item in items {
        let part = drawn(item, room, shades);
        if width > 0 && width + part.width > room {
            rows.push(row(std::mem::take(&mut parts)));
            width = 0;
        }
        width += part.width + GAP;
        parts.push(part);
    }
    rows.push(row(parts));
    stacked(rows)
}

/// Parts on one track; one that ends it leaves a gap.
fn row(parts: Vec<Drawn>) -> Drawn {
    let mut all = Drawn::empty();
    let (mut x, mut y, mut on) = (0, 0, true);
    for (i, part) in parts.into_iter().enumerate() {
        if i > 0 && on {
            all.line(&[(x, y), (x + GAP, y)], Shade::Plain);
        }
        x += if i > 0 { GAP } else { 0 };
        let (width, out) = (part.width, part.out);
        all.put(part, x, y);
        x += width;
        y += out.unwrap_or(0);
        on = on && out.is_some();
    }
    all.out = on.then_some(y);
    all
}

/// Rows below each other, the track going from the end of each to the start of the next.
fn stacked(mut rows: Vec<Drawn>) -> Drawn {
    if rows.len() == 1 {
        return rows.remove(0);
    }
    let right = GAP + rows.iter().map(|row| row.width).max().unwrap_or(0);
    let mut all = Drawn::empty();
    let mut y = 0;
    let mut before: Option<(i32, i32)> = None;
    for (i, row) in rows.into_iter().enumerate() {
        let between = all.down + BETWEEN;
        y = if i > 0 { between + BETWEEN + row.up } else { 0 };
        match before {
            Some(end) => {
                let way = [end, (right + GAP, end.1), (right + GAP, between), (0, between), (0, y), (GAP, y)];
                all.line(&way, Shade::Plain);
            }
            None if i == 0 => all.line(&[(0, 0), (GAP, 0)], Shade::Plain),
            None => {}
        }
        before = row.out.map(|out| (GAP + row.width, y + out));
        all.put(row, GAP, y);
    }
    if let Some((x, y)) = before {
        all.line(&[(x, y), (right + GAP, y)], Shade::Plain);
    }
    (all.width, all.out) = (right + GAP, before.map(|(_, out)| out));
    all.down = all.down.max(y);
    all
}

fn drawn(item: &Item, room: i32, shades: &Shades) -> Drawn {
    match item {
        Item::Step(one) => step(one, shades),
        Item::Leave(location) => leave(shades.at(Some(*location))),
        Item::Return(value, location) => returned(value.as_ref(), *location, shades),
        Item::Cycle { items, left } => cycle(items, *left, room, shades),
        Item::Choice { by, tracks } => choice(by.as_ref(), tracks, room, shades),
    }
}

fn step(step: &Step, shades: &Shades) -> Drawn {
    shaded(step, shades.at(step.location))
}

fn shaded(step: &Step, shade: Shade) -> Drawn {
    let points = matches!(step.shape, Shape::Output | Shape::Error | Shape::Operation);
    let beside = if points { 26 } else { 18 };
    let width = beside + step.lines.iter().map(|line| text_width(line)).max().unwrap_or(0);
    let height = 8 + LINE_HEIGHT * step.lines.len() as i32;
    let (up, down) = (height / 2, height - height / 2);
    let at = Frame { x: 0, y: -up, width, height };
    let ink = Ink::Shape { at, shape: step.shape, lines: step.lines.clone(), shade };
    Drawn { width, up, down, out: Some(0), ink: vec![ink] }
}

fn leave(shade: Shade) -> Drawn {
    let ink = vec![Ink::Leave(LEAVE_RADIUS, 0, shade)];
    Drawn { width: 2 * LEAVE_RADIUS, up: LEAVE_RADIUS, down: LEAVE_RADIUS, out: None, ink }
}

fn end(shade: Shade) -> Drawn {
    let ink = vec![Ink::End(END_RADIUS, 0, shade)];
    Drawn { width: 2 * END_RADIUS, up: END_RADIUS, down: END_RADIUS, out: None, ink }
}

fn returned(value: Option<&String>, location: usize, shades: &Shades) -> Drawn {
    let shade = shades.at(Some(location));
    let Some(value) = value else { return end(shade) };
    let value = Step { shape: Shape::Value, lines: vec![value.clone()], location: Some(location) };
    row(vec![step(&value, shades), end(shade)])
}

/// What a cycle holds in a frame, the track going back above it; it goes on behind the mark on the frame.
fn cycle(items: &[Item], left: bool, room: i32, shades: &Shades) -> Drawn {
    let body = sequence(items, (room - 2 * INSIDE - BEND).max(LEAST_ROOM), shades);
    let (width, top, bottom) = (INSIDE + body.width, -body.up - BETWEEN, body.down + BETWEEN);
    let (back, edge) = (width + INSIDE / 2, width + INSIDE);
    let out = body.out;
    let mut all = Drawn::empty();
    let height = bottom - top + BETWEEN;
    all.ink.push(Ink::Frame(Frame { x: 4, y: top - BETWEEN, width: edge - 4, height }));
    all.line(&[(0, 0), (INSIDE, 0)], Shade::Plain);
    all.put(body, INSIDE, 0);
    if let Some(out) = out {
        let turn = INSIDE / 2;
        all.line(&[(width, out), (back, out), (back, top), (turn, top), (turn, 0), (INSIDE, 0)], Shade::Plain);
        all.ink.push(Ink::Head((turn + back) / 2, top));
    }
    if left {
        all.ink.push(Ink::Leave(edge, 0, Shade::Plain));
    }
    Drawn {
        width: edge + if left { LEAVE_RADIUS } else { 0 },
        up: BETWEEN - top,
        down: bottom,
        out: left.then_some(0),
        ink: all.ink,
    }
}

/// What a choice goes by, and its tracks below each other.
fn choice(by: Option<&Step>, tracks: &[Track], room: i32, shades: &Shades) -> Drawn {
    let mut all = Drawn::empty();
    if let Some(by) = by {
        all.put(step(by, shades), 0, 0);
    }
    let from = all.width + BEND;
    let room = (room - from - BEND).max(LEAST_ROOM);
    let drawn: Vec<(Drawn, Shade)> =
        tracks.iter().map(|track| (alternative(track, room, shades), shades.at(track.label.location))).collect();
    let to = from + drawn.iter().map(|(track, _)| track.width).max().unwrap_or(0);
    let (mut y, mut lines, mut joins) = (0, Vec::new(), false);
    for (i, (track, shade)) in drawn.into_iter().enumerate() {
        y = if i > 0 { all.down + BETWEEN + track.up } else { 0 };
        let start = from - BEND;
        lines.push((vec![(start, 0), (start + BEND / 2, 0), (start + BEND / 2, y), (from, y)], shade));
        if let Some(out) = track.out {
            let (end, join) = (from + track.width, to + BEND / 2);
            lines.push((vec![(end, y + out), (join, y + out), (join, 0), (to + BEND, 0)], shade));
            joins = true;
        }
        all.put(track, from, y);
    }
    all.down = all.down.max(y);
    // the darker ones lie above
    lines.sort_by_key(|(_, shade)| *shade);
    all.ink.splice(0..0, lines.into_iter().map(|(points, shade)| Ink::Line(points, shade)));
    (all.width, all.out) = (if joins { to + BEND } else { to }, joins.then_some(0));
    all
}

/// A track: its labels, and what it does.
fn alternative(track: &Track, room: i32, shades: &Shades) -> Drawn {
    let label = step(&track.label, shades);
    if track.items.is_empty() {
        return label;
    }
    let room = (room - label.width - GAP).max(LEAST_ROOM);
    row(vec![label, sequence(&track.items, room, shades)])
}
