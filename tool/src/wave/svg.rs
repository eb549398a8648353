//! Waveforms as a picture to print: a row for each wire, control wires as
//! pulses, words as bands with their values, an axis of instants above.

use super::{axis_step, stretches, Waveforms, Wire};
use crate::svg::{escaped, CONTROL, FONT, WORD};
use std::fmt::Write;

const ROW: usize = 26;
const TOP: usize = 30;
const MARGIN: usize = 10;
/// The width of a character of the font, and of one of a label, in tenths.
const LETTER: usize = 7;
const LABEL: usize = 73;
/// How wide the waveforms are, together, where the instants allow it.
const WIDTH: usize = 720;

const MARKED: &str = "#f4b6a6";

/// Where things stand: the left edge of instant 0, and a width for each.
struct Scale {
    left: usize,
    instant: usize,
    count: usize,
    bottom: usize,
}

/// The picture.
pub fn svg(waves: &Waveforms) -> String {
    let count = waves.values.first().map_or(0, Vec::len);
    let name = waves
        .wires
        .iter()
        .map(|wire| label(wire).chars().count())
        .max();
    let scale = Scale {
        left: 2 * MARGIN + (LABEL * name.unwrap_or(0)).div_ceil(10),
        instant: (WIDTH / count.max(1)).clamp(4, 30),
        count,
        bottom: TOP + ROW * waves.wires.len(),
    };
    let (width, height) = (scale.x(count) + MARGIN, scale.bottom + MARGIN);
    let mut text = format!(
        "<svg xmlns=\"http://www.w3.org/2000/svg\" width=\"{width}\" height=\"{height}\" \
         viewBox=\"0 0 {width} {height}\" {FONT}>\n\
         <rect width=\"{width}\" height=\"{height}\" fill=\"white\"/>\n"
    );
    axis(&mut text, waves, &scale);
    let rows = waves.wires.iter().zip(&waves.values).zip(&waves.marks);
    for (row, ((wire, values), marks)) in rows.enumerate() {
        let top = TOP + ROW * row + 5;
        let (x, y) = (scale.left - MARGIN, top + 12);
        let label = escaped(&label(wire));
        let _ = writeln!(
            text,
            "<text x=\"{x}\" y=\"{y}\" text-anchor=\"end\" font-size=\"12\">{label}</text>"
        );
        match wire.control {
            true => control(&mut text, values, top, &scale),
            false => word(&mut text, values, marks, top, &scale),
        }
    }
    text + "</svg>\n"
}

impl Scale {
    fn x(&self, at: usize) -> usize {
        self.left + self.instant * at
    }
}

/// A wire's name, with what it belongs to.
fn label(wire: &Wire) -> String {
    match wire.about.is_empty() {
        true => wire.name.clone(),
        false => format!("{}: {}", wire.about, wire.name),
    }
}

/// The instants that the axis names, and a line down from each.
fn axis(text: &mut String, waves: &Waveforms, scale: &Scale) {
    let room = LETTER * waves.to.to_string().len() + 14;
    let step = axis_step(room.div_ceil(scale.instant));
    for at in (0..=scale.count).filter(|at| (waves.from as usize + at).is_multiple_of(step)) {
        let (x, instant) = (scale.x(at), waves.from as usize + at);
        let _ = writeln!(
            text,
            "<line x1=\"{x}\" y1=\"{}\" x2=\"{x}\" y2=\"{}\" stroke=\"#cccccc\"/>\n\
             <text x=\"{x}\" y=\"{}\" text-anchor=\"middle\" font-size=\"11\">{instant}</text>",
            TOP - 8,
            scale.bottom,
            TOP - 12
        );
    }
}

/// A control wire: one line that is high during each pulse.
fn control(text: &mut String, values: &[u32], top: usize, scale: &Scale) {
    let mut path = String::new();
    for (from, to, value) in stretches(values) {
        let y = if *value == 0 { top + 16 } else { top };
        let step = if path.is_empty() { "M" } else { "L" };
        let _ = write!(path, "{step}{} {y}L{} {y}", scale.x(from), scale.x(to));
    }
    let _ = writeln!(text, "<path d=\"{path}\" fill=\"none\" {CONTROL}/>");
}

/// A word: a band for each stretch, with the value in it where there is room; what is
/// marked is red.
fn word(text: &mut String, values: &[u32], marks: &[usize], top: usize, scale: &Scale) {
    let marked = |(at, value): (usize, &u32)| (*value, marks.contains(&at));
    for (from, to, (value, marked)) in stretches(values.iter().enumerate().map(marked)) {
        let (x, width) = (scale.x(from), scale.x(to) - scale.x(from));
        let fill = if marked { MARKED } else { "#fdf3e7" };
        let _ = writeln!(
            text,
            "<rect x=\"{x}\" y=\"{top}\" width=\"{width}\" height=\"16\" fill=\"{fill}\" {WORD}/>"
        );
        let value = value.to_string();
        if value.len() * LETTER + 4 <= width {
            let (x, y) = (x + width / 2, top + 12);
            let _ = writeln!(
                text,
                "<text x=\"{x}\" y=\"{y}\" text-anchor=\"middle\" font-size=\"11\">{value}</text>"
            );
        }
    }
}
