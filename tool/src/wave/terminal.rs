//! Waveforms as characters, one for each instant, in bands that fit a terminal.

use super::{axis_step, stretches, Waveforms};
use std::fmt::Write;

/// Instants in a band.
const BAND: usize = 60;
const LOW: char = '▁';
const HIGH: char = '█';
/// Stands below an instant that is marked.
const MARK: char = '^';
/// Stands for a value that is too wide for its stretch.
const NARROW: char = '*';

/// The waveforms, with the names on the left.
pub fn terminal(waves: &Waveforms) -> String {
    let width = waves.wires.iter().map(|wire| wire.name.len()).max();
    let width = width.unwrap_or(0).max("instant".len());
    let count = waves.values.first().map_or(0, Vec::len);
    let mut text = String::new();
    for band in (0..count).step_by(BAND) {
        if band > 0 {
            text.push('\n');
        }
        let end = count.min(band + BAND);
        let axis = axis(waves.from as usize + band, end - band);
        let _ = writeln!(text, "{:width$}  {axis}", "instant");
        let rows = waves.wires.iter().zip(&waves.values).zip(&waves.marks);
        for ((wire, values), marks) in rows {
            let drawn = match wire.control {
                true => control(&values[band..end]),
                false => word(&values[band..end]),
            };
            let _ = writeln!(text, "{:width$}  {}", wire.name, drawn.trim_end());
            if marks.iter().any(|at| (band..end).contains(at)) {
                let mark = |at| if marks.contains(&at) { MARK } else { ' ' };
                let line: String = (band..end).map(mark).collect();
                let _ = writeln!(text, "{:width$}  {}", "", line.trim_end());
            }
        }
    }
    text + &legend(waves, width)
}

/// The instants, each above its own character.
fn axis(from: usize, count: usize) -> String {
    let step = axis_step(10);
    let mut line = String::new();
    for at in 0..count {
        let room = line.len() <= at;
        if (from + at).is_multiple_of(step) && room {
            line += &" ".repeat(at - line.len());
            line += &(from + at).to_string();
        }
    }
    line
}

fn control(values: &[u32]) -> String {
    let level = |value: &u32| if *value == 0 { LOW } else { HIGH };
    values.iter().map(level).collect()
}

/// A word's values, each where it begins.
fn word(values: &[u32]) -> String {
    let mut line = String::new();
    for (from, to, value) in stretches(values) {
        let value = value.to_string();
        let room = to - from;
        let fits = value.len() < room || value.len() == room && room == 1 || to == values.len();
        let shown = if fits { value } else { NARROW.to_string() };
        let _ = write!(line, "{shown:room$}");
    }
    line
}

/// What the names belong to.
fn legend(waves: &Waveforms, width: usize) -> String {
    let mut text = String::new();
    let mut last = "";
    for wire in waves.wires.iter().filter(|wire| !wire.about.is_empty()) {
        let dotted = wire.name.rsplit_once('.');
        let name = dotted.map_or(wire.name.as_str(), |(name, _)| name);
        if name != last {
            let _ = writeln!(text, "{name:width$}  {}", wire.about);
        }
        last = name;
    }
    match text.is_empty() {
        true => text,
        false => format!("\n{text}"),
    }
}
