//! The picture as SVG: thin dark lines for control, wide lighter ones for
//! words; a frame with a title around each statement.

use super::block::{Frame, Placed};
use super::route::{routes, Link, Routes};
use super::scale::{outgoing, tag_width, width, Scale, CELL, TAG, TITLE};
use super::{Plan, FINISH};
use crate::input::Circuit;
use crate::svg::{escaped, CONTROL, CONTROL_COLOUR, FONT, WORD, WORD_COLOUR};
use crate::types::Fault;
use std::collections::{BTreeMap, BTreeSet};
use std::fmt::Write;

const MARGIN: i32 = 8;

pub fn svg(circuit: &Circuit, text: &[u8], all: bool) -> Result<String, Fault> {
    let plan = Plan::of(circuit, text, all)?;
    let routes = routes(&plan);
    let scale = Scale::of(&plan, &routes);
    let (width, height) = scale.size();
    let (width, height) = (width + 2 * MARGIN, height + 2 * MARGIN + LEGEND);
    let mut out = format!(
        "<svg xmlns=\"http://www.w3.org/2000/svg\" width=\"{width}\" height=\"{height}\" \
         viewBox=\"{} {} {width} {height}\" {FONT}>\n\
         <rect x=\"{}\" y=\"{}\" width=\"{width}\" height=\"{height}\" fill=\"white\"/>\n",
        -MARGIN, -MARGIN, -MARGIN, -MARGIN
    );
    for number in 0..plan.block.frames.len() {
        put_border(&mut out, number, &scale);
    }
    put_wires(&mut out, &plan, &routes, &scale);
    for (number, frame) in plan.block.frames.iter().enumerate() {
        put_title(&mut out, number, frame, &scale);
    }
    for placed in &plan.block.cells {
        put_cell(&mut out, &plan, placed, &scale);
    }
    put_legend(&mut out, scale.size().1);
    Ok(out + "</svg>\n")
}

/// The height of the legend below the picture.
const LEGEND: i32 = 22;

fn put_legend(out: &mut String, top: i32) {
    let y = top + 10;
    let _ = writeln!(
        out,
        "<path d=\"M10 {y}h40\" {CONTROL}/>\n\
         <text x=\"56\" y=\"{0}\" font-size=\"10\">control</text>\n\
         <path d=\"M120 {y}h40\" {WORD}/>\n\
         <text x=\"166\" y=\"{0}\" font-size=\"10\">words</text>",
        y + 4
    );
}

fn put_border(out: &mut String, number: usize, scale: &Scale) {
    let [left, top, right, bottom] = scale.frame(number);
    let _ = writeln!(
        out,
        "<rect id=\"f{number}\" x=\"{left}\" y=\"{top}\" width=\"{}\" height=\"{}\" rx=\"5\" \
         fill=\"#000000\" fill-opacity=\"0.025\" stroke=\"#888888\" stroke-dasharray=\"4 3\"/>",
        right - left,
        bottom - top
    );
}

/// A frame's title; the frame is wide enough for it.
fn put_title(out: &mut String, number: usize, frame: &Frame, scale: &Scale) {
    let [left, top, _, _] = scale.frame(number);
    let _ = writeln!(
        out,
        "<rect x=\"{}\" y=\"{}\" width=\"{}\" height=\"13\" fill=\"white\"/>\n\
         <text id=\"t{number}\" x=\"{}\" y=\"{}\" font-size=\"10\" fill=\"#333333\">{}</text>",
        left + 3,
        top + 2,
        width(&frame.title, 10) + 4,
        left + 5,
        top + TITLE - 4,
        escaped(&frame.title)
    );
}

fn put_wires(out: &mut String, plan: &Plan, routes: &Routes, scale: &Scale) {
    let mut wires: BTreeMap<u16, Vec<&Link>> = BTreeMap::new();
    for link in &routes.links {
        wires.entry(link.from.cell).or_default().push(link);
    }
    for (wire, links) in wires {
        let control = plan.is_control(wire);
        let (stroke, colour) = match control {
            true => (CONTROL, CONTROL_COLOUR),
            false => (WORD, WORD_COLOUR),
        };
        let ways: Vec<Vec<(i32, i32)>> = links.iter().map(|link| scale.points(link)).collect();
        for (number, way) in ways.iter().enumerate() {
            let mut path = String::new();
            for (k, (x, y)) in way.iter().enumerate() {
                let _ = write!(path, "{}{x} {y}", if k == 0 { "M" } else { "L" });
            }
            let _ = writeln!(
                out,
                "<path id=\"w{wire}-{number}\" d=\"{path}\" fill=\"none\" {stroke}/>"
            );
            if let Some((x, y)) = way.last() {
                let _ = writeln!(
                    out,
                    "<path class=\"w{wire}\" d=\"M{x} {y}l-7 -3.5v7z\" fill=\"{colour}\"/>"
                );
            }
        }
        for (x, y) in joints(&ways) {
            let _ = writeln!(
                out,
                "<circle class=\"w{wire}\" cx=\"{x}\" cy=\"{y}\" r=\"3\" fill=\"{colour}\"/>"
            );
        }
    }
}

/// The points at which a wire branches: three directions meet.
fn joints(ways: &[Vec<(i32, i32)>]) -> BTreeSet<(i32, i32)> {
    let corners: BTreeSet<(i32, i32)> = ways.iter().flatten().copied().collect();
    let branches = |point: &(i32, i32)| {
        let mut directions = BTreeSet::new();
        for way in ways {
            for ends in way.windows(2) {
                directions.extend(directions_at(*point, ends[0], ends[1]));
            }
        }
        directions.len() > 2
    };
    corners.into_iter().filter(branches).collect()
}

/// The directions in which a straight line leaves a point of it.
fn directions_at((x, y): (i32, i32), from: (i32, i32), to: (i32, i32)) -> Vec<(i32, i32)> {
    let between = |a: i32, b: i32, c: i32| (a.min(b)..=a.max(b)).contains(&c);
    if !between(from.0, to.0, x) || !between(from.1, to.1, y) {
        return Vec::new();
    }
    let towards = |(a, b): (i32, i32)| ((a - x).signum(), (b - y).signum());
    [towards(from), towards(to)]
        .into_iter()
        .filter(|way| *way != (0, 0))
        .collect()
}

fn put_cell(out: &mut String, plan: &Plan, placed: &Placed, scale: &Scale) {
    put_flags(out, plan, placed, scale);
    if plan.next(placed.cell).is_some() {
        return;
    }
    // A chain's box begins at its first or, so many rows above.
    let first = Placed {
        row: placed.row + 1 - plan.chain(placed.cell).len(),
        ..*placed
    };
    let (x, y) = scale.corner(&first);
    let below = scale.corner(placed).1 - y;
    let title = escaped(&plan.title(placed.cell));
    let (width, height) = (scale.box_width(placed), CELL.1 + below);
    if placed.cell == FINISH {
        let _ = writeln!(
            out,
            "<rect id=\"finish\" x=\"{x}\" y=\"{y}\" width=\"60\" height=\"{height}\" rx=\"9\" \
             fill=\"#e8eef8\" {CONTROL}/>\n\
             <text x=\"{}\" y=\"{}\" text-anchor=\"middle\" font-size=\"11\">{title}</text>",
            x + 30,
            y + 22
        );
        return;
    }
    let (corner, fill, stroke) = match plan.is_control(placed.cell) {
        true => (8, "#e8eef8", CONTROL),
        false => (0, "#fdf3e7", WORD),
    };
    let _ = writeln!(
        out,
        "<rect id=\"c{4}\" x=\"{x}\" y=\"{y}\" width=\"{width}\" height=\"{height}\" rx=\"{corner}\" \
         fill=\"{fill}\" {stroke}/>\n\
         <text x=\"{0}\" y=\"{1}\" text-anchor=\"middle\" font-size=\"11\">{title}</text>\n\
         <text x=\"{0}\" y=\"{2}\" text-anchor=\"middle\" font-size=\"9\" fill=\"#555555\">{3}</text>",
        x + width / 2,
        y + 16,
        y + 29,
        plan.numbers(placed.cell),
        placed.cell
    );
}

/// The flags of the words that a cell reads, and of the one that it is.
fn put_flags(out: &mut String, plan: &Plan, placed: &Placed, scale: &Scale) {
    let inputs = plan.inputs(placed.cell);
    for (port, wire) in inputs.iter().enumerate() {
        if let Some(tag) = plan.tag(*wire) {
            let (x, y) = scale.port(placed, port, inputs.len() == 1);
            put_tag(out, *wire, tag, x - tag_width(tag), y);
        }
    }
    if let Some(tag) = outgoing(plan, placed) {
        let (x, y) = scale.corner(placed);
        let x = x + scale.box_width(placed);
        put_tag(out, placed.cell, tag, x, y + CELL.1 / 2);
    }
}

/// A flag with a wire's name, whose middle is at this height.
fn put_tag(out: &mut String, wire: u16, tag: &str, x: i32, y: i32) {
    let width = tag_width(tag);
    let (top, bottom, middle) = (y - TAG.1 / 2, y + TAG.1 / 2, x + width / 2 - 2);
    let _ = writeln!(
        out,
        "<path class=\"w{wire}\" d=\"M{x} {top}h{0}l6 {1}l-6 {1}h-{0}z\" fill=\"#fdf3e7\" stroke=\"{WORD_COLOUR}\"/>\n\
         <text x=\"{middle}\" y=\"{2}\" text-anchor=\"middle\" font-size=\"10\">{tag}</text>",
        width - 8,
        (bottom - top) / 2,
        y + 4
    );
}
