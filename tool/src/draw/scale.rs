//! From the grid to the page: where columns, rows, tracks and frames lie.

use super::block::{Frame, Placed};
use super::route::{Borders, Channel, Lane, Link, Routes, Zone};
use super::Plan;
use std::collections::BTreeMap;

/// The least width of a cell, and its height.
pub const CELL: (i32, i32) = (92, 36);
/// The same of a flag with the name of a wire, beside a cell.
pub const TAG: (i32, i32) = (30, 13);
/// The width of a character, in hundredths of its size.
const LETTER: i32 = 61;
/// Between two tracks, around a channel, and around a frame's border.
const PITCH: i32 = 9;
const MARGIN: i32 = 9;
const BORDER: i32 = 7;
/// The height of a frame's title.
pub const TITLE: i32 = 16;

/// One direction of the page.
struct Axis {
    /// Where each column or row begins.
    starts: Vec<i32>,
    /// Where the tracks of each channel's zones begin.
    zones: BTreeMap<(usize, Zone), i32>,
    /// The borders that end and begin in each channel.
    ends: BTreeMap<(usize, usize), i32>,
    begins: BTreeMap<(usize, usize), i32>,
    length: i32,
}

pub struct Scale<'p> {
    plan: &'p Plan<'p>,
    borders: Borders,
    across: Axis,
    down: Axis,
    /// Of each column the width of the flags on the left of its cells, and of the
    /// cells.
    tags: Vec<i32>,
    boxes: Vec<i32>,
}

/// The width of a text in this size.
pub fn width(text: &str, size: i32) -> i32 {
    (text.chars().count() as i32 * LETTER * size + 99) / 100
}

/// The width of a flag with a name.
pub fn tag_width(name: &str) -> i32 {
    TAG.0.max(width(name, 10) + 14)
}

/// The width that a frame needs for its title.
fn title_width(frame: &Frame) -> i32 {
    width(&frame.title, 10) + 12
}

impl<'p> Scale<'p> {
    pub fn of(plan: &'p Plan<'p>, routes: &Routes) -> Scale<'p> {
        let tags = widest(plan, |placed| {
            let names = plan.inputs(placed.cell);
            let names = names.iter().filter_map(|wire| plan.tag(*wire));
            names.map(tag_width).max().unwrap_or(0)
        });
        let boxes = widest(plan, |placed| {
            CELL.0.max(width(&plan.title(placed.cell), 11) + 14)
        });
        let outgoing = widest(plan, |placed| outgoing(plan, placed).map_or(0, tag_width));
        let mut widths: Vec<i32> = (0..plan.block.width)
            .map(|k| tags[k] + boxes[k] + outgoing[k])
            .collect();
        let heights = vec![CELL.1; plan.block.height];
        let borders = Borders::of(&plan.block);
        let mut scale = Scale {
            plan,
            across: axis(&borders, routes, Channel::Up, &widths, BORDER),
            down: axis(&borders, routes, Channel::Along, &heights, BORDER + TITLE),
            borders,
            tags,
            boxes,
        };
        if scale.widen(&mut widths) {
            scale.across = axis(&scale.borders, routes, Channel::Up, &widths, BORDER);
        }
        scale
    }

    /// Widens the last column of each frame that is too small for its title, those
    /// further inside first; tells whether there was one.
    fn widen(&self, widths: &mut [i32]) -> bool {
        let mut added = vec![0; widths.len()];
        for (number, frame) in self.plan.block.frames.iter().enumerate().rev() {
            let [left, _, right, _] = self.frame(number);
            let more: i32 = added[frame.columns.clone()].iter().sum();
            let lacks = title_width(frame) - (right - left + more);
            added[frame.columns.end - 1] += lacks.max(0);
        }
        for (width, added) in widths.iter_mut().zip(&added) {
            *width += added;
        }
        added.iter().any(|added| *added > 0)
    }

    /// The width of a cell's box.
    pub fn box_width(&self, placed: &Placed) -> i32 {
        self.boxes[placed.column]
    }

    pub fn size(&self) -> (i32, i32) {
        (self.across.length, self.down.length)
    }

    /// The upper left corner of a cell.
    pub fn corner(&self, placed: &Placed) -> (i32, i32) {
        (
            self.across.starts[placed.column] + self.tags[placed.column],
            self.down.starts[placed.row],
        )
    }

    /// Where a wire comes to a port, from the left: at the height of outputs
    /// if it is reached straight.
    pub fn port(&self, placed: &Placed, port: usize, straight: bool) -> (i32, i32) {
        let (x, y) = self.corner(placed);
        let down = match port {
            _ if straight => CELL.1 / 2,
            0 => CELL.1 / 4,
            _ => CELL.1 - CELL.1 / 4,
        };
        (x, y + down)
    }

    /// The corners of a link's way.
    pub fn points(&self, link: &Link) -> Vec<(i32, i32)> {
        let (left, top) = self.corner(&link.from);
        let leaves = (left + self.box_width(&link.from), top + CELL.1 / 2);
        let comes = self.port(&link.to, link.port, link.lanes.is_empty());
        let mut points = vec![leaves];
        let mut y = leaves.1;
        for (k, lane) in link.lanes.iter().enumerate() {
            let at = self.lane(lane);
            match lane.channel {
                Channel::Along(_) => y = at,
                Channel::Up(_) => {
                    let next = link
                        .lanes
                        .get(k + 1)
                        .map_or(comes.1, |next| self.lane(next));
                    points.extend([(at, y), (at, next)]);
                }
            }
        }
        points.push(comes);
        points
    }

    /// Where the line of a lane lies.
    fn lane(&self, lane: &Lane) -> i32 {
        let (axis, at) = match lane.channel {
            Channel::Up(at) => (&self.across, at),
            Channel::Along(at) => (&self.down, at),
        };
        axis.zones[&(at, lane.zone)] + PITCH * lane.track as i32
    }

    /// A frame's left, top, right and bottom.
    pub fn frame(&self, frame: usize) -> [i32; 4] {
        let begin = |axis: &Axis, channel: Channel, at: usize| {
            axis.begins[&(at, self.borders.begins(channel, frame))]
        };
        let end = |axis: &Axis, channel: Channel, at: usize| {
            axis.ends[&(at, self.borders.ends(channel, frame))]
        };
        let frame = &self.plan.block.frames[frame];
        let (columns, rows) = (&frame.columns, &frame.rows);
        [
            begin(&self.across, Channel::Up(columns.start), columns.start),
            begin(&self.down, Channel::Along(rows.start), rows.start),
            end(&self.across, Channel::Up(columns.end), columns.end),
            end(&self.down, Channel::Along(rows.end), rows.end),
        ]
    }
}

/// The flag that a cell has on its right: a memory's name.
pub fn outgoing<'p>(plan: &'p Plan, placed: &Placed) -> Option<&'p str> {
    match placed.cell {
        super::FINISH => None,
        cell => plan.tag(cell),
    }
}

/// Of each column the most that its cells need.
fn widest(plan: &Plan, needs: impl Fn(&Placed) -> i32) -> Vec<i32> {
    let mut widest = vec![0; plan.block.width];
    for placed in &plan.block.cells {
        widest[placed.column] = widest[placed.column].max(needs(placed));
    }
    widest
}

/// Lays channels and columns, or rows, one after another.
fn axis(
    borders: &Borders,
    routes: &Routes,
    channel: fn(usize) -> Channel,
    sizes: &[i32],
    begin: i32,
) -> Axis {
    let mut axis = Axis {
        starts: Vec::new(),
        zones: BTreeMap::new(),
        ends: BTreeMap::new(),
        begins: BTreeMap::new(),
        length: 0,
    };
    for at in 0..=sizes.len() {
        axis.lay(borders, routes, channel(at), at, begin);
        axis.starts.push(axis.length);
        axis.length += sizes.get(at).copied().unwrap_or(0);
    }
    axis
}

impl Axis {
    /// Lays the zones and borders of a channel.
    fn lay(&mut self, borders: &Borders, routes: &Routes, channel: Channel, at: usize, begin: i32) {
        let (ending, beginning) = (borders.ending(channel), borders.beginning(channel));
        self.length += MARGIN;
        for zone in -(ending as Zone)..=beginning as Zone {
            if zone > 0 {
                self.begins.insert((at, zone as usize - 1), self.length);
                self.length += begin;
            }
            self.zones.insert((at, zone), self.length + PITCH / 2);
            let tracks = routes.tracks.get(&(channel, zone)).copied().unwrap_or(0);
            self.length += PITCH * tracks as i32;
            if zone < 0 {
                self.length += BORDER;
                self.ends
                    .insert((at, (zone + ending as Zone) as usize), self.length);
            }
        }
        self.length += MARGIN;
    }
}
