//! The ways of the wires. A wire leaves a cell to the right and comes to a port
//! from the left; between the columns and rows it runs in channels, where each
//! wire has a track of its own, so that no two lie on each other.

use super::block::{Block, Frame, Placed};
use super::Plan;
use std::collections::{BTreeMap, HashMap, HashSet};
use std::ops::Range;

/// A channel before a column (`Up`, for wires that go up or down) or before a
/// row (`Along`).
#[derive(Clone, Copy, Debug, PartialEq, Eq, Hash, PartialOrd, Ord)]
pub enum Channel {
    Up(usize),
    Along(usize),
}

/// A channel is divided by the frames that end and begin in it: zone 0 lies
/// between them, -1 and below before the frames that end, 1 and above behind
/// those that begin.
pub type Zone = i32;

/// Where a stretch of a wire runs: the channel, the zone and, in there, the
/// track.
#[derive(Clone, Copy, Debug, PartialEq, Eq)]
pub struct Lane {
    pub channel: Channel,
    pub zone: Zone,
    pub track: usize,
}

/// A wire from a cell to a port of another.
#[derive(Clone, Debug)]
pub struct Link {
    pub from: Placed,
    pub to: Placed,
    pub port: usize,
    pub ports: usize,
    /// None, one that goes up or down, or such a one on both sides of one that
    /// goes along.
    pub lanes: Vec<Lane>,
}

/// All links and, for each zone of a channel, how many tracks it has.
pub struct Routes {
    pub links: Vec<Link>,
    pub tracks: BTreeMap<(Channel, Zone), usize>,
}

/// A wire on a lane from one height, or column, to another.
struct Run {
    link: usize,
    lane: usize,
    wire: u16,
    low: usize,
    high: usize,
}

pub fn routes(plan: &Plan) -> Routes {
    let taken = Taken::of(plan);
    let mut links = links(plan);
    let borders = Borders::of(&plan.block);
    let mut runs: BTreeMap<(Channel, Zone), Vec<Run>> = BTreeMap::new();
    for (number, link) in links.iter_mut().enumerate() {
        for (channel, one, other) in ways(link, &taken) {
            let zone = zone(&plan.block, &borders, link, channel);
            runs.entry((channel, zone)).or_default().push(Run {
                link: number,
                lane: link.lanes.len(),
                wire: link.from.cell,
                low: one.min(other),
                high: one.max(other),
            });
            let track = 0;
            link.lanes.push(Lane {
                channel,
                zone,
                track,
            });
        }
    }
    let mut tracks = BTreeMap::new();
    for (place, runs) in runs {
        tracks.insert(place, assign(&mut links, &runs));
    }
    Routes { links, tracks }
}

/// The wires that are drawn, still without their ways: all but those that have
/// a name everywhere.
fn links(plan: &Plan) -> Vec<Link> {
    let places: HashMap<u16, Placed> = plan.block.cells.iter().map(|p| (p.cell, *p)).collect();
    let mut links = Vec::new();
    for to in &plan.block.cells {
        let inputs = plan.inputs(to.cell);
        for (port, wire) in inputs.iter().enumerate() {
            if plan.is_inside(*wire, to.cell) {
                continue;
            }
            if let (None, Some(from)) = (plan.tag(*wire), places.get(wire)) {
                links.push(Link {
                    from: *from,
                    to: *to,
                    port,
                    ports: inputs.len(),
                    lanes: Vec::new(),
                });
            }
        }
    }
    links
}

/// What is in a wire's way.
struct Taken {
    cells: HashSet<(usize, usize)>,
    /// The columns and rows before which a box goes on from the row above: that of a
    /// chain of ors.
    inside: HashSet<(usize, usize)>,
    rows: usize,
}

impl Taken {
    fn of(plan: &Plan) -> Taken {
        let cells = || plan.block.cells.iter();
        let goes_on = |p: &&Placed| plan.chains.contains(&Some(p.cell));
        let places = |p: &Placed| (p.column, p.row);
        Taken {
            cells: cells().map(places).collect(),
            inside: cells().filter(goes_on).map(places).collect(),
            rows: plan.block.height,
        }
    }

    /// The row nearest to this one before which no box is in these columns.
    fn clear_row(&self, row: usize, columns: std::ops::Range<usize>) -> usize {
        let clear = |row: &usize| columns.clone().all(|c| !self.inside.contains(&(c, *row)));
        let above = |by: usize| row.checked_sub(by);
        let below = |by: usize| Some(row + by).filter(|row| *row <= self.rows);
        let near = (0..=self.rows).flat_map(|by| [above(by), below(by)]);
        near.flatten().find(clear).unwrap_or(row)
    }
}

/// The channels that a link takes, with the heights or columns between which.
/// Heights are such that the channel before row r has 10 r, and that no port
/// but one that is reached straight has the height of a row's outputs.
fn ways(link: &Link, taken: &Taken) -> Vec<(Channel, usize, usize)> {
    let (from, to) = (link.from, link.to);
    let leaves = 10 * from.row + 5;
    let comes = 10 * to.row + if link.port == 0 { 3 } else { 7 };
    let ahead = from.column < to.column;
    let free = |column: usize| !taken.cells.contains(&(column, from.row));
    if ahead && (from.column + 1..to.column).all(free) {
        return match link.ports == 1 && from.row == to.row {
            true => Vec::new(),
            false => vec![(Channel::Up(to.column), leaves, comes)],
        };
    }
    let row = if to.row > from.row {
        from.row + 1
    } else {
        from.row
    };
    let (one, other) = (from.column + 1, to.column);
    let row = taken.clear_row(row, one.min(other)..one.max(other));
    let along = 10 * row;
    vec![
        (Channel::Up(from.column + 1), leaves, along),
        (Channel::Along(row), from.column + 1, to.column),
        (Channel::Up(to.column), along, comes),
    ]
}

/// The zone of a channel in which a link stays inside the smallest frame that
/// holds both its ends.
fn zone(block: &Block, borders: &Borders, link: &Link, channel: Channel) -> Zone {
    let Some(frame) = block.frame_of(&[link.from, link.to]) else {
        return 0;
    };
    let (across, at) = borders.across(channel);
    let range = &across[frame].range;
    if range.start == at {
        return 1 + borders.begins(channel, frame) as Zone;
    }
    if range.end == at {
        return borders.ends(channel, frame) as Zone - borders.ending(channel) as Zone;
    }
    0
}

/// The borders of all frames, by the channels in which they lie.
pub struct Borders {
    up: Vec<Border>,
    along: Vec<Border>,
}

/// A frame's extent across channels.
struct Border {
    range: Range<usize>,
    /// How many frames around this one begin in the same channel.
    begins: usize,
    /// How deep the frames in this one that end in the same channel are.
    ends: usize,
}

impl Borders {
    pub fn of(block: &Block) -> Borders {
        // The smallest frame around is the last that stands before.
        let frames = &block.frames;
        let around = |k: usize| {
            frames[..k]
                .iter()
                .rposition(|outer| outer.holds(&frames[k]))
        };
        let around: Vec<Option<usize>> = (0..frames.len()).map(around).collect();
        let borders = |range: fn(&Frame) -> Range<usize>| {
            let ranges: Vec<Range<usize>> = frames.iter().map(range).collect();
            Border::all(&ranges, &around)
        };
        Borders {
            up: borders(|frame| frame.columns.clone()),
            along: borders(|frame| frame.rows.clone()),
        }
    }

    /// The borders across a channel, and where it is.
    fn across(&self, channel: Channel) -> (&[Border], usize) {
        match channel {
            Channel::Up(at) => (&self.up, at),
            Channel::Along(at) => (&self.along, at),
        }
    }

    /// How many frames around this one begin in the same channel.
    pub fn begins(&self, channel: Channel, frame: usize) -> usize {
        self.across(channel).0[frame].begins
    }

    /// How deep the frames in this one that end in the same channel are.
    pub fn ends(&self, channel: Channel, frame: usize) -> usize {
        self.across(channel).0[frame].ends
    }

    /// How many borders the frames that begin here have, one inside another.
    pub fn beginning(&self, channel: Channel) -> usize {
        let (borders, at) = self.across(channel);
        let here = borders.iter().filter(|border| border.range.start == at);
        here.map(|border| 1 + border.begins).max().unwrap_or(0)
    }

    /// How many borders the frames that end here have.
    pub fn ending(&self, channel: Channel) -> usize {
        let (borders, at) = self.across(channel);
        let here = borders.iter().filter(|border| border.range.end == at);
        here.map(|border| 1 + border.ends).max().unwrap_or(0)
    }
}

impl Border {
    /// Those of frames with these extents and, of each, the frame around it, which stands
    /// before it.
    fn all(ranges: &[Range<usize>], around: &[Option<usize>]) -> Vec<Border> {
        let mut all: Vec<Border> = Vec::new();
        for (range, around) in ranges.iter().zip(around) {
            let outer = around.map(|outer| &all[outer]);
            let same = outer.filter(|outer| outer.range.start == range.start);
            all.push(Border {
                range: range.clone(),
                begins: same.map_or(0, |outer| 1 + outer.begins),
                ends: 0,
            });
        }
        for k in (0..all.len()).rev() {
            if let Some(outer) = around[k].filter(|outer| ranges[*outer].end == ranges[k].end) {
                all[outer].ends = all[outer].ends.max(1 + all[k].ends);
            }
        }
        all
    }
}

/// Gives each wire of a zone a track in which no other wire overlaps it, and
/// tells how many there are.
fn assign(links: &mut [Link], runs: &[Run]) -> usize {
    let mut extents: BTreeMap<u16, (usize, usize)> = BTreeMap::new();
    for run in runs {
        let extent = extents.entry(run.wire).or_insert((run.low, run.high));
        *extent = (extent.0.min(run.low), extent.1.max(run.high));
    }
    let mut order: Vec<(usize, usize, u16)> = extents
        .iter()
        .map(|(wire, (low, high))| (*low, *high, *wire))
        .collect();
    order.sort_unstable();
    let mut ends: Vec<usize> = Vec::new();
    let mut tracks = HashMap::new();
    for (low, high, wire) in order {
        let free = ends.iter().position(|end| *end < low);
        let track = free.unwrap_or(ends.len());
        ends.resize(ends.len().max(track + 1), 0);
        ends[track] = high;
        tracks.insert(wire, track);
    }
    for run in runs {
        links[run.link].lanes[run.lane].track = tracks[&run.wire];
    }
    ends.len()
}
