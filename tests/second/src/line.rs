//! The line of a delay, kept as a waveform: the instants at which its input
//! changed, and not the inputs themselves.
//!
//! A control wire has two levels, so its level at an earlier instant is its
//! present one, turned over once for each change since.

use std::collections::VecDeque;

/// An instant; those before 0 belong to the past that a state tells of.
pub type Instant = i32;

/// The inputs that a full state keeps of a line.
const KEPT: Instant = 256;

/// A line as a full state publishes it: bit k, from the lowest of the first
/// byte on, is the input k instants ago.
pub type LineBytes = [u8; 32];

#[derive(Clone, Debug, Default)]
pub struct Line {
    /// The instants from an input to its output.
    delay: Instant,
    changes: VecDeque<Instant>,
    level: bool,
}

impl Line {
    /// A line with nothing on its way.
    pub fn new(delay: u8) -> Line {
        Line {
            delay: delay.into(),
            ..Line::default()
        }
    }

    /// Tells the line its input from `now` on. If that is a change, gives the
    /// instant at which it comes out.
    pub fn record(&mut self, now: Instant, level: bool) -> Option<Instant> {
        if level == self.level {
            return None;
        }
        self.level = level;
        self.changes.push_back(now);
        self.forget(now);
        Some(now + self.delay)
    }

    /// Drops the changes that no later instant looks back to.
    fn forget(&mut self, now: Instant) {
        while self
            .changes
            .front()
            .is_some_and(|&oldest| oldest <= now - KEPT)
        {
            self.changes.pop_front();
        }
    }

    /// The input at an instant among the last 256.
    fn level_at(&self, instant: Instant) -> bool {
        let since = self.changes.len() - self.changes.partition_point(|&change| change <= instant);
        self.level ^ (since % 2 == 1)
    }

    /// What comes out at the present instant.
    pub fn output(&self, now: Instant) -> bool {
        self.level_at(now - self.delay)
    }

    /// The instants at which the output changes, rising.
    pub fn output_changes(&self) -> impl Iterator<Item = Instant> + '_ {
        self.changes.iter().map(|change| change + self.delay)
    }

    /// How many inputs up to `now` were high and aren't put out yet.
    pub fn in_flight(&self, now: Instant) -> u32 {
        self.highs(now, self.delay)
    }

    /// Whether a pulse enters at `now` while one is on its way that doesn't come
    /// out at `now`.
    pub fn is_crowded(&self, now: Instant) -> bool {
        self.level && self.highs(now - 1, self.delay - 1) > 0
    }

    /// How often the input was high in the last `count` instants up to `now`:
    /// the lengths of the stretches between changes, as far as they are among
    /// these.
    fn highs(&self, now: Instant, count: Instant) -> u32 {
        let first = now - count + 1;
        let (mut end, mut level, mut high) = (now + 1, self.level, 0);
        let beginnings = self.changes.iter().rev().map(|&change| change.max(first));
        for begin in beginnings.chain([first]) {
            if level {
                high += end - begin;
            }
            (end, level) = (begin, !level);
        }
        high as u32
    }

    /// The line that a full state of instant `now` tells of.
    pub fn from_bytes(delay: u8, bytes: &LineBytes, now: Instant) -> Line {
        let mut line = Line::new(delay);
        for ago in (0..KEPT).rev() {
            line.record(now - ago, bit(bytes, ago as usize));
        }
        line
    }

    /// The line as a full state of instant `now` tells it.
    pub fn to_bytes(&self, now: Instant) -> LineBytes {
        let mut bytes = LineBytes::default();
        if self.level || !self.changes.is_empty() {
            for ago in 0..KEPT {
                let level = u8::from(self.level_at(now - ago));
                bytes[ago as usize / 8] |= level << (ago % 8);
            }
        }
        bytes
    }

    /// The line that a compact state of instant `now` tells of: a pulse that
    /// comes out so many instants later, or none at 0.
    pub fn from_left(delay: u8, left: u8, now: Instant) -> Line {
        let mut line = Line::new(delay);
        let entered = now - line.delay + Instant::from(left);
        if left > 0 {
            line.record(entered, true);
        }
        if entered < now {
            line.record(entered + 1, false);
        }
        line
    }

    /// The instants until the last pulse comes out, as a compact state of instant
    /// `now` tells them; 0 where it has.
    pub fn left(&self, now: Instant) -> u8 {
        let newest = match self.level {
            true => Some(now),
            false => self.changes.back().map(|fall| fall - 1),
        };
        newest.map_or(0, |pulse| (pulse + self.delay - now).max(0) as u8)
    }
}

fn bit(bytes: &LineBytes, index: usize) -> bool {
    bytes[index / 8] >> (index % 8) & 1 == 1
}
