//! What follows of one run from its program's end and the length of its pulses alone:
//! when a finish is due, where calls stop, and when a start may be given.

use second::rules::Moment;

/// One run of the program, from a start pulse on.
#[derive(Clone, Copy)]
pub struct Run {
    /// Its end, counted from instant 0 of the list, if within reach.
    pub end: Option<Moment>,
    /// The length of its pulses.
    pub pulse: u32,
}

impl Run {
    /// Whether a finish is due at an instant.
    pub fn is_due(self, instant: u32) -> bool {
        let end = self.ended_by(instant);
        end.is_some_and(|end| instant < end.instant + self.pulse)
    }

    /// Where a continuing by `n` from `instant` stops, and whether ended there.
    /// A beginning is one by 0 from 0.
    pub fn stop(self, instant: u32, n: u32) -> (u32, bool) {
        let last = instant + n;
        let first = self.end.map(|end| end.instant.max(instant + 1));
        let due = first.filter(|&first| first <= last && self.is_due(first));
        let stop = due.unwrap_or(last);
        (stop, self.is_due(stop))
    }

    /// Where a full run stops: at 0 if the finish is high there.
    pub fn full_stop(self, budget: u32) -> (u32, bool) {
        match self.stop(0, 0) {
            (0, true) => (0, true),
            _ => self.stop(0, budget),
        }
    }

    /// The end, if it isn't above an instant.
    pub fn ended_by(self, instant: u32) -> Option<Moment> {
        self.end.filter(|end| end.instant <= instant)
    }

    /// The end, if a start may be given after an instant. A finish that is longer
    /// than an instant must have fallen.
    pub fn idle_by(self, instant: u32) -> Option<Moment> {
        self.end.filter(|end| self.idle_from(end) <= instant)
    }

    pub fn idle_from(self, end: &Moment) -> u32 {
        match self.pulse {
            1 => end.instant,
            longer => end.instant + longer,
        }
    }

    /// Whether the number in flight is 0 after an instant, where that is told: from
    /// where it is idle on, and not before the end, nor with a longer pulse at it.
    pub fn is_still(self, instant: u32) -> Option<bool> {
        let after_the_end = instant.checked_sub(1).and_then(|ago| self.ended_by(ago));
        match (self.idle_by(instant), after_the_end) {
            (Some(_), _) => Some(true),
            (None, None) => Some(false),
            (None, Some(_)) => None,
        }
    }
}
