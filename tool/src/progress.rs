//! A line on standard error that tells how far a long run has come. It is
//! shown on a terminal, after half a second, and taken away at the end.

use std::io::{stderr, IsTerminal, Stderr, Write};
use std::time::{Duration, Instant};

/// Before this a run is short; later the line changes so often.
const WAIT: Duration = Duration::from_millis(500);
const BETWEEN: Duration = Duration::from_millis(100);

pub struct Progress<Out: Write> {
    budget: u32,
    /// None where nobody looks.
    out: Option<Out>,
    next: Instant,
    shown: bool,
}

impl Progress<Stderr> {
    pub fn new(budget: u32) -> Progress<Stderr> {
        let out = stderr();
        let looked_at = out.is_terminal();
        Progress::on(looked_at.then_some(out), WAIT, budget)
    }
}

impl<Out: Write> Progress<Out> {
    /// A line on `out` that is first shown after a while.
    pub fn on(out: Option<Out>, wait: Duration, budget: u32) -> Progress<Out> {
        Progress {
            budget,
            out,
            next: Instant::now() + wait,
            shown: false,
        }
    }

    pub fn show(&mut self, instant: u32) {
        let now = Instant::now();
        if now < self.next {
            return;
        }
        let budget = self.budget;
        let percent = 100 * u64::from(instant) / u64::from(budget.max(1));
        self.write(&format!("\rinstant {instant} of {budget} ({percent} %)"));
        self.next = now + BETWEEN;
        self.shown = true;
    }

    /// The line is for looking at: where it can't be written nothing is lost.
    fn write(&mut self, text: &str) {
        if let Some(out) = &mut self.out {
            let _ = out.write_all(text.as_bytes()).and_then(|()| out.flush());
        }
    }
}

impl<Out: Write> Drop for Progress<Out> {
    fn drop(&mut self) {
        if self.shown {
            // Back to the line's beginning, and all of it erased.
            self.write("\r\x1b[K");
        }
    }
}
