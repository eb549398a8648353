//! Delays that a text leaves out: the least that the product takes, or so much more.

use super::broken::{Broken, Read};
use super::rules::{self, told};
use super::{Said, Source};
use crate::refusals::least_delay;
use crate::types::Beside;

impl Source {
    /// Puts in the delays that are left out, under what is given beside the program.
    /// Where no delay is enough the longest stands, which the product refuses.
    pub fn settle(&mut self, beside: Beside) -> Read<()> {
        for node in 0..self.nodes.len() {
            let more = match self.said.get(node) {
                Some(Said::Least) => 0,
                Some(Said::More(more, _)) => *more,
                _ => continue,
            };
            let least = least_delay(beside, &self.nodes, node).unwrap_or(u8::MAX);
            let Some(delay) = least.checked_add(more) else {
                let place = self.places[node];
                let rule = told(rules::MORE, &[&least.to_string(), &more.to_string()]);
                let span = place.delay.unwrap_or(place.mark);
                return Err(Broken::word(span, rule, "write a smaller number after @+"));
            };
            self.nodes[node].delay = delay;
        }
        Ok(())
    }
}
