//! Who writes a program: its nodes one after another, their variables, arrays and
//! delays.

use super::scope::{Body, Set, FIRST_ARRAY, VARIABLES};
use super::Sides;
use crate::xorshift::Random;
use second::table::Times;

pub const MOST_DELAY: u32 = 255;

/// Writes every part within a limit, the most nodes that the program may have
/// after it, and within a scope. Delays are chosen once the expression's time is
/// known, so that the program is accepted by construction.
pub struct Author<'a> {
    pub random: &'a mut Random,
    pub times: &'a Times,
    /// The length of its pulses.
    pub pulse: u8,
    pub sides: Sides,
    /// Whether it writes loops.
    pub loops: bool,
    /// The procedures written so far.
    pub bodies: Vec<Body>,
    pub bytes: Vec<u8>,
}

impl Author<'_> {
    /// The nodes written so far.
    pub fn count(&self) -> usize {
        self.bytes.len() / 4
    }

    /// Writes a node and gives the place of its delay.
    pub fn node(&mut self, kind: u8, n: u16) -> usize {
        let place = self.bytes.len() + 1;
        let [low, high] = n.to_le_bytes();
        self.bytes.extend([kind, 0, low, high]);
        place
    }

    /// A delay at the least, a little above it, or anywhere.
    pub fn set_delay(&mut self, place: usize, least: u32) {
        let delay = match self.random.below(10) {
            0..=5 => least,
            6..=8 => (least + self.random.below(5) as u32).min(MOST_DELAY),
            _ => self.random.between(least as usize, MOST_DELAY as usize) as u32,
        };
        self.bytes[place] = delay as u8;
    }

    /// A delay for what may be gone through again, and for an expression's time.
    pub fn set_delay_again(&mut self, place: usize, time: u32) {
        let apart = match self.pulse {
            1 => 1,
            longer => u32::from(longer) + 1,
        };
        self.set_delay(place, time.max(apart));
    }

    /// One of the variables of a set that has some.
    pub fn variable(&mut self, set: Set) -> u16 {
        self.member(set & VARIABLES)
    }

    /// One of the arrays of a set that has some.
    pub fn array(&mut self, set: Set) -> u16 {
        self.member(set & !VARIABLES) - FIRST_ARRAY
    }

    fn member(&mut self, set: Set) -> u16 {
        let is_member = |member: &u16| set >> member & 1 == 1;
        let members: Vec<u16> = (0..32).filter(is_member).collect();
        self.random.pick(&members)
    }
}
