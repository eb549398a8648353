//! Peers that go wrong in the ways the papers want rejected, and the tests that the
//! comparisons tell them from a good one.

mod arrays;
mod cells;
mod compact;
mod functional;
mod loops;
mod parts;
mod procedures;
mod pulses;
pub mod runs;
mod slow;
mod starts;
mod tables;
mod tests;
mod texts;
mod walking;
