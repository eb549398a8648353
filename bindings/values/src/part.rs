//! A part of a program that several wrote.

/// A program without procedures that was compiled by itself, its netlist file, and
/// the pulse length that it was compiled with.
#[derive(Clone, Copy, Debug, PartialEq, Eq)]
pub struct Part<'a> {
    pub program: &'a [u8],
    pub file: &'a [u8],
    pub pulse: u8,
}
