//! The forms in which the tool shows programs and circuits, and takes them
//! back: lists, outlines, texts, waveforms, pictures; and what it tells of programs
//! before a run: warnings, delays, bounds; on the examples and on generated programs of
//! every kind.

mod bounds;
mod circuits;
mod delays;
mod functional;
mod indentation;
mod kinds;
mod long_commands;
mod long_texts;
mod long_typing;
mod names;
mod pictures;
mod probes;
mod programs;
mod round_trips;
mod slow;
mod vcd;
mod warnings;
mod waves;
