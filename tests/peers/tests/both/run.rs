//! A run of a netlist, call by call, and where things stand in its state.

use crate::expect::{cell_length, refused, state_length};
use peers::{Reply, BOTH};
use values::{Answer, Circuit, Format, Given};

/// Where the number in flight stands in a state, after the instant.
pub const NUMBER: usize = 4;

/// The bytes of a cell in a state.
pub const NOW: usize = 0;
pub const AGO: usize = 2;
pub const HELD_A: usize = 4;
pub const HELD_B: usize = 5;
pub const ZERO_BYTE: usize = 6;
pub const LINE: usize = 8;

/// In a compact state the first zero byte tells how many instants are left until
/// a line's pulse comes out.
pub const LEFT: usize = 6;

/// The place of a byte of a cell in a full state.
pub const fn at(cell: u16, byte: usize) -> usize {
    place(Format::Full, cell, byte)
}

const fn place(format: Format, cell: u16, byte: usize) -> usize {
    8 + cell_length(format) * cell as usize + byte
}

/// A netlist file, and the state that the last call has left.
#[derive(Clone)]
pub struct Run {
    pub circuit: Circuit,
    pub format: Format,
    pub file: Vec<u8>,
    pub state: Vec<u8>,
}

impl Run {
    /// A beginning of a good netlist, in a buffer of the state's length.
    pub fn begin(file: &[u8], words: &[u8]) -> Run {
        Run::begin_in(Format::Full, file, words)
    }

    /// The same with a state of either format.
    pub fn begin_in(format: Format, file: &[u8], words: &[u8]) -> Run {
        Run::begin_of(Circuit::Imperative, format, file, words)
    }

    /// The same of a run of either circuit.
    pub fn begin_of(circuit: Circuit, format: Format, file: &[u8], words: &[u8]) -> Run {
        let mut run = Run::lent(circuit, format, file);
        run.done(BOTH.begin_of(circuit)(format, file, words, &run.state));
        run
    }

    /// The buffer before a beginning, of the state's length.
    pub fn lent(circuit: Circuit, format: Format, file: &[u8]) -> Run {
        let count = u16::from_le_bytes([file[2], file[3]]);
        Run {
            circuit,
            format,
            file: file.to_vec(),
            state: vec![0xa5; state_length(format, count.into())],
        }
    }

    /// A beginning of the netlist of an accepted program.
    pub fn of_program(program: &[u8], words: &[u8]) -> Run {
        Run::of_given(Given::NOTHING, program, words)
    }

    /// The same run, begun from these words with a compact state.
    pub fn compact(&self, words: &[u8]) -> Run {
        Run::begin_in(Format::Compact, &self.file, words)
    }

    /// A beginning of a program with something beside it.
    pub fn of_given(given: Given, program: &[u8], words: &[u8]) -> Run {
        let compiled = (BOTH.compile)(given, program, &[0; 6_656]);
        let shape = compiled
            .result
            .unwrap_or_else(|refusal| panic!("{program:?}: {refusal}"));
        let length = 512 * usize::from(shape.cells).div_ceil(84);
        Run::begin(&compiled.lent[0][..length], words)
    }

    /// A continuing, which isn't refused.
    pub fn go(&mut self, n: u32) -> Answer {
        self.done(self.going(n))
    }

    /// A start, which isn't refused.
    pub fn start(&mut self) -> Answer {
        self.done(self.starting())
    }

    /// What a continuing replies.
    pub fn going(&self, n: u32) -> Reply<Answer> {
        BOTH.continue_of(self.circuit)(self.format, &self.file, n, &self.state)
    }

    /// What a start replies.
    pub fn starting(&self) -> Reply<Answer> {
        BOTH.start_of(self.circuit)(self.format, &self.file, &self.state)
    }

    fn done(&mut self, reply: Reply<Answer>) -> Answer {
        self.state.clone_from(&reply.lent[0]);
        reply.result.expect("an unrefused call")
    }

    /// A start is refused so, and changes nothing.
    pub fn assert_start_refused(&self, number: u8) {
        let started = self.starting();
        assert_eq!(started.result, refused(number, 0));
        assert_eq!(started.lent, [&self.state[..]]);
    }

    /// A continuing is refused so, and changes nothing.
    pub fn assert_refused(&self, n: u32, number: u8) {
        let continued = self.going(n);
        assert_eq!(continued.result, refused(number, 0));
        assert_eq!(continued.lent, [&self.state[..]]);
    }

    /// The instants until the pulse in a line comes out, in a compact state.
    pub fn left(&self, cell: u16) -> u8 {
        self.state[self.at(cell, LEFT)]
    }

    /// For how many more instants start is high, as a full state tells it.
    pub fn remaining(&self) -> u8 {
        self.state[at(0, LINE)]
    }

    /// The number in flight, as the state tells it.
    pub fn in_flight(&self) -> u32 {
        let bytes = &self.state[NUMBER..NUMBER + 4];
        u32::from_le_bytes(bytes.try_into().expect("four bytes"))
    }

    pub fn tell_in_flight(&mut self, number: u32) {
        self.state[NUMBER..NUMBER + 4].copy_from_slice(&number.to_le_bytes());
    }

    pub fn tell_instant(&mut self, instant: u32) {
        self.state[..NUMBER].copy_from_slice(&instant.to_le_bytes());
    }

    /// The word that a cell shows.
    pub fn word(&self, cell: u16) -> u16 {
        let place = self.at(cell, NOW);
        u16::from_le_bytes([self.state[place], self.state[place + 1]])
    }

    /// What a cell shows, of a control wire or the low byte of a word.
    pub fn now(&self, cell: u16) -> u8 {
        self.state[self.at(cell, NOW)]
    }

    /// The place of a byte of a cell.
    pub fn at(&self, cell: u16, byte: usize) -> usize {
        place(self.format, cell, byte)
    }

    /// The words of the arrays.
    pub fn element(&self, array: usize, index: usize) -> u16 {
        let place = self.state.len() - 512 + 128 * array + 2 * index;
        u16::from_le_bytes([self.state[place], self.state[place + 1]])
    }
}
