//! One random job: a program, perhaps a table for it, and all that is asked.

use crate::damage;
use crate::generate::{self, Program};
use crate::lend::WORDS;
use crate::tables::{self, Table};
use crate::xorshift::Random;
use peers::{Peer, Reply};
use second::table::BUILT_IN;
use values::{Answer, Circuit, Format, Given, Refusal, Table as Lent};

/// The lengths that a pulse may have, the first as often as all others together,
/// and some that it may not have.
const PULSES: [u8; 14] = [1, 1, 1, 1, 1, 1, 1, 2, 3, 4, 5, 6, 7, 8];
pub const NO_PULSES: [u8; 5] = [0, 9, 10, 128, 255];

/// The last instant that a run may come to.
pub const MOST_INSTANT: u32 = 1_000_000;

/// A call on a state, and how much of the state's buffer is lent to it.
#[derive(Clone, Copy, Debug)]
pub struct Call {
    pub ask: Ask,
    pub room: Room,
}

/// A continuing by a number or up to an instant, or a start.
#[derive(Clone, Copy, Debug, PartialEq, Eq)]
pub enum Ask {
    Go(u32),
    GoTo(u32),
    Start,
}

impl Ask {
    /// The most instants that it evaluates from this one on.
    pub fn most(self, instant: u32) -> u32 {
        match self {
            Ask::Go(n) => n,
            Ask::GoTo(last) => last.saturating_sub(instant),
            Ask::Start => 1,
        }
    }

    /// Asks it of a peer, on a state of this instant.
    pub fn of(
        self,
        peer: &Peer,
        mode: Mode,
        file: &[u8],
        instant: u32,
        state: &[u8],
    ) -> Reply<Answer> {
        let Mode { circuit, format } = mode;
        match self {
            Ask::Start => peer.start_of(circuit)(format, file, state),
            _ => peer.continue_of(circuit)(format, file, self.most(instant), state),
        }
    }
}

/// The circuit that a run is of, and the format of its state.
#[derive(Clone, Copy, Debug)]
pub struct Mode {
    pub circuit: Circuit,
    pub format: Format,
}

impl Mode {
    pub const fn new(circuit: Circuit, format: Format) -> Mode {
        Mode { circuit, format }
    }
}

pub const PLAIN: [Mode; 2] = [
    Mode::new(Circuit::Imperative, Format::Full),
    Mode::new(Circuit::Imperative, Format::Compact),
];
pub const FUNCTIONAL: [Mode; 2] = [
    Mode::new(Circuit::Functional, Format::Full),
    Mode::new(Circuit::Functional, Format::Compact),
];
pub const MODES: [Mode; 4] = [PLAIN[0], PLAIN[1], FUNCTIONAL[0], FUNCTIONAL[1]];

#[derive(Clone, Copy, Debug)]
pub enum Room {
    Exact,
    Longer(usize),
    Shorter(usize),
}

impl Room {
    /// The length of a buffer that is asked to hold `length` bytes.
    pub fn around(self, length: usize) -> usize {
        match self {
            Room::Exact => length,
            Room::Longer(bytes) => length + bytes,
            Room::Shorter(bytes) => length.saturating_sub(bytes),
        }
    }
}

#[derive(Clone, Debug)]
pub struct Job {
    pub table: Option<Table>,
    /// How many procedures the program is said to have.
    pub procedures: usize,
    /// How long its pulses are said to be.
    pub pulse: u8,
    pub program: Vec<u8>,
    pub words: Vec<u8>,
    pub budget: u32,
    /// The lengths of the buffers lent for a netlist file and for a state.
    pub file_length: usize,
    pub state_length: usize,
    pub calls: Vec<Call>,
    /// The seed of whatever is damaged later.
    pub damage: u64,
}

impl Job {
    /// The job of a seed; one program in eight is slightly damaged, in one of
    /// sixteen parallel sides may clash, in one of sixteen exits may leave them,
    /// and in one of sixteen both may reach a procedure. Every other one has a
    /// table, and one table in twelve is damaged; every other one has longer
    /// pulses, and one in 24 a length that it wasn't written for.
    pub fn of_seed(seed: u64) -> Job {
        let random = &mut Random::new(seed);
        let times = random.once_in(2).then(|| tables::times(random));
        let pulse = pulse(random);
        let program_of = match random.below(16) {
            0 => generate::clashing_program,
            1 => generate::leaving_program,
            2 => generate::sharing_program,
            _ => generate::program,
        };
        let mut program = program_of(random, times.as_ref().unwrap_or(&BUILT_IN), pulse);
        if random.once_in(8) {
            program = damage::program(&program, random);
        }
        let Program { procedures, bytes } = program;
        let table = times.map(|times| match random.once_in(12) {
            true => tables::damaged(&times, random),
            false => tables::good(&times),
        });
        let pulse = match random.below(48) {
            0 => random.pick(&NO_PULSES),
            1 => self::pulse(random),
            _ => pulse,
        };
        Job {
            table,
            procedures,
            pulse,
            program: bytes,
            words: lent_words(random),
            budget: budget(random),
            file_length: random.pick(&[0, 511, 512, 1024, 2048, 3584, 6656, 7000]),
            state_length: random.pick(&[0, 7, 1_600, 3_000, 10_000, 25_600, 41_480, 42_000]),
            calls: calls(pulse, random),
            damage: random.bits(),
        }
    }

    /// The table that a peer is given beside its program.
    pub fn lent_table(&self) -> Lent<'_> {
        self.table.as_ref().map(|table| &table.bytes[..])
    }

    /// What a peer is given beside its program.
    pub fn given(&self) -> Given<'_> {
        Given {
            table: self.lent_table(),
            procedures: self.procedures,
            pulse: self.pulse,
        }
    }

    /// What it meets by what is given beside its program, whatever that is.
    pub fn refused_beside(&self) -> Option<Refusal> {
        let table = self.table.as_ref().and_then(|table| table.refused);
        match self.pulse {
            1..=8 => table,
            _ => Some(Refusal::new(27, 0)),
        }
    }
}

/// A length that pulses may have.
pub fn pulse(random: &mut Random) -> u8 {
    random.pick(&PULSES)
}

/// Start words, now and then with a byte too few or some too many.
fn lent_words(random: &mut Random) -> Vec<u8> {
    let mut words = generate::start_words(random);
    match random.below(40) {
        0 => words.truncate(random.below(36)),
        1 => words.truncate(random.below(WORDS)),
        2 => words.extend([0xa5; 5]),
        _ => {}
    }
    words
}

fn budget(random: &mut Random) -> u32 {
    let budget = match random.below(40) {
        0 => random.pick(&[1_000_001, 2_000_000, u32::MAX as usize]),
        1..=3 => random.below(3),
        4..=12 => random.below(300),
        _ => random.between(1_000, 6_000),
    };
    budget as u32
}

/// The calls on one run, refused ones among them. A start comes after as many
/// continuings as it happens: before an end, right at it or later. A continuing
/// stops at each instant of a finish, so that with longer pulses there are more.
pub fn calls(pulse: u8, random: &mut Random) -> Vec<Call> {
    let most = 12 + 4 * usize::from(pulse.min(8));
    let count = random.between(1, most);
    let mut list: Vec<Call> = (0..count).map(|_| call(pulse, random)).collect();
    // The last instant of all is far for most programs, so it is rarely gone
    // for.
    if random.once_in(1_000) {
        list.extend(to_the_last(pulse));
    }
    list
}

/// Calls that come to the last instant, where every call with an instant is
/// refused. A continuing stops at each instant of a finish, so there is one more.
pub fn to_the_last(pulse: u8) -> impl Iterator<Item = Call> {
    let times = usize::from(pulse) + 1;
    let near = vec![Ask::GoTo(MOST_INSTANT - 300); times];
    let last = vec![Ask::GoTo(MOST_INSTANT); times];
    let asks = [near, vec![Ask::Start], last, vec![Ask::Start, Ask::Go(1)]];
    let room = Room::Exact;
    let calls = asks.into_iter().flatten();
    calls.map(move |ask| Call { ask, room })
}

/// With longer pulses there are more single instants: so many lie between an end
/// and the first start after it.
fn call(pulse: u8, random: &mut Random) -> Call {
    let n = match random.below(20) {
        _ if pulse > 1 && random.once_in(2) => 1,
        0 | 1 => 0,
        2..=6 => random.between(1, 3),
        7..=12 => random.between(4, 300),
        13..=18 => random.between(300, 2_000),
        _ => random.pick(&[1_000_001, 3_000_000, u32::MAX as usize]),
    };
    let room = match random.below(12) {
        0 => Room::Shorter(random.between(1, 50)),
        1 => Room::Shorter(random.between(51, 50_000)),
        2 | 3 => Room::Longer(random.between(1, 100)),
        _ => Room::Exact,
    };
    let ask = match random.once_in(3) {
        true => Ask::Start,
        false => Ask::Go(n as u32),
    };
    Call { ask, room }
}
