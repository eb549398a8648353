//! Runs of either circuit on lent states: what `calls` and `functional_calls`
//! have in common.
//!
//! A functional run is another mode of the same run: its reading of a file asks
//! for the last sixteen cells too, and its answer shows them.

use crate::cells::{self, Netlist};
use crate::compile;
use crate::contents::{Contents, CONTENTS_LENGTH};
use crate::functional;
use crate::netfile;
use crate::program::Program;
use crate::rules::{self, Moment};
use crate::simulate::{Crowded, Simulator};
use crate::slow;
use crate::state;
use crate::table::Times;
use values::{Answer, Circuit, Format, Refusal, Shape};

/// The last instant that a run may come to.
const MOST_INSTANT: u32 = 1_000_000;

/// The calls on a run of a circuit, by themselves.
macro_rules! calls_on_runs {
    ($circuit:expr) => {
        /// Begins a run: refusals 9 to 12, 27, 14.
        pub fn begin(
            format: Format,
            file: &[u8],
            words: &[u8],
            state: &mut [u8],
        ) -> Result<Answer, Refusal> {
            runs::begin($circuit, format, file, words, state)
        }

        /// Continues a run by at most `n` instants: refusals 9 to 12, 27, 14, 15, 16,
        /// 26.
        pub fn continue_by(
            format: Format,
            file: &[u8],
            state: &mut [u8],
            n: u32,
        ) -> Result<Answer, Refusal> {
            runs::continue_by($circuit, format, file, state, n)
        }

        /// Gives a second start pulse at the next instant: refusals 9 to 12, 27, 14,
        /// 15, 16, 23.
        pub fn start(format: Format, file: &[u8], state: &mut [u8]) -> Result<Answer, Refusal> {
            runs::start($circuit, format, file, state)
        }

        /// A full run of a netlist: refusals 9 to 12, 13, 14.
        pub fn run_netlist(
            file: &[u8],
            words: &[u8],
            budget: u32,
            state: &mut [u8],
        ) -> Result<Answer, Refusal> {
            runs::run_netlist($circuit, file, words, budget, state)
        }
    };
}

pub(crate) use calls_on_runs;

/// Begins a run: refusals 9 to 12, 27, 14.
pub fn begin(
    circuit: Circuit,
    format: Format,
    file: &[u8],
    words: &[u8],
    state: &mut [u8],
) -> Result<Answer, Refusal> {
    let netlist = netlist_for(circuit, format, file)?;
    let contents = start_contents(words)?;
    let state = state_room(format, state, &netlist)?;
    let simulator = Simulator::begin(&netlist, contents);
    state::store(format, &simulator, state);
    Ok(answer(circuit, &simulator, 1))
}

/// Continues a run by at most `n` instants: refusals 9 to 12, 27, 14, 15, 16; then
/// 26, which the instants before it are run for once more.
pub fn continue_by(
    circuit: Circuit,
    format: Format,
    file: &[u8],
    state: &mut [u8],
    n: u32,
) -> Result<Answer, Refusal> {
    let netlist = netlist_for(circuit, format, file)?;
    let state = state_to_go_on(format, state, &netlist, n)?;
    let advanced = |n: u32| {
        let mut simulator = state::load(format, &netlist, state);
        simulator.advance(format, n).map(|count| (simulator, count))
    };
    let (good, refusal) = match advanced(n) {
        Ok(good) => (good, None),
        Err(Crowded { cell, good }) => {
            let again = advanced(good).expect("good instants");
            (again, Some(Refusal::new(26, cell)))
        }
    };
    let (simulator, count) = good;
    state::store(format, &simulator, state);
    refusal.map_or(Ok(answer(circuit, &simulator, count)), Err)
}

/// Gives a second start pulse at the next instant: refusals 9 to 12, 27, 14, 15,
/// 16, 23. All lines are empty then, so that none is crowded.
pub fn start(
    circuit: Circuit,
    format: Format,
    file: &[u8],
    state: &mut [u8],
) -> Result<Answer, Refusal> {
    let netlist = netlist_for(circuit, format, file)?;
    let state = state_to_go_on(format, state, &netlist, 1)?;
    let mut simulator = state::load(format, &netlist, state);
    check_idle(&netlist, &simulator)?;
    simulator.start();
    state::store(format, &simulator, state);
    Ok(answer(circuit, &simulator, 1))
}

/// A full run of a netlist: refusals 9 to 12, 13, 14.
pub fn run_netlist(
    circuit: Circuit,
    file: &[u8],
    words: &[u8],
    budget: u32,
    state: &mut [u8],
) -> Result<Answer, Refusal> {
    let netlist = netlist_in(circuit, file)?;
    check_budget(budget)?;
    let contents = start_contents(words)?;
    let state = state_room(Format::Full, state, &netlist)?;
    Ok(full_run(circuit, &netlist, contents, budget, state))
}

/// A full run of a checked program: refusals 13, 14. Its netlist file and its last
/// state stand in the lent buffers.
pub fn run_program(
    circuit: Circuit,
    program: &Program,
    words: &[u8],
    budget: u32,
    file: &mut [u8],
    state: &mut [u8],
) -> Result<Answer, Refusal> {
    let netlist = compiled(circuit, program);
    check_budget(budget)?;
    let contents = start_contents(words)?;
    let state = state_room(Format::Full, state, &netlist)?;
    put(&netfile::write(&netlist), file)?;
    Ok(full_run(circuit, &netlist, contents, budget, state))
}

/// The bytes that a slow run of so many cells is lent to work in.
fn slow_length(cells: usize) -> usize {
    512 * (2 * cells + 1)
}

/// A slow run of a checked program: refusals 13, 14. The histories are kept elsewhere, so
/// that of the buffer to work in there is only its end to make.
pub fn slow_run(
    program: &Program,
    times: &Times,
    words: &[u8],
    budget: u32,
    values: &mut [u8],
    work: &mut [u8],
) -> Result<Answer, Refusal> {
    check_budget(budget)?;
    let contents = start_contents(words)?;
    let cells = compile::compile(program).cells.len();
    room(values, 2 * cells)?;
    let work = room(work, slow_length(cells))?;
    let (answer, shown) = slow::run(program, times, contents, budget);
    let bytes: Vec<u8> = shown.into_iter().flat_map(u16::to_le_bytes).collect();
    put(&bytes, values)?;
    work.fill(0);
    Ok(answer)
}

/// Compiles a checked program to a netlist file: refusal 14.
pub fn compile(circuit: Circuit, program: &Program, file: &mut [u8]) -> Result<Shape, Refusal> {
    let netlist = compiled(circuit, program);
    put(&netfile::write(&netlist), file)?;
    Ok(shape(&netlist))
}

/// The end of a checked program by its own rules, if within the budget: 13, 14.
pub fn last_moment(
    circuit: Circuit,
    program: &Program,
    words: &[u8],
    budget: u32,
) -> Result<Option<Moment>, Refusal> {
    check_budget(budget)?;
    let contents = start_contents(words)?;
    Ok(rules::run(program, circuit, contents, budget))
}

pub fn compiled(circuit: Circuit, program: &Program) -> Netlist {
    match circuit {
        Circuit::Imperative => compile::compile(program),
        Circuit::Functional => functional::compile(program),
    }
}

/// A beginning, and a continuing unless the finish was high, on a full state.
fn full_run(
    circuit: Circuit,
    netlist: &Netlist,
    contents: Contents,
    budget: u32,
    state: &mut [u8],
) -> Answer {
    let mut simulator = Simulator::begin(netlist, contents);
    let mut count = 1;
    if !simulator.finished() {
        let advanced = simulator.advance(Format::Full, budget);
        count += advanced.expect("lines with room for every pulse");
    }
    state::store(Format::Full, &simulator, state);
    answer(circuit, &simulator, count)
}

fn answer(circuit: Circuit, simulator: &Simulator, count: u32) -> Answer {
    Answer {
        ended: simulator.finished(),
        instant: simulator.instant(),
        count,
        words: simulator.words(circuit),
    }
}

pub fn shape(netlist: &Netlist) -> Shape {
    Shape {
        cells: netlist.cells.len() as u16,
        finish: netlist.finish,
    }
}

/// Refusal 23: something is in flight, or the last of a longer pulse is still at
/// the finish.
fn check_idle(netlist: &Netlist, simulator: &Simulator) -> Result<(), Refusal> {
    let at_the_finish = netlist.pulse > 1 && simulator.finished();
    if simulator.in_flight() != 0 || at_the_finish {
        return Err(Refusal::new(23, 0));
    }
    Ok(())
}

/// The netlist in a file for a run of this circuit; refusals 9 to 12.
fn netlist_in(circuit: Circuit, file: &[u8]) -> Result<Netlist, Refusal> {
    let netlist = netfile::read(file)?;
    if circuit == Circuit::Functional {
        cells::check_lasts(&netlist)?;
    }
    Ok(netlist)
}

/// The same for a state of this format; refusals 9 to 12, 27.
fn netlist_for(circuit: Circuit, format: Format, file: &[u8]) -> Result<Netlist, Refusal> {
    let netlist = netlist_in(circuit, file)?;
    if format == Format::Compact && netlist.pulse > 1 {
        return Err(Refusal::new(27, 0));
    }
    Ok(netlist)
}

/// Refusal 13.
fn check_budget(budget: u32) -> Result<(), Refusal> {
    if budget > MOST_INSTANT {
        return Err(Refusal::new(13, 0));
    }
    Ok(())
}

/// Refusal 16; the sum may exceed four bytes.
fn check_reach(instant: u32, n: u32) -> Result<(), Refusal> {
    if u64::from(instant) + u64::from(n) > u64::from(MOST_INSTANT) {
        return Err(Refusal::new(16, 0));
    }
    Ok(())
}

/// The part of a lent buffer that a netlist's state takes; refusal 14.
fn state_room<'a>(
    format: Format,
    state: &'a mut [u8],
    netlist: &Netlist,
) -> Result<&'a mut [u8], Refusal> {
    room(state, state::length(format, netlist.cells.len()))
}

/// The same of a state that is gone on with by `n` instants; 14, 15, 16.
fn state_to_go_on<'a>(
    format: Format,
    state: &'a mut [u8],
    netlist: &Netlist,
    n: u32,
) -> Result<&'a mut [u8], Refusal> {
    let state = state_room(format, state, netlist)?;
    state::check(format, netlist, state)?;
    check_reach(state::instant(state), n)?;
    Ok(state)
}

/// The part of a lent buffer that a result takes; refusal 14.
fn room(buffer: &mut [u8], length: usize) -> Result<&mut [u8], Refusal> {
    buffer.get_mut(..length).ok_or(Refusal::new(14, 0))
}

/// Puts a result into a lent buffer; refusal 14.
pub fn put(result: &[u8], buffer: &mut [u8]) -> Result<(), Refusal> {
    room(buffer, result.len())?.copy_from_slice(result);
    Ok(())
}

/// The lent start words; refusal 14.
fn start_contents(bytes: &[u8]) -> Result<Contents, Refusal> {
    let bytes = bytes.get(..CONTENTS_LENGTH).ok_or(Refusal::new(14, 0))?;
    Ok(Contents::of_bytes(bytes))
}
