//! `hub slow`: a program with gates that take their time, beside the ideal circuit.

use super::run::BUDGET;
use super::{started, wave, Command, Stop};
use crate::answers;
use crate::args::{dashed, Args, Options};
use crate::input::{Circuit, Given};
use crate::json::Json;
use crate::slow::{Both, Moment};
use crate::store::{self, Store};
use crate::types::{Done, Format, DONE, OPEN};
use crate::wave::course::Course;
use crate::wave::{both, choice, Wire};
use crate::{labels, listing, product};

pub const COMMAND: Command = Command {
    name: "slow",
    usage: "FILE [NAME=N ..] [--start FILE] [--at N | --budget N] [--all] [--wave [--to B] [--wires W,..] [-o x.vcd | x.svg] [--format F]]",
    about: "runs a program with gates that take their time, and shows where it isn't yet settled",
    more: "In the circuit that 'hub run' runs a gate shows its result at once. Here each operator\n\
        shows the result of its inputs as they were its own time earlier, and words are 0 before\n\
        instant 0. Both are run, the imperative circuit with pulses of one instant; they end alike.\n\
        Told are the wires that show other words at the last instant, which is the end, or the\n\
        budget, 1,000,000 if it isn't given. --at N looks at an instant before the end.\n\
        --wave shows both up to the end, at most 240 instants, or up to --to, at most 10,000, for\n\
        each takes a run of its own: start, finish, the words that are written and all wires that\n\
        differ, or those of --wires, as 'hub wave' has them; below each word is that of the slow\n\
        run, marked where it differs. -o and --format are those of 'hub wave'. The exit status is\n\
        0, or 2 if the budget is over and the run still open.",
    example: "hub slow docs/course/settling.hub x0=3 x1=5 --at 10",
    options: Options::of_slow(
        &["at", "budget", "start", "to", "wires", "o", "format"],
        &["all", "wave"],
    ),
    run,
};

/// The last instant that a wave may have: each takes a run of its own.
const LIMIT: u32 = 10_000;

fn run(args: &Args) -> Result<Done, Stop> {
    check_options(args)?;
    let (file, words) = args.file_and_words()?;
    let (at, budget) = (args.number("at")?, args.number("budget")?);
    let (given, circuit, start) = started(args, file, words)?;
    let program = given.program()?;
    let (name, last) = match at {
        Some(at) => ("at", at),
        None => ("budget", budget.unwrap_or(BUDGET)),
    };
    wave::check_reach(&circuit, name, last)?;
    let begun = Both::begin(given.beside(), &program.bytes, &circuit, &start);
    let mut both = begun.map_err(|met| given.refused(met))?;
    if args.flag("wave") {
        return waves(args, &given, &circuit, &start, &mut both);
    }
    let moment = both.at(last)?;
    check_at(args, at, &moment)?;
    let output = match args.flag("json") {
        true => json(&given, &circuit, &start, &moment)?.line(),
        false => text(&given, &circuit, &start, &moment, args.flag("all"))?.into_bytes(),
    };
    let open = at.is_none() && !moment.answer.ended;
    let exit = if open { OPEN } else { DONE };
    Ok(Done { exit, output })
}

/// What goes with what.
fn check_options(args: &Args) -> Result<(), Stop> {
    if args.flag("at") && args.flag("budget") {
        return Err(args.fault("--at and --budget don't go together").into());
    }
    let wave = args.flag("wave");
    let others = ["at", "budget", "all"].map(|name| (name, false));
    let own = ["to", "wires", "o", "format"].map(|name| (name, true));
    for (name, goes) in own.into_iter().chain(others) {
        if args.flag(name) && goes != wave {
            let how = if goes { "goes" } else { "doesn't go" };
            let message = format!("{} {how} with --wave", dashed(name));
            return Err(args.fault(message).into());
        }
    }
    Ok(())
}

/// An instant that is asked for isn't after the end.
fn check_at(args: &Args, at: Option<u32>, moment: &Moment) -> Result<(), Stop> {
    let end = moment.answer.instant;
    match at.filter(|at| *at > end) {
        Some(at) => {
            let message = format!("--at {at} is after the end of the run, at {end}");
            Err(args.fault(message).into())
        }
        None => Ok(()),
    }
}

fn waves(
    args: &Args,
    given: &Given,
    circuit: &Circuit,
    start: &Store,
    both: &mut Both,
) -> Result<Done, Stop> {
    let asked = args.value("wires");
    let mut wires = choice::wires(circuit, &given.bytes, asked, false)?;
    let (to, cut) = match args.number("to")? {
        Some(to) if to > LIMIT => {
            let most = wave::grouped(LIMIT);
            let message = format!("--to {to}: a wave of both shows at most {most} instants");
            return Err(args.fault(message).into());
        }
        Some(to) => (to, None),
        None => {
            let course = Course::begin(&circuit.file, start, &[]);
            let last = course.and_then(|mut course| {
                wave::last(&mut course, &circuit.netlist, (0, wave::MOST), &[])
            });
            last.map_err(|met| given.refused(met))?
        }
    };
    let moments = both::moments(both, to)?;
    if asked.is_none() {
        wires.retain(|wire: &Wire| wire.about.is_empty());
        let notes = labels::of_cells(circuit, &given.bytes)?;
        wires.extend(both::differing(&moments, &notes));
    }
    wave::shown(args, &circuit.names(), &both::waves(&moments, wires), cut)
}

/// The words and elements of both at this instant.
fn contents(circuit: &Circuit, moment: &Moment) -> Store {
    let cells = circuit.netlist.cells.len();
    product::contents(Format::Full, &moment.answer, &moment.state, cells)
}

/// The answer of both, and a line for each wire that differs.
fn text(
    given: &Given,
    circuit: &Circuit,
    start: &Store,
    moment: &Moment,
    all: bool,
) -> Result<String, Stop> {
    let last = contents(circuit, moment);
    let mut text = answers::text(&circuit.names(), start, &moment.answer, &last, all);
    let instant = moment.answer.instant;
    let state = if moment.answer.ended { "ended" } else { "open" };
    text += &format!(
        "gates that take their time: {state} at {instant}, with the same words on control wires \
         and memories\n"
    );
    let (differing, cells) = (moment.differing(), moment.slow.len());
    if differing.is_empty() {
        return Ok(text + &format!("all {cells} wires show the same at {instant}\n"));
    }
    text += &match differing.len() {
        1 => format!("1 of {cells} wires shows another word at {instant}:\n"),
        count => format!("{count} of {cells} wires show other words at {instant}:\n"),
    };
    let notes = labels::of_cells(circuit, &given.bytes)?;
    text += &format!("        {:24}  ideal   slow\n", "");
    for cell in differing {
        let words = listing::words_of(&circuit.netlist.cells[cell]);
        let (ideal, slow) = (moment.ideal(cell), moment.slow[cell]);
        let note = notes[cell].as_ref().map(|note| format!("  # {note}"));
        let note = note.unwrap_or_default();
        text += &format!("  {cell:4}  {words:24}  {ideal:5}  {slow:5}{note}\n");
    }
    Ok(text)
}

fn json(given: &Given, circuit: &Circuit, start: &Store, moment: &Moment) -> Result<Json, Stop> {
    let last = contents(circuit, moment);
    let notes = labels::of_cells(circuit, &given.bytes)?;
    let mut fields = answers::fields(&circuit.names(), &moment.answer, &last);
    fields.push(("start", answers::words(&store::words(start))));
    fields.push(("start_elements", answers::elements(start)));
    fields.push(("count", Json::number(moment.slow.len())));
    let difference = |cell: usize| {
        Json::Object(vec![
            ("number", Json::number(cell)),
            (
                "words",
                Json::text(listing::words_of(&circuit.netlist.cells[cell])),
            ),
            ("from", Json::maybe(notes[cell].clone(), Json::text)),
            ("ideal", Json::number(moment.ideal(cell))),
            ("slow", Json::number(moment.slow[cell])),
        ])
    };
    fields.push(("differences", Json::list(moment.differing(), difference)));
    Ok(Json::Object(fields))
}
