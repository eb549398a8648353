//! `hub wave`: waveforms of named wires.

use super::{started, Command, Stop};
use crate::args::{Args, Options};
use crate::input::{Circuit, Given};
use crate::json::Json;
use crate::names::Names;
use crate::refusals::{self, Report};
use crate::types::{Done, Netlist, Refusal};
use crate::wave::course::Course;
use crate::wave::{choice, gtkw, probe, record, svg, terminal, vcd, Shows, Waveforms};
use crate::{files, output, product};

pub const COMMAND: Command = Command {
    name: "wave",
    usage: "FILE [NAME=N ..] [--start FILE] [--from A] [--to B] [--starts S,..] [--wires W,.. | --all] [-o x.vcd | x.svg] [--format F]",
    about: "shows how wires go up and down in a run: in the terminal, as VCD for GTKWave, as SVG",
    more: "Shown are start, finish, the words that are written, and each statement's start and\n\
        finish, named by its line and word, as line3.while.start, an assignment by what it\n\
        writes, line3.x0.start; of a list the cells that have names; with --all all words.\n\
        --wires chooses some of them, cells by number, what a word takes in, as x0.clock and\n\
        x0.data, elements, as a2[5], in_flight, the number of pulses in flight, or start_left,\n\
        for how many instants the start stays high; NAME=WIRE gives a wire another name. Of a\n\
        functional circuit x0 is the word at its end, x0.memory the start word, line3.while.x0\n\
        a word that a statement hands on. --starts says at which instants the hub is started\n\
        again. Without --to the waves go to the last finish, at most 240 instants. Beside x.vcd\n\
        x.gtkw is written, which tells GTKWave what to show. --format says text, vcd or svg\n\
        where no name does, as in -o -.",
    example: "hub wave examples/two_boards.hub x0=1 x1=2 --to 40",
    options: Options::of_circuit(
        &["from", "to", "start", "starts", "wires", "o", "format"],
        &["all"],
    ),
    run,
};

/// The most instants that are shown if the last isn't given, how many after the
/// finish, and how far a finish is looked for to tell what is cut.
pub const MOST: u32 = 240;
const AFTER: u32 = 2;
const LOOK: u32 = 100_000;

fn run(args: &Args) -> Result<Done, Stop> {
    let (file, words) = args.file_and_words()?;
    let (given, circuit, start) = started(args, file, words)?;
    let wires = choice::wires(
        &circuit,
        &given.bytes,
        args.value("wires"),
        args.flag("all"),
    )?;
    let from = instant(args, &circuit, "from")?.unwrap_or(0);
    let to = instant(args, &circuit, "to")?;
    let starts = starts(args, &circuit, to)?;
    let begin = || Course::begin(&circuit.file, &start, &starts);
    let mut course = begin().map_err(|met| given.refused(met))?;
    let (to, cut) = match to {
        Some(to) => (to, None),
        None => {
            let last = last(&mut course, &circuit.netlist, (from, MOST), &starts);
            last.map_err(|met| refused(&given, &circuit.netlist, &course, met))?
        }
    };
    if to < from {
        return Err(args
            .fault(format!("--to {to} is before --from {from}"))
            .into());
    }
    let probe = match starts.is_empty() {
        true => probe::probe(&circuit.netlist, &wires),
        false => None,
    };
    let waves = match probe {
        Some(file) => {
            let waves = probe::record(&file, &start, wires, from, to);
            waves.map_err(|met| given.refused(met))?
        }
        None => {
            course = begin().map_err(|met| given.refused(met))?;
            let cells = circuit.netlist.cells.len();
            let waves = record::record(&mut course, cells, wires, from, to);
            waves.map_err(|met| refused(&given, &circuit.netlist, &course, met))?
        }
    };
    shown(args, &circuit.names(), &waves, cut)
}

/// What isn't shown where --to isn't given: the last instant that is, and where the
/// finish is, if it was found.
#[derive(Clone, Copy)]
pub struct Cut {
    pub at: u32,
    pub of: Option<u32>,
}

impl Cut {
    pub fn line(&self) -> String {
        let at = grouped(self.at);
        match self.of {
            Some(of) => format!(
                "cut at {at} of {}: --to {} shows all\n",
                grouped(of),
                of + AFTER
            ),
            None => {
                let look = grouped(LOOK);
                format!("cut at {at}, and still open {look} later: --to N shows more\n")
            }
        }
    }
}

/// A number with a comma before each three digits.
pub fn grouped(number: u32) -> String {
    let digits = number.to_string();
    let mut text = String::new();
    for (k, digit) in digits.chars().enumerate() {
        if k > 0 && (digits.len() - k).is_multiple_of(3) {
            text.push(',');
        }
        text.push(digit);
    }
    text
}

/// An instant that is given, up to which the product takes a run.
pub fn instant(args: &Args, circuit: &Circuit, name: &str) -> Result<Option<u32>, Stop> {
    let Some(instant) = args.number(name)? else {
        return Ok(None);
    };
    check_reach(circuit, name, instant)?;
    Ok(Some(instant))
}

/// The product takes a run up to an instant that an option gives.
pub fn check_reach(circuit: &Circuit, name: &str, instant: u32) -> Result<(), Stop> {
    product::check_budget(&circuit.file, instant).map_err(|met| {
        let report = Report {
            remedy: format!("give a smaller --{name}"),
            ..refusals::plain(&format!("--{name}"), met)
        };
        report.into()
    })
}

/// The instants of second starts, none after the last that is shown.
pub fn starts(args: &Args, circuit: &Circuit, to: Option<u32>) -> Result<Vec<u32>, Stop> {
    let Some(value) = args.value("starts") else {
        return Ok(Vec::new());
    };
    let instants: Result<Vec<u32>, _> = value.split(',').map(str::parse).collect();
    let rise = |instants: &Vec<u32>| {
        instants.first() > Some(&0) && instants.is_sorted_by(|earlier, later| earlier < later)
    };
    let Some(instants) = instants.ok().filter(rise) else {
        let form = "wants instants after 0, the earlier first, with commas between them";
        return Err(args.fault(format!("--starts {form}, not '{value}'")).into());
    };
    for &start in &instants {
        check_reach(circuit, "starts", start)?;
        if let Some(to) = to.filter(|to| *to < start) {
            return Err(args
                .fault(format!("--starts {start} is after --to {to}"))
                .into());
        }
    }
    Ok(instants)
}

/// Why a run stops at a refusal, most likely of a start.
pub fn refused(given: &Given, netlist: &Netlist, course: &Course, met: Refusal) -> Stop {
    if met.number != 23 {
        return given.refused(met);
    }
    let name = format!("--starts {}", course.answer.instant + 1);
    Report {
        remedy: "start it again at a later instant".to_string(),
        ..refusals::of_state(&name, netlist, &course.state, met)
    }
    .into()
}

/// The last instant that is shown, at most so many after the first: a little after the
/// whole pulse of the finish that comes after the last start.
pub fn last(
    course: &mut Course,
    netlist: &Netlist,
    (from, most): (u32, u32),
    starts: &[u32],
) -> Result<(u32, Option<Cut>), Refusal> {
    let start = starts.last().copied().unwrap_or(0);
    let most = from.max(start) + most;
    course.reach(start)?;
    if !course.answer.ended {
        course.go(most)?;
    }
    if course.answer.ended {
        let falls = course.answer.instant + u32::from(netlist.pulse) - 1;
        return Ok(((falls + AFTER).clamp(from + AFTER, most), None));
    }
    course.go(most + LOOK)?;
    let of = course.answer.ended.then_some(course.answer.instant);
    Ok((most, Some(Cut { at: most, of })))
}

/// Puts waveforms out, in the format that is asked for, and tells what is cut.
pub fn shown(
    args: &Args,
    names: &Names,
    waves: &Waveforms,
    cut: Option<Cut>,
) -> Result<Done, Stop> {
    let format = output::format(args, &["vcd", "svg"], Some("text"), "a file of waves")?;
    let text = match format {
        "vcd" => vcd::vcd(waves),
        "svg" => svg::svg(waves),
        _ => terminal::terminal(waves),
    };
    let told = cut.map(|cut| cut.line()).unwrap_or_default();
    let file = args.value("o").filter(|name| *name != files::STANDARD);
    match file {
        None if format != "text" || args.flag("json") => {
            output::put(args, text, || json(names, waves, cut))
        }
        None => Ok(Done::printing(text + &told)),
        Some(name) => {
            let mut done = output::put(args, text, || Json::Null)?;
            if format == "vcd" {
                done.output.extend(beside(args, name, waves)?.into_bytes());
            }
            if !args.flag("json") {
                done.output.extend(told.into_bytes());
            }
            Ok(done)
        }
    }
}

/// Writes what GTKWave shows of a dump beside it, unless an author has saved there
/// what to show, and tells it.
fn beside(args: &Args, dump: &str, waves: &Waveforms) -> Result<String, Stop> {
    let name = format!("{}.gtkw", dump.strip_suffix(".vcd").unwrap_or(dump));
    let dump = dump.rsplit('/').next().unwrap_or(dump);
    let text = gtkw::gtkw(dump, waves);
    let saved = std::fs::read(&name).is_ok_and(|found| !found.starts_with(gtkw::OURS.as_bytes()));
    if !saved {
        files::write(&name, text.as_bytes())?;
    }
    Ok(match (args.flag("json"), saved) {
        (true, _) => String::new(),
        (false, true) => format!("{name}: left as it is, GTKWave has saved it\n"),
        (false, false) => format!("{name}: {} bytes\n", text.len()),
    })
}

fn json(names: &Names, waves: &Waveforms, cut_at: Option<Cut>) -> Json {
    let cut = |cut: Cut| {
        let of = Json::maybe(cut.of, Json::number);
        Json::Object(vec![("at", Json::number(cut.at)), ("of", of)])
    };
    let wires = waves.wires.iter().zip(&waves.values);
    Json::Object(vec![
        ("from", Json::number(waves.from)),
        ("to", Json::number(waves.to)),
        ("cut", Json::maybe(cut_at, cut)),
        (
            "wires",
            Json::list(wires, |(wire, values)| {
                let (cell, element) = match wire.shows {
                    Shows::Cell(cell) => (Json::number(cell), Json::Null),
                    Shows::Element(place) => (Json::Null, Json::text(names.at(place))),
                    Shows::InFlight | Shows::StartLeft => (Json::Null, Json::Null),
                };
                Json::Object(vec![
                    ("name", Json::text(&wire.name)),
                    ("cell", cell),
                    ("element", element),
                    ("values", Json::list(values, |value| Json::number(*value))),
                ])
            }),
        ),
    ])
}
