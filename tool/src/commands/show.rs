//! `hub show`: a run as a page that moves.

use super::wave::{grouped, instant, last, refused, starts, Cut};
use super::{started, Command, Stop};
use crate::args::{Args, Options};
use crate::json::Json;
use crate::output;
use crate::show::{page, recording};
use crate::types::Done;
use crate::wave::course::Course;

pub const COMMAND: Command = Command {
    name: "show",
    usage: "FILE [NAME=N ..] -o x.html [--start FILE] [--to B] [--starts S,..]",
    about: "makes a page of a run to look at in a browser: source, circuit and waves, which move",
    more: "The page is one file and needs no network. A statement is lit while it holds a pulse,\n\
        a wire while it is high; dots move through delays, and a merge keeps one for the side\n\
        that has come. A click on a wire or a cell adds its wave, a click on a frame folds it,\n\
        a click on the waves goes to that instant. Keys: left and right an instant, with Shift\n\
        to the next change, space plays. page.html#20 opens at instant 20. Without --to the page\n\
        goes to the last finish, at most 1,000 instants.",
    example: "hub show examples/two_boards.hub x0=3 x1=5 -o two_boards.html",
    options: Options::of_circuit(&["o", "start", "to", "starts"], &[]),
    run,
};

/// The most instants that are shown if the last isn't given, and of all.
const MOST: u32 = 1_000;
const LIMIT: u32 = 20_000;

fn run(args: &Args) -> Result<Done, Stop> {
    let (file, words) = args.file_and_words()?;
    let out = args.needed("o")?;
    if out != "-" && !out.ends_with(".html") {
        let message = format!("{out}: the name of a page ends with .html");
        return Err(args.fault(message).into());
    }
    let (given, circuit, start) = started(args, file, words)?;
    let to = instant(args, &circuit, "to")?;
    if let Some(to) = to.filter(|to| *to > LIMIT) {
        let most = grouped(LIMIT);
        let message =
            format!("--to {to}: a page shows at most {most} instants; 'hub wave' shows more");
        return Err(args.fault(message).into());
    }
    let starts = starts(args, &circuit, to)?;
    let begin = || Course::begin(&circuit.file, &start, &starts);
    let mut course = begin().map_err(|met| given.refused(met))?;
    let (to, cut) = match to {
        Some(to) => (to, None),
        None => {
            let last = last(&mut course, &circuit.netlist, (0, MOST), &starts);
            last.map_err(|met| refused(&given, &circuit.netlist, &course, met))?
        }
    };
    course = begin().map_err(|met| given.refused(met))?;
    let ran = recording::record(&mut course, &circuit.netlist, to);
    let ran = ran.map_err(|met| refused(&given, &circuit.netlist, &course, met))?;
    let note = cut.as_ref().map(Cut::line).unwrap_or_default();
    let title = [vec![given.name.clone()], words.to_vec()]
        .concat()
        .join(" ");
    let text = page(&circuit, &given.bytes, &ran, (&title, note.trim_end()))?;
    let mut done = output::put(args, text, || Json::Null)?;
    if out != "-" && !args.flag("json") {
        done.output.extend(note.into_bytes());
    }
    Ok(done)
}
