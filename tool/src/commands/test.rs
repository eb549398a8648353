//! `hub test`: runs of a program, held against what is expected of them.

use super::run::{agree, full_run, BUDGET};
use super::{Command, Stop};
use crate::answers::{counted, word};
use crate::args::{Args, Options};
use crate::cases::{Case, Cases, Expected};
use crate::input::{Circuit, Given};
use crate::json::Json;
use crate::names::Names;
use crate::refusals::Report;
use crate::store::Store;
use crate::types::{Answer, Done, DONE, REFUSED};
use crate::{files, lines, product, refusals};

pub const COMMAND: Command = Command {
    name: "test",
    usage: "CASES",
    about: "runs a program from many start words, and tells which runs are as expected",
    more: "CASES has a line 'program NAME', of a file beside it, or else NAME.cases is about\n\
        NAME.hub; and a line for each case: start words, an arrow, and what is expected:\n\
          \x20 x0=3 x1=5 -> end 96 x0=0 x1=0\n\
        'end N' is an end at that instant, 'open N' none up to it; without either the run has to\n\
        end. Words that aren't named may be as they are. Text after # is passed over. Each run is\n\
        also held against the rules. With --functional the functional circuit is run, whose times\n\
        are others. The exit status is 1 if a case isn't as expected.",
    example: "hub test examples/two_boards.cases",
    options: Options::of_circuit(&[], &[]),
    run,
};

fn run(args: &Args) -> Result<Done, Stop> {
    let [file] = args.exactly(["CASES"])?;
    let text = lines::read(file)?;
    let name = files::shown(file);
    let cases = Cases::of(&text).map_err(|wrong| wrong.fault(name))?;
    let program = cases.program_file(file);
    let given = Given::read(args, &program)?;
    let circuit = given.circuit()?;
    let names = circuit.names();
    let mut rows = Vec::new();
    for case in &cases.cases {
        let start = case.store(&names).map_err(|wrong| wrong.fault(name))?;
        let expected = case.expected(&names).map_err(|wrong| wrong.fault(name))?;
        let (answer, last) = ran(&given, &circuit, &start, case)?;
        let wrong = differences(&names, case, &expected, &answer, &last);
        rows.push((case, answer, wrong));
    }
    let failed = rows
        .iter()
        .filter(|(_, _, wrong)| !wrong.is_empty())
        .count();
    let output = match args.flag("json") {
        true => json(&given.name, &rows, failed).line(),
        false => table(&given.name, &rows, failed).into_bytes(),
    };
    let exit = if failed > 0 { REFUSED } else { DONE };
    Ok(Done { exit, output })
}

type Row<'c> = (&'c Case<'c>, Answer, Vec<String>);

/// The run of a case, which is held against the rules, too.
fn ran(
    given: &Given,
    circuit: &Circuit,
    start: &Store,
    case: &Case,
) -> Result<(Answer, Store), Stop> {
    let budget = match case.end {
        Expected::Open(budget) => budget,
        _ => BUDGET,
    };
    product::check_budget(&circuit.file, budget).map_err(|met| {
        let report = Report {
            remedy: "write a smaller number behind 'open'".to_string(),
            ..refusals::plain(&format!("line {}", case.line), met)
        };
        Stop::from(report)
    })?;
    let ran = full_run(circuit, start, budget).map_err(|met| given.refused(met))?;
    if let Some((program, _)) = &circuit.program {
        let end = product::reference(given.beside(), &program.bytes, start, budget);
        agree(&ran.0, Some(end.map_err(|met| given.refused(met))?))?;
    }
    Ok(ran)
}

/// What of a run isn't as expected.
fn differences(
    names: &Names,
    case: &Case,
    expected: &[(usize, u16)],
    answer: &Answer,
    last: &Store,
) -> Vec<String> {
    let mut all = Vec::new();
    match (case.end, answer.ended) {
        (Expected::At(instant), true) if instant != answer.instant => {
            all.push(format!("expected the end at {instant}"));
        }
        (Expected::At(_) | Expected::Some, false) => all.push("expected an end".to_string()),
        (Expected::Open(_), true) => all.push("expected no end".to_string()),
        _ => {}
    }
    for (place, value) in expected
        .iter()
        .filter(|(place, value)| last[*place] != *value)
    {
        let (name, found) = (names.at(*place), word(last[*place]));
        all.push(format!("{name} is {found}, expected {}", word(*value)));
    }
    all
}

fn outcome(answer: &Answer) -> String {
    let word = if answer.ended { "ended" } else { "open" };
    format!("{word} at {}", answer.instant)
}

fn table(program: &str, rows: &[Row], failed: usize) -> String {
    let start = |case: &Case| case.start.join(" ");
    let widths = rows.iter().map(|(case, ..)| start(case).len());
    let width = widths.max().unwrap_or(0).min(40);
    let mut text = format!("{program}:\n");
    for (case, answer, wrong) in rows {
        let mark = if wrong.is_empty() { "passed" } else { "failed" };
        let (line, start) = (case.line, start(case));
        let found = [vec![outcome(answer)], wrong.clone()].concat().join("; ");
        text += &format!("  line {line:3}  {start:width$}  {mark}  {found}\n");
    }
    let passed = rows.len() - failed;
    text + &format!(
        "{}: {passed} passed, {failed} failed\n",
        counted(rows.len(), "case")
    )
}

fn json(program: &str, rows: &[Row], failed: usize) -> Json {
    let row = |(case, answer, wrong): &Row| {
        Json::Object(vec![
            ("line", Json::number(case.line)),
            ("passed", Json::Bool(wrong.is_empty())),
            (
                "outcome",
                Json::text(if answer.ended { "ended" } else { "open" }),
            ),
            ("instant", Json::number(answer.instant)),
            ("differences", Json::list(wrong, Json::text)),
        ])
    };
    Json::Object(vec![
        ("file", Json::text(program)),
        ("cases", Json::list(rows, row)),
        ("passed", Json::number(rows.len() - failed)),
        ("failed", Json::number(failed)),
    ])
}
