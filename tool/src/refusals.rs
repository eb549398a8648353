//! What is told of a refusal: the place, the rule in plain words, what to do.

mod asking;
mod calls;
mod long;
mod marks;
mod netlists;
mod programs;
mod rules;
mod texts;

pub use asking::{least_delay, settles};
pub use calls::run_by;
pub use long::of_long;
pub use marks::Mark;
pub use netlists::of_wired;
pub use rules::{rule, Counts, Rule, RULES};

use crate::input::{Form, Given};
use crate::json::Json;
use crate::layout::{in_flight_in, instant_in};
use crate::types::{Cell, Fault, Netlist, Refusal};

#[derive(Clone, Debug)]
pub struct Report {
    pub refusal: Refusal,
    /// The file, or the option, that is refused.
    pub file: String,
    pub rule: String,
    pub remedy: String,
    /// Places in the text, the refusal's own first.
    pub marks: Vec<Mark>,
    /// What stands at the place, where it is in no text.
    pub found: Option<String>,
    /// For 7 the least delay.
    pub least: Option<u8>,
    /// For 8 the variable or the array, and the nodes that use it, one on each
    /// side.
    pub variable: Option<u16>,
    pub array: Option<u16>,
    pub uses: Option<[usize; 2]>,
}

/// The report of a refusal of which nothing but its number is known.
pub fn plain(file: &str, refusal: Refusal) -> Report {
    let rule = rule(refusal.number);
    Report {
        refusal,
        file: file.to_string(),
        rule: rule
            .map_or("a rule that the tool doesn't know", |rule| rule.broken)
            .to_string(),
        remedy: rule
            .map_or("ask the makers", |rule| rule.remedy)
            .to_string(),
        marks: Vec::new(),
        found: None,
        least: None,
        variable: None,
        array: None,
        uses: None,
    }
}

/// The report of a refusal that a text, a program or a netlist met.
pub fn report(given: &Given, refusal: Refusal) -> Result<Report, Fault> {
    let report = plain(&given.name, refusal);
    Ok(match (refusal.number, given.form) {
        (19..=21, _) => match &given.aside.times {
            Some((name, bytes)) => of_times(name, bytes, refusal),
            None => report,
        },
        (27, _) => Report {
            file: "--pulse".to_string(),
            ..report
        },
        (13..=16 | 23 | 26, _) => report,
        (9..=12, _) => netlists::of_file(report, &given.bytes),
        (17, _) => texts::of_word(report, &given.bytes),
        (18, _) => texts::of_grammar(report, given),
        (_, Form::Text | Form::Short | Form::Outline) => programs::of_source(report, given)?,
        _ => programs::of_bytes(report, given),
    })
}

/// The report of a refusal that a state met in a run of a netlist: for 23 what is
/// under way, for 26 the delay, and the instant at which the run has left the state.
pub fn of_state(name: &str, netlist: &Netlist, state: &[u8], refusal: Refusal) -> Report {
    let report = plain(name, refusal);
    let instant = || instant_in(state);
    match refusal.number {
        23 if in_flight_in(state) == 0 => Report {
            rule: "a hub is started again only when its finish is low, and here it is still high"
                .to_string(),
            found: Some(format!("none in flight at instant {}", instant())),
            ..report
        },
        23 => Report {
            found: Some(format!(
                "{} in flight at instant {}",
                in_flight_in(state),
                instant()
            )),
            ..report
        },
        26 => {
            let crowded = |delay: &Cell| {
                let (place, Cell { delay, a, .. }) = (refusal.place, delay);
                format!(
                    "cell {place}, delay {delay} of {a}; the last good instant is {}",
                    instant()
                )
            };
            Report {
                found: netlist.cells.get(refusal.place).map(crowded),
                ..report
            }
        }
        27 => of_compact(name, netlist, refusal),
        _ => report,
    }
}

/// The report of refusal 27 of a netlist that is to have a compact state.
pub fn of_compact(name: &str, netlist: &Netlist, refusal: Refusal) -> Report {
    Report {
        rule: "a compact state is for pulses of one instant".to_string(),
        found: Some(format!("pulses of {} instants", netlist.pulse)),
        remedy: "begin the run without --compact, or compile the program without --pulse"
            .to_string(),
        ..plain(name, refusal)
    }
}

/// The report of a refusal that a table of operator times met.
pub fn of_times(name: &str, bytes: &[u8], refusal: Refusal) -> Report {
    let Refusal { number, place } = refusal;
    let byte = bytes.get(place);
    Report {
        found: match number {
            19 => Some(format!("{} bytes", bytes.len())),
            21 => byte.map(|byte| format!("byte {place} is {byte}")),
            _ => None,
        },
        ..plain(name, refusal)
    }
}

impl Report {
    /// As it is told to a reader.
    pub fn text(&self) -> String {
        let Refusal { number, .. } = self.refusal;
        let place = match self.marks.first() {
            Some(mark) => format!("{}:{}:{}", self.file, mark.line, mark.column),
            None => self.file.clone(),
        };
        let mut text = format!("{place}: refused {number}: {}\n", self.rule);
        text += &Mark::all_lines(&self.marks);
        if let Some(found) = &self.found {
            text += &format!("  found: {found}\n");
        }
        text + &format!("  to do: {}\n", self.remedy)
    }

    pub fn json(&self) -> Json {
        let counts = rule(self.refusal.number).and_then(|rule| rule.counts.name());
        Json::Object(vec![
            ("outcome", Json::text("refused")),
            ("number", Json::number(self.refusal.number)),
            ("place", Json::number(self.refusal.place)),
            ("counts", Json::maybe(counts, Json::text)),
            ("file", Json::text(&self.file)),
            ("rule", Json::text(&self.rule)),
            ("remedy", Json::text(&self.remedy)),
            ("found", Json::maybe(self.found.clone(), Json::Text)),
            ("marks", Json::list(&self.marks, Mark::json)),
            ("least", Json::maybe(self.least, Json::number)),
            ("variable", Json::maybe(self.variable, Json::number)),
            ("array", Json::maybe(self.array, Json::number)),
            (
                "uses",
                Json::maybe(self.uses, |uses| Json::list(uses, Json::number)),
            ),
        ])
    }
}
