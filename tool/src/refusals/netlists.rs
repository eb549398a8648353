//! Refusals 9 to 12, of netlists.

use super::{asking, plain, Report};
use crate::kinds::{ADDRESS, ARRAY, MEMORY};
use crate::layout::netlist_in;
use crate::product;
use crate::store::VARIABLES;
use crate::types::{Cell, Netlist, Refusal};

/// The report of a refusal that cells met which were wired by hand.
pub fn of_wired(name: &str, netlist: &Netlist, refusal: Refusal) -> Report {
    let report = plain(name, refusal);
    match refusal.number {
        12 => of_cell(report, netlist),
        27 => Report {
            found: Some(format!("pulse {}", netlist.pulse)),
            remedy: "write a pulse length from 1 to 8".into(),
            ..report
        },
        _ => report,
    }
}

pub fn of_file(mut report: Report, file: &[u8]) -> Report {
    let Refusal { number, place } = report.refusal;
    match number {
        9 => report.found = Some(format!("{} bytes", file.len())),
        12 => report = of_cell(report, &netlist_in(file)),
        _ => report.found = Some(format!("block {place}")),
    }
    report
}

/// Refusal 12: a cell, the number of memories, arrays that are cut off, or the
/// finish.
fn of_cell(mut report: Report, netlist: &Netlist) -> Report {
    let place = report.refusal.place;
    let Some(Cell { kind, delay, a, b }) = netlist.cells.get(place).copied() else {
        return of_all(report, netlist);
    };
    report.found = Some(format!(
        "cell {place} has kind {kind}, delay {delay}, a {a}, b {b}"
    ));
    if product::check_netlist(netlist).is_ok() {
        return of_last(report, netlist);
    }
    if asking::finish_alone(netlist) {
        report.rule = "the finish is a word wire".into();
        report.remedy = "name a control wire, of kinds 32 to 39, as the finish".into();
        return report;
    }
    let (rule, remedy) = match asking::wrong_field(netlist, place) {
        Some("delay") => ("this cell's delay doesn't fit its kind", "change its delay"),
        Some("a") => ("this cell's input a doesn't fit", INPUTS),
        Some("b") => ("this cell's input b doesn't fit", INPUTS),
        Some("array") => (
            "an array, or its address, belongs here: right after the sixteenth memory stand \
             the four arrays, each with its address behind it",
            "put the cells of arrays there, all eight; 'idle arrays' is a line for those that \
             nothing writes to",
        ),
        Some(_) => (
            "a cell of this kind doesn't belong here",
            "begin with start, ground and constant 0, put the arrays right after the sixteenth \
             memory, each with its address behind it, all of them nowhere else but there, \
             and use kinds that cells have",
        ),
        None => return report,
    };
    report.rule = rule.into();
    report.remedy = remedy.into();
    report
}

/// A netlist that is accepted, but not for a functional run.
fn of_last(report: Report, netlist: &Netlist) -> Report {
    let first = netlist.cells.len() - VARIABLES;
    let word = report.refusal.place.saturating_sub(first);
    Report {
        rule: format!(
            "the last sixteen cells of a functional circuit carry the words at the end, each kind 7 \
             with cell 2 as b, and this one, that of x{word}, does not"
        ),
        remedy: "run it without --functional; or end the list with sixteen lines 'or WIRE 2', \
             x0's first"
            .into(),
        ..report
    }
}

const INPUTS: &str = "name a cell of the right sort, control or word, an array for an element and \
    nowhere else; only a delay's input, a memory's data, an array's data and address, and a latch's \
    inputs may stand higher than the cell";

/// Refusal 12 with the number of cells as its place.
fn of_all(report: Report, netlist: &Netlist) -> Report {
    let counted = |kind: u8| {
        netlist
            .cells
            .iter()
            .filter(|cell| cell.kind == kind)
            .count()
    };
    let cells = netlist.cells.len();
    let memories = counted(MEMORY);
    if memories != VARIABLES {
        return Report {
            rule: "a netlist has exactly sixteen memories, kind 40".into(),
            remedy: "add memories, or take some away".into(),
            found: Some(format!("{memories} memories among {cells} cells")),
            ..report
        };
    }
    let (arrays, addresses) = (counted(ARRAY), counted(ADDRESS));
    Report {
        rule: "a netlist has four arrays, kind 42, each with its address, kind 43, behind it"
            .into(),
        remedy: "put all eight cells right after the sixteenth memory".into(),
        found: Some(format!("{arrays} arrays and {addresses} addresses")),
        ..report
    }
}
