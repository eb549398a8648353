//! Lists of cells as files that commands take: the product accepts the netlist
//! that a list is wired to, or the refusal is told with its line.

use crate::commands::Stop;
use crate::files;
use crate::kinds::{ARRAY, MEMORY};
use crate::lines;
use crate::listing::{self, Listed};
use crate::names::Names;
use crate::product;
use crate::refusals;
use crate::types::{Refusal, Wiring};

/// The netlist of a list, and its file; of a functional circuit the last cells are looked
/// at too.
pub fn accepted(name: &str, text: &str, wiring: Wiring) -> Result<(Listed, Vec<u8>), Stop> {
    let listed = listing::wired(text).map_err(|wrong| wrong.fault(name))?;
    let refused = |met: Refusal| {
        let own = listed.lines.get(met.place).filter(|_| met.number == 12);
        let report = refusals::of_wired(files::shown(name), &listed.netlist, met);
        lines::lined(report, text, own.copied().flatten())
    };
    let file = product::write_netlist(&listed.netlist).map_err(refused)?;
    if wiring == Wiring::Functional {
        product::check_last(&file).map_err(refused)?;
    }
    Ok((listed, file))
}

/// The names that a list gives to its words and arrays; none where it gives no
/// other than the usual ones.
pub fn names(listed: &Listed) -> Names {
    let of = |kind: u8, usual: &str| {
        let cells = listed.netlist.cells.iter().zip(&listed.names);
        let own = cells.filter(|(cell, _)| cell.kind == kind);
        let named = own
            .enumerate()
            .map(|(k, (_, name))| name.clone().unwrap_or_else(|| format!("{usual}{k}")));
        named.collect::<Vec<String>>()
    };
    let usual = |names: &[String], usual: &str| {
        let numbers = names.iter().enumerate();
        numbers
            .into_iter()
            .all(|(k, name)| *name == format!("{usual}{k}"))
    };
    let (words, arrays) = (of(MEMORY, "x"), of(ARRAY, "a"));
    match usual(&words, "x") && usual(&arrays, "a") {
        true => Names::default(),
        false => Names {
            words,
            arrays,
            procedures: Vec::new(),
        },
    }
}
