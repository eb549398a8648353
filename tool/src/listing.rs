//! A netlist as a list, a line for each cell, and back. A list that people
//! write may name its cells; a number that is left out is an idle memory or,
//! behind the sixteenth memory, an idle array.

use crate::kinds::{idle_array, ARRAY, CELLS, IDLE, MEMORY};
use crate::layout;
use crate::lines::{self, Wrong};
use crate::store::{ARRAYS, VARIABLES};
use crate::template::{byte, word};
use crate::types::{Cell, Netlist};
use std::collections::{HashMap, HashSet};

/// A netlist from a list, with the line of each cell.
#[derive(Clone, Debug)]
pub struct Listed {
    pub netlist: Netlist,
    /// For each cell its line; an idle one that was left out has none.
    pub lines: Vec<Option<usize>>,
    /// The names that the list gives to its cells.
    pub names: Vec<Option<String>>,
}

/// A cell in words.
pub fn words_of(cell: &Cell) -> String {
    let field = |letter| match letter {
        'k' => cell.kind.to_string(),
        'd' => cell.delay.to_string(),
        'a' | 'n' => cell.a.to_string(),
        _ => cell.b.to_string(),
    };
    CELLS.write(cell.kind, field, |words| {
        cell_by(words, |_| None) == Ok(*cell)
    })
}

/// The list of a netlist, without those of its cells that are left out. `note` is what is
/// said of a cell, on its line.
pub fn list(
    netlist: &Netlist,
    left_out: &[bool],
    note: impl Fn(usize) -> Option<String>,
) -> String {
    let mut lines = vec![whole(netlist)];
    for (number, cell) in netlist.cells.iter().enumerate() {
        if left_out[number] {
            continue;
        }
        let words = words_of(cell);
        lines.push(match note(number) {
            Some(note) => format!("{number:4}  {words:<28}  # {note}"),
            None => format!("{number:4}  {words}"),
        });
    }
    lines.join("\n") + "\n"
}

/// What is said of the whole netlist; of pulses where they are longer than an
/// instant.
pub fn whole(netlist: &Netlist) -> String {
    let (count, finish) = (netlist.cells.len(), netlist.finish);
    match netlist.pulse {
        1 => format!("{count} cells, finish {finish}"),
        pulse => format!("{count} cells, finish {finish}, pulse {pulse}"),
    }
}

/// The netlist of a list.
pub fn wired(text: &str) -> Result<Listed, Wrong> {
    let entries = entries(text)?;
    let header = header(&entries)?;
    let placed = filled(&placed(&entries, header.count)?);
    let names = Names::of(&placed)?;
    let mut netlist = Netlist {
        cells: Vec::new(),
        finish: names
            .number(header.finish)
            .ok_or_else(|| Wrong::new(header.line, no_wire(header.finish)))?,
        pulse: header.pulse,
    };
    for slot in &placed {
        netlist.cells.push(match slot {
            Slot::Listed(entry) => cell_by(&entry.words, |name| names.number(name))
                .map_err(|why| Wrong::new(entry.line, why))?,
            Slot::Idle(cell) => *cell,
        });
    }
    Ok(Listed {
        netlist,
        lines: placed.iter().map(Slot::line).collect(),
        names: placed.iter().map(Slot::name).collect(),
    })
}

/// A line of a list that isn't empty.
struct Entry<'t> {
    line: usize,
    number: Option<usize>,
    name: Option<&'t str>,
    words: Vec<&'t str>,
}

fn entries(text: &str) -> Result<Vec<Entry<'_>>, Wrong> {
    let mut entries = Vec::new();
    for (at, line) in text.lines().enumerate() {
        let mut words = lines::words(line);
        let Some(&first) = words.first() else {
            continue;
        };
        let number = first.trim_end_matches(':').parse().ok();
        let name = first.strip_suffix(':').filter(|_| number.is_none());
        let counts = words.get(1).is_some_and(|word| word.starts_with("cells"));
        if (number.is_some() && !counts) || name.is_some() {
            words.remove(0);
        }
        if words.is_empty() {
            return Err(Wrong::new(at + 1, "a number or name with no cell after it"));
        }
        entries.push(Entry {
            line: at + 1,
            number: number.filter(|_| !counts),
            name,
            words,
        });
    }
    Ok(entries)
}

struct Header<'t> {
    line: usize,
    count: Option<usize>,
    finish: &'t str,
    pulse: u8,
}

/// The one line that tells the finish, and how many cells there are.
fn header<'t>(entries: &[Entry<'t>]) -> Result<Header<'t>, Wrong> {
    let mut headers = entries.iter().filter_map(|entry| {
        let said = said_of_whole(&entry.words)?;
        Some((entry.line, said))
    });
    let Some((line, (count, finish, pulse))) = headers.next() else {
        let why = "no line says which cell is the finish; write: finish CELL";
        return Err(Wrong::new(1, why));
    };
    if let Some((second, _)) = headers.next() {
        return Err(Wrong::new(second, "a second line about the finish"));
    }
    let count = count.map(|count| count.parse().unwrap_or(usize::MAX));
    if count.is_some_and(|count| count > layout::CELLS) {
        let most = format!("a netlist has at most {} cells", layout::CELLS);
        return Err(Wrong::new(line, most));
    }
    let pulse = pulse.map_or(Ok(1), byte);
    Ok(Header {
        line,
        count,
        finish,
        pulse: pulse.map_err(|why| Wrong::new(line, why))?,
    })
}

/// The number of cells, the finish and the pulse length, of a line that tells the
/// finish.
fn said_of_whole<'t>(words: &[&'t str]) -> Option<(Option<&'t str>, &'t str, Option<&'t str>)> {
    let (count, rest) = match words {
        [count, "cells,", rest @ ..] => (Some(*count), rest),
        rest => (None, rest),
    };
    match rest {
        ["finish", finish] => Some((count, finish, None)),
        ["finish", finish, "pulse", pulse] => Some((count, finish.strip_suffix(',')?, Some(pulse))),
        _ => None,
    }
}

fn is_header(entry: &Entry) -> bool {
    said_of_whole(&entry.words).is_some()
}

/// Each cell at its number; `None` is one that is left out.
fn placed<'e, 't>(
    entries: &'e [Entry<'t>],
    count: Option<usize>,
) -> Result<Vec<Option<&'e Entry<'t>>>, Wrong> {
    let said = |first: &str| entries.iter().filter(|e| e.words[0] == first).count();
    let memories = VARIABLES.saturating_sub(said("memory"));
    let arrays = 2 * ARRAYS.saturating_sub(said("array"));
    // Where no line is about arrays, all of them are idle.
    let about_arrays = |e: &Entry| e.words[0] == "array" || e.words == ["idle", "arrays"];
    let unsaid = if entries.iter().any(about_arrays) {
        0
    } else {
        arrays
    };
    let mut cells = Vec::new();
    for entry in entries.iter().filter(|entry| !is_header(entry)) {
        let number = entry.number.unwrap_or(cells.len());
        if number < cells.len() || number >= layout::CELLS {
            let why = format!("cell {number} stands after cell {}", cells.len() as i64 - 1);
            return Err(Wrong::new(entry.line, why));
        }
        cells.resize(number, None);
        match entry.words[..] {
            ["idle", "memories"] => cells.resize(number + memories + unsaid, None),
            ["idle", "arrays"] => cells.resize(number + arrays, None),
            _ => cells.push(Some(entry)),
        }
    }
    let count = count.unwrap_or(cells.len()).max(cells.len());
    cells.resize(count, None);
    Ok(cells)
}

/// A cell of a list, or one that is left out.
enum Slot<'e, 't> {
    Listed(&'e Entry<'t>),
    Idle(Cell),
}

impl Slot<'_, '_> {
    fn line(&self) -> Option<usize> {
        match self {
            Slot::Listed(entry) => Some(entry.line),
            Slot::Idle(_) => None,
        }
    }

    fn name(&self) -> Option<String> {
        match self {
            Slot::Listed(entry) => entry.name.map(String::from),
            Slot::Idle(_) => None,
        }
    }

    fn is_memory(&self) -> bool {
        match self {
            Slot::Listed(entry) => entry.words[0] == "memory",
            Slot::Idle(cell) => cell.kind == MEMORY,
        }
    }

    /// The name of an array, at its cell.
    fn array(&self) -> Option<String> {
        match self {
            Slot::Listed(entry) if entry.words[0] == "array" => {
                Some(entry.words.get(1)?.to_string())
            }
            Slot::Idle(cell) if cell.kind == ARRAY => Some(format!("a{}", cell.delay)),
            _ => None,
        }
    }
}

/// What is left out is idle: memories and, right behind the sixteenth, arrays.
fn filled<'e, 't>(placed: &[Option<&'e Entry<'t>>]) -> Vec<Slot<'e, 't>> {
    let mut memories = 0;
    let mut behind: Vec<Cell> = Vec::new();
    let mut slots = Vec::new();
    for entry in placed {
        let here = if behind.is_empty() {
            IDLE
        } else {
            behind.remove(0)
        };
        let slot = entry.map_or(Slot::Idle(here), Slot::Listed);
        memories += usize::from(slot.is_memory());
        if memories == VARIABLES && slot.is_memory() {
            behind = (0..ARRAYS as u8).flat_map(idle_array).collect();
        }
        slots.push(slot);
    }
    slots
}

/// The numbers of names: those that the list gives, `start`, `ground`, and
/// those of memories and arrays, `x0` to `x15` and `a0` to `a3`.
struct Names {
    numbers: HashMap<String, u16>,
}

impl Names {
    fn of(placed: &[Slot]) -> Result<Names, Wrong> {
        let mut numbers = HashMap::from([("start".to_string(), 0), ("ground".to_string(), 1)]);
        let memories = (0u16..).zip(placed).filter(|(_, slot)| slot.is_memory());
        for (variable, (number, _)) in memories.enumerate() {
            numbers.insert(format!("x{variable}"), number);
        }
        let arrays = (0u16..).zip(placed.iter().map(Slot::array));
        numbers.extend(arrays.filter_map(|(number, array)| Some((array?, number))));
        let mut given = HashSet::new();
        for (number, slot) in (0u16..).zip(placed) {
            let Slot::Listed(
                entry @ Entry {
                    name: Some(name), ..
                },
            ) = slot
            else {
                continue;
            };
            if !given.insert(name) {
                let why = format!("a second cell is called {name}");
                return Err(Wrong::new(entry.line, why));
            }
            numbers.insert(name.to_string(), number);
        }
        Ok(Names { numbers })
    }

    fn number(&self, name: &str) -> Option<u16> {
        name.parse()
            .ok()
            .or_else(|| self.numbers.get(name).copied())
    }
}

/// The cell that words stand for, names among them.
fn cell_by(words: &[&str], number: impl Fn(&str) -> Option<u16>) -> Result<Cell, String> {
    let (kind, fields) = CELLS.read(words)?;
    let mut cell = Cell {
        kind,
        delay: 0,
        a: 0,
        b: 0,
    };
    let wire = |name: &str| match name.parse() {
        Ok(wire) => Ok(wire),
        Err(_) => number(name).ok_or_else(|| no_wire(name)),
    };
    for (letter, value) in fields {
        match letter {
            'k' => cell.kind = byte(value)?,
            'd' => cell.delay = byte(value)?,
            'n' => cell.a = word(value)?,
            'm' => cell.b = word(value)?,
            'a' => cell.a = wire(value)?,
            _ => cell.b = wire(value)?,
        }
    }
    Ok(cell)
}

fn no_wire(name: &str) -> String {
    format!("no cell is called '{name}'; a wire is a cell's number, its name, start, ground, x0 to x15 or a0 to a3")
}
