//! Waveforms: the values of named wires over a stretch (`record`) of a run (`course`), or
//! of two (`both`), as VCD (`vcd`), as a picture (`svg`) or as characters (`terminal`).

pub mod both;
pub mod choice;
pub mod course;
pub mod gtkw;
pub mod named;
pub mod probe;
pub mod record;
pub mod scopes;
pub mod svg;
pub mod terminal;
pub mod vcd;

/// A wire that is shown.
#[derive(Clone, Debug, PartialEq, Eq)]
pub struct Wire {
    /// As `start`, `x0`, `a2[5]`, or for a statement `line3.while.start`.
    pub name: String,
    /// What it belongs to, in words; may be empty.
    pub about: String,
    /// The statements around it, the outermost first.
    pub scope: Vec<String>,
    pub shows: Shows,
    pub control: bool,
}

/// What a wire shows: a cell, an element by its place in the store, how many
/// pulses are in flight, or for how many instants the start stays high.
#[derive(Clone, Copy, Debug, PartialEq, Eq)]
pub enum Shows {
    Cell(u16),
    Element(usize),
    InFlight,
    StartLeft,
}

/// The values of wires from one instant up to another, that one too.
#[derive(Clone, Debug, PartialEq, Eq)]
pub struct Waveforms {
    pub from: u32,
    pub to: u32,
    pub wires: Vec<Wire>,
    /// For each wire, a value for each instant.
    pub values: Vec<Vec<u32>>,
    /// For each wire, the instants that are marked, counted from the first.
    pub marks: Vec<Vec<usize>>,
}

impl Waveforms {
    /// Those of wires without marks.
    pub fn of(from: u32, to: u32, wires: Vec<Wire>, values: Vec<Vec<u32>>) -> Waveforms {
        let marks = vec![Vec::new(); wires.len()];
        Waveforms {
            from,
            to,
            wires,
            values,
            marks,
        }
    }
}

/// A stretch of instants in which a wire keeps a value: from, up to, value;
/// both ends count from the first instant.
pub type Stretch<T> = (usize, usize, T);

/// The stretches of a wire's values.
pub fn stretches<T: PartialEq>(values: impl IntoIterator<Item = T>) -> Vec<Stretch<T>> {
    let mut all: Vec<Stretch<T>> = Vec::new();
    for (at, value) in values.into_iter().enumerate() {
        match all.last_mut() {
            Some(last) if last.2 == value => last.1 = at + 1,
            _ => all.push((at, at + 1, value)),
        }
    }
    all
}

/// The distance of the instants that an axis names: 1, 2 or 5 times a power of
/// ten, at least so much.
pub fn axis_step(least: usize) -> usize {
    let powers = (0..7).map(|k| 10usize.pow(k));
    let mut steps = powers.flat_map(|power| [power, 2 * power, 5 * power]);
    steps.find(|step| *step >= least).unwrap_or(least)
}
