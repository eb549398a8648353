//! The formats of a state.

/// What a state keeps of each line.
#[derive(Clone, Copy, Debug, PartialEq, Eq)]
pub enum Format {
    /// Its last 256 inputs.
    Full,
    /// The instants until its pulse comes out.
    Compact,
}

impl Format {
    pub const BOTH: [Format; 2] = [Format::Full, Format::Compact];
}
