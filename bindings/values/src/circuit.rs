//! The circuits that a program is compiled to.

#[derive(Clone, Copy, Debug, PartialEq, Eq)]
pub enum Circuit {
    /// A control, and memories that it changes.
    Imperative,
    /// Each part hands the words on to the next.
    Functional,
}

impl Circuit {
    pub const BOTH: [Circuit; 2] = [Circuit::Imperative, Circuit::Functional];
}
