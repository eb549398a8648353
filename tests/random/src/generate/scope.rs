//! What a part of a program may do, and what a body does.

/// A set of variables and arrays, as a mask: bit k stands for variable k, and
/// bit 16 + k for array k.
pub type Set = u32;

pub const VARIABLES: Set = 0xffff;
pub const FIRST_ARRAY: u16 = 16;

/// What a part may read, write and reach. Parallel sides get scopes that keep them
/// apart.
#[derive(Clone, Copy)]
pub struct Scope {
    pub reads: Set,
    pub writes: Set,
    /// The procedures that may be reached, as a mask.
    pub reaches: Set,
    /// Whether an exit may stand here.
    pub exits: bool,
}

/// What a body does, with all that it calls, and itself among what is reached. It
/// is kept for the callers.
#[derive(Clone, Copy, Default)]
pub struct Body {
    pub reads: Set,
    pub writes: Set,
    pub reaches: Set,
}

impl Scope {
    /// Whether a body may be called here.
    pub fn allows(self, body: Body) -> bool {
        let within = |part: Set, whole: Set| part & !whole == 0;
        within(body.reads, self.reads)
            && within(body.writes, self.writes)
            && within(body.reaches, self.reaches)
    }

    pub fn in_loop(self) -> Scope {
        Scope {
            exits: true,
            ..self
        }
    }

    pub fn without_writing(self, variable: u16) -> Scope {
        Scope {
            writes: self.writes & !(1 << variable),
            ..self
        }
    }
}
