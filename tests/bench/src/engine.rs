//! What is measured: an engine that runs one workload.

use crate::tool::is_on_path;
use values::Words;

/// One run of an engine.
pub struct Measured {
    pub nanoseconds: u64,
    /// The memories at the end, by which engines are checked.
    pub words: Words,
}

pub struct Engine {
    /// The instants of a run; slow engines have fewer.
    pub instants: u32,
    pub run: Box<dyn Fn() -> Measured>,
}

impl Engine {
    pub fn new(instants: u32, run: impl Fn() -> Measured + 'static) -> Engine {
        let run = Box::new(run);
        Engine { instants, run }
    }
}

/// An engine's place in the table, whether or not it can be had here.
pub struct Row {
    pub name: &'static str,
    pub engine: Result<Engine, &'static str>,
}

impl Row {
    pub fn of(name: &'static str, engine: Engine) -> Row {
        let engine = Ok(engine);
        Row { name, engine }
    }

    /// The row of an engine that takes these tools.
    pub fn with_tools(name: &'static str, tools: &[&str], engine: impl FnOnce() -> Engine) -> Row {
        let present = tools.iter().all(|tool| is_on_path(tool));
        let engine = present.then(engine).ok_or("not on the PATH");
        Row { name, engine }
    }
}
