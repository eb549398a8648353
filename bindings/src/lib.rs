//! The proved implementation for Rust: the functions of its archive
//! (`exports`), and the same calls with a result in place of the 48 bytes of a
//! reply, on bytes (`calls`), on functional circuits (`functional_calls`) and on cells
//! (`cell_calls`).

pub mod calls;
pub mod cell_calls;
pub mod exports;
pub mod functional_calls;
mod reply;

pub use reply::{replied, Kind, Reply};

/// The archive that is linked here.
pub const ARCHIVE: &str = env!("ARCHIVE");
