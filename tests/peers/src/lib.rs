//! Implementations behind one boundary, so that a test runs against each and
//! a comparison takes any two.

mod both;
mod peer;
#[cfg(feature = "proved")]
mod proved;
mod second;

pub use both::BOTH;
pub use peer::{Bytes, Continue, Functional, Peer, Reply};
#[cfg(feature = "proved")]
pub use proved::{complaint, PROVED};
#[cfg(not(feature = "proved"))]
pub use second::SECOND as PROVED;
pub use second::SECOND;
