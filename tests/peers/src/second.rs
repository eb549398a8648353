//! The crate `second` as a peer.

use crate::peer::{implementation, Peer};
use ::second::{calls, cell_calls, functional_calls, hubrun, hubtext};

pub const SECOND: Peer = implementation! {
    name: "second",
    hubrun_text: |input| hubrun::text(input).into_bytes(),
    hubtext_bytes: hubtext::output,
};
