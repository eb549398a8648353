//! Peers that go wrong about arrays: simulators that walk over all cells at each
//! instant, and a check.

use super::walking::{walked, Fault};
use crate::minimise::subtree_end;
use crate::texts::is_of_array;
use peers::{Continue, Peer, SECOND};
use values::{Given, Refusal};

/// Goes wrong about nothing, so that its faults are those told below.
pub const WALKING: Peer = faulty("walking", |format, file, n, state| {
    walked(Fault::None, format, file, n, state)
});

/// Writes to the address of the fall itself, where that wire is already 0.
pub const ADDRESS_OF_THE_FALL: Peer = faulty("address of the fall", |format, file, n, state| {
    walked(Fault::AddressOfTheFall, format, file, n, state)
});

/// Takes seven bits of an index, and so comes into the next array.
pub const SEVEN_BITS: Peer = faulty("seven bits", |format, file, n, state| {
    walked(Fault::SevenBits, format, file, n, state)
});

/// Shows the element as it was before the write of this instant.
pub const STALE_READ: Peer = faulty("stale read", |format, file, n, state| {
    walked(Fault::StaleRead, format, file, n, state)
});

const fn faulty(name: &'static str, continue_by: Continue) -> Peer {
    Peer {
        name,
        continue_by,
        ..SECOND
    }
}

/// Takes an array on the two sides of a parallel node for two arrays.
pub const ARRAYS_APART: Peer = Peer {
    name: "arrays apart",
    check: |given, program| {
        let mut reply = (SECOND.check)(given, program);
        if let Err(Refusal { number: 8, place }) = reply.result {
            if passes_apart(given, program, place) {
                reply.result = Ok(());
            }
        }
        reply
    },
    ..SECOND
};

/// Whether a program passes if the second side of a parallel node has other
/// arrays in place of its own.
fn passes_apart(given: Given, program: &[u8], parallel: usize) -> bool {
    let nodes: Vec<&[u8]> = program.chunks_exact(4).collect();
    let second = subtree_end(&nodes, parallel + 1);
    let side = 4 * second..4 * subtree_end(&nodes, second);
    (1..4).any(|turn| {
        let mut apart = program.to_vec();
        for node in apart[side.clone()].chunks_exact_mut(4) {
            if is_of_array(node) {
                node[2] = (node[2] + turn) % 4;
            }
        }
        (SECOND.check)(given, &apart).result.is_ok()
    })
}
