//! Peers that go wrong about tables of operator times.

use peers::{Peer, SECOND};
use values::Given;

/// Checks by the built-in times whatever the table says.
pub const UNTIMED: Peer = Peer {
    name: "untimed",
    check: |given, program| (SECOND.check)(untimed(given), program),
    compile: |given, program, file| (SECOND.compile)(untimed(given), program, file),
    ..SECOND
};

pub fn untimed(given: Given) -> Given {
    Given {
        table: None,
        ..given
    }
}

/// Leaves a time of the table in the netlist's first block.
pub const TIMED_NETLIST: Peer = Peer {
    name: "timed netlist",
    compile: |given, program, file| {
        let mut reply = (SECOND.compile)(given, program, file);
        if let (Some(table), Ok(_)) = (given.table, reply.result) {
            reply.lent[0][511] = table[10];
        }
        reply
    },
    ..SECOND
};
