//! Peers that go wrong about whole programs and runs.

use peers::{Peer, Reply, SECOND};
use values::{End, Refusal};

/// Its rules take an instant too many for a program with a parallel node.
pub const SLOW_PARALLEL: Peer = Peer {
    name: "slow parallel",
    reference_run: |given, program, words, budget| {
        let parallel = program.chunks_exact(4).any(|node| node[0] == 20);
        let reply = (SECOND.reference_run)(given, program, words, budget);
        let late = |end: End| End {
            instant: end.instant + u32::from(parallel),
            ..end
        };
        Reply {
            result: reply.result.map(|end| end.map(late)),
            lent: reply.lent,
        }
    },
    ..SECOND
};

/// Says open one instant before the budget is used, and counts it anyway.
pub const EARLY_OPEN: Peer = Peer {
    name: "early open",
    continue_by: |format, file, n, state| {
        let mut reply = (SECOND.continue_by)(format, file, n.saturating_sub(1), state);
        if let Ok(answer) = &mut reply.result {
            answer.count += n.min(1);
        }
        reply
    },
    ..SECOND
};

/// Evaluates instant 0 and only copies it after, with the instant moved on.
pub const COPYING: Peer = Peer {
    name: "copying",
    continue_by: |format, file, n, state| {
        let mut reply = (SECOND.continue_by)(format, file, 0, state);
        if let Ok(answer) = &mut reply.result {
            answer.instant += n;
            answer.count = n;
            reply.lent[0][..4].copy_from_slice(&answer.instant.to_le_bytes());
        }
        reply
    },
    ..SECOND
};

/// Compiles every program to the netlist of ok.
pub const STOCK_NETLIST: Peer = Peer {
    name: "stock netlist",
    compile: |given, program, file| match (SECOND.check)(given, program).result {
        Ok(()) => (SECOND.compile)(given, &[16, 0, 0, 0], file),
        Err(_) => (SECOND.compile)(given, program, file),
    },
    ..SECOND
};

/// Refuses all programs, and says so everywhere.
pub const REFUSING: Peer = Peer {
    name: "refusing",
    check: |_, _| Reply {
        result: Err(NO),
        lent: vec![],
    },
    compile: |_, _, file| Reply {
        result: Err(NO),
        lent: vec![file.to_vec()],
    },
    ..SECOND
};

const NO: Refusal = Refusal::new(1, 0);
