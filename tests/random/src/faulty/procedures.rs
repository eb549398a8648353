//! Peers that go wrong about procedures: a simulator about a call's merge, a
//! compiler about where a body starts, a check about what a side reaches.

use super::walking::{walked, Fault};
use crate::minimise::subtree_end;
use peers::{Peer, Reply, SECOND};
use second::cells::{fields, Field, Netlist, DELAY, MERGE, RETURN};
use second::netfile;
use values::{Cell, Given, Refusal, Shape};

const SEQUENCE: u8 = 19;
const SHARED: u8 = 25;

/// Keeps a lone b in a call's merge, as the merge of a parallel node does.
pub const LONE_B_KEPT: Peer = Peer {
    name: "lone b kept",
    begin: |format, file, words, state| {
        (SECOND.begin)(format, &with_plain_merges(file), words, state)
    },
    continue_by: |format, file, n, state| {
        (SECOND.continue_by)(format, &with_plain_merges(file), n, state)
    },
    start: |format, file, state| (SECOND.start)(format, &with_plain_merges(file), state),
    run_netlist: |file, words, budget, state| {
        (SECOND.run_netlist)(&with_plain_merges(file), words, budget, state)
    },
    ..SECOND
};

/// A good netlist file with every merge of a call made one of a parallel node.
fn with_plain_merges(file: &[u8]) -> Vec<u8> {
    let Ok(mut netlist) = netfile::read(file) else {
        return file.to_vec();
    };
    let returns = netlist.cells.iter_mut().filter(|cell| cell.kind == RETURN);
    returns.for_each(|cell| cell.kind = MERGE);
    netfile::write(&netlist)
}

/// Holds a on in a call's merge after its output.
pub const NOT_CLEARED: Peer = Peer {
    name: "not cleared",
    continue_by: |format, file, n, state| walked(Fault::NotCleared, format, file, n, state),
    ..SECOND
};

/// Starts a body with its caller's start, and not with its delay.
pub const DELAY_SKIPPED: Peer = Peer {
    name: "delay skipped",
    compile: |given, program, file| {
        let right = (SECOND.compile)(given, program, file);
        match right.result {
            Ok(shape) => undelayed(shape, right, file),
            Err(_) => right,
        }
    },
    ..SECOND
};

/// The netlist in which every cell but the call's merge that names a call's delay
/// names what feeds it, as far as the cells then keep the rules.
fn undelayed(shape: Shape, right: Reply<Shape>, file: &[u8]) -> Reply<Shape> {
    let length = values::layout::file_length(usize::from(shape.cells));
    let Netlist {
        pulse,
        mut cells,
        finish,
    } = netfile::read(&right.lent[0][..length]).expect("a compiled netlist");
    let is_return = |cell: &&Cell| cell.kind == RETURN;
    let returns = cells.iter().filter(is_return);
    let delays: Vec<u16> = returns.map(|cell| cell.a).collect();
    let before = cells.clone();
    for (number, cell) in cells.iter_mut().enumerate() {
        let Some((a, b)) = fields(cell.kind).filter(|_| cell.kind != RETURN) else {
            continue;
        };
        for (field, wire) in [(a, &mut cell.a), (b, &mut cell.b)] {
            let names = matches!(field, Field::Now(_) | Field::Earlier(_));
            if names && delays.contains(wire) {
                let fed_by = before[usize::from(*wire)].a;
                if cell.kind == DELAY || usize::from(fed_by) < number {
                    *wire = fed_by;
                }
            }
        }
    }
    (SECOND.write_netlist)(pulse, &Cell::all_bytes(&cells), finish, file)
}

/// Looks for a procedure that both sides of a parallel node call, and not for
/// one that they reach through others.
pub const NOT_THROUGH_CALLS: Peer = Peer {
    name: "not through calls",
    check: |given, program| Reply::lending_none(checked_by_calls(given, program.to_vec())),
    ..SECOND
};

/// The check, where a parallel node whose sides share a procedure only through
/// others is taken for a sequence.
fn checked_by_calls(given: Given, mut program: Vec<u8>) -> Result<(), Refusal> {
    loop {
        match (SECOND.check)(given, &program).result {
            Err(Refusal { number, place }) if number == SHARED && !both_call(&program, place) => {
                program[4 * place] = SEQUENCE;
            }
            other => return other,
        }
    }
}

/// Whether both sides of a parallel node have a call of one procedure.
fn both_call(program: &[u8], parallel: usize) -> bool {
    let nodes: Vec<&[u8]> = program.chunks_exact(4).collect();
    let middle = subtree_end(&nodes, parallel + 1);
    let end = subtree_end(&nodes, middle);
    let calls = |side: &[&[u8]]| -> Vec<u8> {
        let calls = side.iter().filter(|node| node[0] == 27);
        calls.map(|node| node[2]).collect()
    };
    let second = calls(&nodes[middle..end]);
    let first = calls(&nodes[parallel + 1..middle]);
    first.iter().any(|procedure| second.contains(procedure))
}
