//! Peers that go wrong about netlists as cells.

use peers::{Peer, Reply, SECOND};
use values::{Cell, Refusal, Shape};

/// Moves the value of a constant as if it were the number of a cell.
pub const MOVED_CONSTANTS: Peer = Peer {
    name: "moved constants",
    read_cells: |file, at, cells| {
        reread(file, at, cells, |cell| {
            if cell.kind == 1 {
                cell.a = cell.a.wrapping_add(at as u16);
            }
        })
    },
    ..SECOND
};

/// Moves the a of a cell and not its b.
pub const STAYING_B: Peer = Peer {
    name: "staying b",
    read_cells: |file, at, cells| {
        reread(file, at, cells, |cell| match cell.kind {
            1 | 3 | 32..=34 => {}
            _ => cell.b = cell.b.wrapping_sub(at as u16),
        })
    },
    ..SECOND
};

/// Moves an a that would pass the last number to that number.
pub const UNWRAPPED: Peer = Peer {
    name: "unwrapped",
    read_cells: |file, at, cells| {
        reread(file, at, cells, |cell| match cell.kind {
            1 | 32 | 33 => {}
            _ => cell.a = cell.a.wrapping_sub(at as u16).saturating_add(at as u16),
        })
    },
    ..SECOND
};

/// Reads cells and then changes those that it has put in.
fn reread(
    file: &[u8],
    at: usize,
    cells: &[Cell],
    change: impl Fn(&mut Cell),
) -> Reply<Shape, Cell> {
    let mut reply = (SECOND.read_cells)(file, at, cells);
    if let Ok(shape) = reply.result {
        let read = reply.lent[0].iter_mut().skip(at).take(shape.cells as usize);
        read.for_each(change);
    }
    reply
}

/// Tells the finish by its number behind the other cells.
pub const MOVED_FINISH: Peer = Peer {
    name: "moved finish",
    read_cells: |file, at, cells| {
        let mut reply = (SECOND.read_cells)(file, at, cells);
        if let Ok(shape) = &mut reply.result {
            shape.finish = shape.finish.wrapping_add(at as u16);
        }
        reply
    },
    ..SECOND
};

/// Wants one cell more than it reads.
pub const ROOM_TO_SPARE: Peer = Peer {
    name: "room to spare",
    read_cells: |file, at, cells| match cells.split_last() {
        None => (SECOND.read_cells)(file, at, cells),
        Some((last, rest)) => {
            let mut reply = (SECOND.read_cells)(file, at, rest);
            reply.lent[0].push(*last);
            reply
        }
    },
    ..SECOND
};

/// Takes a finish that is no cell for cell 0.
pub const ABSENT_FINISH: Peer = Peer {
    name: "absent finish",
    check_cells: |cells, finish| {
        let mut reply = (SECOND.check_cells)(cells, finish);
        if let Err(Refusal { number: 11, .. }) = reply.result {
            reply.result = (SECOND.check_cells)(cells, 0).result;
        }
        reply
    },
    ..SECOND
};
