//! Parts joined: the peers with each other, and with compiling the whole sequence.
//! Some lists of parts are damaged: files are another's, have a fault or are functional,
//! programs have faults, pulse lengths differ, or there are too many parts or nodes.

use crate::damage;
use crate::generate::{self, Program};
use crate::job;
use crate::lend::{file_length, lent, MOST_FILE, MOST_FUNCTIONAL_FILE};
use crate::tables;
use crate::xorshift::Random;
use peers::{Peer, Reply};
use second::parts;
use second::table::{Times, BUILT_IN};
use values::{Part, Shape, Table};

/// The most nodes that the parts and the sequences between them have.
const MOST_NODES: usize = 200;

/// Statements that have no cell or no end: ok, a loop without exits, and one whose
/// exit is its first node.
const SHORT: [&[u8]; 3] = [
    &[16, 0, 0, 0],
    &[25, 9, 0, 0, 17, 1, 0, 0],
    &[25, 9, 0, 0, 26, 0, 0, 0],
];

/// What a list of parts came to: joined, or a refusal's number.
pub type Met = Option<u8>;

struct Owned {
    program: Vec<u8>,
    file: Vec<u8>,
    pulse: u8,
}

/// Compares what both make of a random list of parts.
pub fn compare(left: &Peer, right: &Peer, random: &mut Random) -> Result<Met, String> {
    let times = random.once_in(2).then(|| tables::times(random));
    let table = times.as_ref().map(|times| times.file().to_vec());
    let table = table.as_deref();
    let mut owned = list(left, table, times.as_ref().unwrap_or(&BUILT_IN), random);
    if random.once_in(2) {
        damage(left, table, &mut owned, random);
    }
    let parts: Vec<Part> = owned.iter().map(part).collect();
    let room = match random.once_in(12) {
        true => random.pick(&[0, 511, 512, 1_023]),
        false => MOST_FILE,
    };
    let file = lent(room);
    let joined = (left.join)(table, &parts, &file);
    if joined != (right.join)(table, &parts, &file) {
        return Err(report("joined differently", table, &parts));
    }
    if let Err(refusal) = joined.result {
        if joined.lent[0] != file {
            return Err(report("refused, yet lent bytes changed", table, &parts));
        }
        return Ok(Some(refusal.number));
    }
    same_as_the_whole(right, table, &parts, &file, joined)
}

fn same_as_the_whole(
    peer: &Peer,
    table: Table,
    parts: &[Part],
    file: &[u8],
    joined: Reply<Shape>,
) -> Result<Met, String> {
    let given = parts::given(table, &parts[0]);
    if joined != (peer.compile)(given, &parts::whole(parts), file) {
        return Err(report("not the whole's file", table, parts));
    }
    Ok(None)
}

fn part(owned: &Owned) -> Part<'_> {
    Part {
        program: &owned.program,
        file: &owned.file,
        pulse: owned.pulse,
    }
}

/// Two to eight parts that may be joined, now and then others.
fn list(peer: &Peer, table: Table, times: &Times, random: &mut Random) -> Vec<Owned> {
    let count = match random.below(16) {
        0 => random.pick(&[0, 1, 9, 10]),
        _ => random.between(2, 8),
    };
    let (pulse, mut left) = (job::pulse(random), MOST_NODES);
    let mut parts = vec![];
    for i in 0..count {
        let most = left.saturating_sub(2 * (count - i)) / (count - i).min(2) + 1;
        let program = program(times, pulse, most, random);
        left = left.saturating_sub(program.len() / 4 + 1);
        let file = compiled(peer, table, &program, pulse);
        parts.push(Owned {
            program,
            file,
            pulse,
        });
    }
    parts
}

/// A program without procedures of at most so many nodes.
fn program(times: &Times, pulse: u8, most: usize, random: &mut Random) -> Vec<u8> {
    for _ in 0..12 {
        let Program { procedures, bytes } = generate::program(random, times, pulse);
        if procedures == 0 && bytes.len() <= 4 * most {
            return bytes;
        }
    }
    random.pick(&SHORT).to_vec()
}

fn compiled(peer: &Peer, table: Table, program: &[u8], pulse: u8) -> Vec<u8> {
    let given = parts::given(
        table,
        &Part {
            program,
            file: &[],
            pulse,
        },
    );
    written((peer.compile)(given, program, &lent(MOST_FILE)))
}

/// A file that was written, or none.
fn written(reply: Reply<Shape>) -> Vec<u8> {
    let length = reply
        .result
        .map_or(0, |shape| file_length(shape.cells.into()));
    reply.lent[0][..length].to_vec()
}

fn damage(peer: &Peer, table: Table, parts: &mut [Owned], random: &mut Random) {
    if parts.is_empty() {
        return;
    }
    let (i, j) = (random.below(parts.len()), random.below(parts.len()));
    match random.below(7) {
        0 => parts[i].file = damage::netlist(&parts[i].file, random),
        1 => parts[i].file = parts[j].file.clone(),
        2 => parts[i].pulse = job::pulse(random),
        3 => {
            parts[i].pulse = job::pulse(random);
            parts[i].file = compiled(peer, table, &parts[i].program, parts[i].pulse);
        }
        4 => {
            let functional = peer.functional.compile;
            let room = lent(MOST_FUNCTIONAL_FILE);
            let file = written(functional(table, &parts[i].program, &room));
            parts[i].file = file;
        }
        5 => {
            let program = Program {
                procedures: 0,
                bytes: parts[i].program.clone(),
            };
            parts[i].program = damage::program(&program, random).bytes;
        }
        _ => {
            parts[i].program = parts[j].program.clone();
            parts[i].file = parts[j].file.clone();
        }
    }
}

fn report(what: &str, table: Table, parts: &[Part]) -> String {
    let programs: Vec<_> = parts
        .iter()
        .map(|part| (part.program, part.pulse, part.file.len()))
        .collect();
    format!(
        "join: {what}\ntable: {table:?}\nprograms, pulse lengths, lengths of files: {programs:?}"
    )
}
