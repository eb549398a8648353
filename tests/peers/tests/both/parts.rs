//! Parts joined: every vector, and splits of programs by hand.

use crate::vector::*;
use peers::BOTH;
use values::{Part, Refusal};

/// What a vector lends: programs, files and pulse lengths.
struct Lent {
    table: Option<Vec<u8>>,
    parts: Vec<(Vec<u8>, Vec<u8>, u8)>,
}

impl Lent {
    fn parts(&self) -> Vec<Part<'_>> {
        let mut parts = vec![];
        for (program, file, pulse) in &self.parts {
            let pulse = *pulse;
            parts.push(Part {
                program,
                file,
                pulse,
            });
        }
        parts
    }
}

/// The first line of `.given` has the number of parts, the second their pulse lengths.
fn lent(vector: &Vector) -> Lent {
    let given = vector.text("given");
    let pulses = given.lines().nth(1).unwrap_or_default().split_whitespace();
    let pulses = pulses.map(|pulse| pulse.parse().expect("a pulse length"));
    let part = |(i, pulse): (usize, u8)| {
        let program = vector.bytes(&format!("prog{i}"));
        (program, vector.bytes(&format!("net{i}")), pulse)
    };
    Lent {
        table: vector.may_have("table"),
        parts: pulses.enumerate().map(part).collect(),
    }
}

#[test]
fn parts_are_joined_or_refused_as_told() {
    for_each(&["s13/join"], "given", |vector, name| {
        let lent = lent(vector);
        let joined = (BOTH.join)(lent.table.as_deref(), &lent.parts(), &LENT);
        assert_eq!(shape_text(joined.result), vector.text("expect"), "{name}");
        let file = vector.may_have("joined").unwrap_or_default();
        assert_result(&joined, &file, name);
    });
}

/// A buffer that is a byte short is 14, and stays as it was.
#[test]
fn a_file_needs_its_room() {
    for_each(&["s13/join"], "joined", |vector, name| {
        let lent = lent(vector);
        let room = vec![7; vector.bytes("joined").len() - 1];
        let joined = (BOTH.join)(lent.table.as_deref(), &lent.parts(), &room);
        assert_eq!(joined.result, Err(Refusal::new(14, 0)), "{name}");
        assert_eq!(joined.lent[0], room, "{name}");
    });
}
