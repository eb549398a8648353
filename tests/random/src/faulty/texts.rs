//! Peers that go wrong about texts.

use super::tables::untimed;
use peers::{Peer, SECOND};
use values::Refusal;

/// Takes `;` for `||` and the other way round.
pub const MIXED_UP: Peer = Peer {
    name: "mixed up",
    read_text: |given, text, program| {
        let mut reply = (SECOND.read_text)(given, text, program);
        for node in reply.lent[0].chunks_mut(4) {
            match node[0] {
                19 => node[0] = 20,
                20 => node[0] = 19,
                _ => {}
            }
        }
        reply
    },
    ..SECOND
};

/// Doesn't count the blanks at the end of a text.
pub const TRIMMING: Peer = Peer {
    name: "trimming",
    read_text: |given, text, program| (SECOND.read_text)(given, text.trim_ascii_end(), program),
    ..SECOND
};

/// Reads no text of 4,096 bytes.
pub const SHORT_TEXTS: Peer = Peer {
    name: "short texts",
    read_text: |given, text, program| match text.len() {
        4096 => (SECOND.read_text)(given, &[b' '; 4097], program),
        _ => (SECOND.read_text)(given, text, program),
    },
    ..SECOND
};

/// Tells only at a text's end that its grammar is broken.
pub const LATE_PLACE: Peer = Peer {
    name: "late place",
    read_text: |given, text, program| {
        let mut reply = (SECOND.read_text)(given, text, program);
        if let Err(Refusal { number: 18, place }) = &mut reply.result {
            *place = text.len();
        }
        reply
    },
    ..SECOND
};

/// Refuses a text before its table.
pub const TEXT_FIRST: Peer = Peer {
    name: "text first",
    read_text: |given, text, program| {
        let first = (SECOND.read_text)(untimed(given), text, program);
        match first.result {
            Err(Refusal { number: 17.., .. }) => first,
            _ => (SECOND.read_text)(given, text, program),
        }
    },
    ..SECOND
};
