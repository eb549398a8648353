//! The 48 bytes of a reply, as crates/reply/specs/Replies.antt tells them.

use values::layout::{file_length, REPLY};
use values::{Answer, End, Refusal, Shape, Words};

#[derive(Clone, Copy, Debug, PartialEq, Eq)]
pub enum Kind {
    Done,
    Ended,
    Open,
    Refused,
}

#[derive(Clone, Copy, Debug, PartialEq, Eq)]
pub struct Reply {
    pub kind: Kind,
    pub number: u8,
    pub place: u32,
    /// A number of bytes or cells, or the instant.
    pub first: u32,
    /// The finish cell, or the count.
    pub second: u32,
    pub words: Words,
}

/// Lends bytes for a reply to a call and reads them. The bytes are not zero
/// at entry, so that one left unwritten shows.
pub fn replied(call: impl FnOnce(&mut [u8]) -> bool) -> Reply {
    let mut bytes = [0xa5; REPLY];
    assert!(call(&mut bytes), "48 bytes are enough for a reply");
    Reply::of_bytes(&bytes)
}

impl Reply {
    /// The refusal, if the call was refused.
    pub fn refusal(&self) -> Option<Refusal> {
        let refusal = Refusal::new(self.number, self.place as usize);
        (self.kind == Kind::Refused).then_some(refusal)
    }

    fn of_bytes(bytes: &[u8; REPLY]) -> Reply {
        assert_eq!(bytes[2..4], [0, 0], "bytes 2 and 3 of a reply are zero");
        let number = |at: usize| u32::from_le_bytes(bytes[at..at + 4].try_into().unwrap());
        Reply {
            kind: match bytes[0] {
                0 => Kind::Done,
                1 => Kind::Ended,
                2 => Kind::Open,
                3 => Kind::Refused,
                other => panic!("no reply has kind {other}"),
            },
            number: bytes[1],
            place: number(4),
            first: number(8),
            second: number(12),
            words: std::array::from_fn(|k| {
                u16::from_le_bytes([bytes[16 + 2 * k], bytes[17 + 2 * k]])
            }),
        }
    }
}

/// The reply of a call that isn't refused.
pub(crate) fn accepted(call: impl FnOnce(&mut [u8]) -> bool) -> Result<Reply, Refusal> {
    let told = replied(call);
    told.refusal().map_or(Ok(told), Err)
}

/// The shape of a netlist that a call wrote to a file: the reply tells the
/// file's length, the file its number of cells.
pub(crate) fn written(told: Reply, file: &[u8]) -> Shape {
    let cells = u16::from_le_bytes([file[2], file[3]]);
    let length = file_length(usize::from(cells));
    assert_eq!(told.first as usize, length, "the bytes written");
    let finish = two_bytes(told.second);
    Shape { cells, finish }
}

/// The shape of a netlist that a call read.
pub(crate) fn shape(told: Reply) -> Shape {
    Shape {
        cells: two_bytes(told.first),
        finish: two_bytes(told.second),
    }
}

fn two_bytes(number: u32) -> u16 {
    number.try_into().expect("a number of two bytes")
}

pub(crate) fn answer(told: Reply) -> Answer {
    Answer {
        ended: told.kind == Kind::Ended,
        instant: told.first,
        count: told.second,
        words: told.words,
    }
}

/// The end that a reference run tells. An open answer is held against
/// model/Calls here: it shows the budget, one instant more as its count, and no
/// words.
pub(crate) fn end(told: Reply, budget: u32) -> Option<End> {
    let (instant, words) = (told.first, told.words);
    assert_eq!(told.second, instant + 1, "the count of a reference run");
    if told.kind == Kind::Ended {
        return Some(End { instant, words });
    }
    assert_eq!((instant, words), (budget, [0; 16]));
    None
}
