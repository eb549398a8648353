//! Texts against programs: the text of a program is read to its bytes or met
//! by its refusals, and its beginnings are no sooner and no later broken than
//! where they end. What is refused beside a program comes before every text.

use crate::job::Job;
use crate::lend::{lent, lent_with};
use crate::texts::{texts, Known, Text, MOST_TEXT};
use crate::typing::{with_fewest_blanks, with_fewest_brackets};
use crate::xorshift::Random;
use peers::{Peer, Reply};
use values::{Given, Refusal};

/// The lengths of buffers lent for a program.
const ROOMS: [usize; 6] = [0, 4, 100, 799, 800, 801];

/// A peer on every text of a job's program.
pub fn compare(peer: &Peer, job: &Job) -> Result<(), String> {
    let reader = Reader {
        peer,
        given: job.given(),
    };
    for_each(job, |text, room| match job.refused_beside() {
        Some(refused) => same(&reader.read(&text.bytes, room), &refusing(refused, room)),
        None => compare_text(&reader, text, room),
    })
}

/// A peer that reads texts under one table.
struct Reader<'a> {
    peer: &'a Peer,
    given: Given<'a>,
}

impl Reader<'_> {
    fn read(&self, text: &[u8], room: usize) -> Reply<usize> {
        (self.peer.read_text)(self.given, text, &lent(room))
    }

    fn check(&self, program: &[u8]) -> Result<(), Refusal> {
        (self.peer.check)(self.given, program).result
    }
}

fn refusing(refused: Refusal, room: usize) -> Reply<usize> {
    Reply {
        result: Err(refused),
        lent: vec![lent(room)],
    }
}

/// Every text of a job's program, and the length of a buffer for a program.
pub fn for_each(
    job: &Job,
    compare: impl Fn(&Text, usize) -> Result<(), String>,
) -> Result<(), String> {
    let random = &mut Random::new(job.damage);
    for text in texts(&job.program, random) {
        let shown = text.bytes.escape_ascii();
        compare(&text, random.pick(&ROOMS))
            .map_err(|what| format!("{what}\ntext: b\"{shown}\""))?;
    }
    Ok(())
}

fn compare_text(reader: &Reader, text: &Text, room: usize) -> Result<(), String> {
    let bytes = &text.bytes;
    let read = reader.read(bytes, room);
    match (&text.known, read.result) {
        (Known::Program(program), _) => same(&read, &expected(reader, program, bytes.len(), room)),
        (Known::Beginning, _) => ends_too_early(reader, bytes),
        (Known::Nothing, Ok(length)) => read_back(reader, &read.lent[0][..length]),
        (Known::Nothing, Err(_)) => Ok(()),
    }
}

fn same(found: &Reply<usize>, expected: &Reply<usize>) -> Result<(), String> {
    if found.result != expected.result {
        let (found, expected) = (found.result, expected.result);
        return Err(format!("read_text says {found:?} instead of {expected:?}"));
    }
    if found.lent != expected.lent {
        return Err("read_text leaves other bytes".to_string());
    }
    Ok(())
}

/// What reading the text of a program replies, whatever the text is like.
fn expected(reader: &Reader, program: &[u8], text_length: usize, room: usize) -> Reply<usize> {
    let refusal = |number, place| Err(Refusal::new(number, place));
    let result = match reader.check(program) {
        _ if text_length > MOST_TEXT => refusal(17, MOST_TEXT),
        Err(refused) => Err(refused),
        Ok(()) if program.len() > room => refusal(14, 0),
        Ok(()) => Ok(program.len()),
    };
    let written = if result.is_ok() { program } else { &[] };
    Reply {
        result,
        lent: vec![lent_with(written, room)],
    }
}

/// A program that was read, typed again, is read to the same bytes.
fn read_back(reader: &Reader, program: &[u8]) -> Result<(), String> {
    let text = with_fewest_blanks(&with_fewest_brackets(program));
    let room = program.len();
    let read = reader.read(&text, room);
    same(&read, &expected(reader, program, text.len(), room))
}

/// The beginning of a text isn't broken before its end; of two signs that
/// never follow each other the one or the other breaks it.
fn ends_too_early(reader: &Reader, beginning: &[u8]) -> Result<(), String> {
    let end = beginning.len();
    if end + BROKEN.len() > MOST_TEXT {
        return Ok(());
    }
    let whole = reader.read(beginning, 0).result;
    if whole.is_err_and(|refused| refused.number >= 17 && refused != broken(end)) {
        return Err(format!("a beginning is {whole:?}"));
    }
    let longer = [beginning, BROKEN].concat();
    let refused = reader.read(&longer, 0).result.err();
    let mut places = [end + 1, end + 4].into_iter();
    if !places.any(|place| refused == Some(broken(place))) {
        return Err(format!("a beginning and two signs are {refused:?}"));
    }
    Ok(())
}

const BROKEN: &[u8] = b" := :=";

fn broken(place: usize) -> Refusal {
    Refusal::new(18, place)
}
