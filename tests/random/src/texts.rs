//! The texts that a program is tried as: typed with little and with much, too
//! long, damaged; and texts of random words.

use crate::typing::*;
use crate::xorshift::Random;
use second::calls;
use values::Given;

/// The longest text that is read.
pub const MOST_TEXT: usize = 4096;

const MOST_NODES: usize = 200;

/// Words for damage. After the first of them stand such as are no words, or
/// not everywhere.
const SURE_WORDS: usize = 30;
const WORDS: [&str; 40] = [
    "ok", "tick", "if", "then", "else", "end", "while", "do", "repeat", "until", ":=", "@", ";",
    "||", "{", "}", "(", ")", "!", "+", "-", "=", "<", "&", "|", "x0", "x15", "0", "7", "255",
    "256", "65535", "65536", "x16", "x01", "00", "Ok", "1x", ":", "_",
];

/// Words of which each may stand where another does.
const ALIKE: [&[&str]; 2] = [&["+", "-", "=", "<", "&", "|"], &[";", "||"]];

/// Bytes of words and others, for damage.
const BYTES: &[u8] = b"0123456789xokti@;|{}()!+-=<&: \n\t\r_~\x00\x7f\x80\xff";

/// A text and what is known of it.
pub struct Text {
    pub bytes: Vec<u8>,
    pub known: Known,
}

pub enum Known {
    /// It is the text of this program.
    Program(Vec<u8>),
    /// Its words begin a text, and may be one.
    Beginning,
    Nothing,
}

/// The texts of a program; bytes that are no tree, and programs with arrays,
/// loops or calls, which have no text, have random words alone.
pub fn texts(program: &[u8], random: &mut Random) -> Vec<Text> {
    let soup = unknown(soup(random));
    let untyped = [has_arrays, has_loops, has_calls];
    if !is_tree(program) || untyped.iter().any(|has| has(program)) {
        return vec![soup];
    }
    let program = match random.once_in(16) {
        true => too_long(program),
        false => program.to_vec(),
    };
    let fewest = with_fewest_brackets(&program);
    let more = with_more_brackets(&program, random);
    let bytes = match random.below(2) {
        0 => with_fewest_blanks(&fewest),
        _ => padded(with_more_blanks(&more, random), random),
    };
    let good = Text {
        bytes,
        known: Known::Program(program),
    };
    let beginning = Text {
        bytes: with_more_blanks(&more[..random.below(more.len())], random),
        known: Known::Beginning,
    };
    vec![good, beginning, unknown(damaged(&fewest, random)), soup]
}

/// Whether refusals 1 to 6 let a program pass.
fn is_tree(program: &[u8]) -> bool {
    calls::check(Given::NOTHING, program).map_or_else(|refusal| refusal.number > 6, |()| true)
}

/// Whether a program has a loop or an exit.
pub fn has_loops(program: &[u8]) -> bool {
    program
        .chunks_exact(4)
        .any(|node| [25, 26].contains(&node[0]))
}

/// Whether a program calls a procedure.
pub fn has_calls(program: &[u8]) -> bool {
    program.chunks_exact(4).any(|node| node[0] == 27)
}

/// Whether a program has an element or assigns to one.
pub fn has_arrays(program: &[u8]) -> bool {
    program.chunks_exact(4).any(is_of_array)
}

pub fn is_of_array(node: &[u8]) -> bool {
    [10, 24].contains(&node[0])
}

fn unknown(bytes: Vec<u8>) -> Text {
    Text {
        bytes,
        known: Known::Nothing,
    }
}

/// A program after itself, so often that it has too many nodes.
fn too_long(program: &[u8]) -> Vec<u8> {
    let mut longer = program.to_vec();
    while longer.len() <= 4 * MOST_NODES {
        longer = [&[19, 0, 0, 0], program, &longer].concat();
    }
    longer
}

/// Now and then a text about as long as one may be, and perhaps as deep.
fn padded(text: Vec<u8>, random: &mut Random) -> Vec<u8> {
    let length = MOST_TEXT - 1 + random.below(3);
    let room = length.saturating_sub(text.len());
    match random.below(16) {
        0 => [text, b" ".repeat(room)].concat(),
        1 => [b"{".repeat(room / 2), text, b"}".repeat(room / 2)].concat(),
        _ => text,
    }
}

fn soup(random: &mut Random) -> Vec<u8> {
    let words: Vec<String> = (0..random.below(12)).map(|_| word(random)).collect();
    with_more_blanks(&words, random)
}

fn word(random: &mut Random) -> String {
    let word = match random.once_in(20) {
        true => random.pick(&WORDS),
        false => random.pick(&WORDS[..SURE_WORDS]),
    };
    word.to_string()
}

/// A text of these words with a fault or some, in words or in bytes.
fn damaged(words: &[String], random: &mut Random) -> Vec<u8> {
    let mut words = words.to_vec();
    let (in_words, in_bytes) = random.pick(&[(1, 0), (2, 0), (4, 0), (1, 1), (0, 1), (0, 2)]);
    for _ in 0..in_words {
        damage_words(&mut words, random);
    }
    let mut bytes = match random.below(2) {
        0 => with_fewest_blanks(&words),
        _ => with_more_blanks(&words, random),
    };
    for _ in 0..in_bytes {
        damage_bytes(&mut bytes, random);
    }
    bytes
}

fn damage_words(words: &mut Vec<String>, random: &mut Random) {
    if words.is_empty() {
        return words.push(word(random));
    }
    let (place, other) = (random.below(words.len()), random.below(words.len()));
    match random.below(12) {
        0 => words.swap(place, other),
        1 => drop(words.remove(place)),
        2 => words.insert(place, words[place].clone()),
        3 => words.insert(place, word(random)),
        4 => words[place] = word(random),
        5 => words.truncate(place),
        _ => words[place] = one_like(&words[place], random),
    }
}

/// A word that may stand where this one stands, if there is another.
fn one_like(word: &str, random: &mut Random) -> String {
    let alike = ALIKE.iter().find(|alike| alike.contains(&word));
    match (alike, word.as_bytes()) {
        (Some(alike), _) => random.pick(alike).to_string(),
        (None, [b'x', ..]) => format!("x{}", random.below(16)),
        (None, [b'0'..=b'9', ..]) => random.pick(&[0, 1, 16, 17, 255]).to_string(),
        (None, _) => word.to_string(),
    }
}

fn damage_bytes(bytes: &mut Vec<u8>, random: &mut Random) {
    if bytes.is_empty() {
        return bytes.push(random.pick(BYTES));
    }
    let place = random.below(bytes.len());
    match random.below(4) {
        0 => bytes[place] = random.pick(BYTES),
        1 => drop(bytes.remove(place)),
        2 => bytes.insert(place, random.pick(BYTES)),
        _ => bytes.truncate(place),
    }
}

#[cfg(test)]
mod tests {
    use super::*;
    use crate::generate;
    use second::table::BUILT_IN;
    use std::collections::BTreeMap;

    /// How often texts met each refusal, 0 for none.
    fn met(wanted: fn(&Known) -> bool) -> BTreeMap<u8, u32> {
        let mut met = BTreeMap::new();
        for seed in 0..4_000 {
            let random = &mut Random::new(seed);
            let program = generate::program(random, &BUILT_IN, 1);
            let texts = texts(&program.bytes, random).into_iter();
            for text in texts.filter(|text| wanted(&text.known)) {
                let read = calls::read_text(Given::NOTHING, &text.bytes, &mut [0; 800]);
                *met.entry(read.map_or_else(|refusal| refusal.number, |_| 0))
                    .or_default() += 1;
            }
        }
        met
    }

    #[test]
    fn good_texts_are_read_or_too_long() {
        let met = met(|known| matches!(known, Known::Program(_)));
        assert!(met.keys().eq(&[0, 1, 17]), "{met:?}");
        assert!(met.values().all(|&times| times >= 10), "{met:?}");
    }

    #[test]
    fn damaged_texts_meet_every_refusal_of_a_text() {
        let met = met(|known| matches!(known, Known::Nothing));
        assert!(met.keys().eq(&[0, 1, 7, 8, 17, 18]), "{met:?}");
        assert!(met[&0] >= 100 && met[&18] >= 100, "{met:?}");
    }
}
