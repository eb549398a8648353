//! Long texts: read as the product reads those that it reads, written and read back,
//! and held against a grammar as data.

use crate::long_typing::typed;
use crate::programs::{examples, programs, texts, top, Chance, Program};
use hub::source::{self, Broken, Said, Source};
use hub::types::{Beside, Refusal};
use hub::{format, product};
use second::long::{self, Fault};
use second::table::BUILT_IN;
use std::fs;

/// The tool's reading, with all delays.
fn read(text: &str, beside: Beside) -> Result<Source, Box<Broken>> {
    let mut source = source::read(text.as_bytes())?;
    source.settle(beside)?;
    Ok(source)
}

/// The proved reader's nodes are the tool's, where it has any.
fn read_alike(text: &str) -> bool {
    let Ok(bytes) = product::read_text(Beside::NOTHING, text.as_bytes()) else {
        return false;
    };
    let source = read(text, Beside::NOTHING).expect(text);
    assert_eq!(product::program_bytes(&source.nodes), bytes, "{text}");
    assert!(source.said.iter().all(|said| *said == Said::Plain));
    true
}

/// Each program of the vectors that has a short text, and those that are generated,
/// also with more brackets and blanks than are needed.
#[test]
fn short_texts_are_read_as_the_proved_reader_reads_them() {
    let mut programs = texts();
    for folder in ["compile", "program", "s05/compile", "s06/compile"] {
        let entries = fs::read_dir(top().join("tests/vectors").join(folder)).expect("vectors");
        let mut files: Vec<_> = entries.map(|entry| entry.expect("one").path()).collect();
        files.retain(|file| file.extension().is_some_and(|ending| ending == "prog"));
        let vectors = files.iter().map(|file| fs::read(file).expect("a vector"));
        programs.extend(vectors.filter(|bytes| {
            let accepted = product::check(Beside::NOTHING, bytes).is_ok();
            accepted && format::has_text(0, &product::nodes(bytes))
        }));
    }
    let mut chance = Chance(17);
    let mut alike = 0;
    for bytes in programs {
        let tree = format::tree(&product::nodes(&bytes)).expect("a tree");
        let text = format::format(&tree);
        alike += usize::from(read_alike(&text));
        alike += usize::from(read_alike(&loosened(&text, &mut chance)));
    }
    assert!(alike > 500, "{alike}");
}

/// A text with other blanks, and with brackets around some numbers and statements.
fn loosened(text: &str, chance: &mut Chance) -> String {
    let mut loose = String::new();
    let mut after_delay = false;
    for word in text.split_whitespace() {
        let bare = word.parse::<u16>().is_ok() && !after_delay;
        after_delay = word == "tick";
        let word = match chance.below(4) {
            0 if bare => format!("(({word}))"),
            1 if word == "ok" => "{{ok}}".to_string(),
            _ => word.to_string(),
        };
        let between = ["\n", "  ", " \n ", " "][chance.below(4)];
        loose += &format!("{word}{between}");
    }
    loose
}

/// Programs of all kinds, by their nodes alone.
#[test]
fn programs_of_all_kinds_give_their_nodes_back() {
    let mut kinds = [0; 28];
    for program in programs() {
        let nodes = product::nodes(&program.bytes);
        let source = Source::of_nodes(program.procedures, &nodes);
        let text = format::long(&source, &[]).expect("a tree");
        let back = read(&text, program.beside()).unwrap_or_else(|broken| {
            panic!("{broken:?}\n{text}");
        });
        assert_eq!(back.nodes, nodes, "{text}");
        assert_eq!(back.procedures, program.procedures, "{text}");
        for node in nodes {
            kinds[usize::from(node.kind)] += 1;
        }
    }
    let all = (1..=10).chain(16..=27);
    assert!(all.into_iter().all(|kind| kinds[kind] > 20), "{kinds:?}");
}

/// A delay that is left out is the least: one less is refused, and `@+3` is three more.
#[test]
fn delays_that_are_left_out_are_the_least() {
    let mut least = 0;
    for program in programs() {
        let nodes = product::nodes(&program.bytes);
        let mut source = Source::of_nodes(program.procedures, &nodes);
        let has = |kind: u8| matches!(kind, 18 | 21..=25 | 27);
        for more in [0, 3] {
            let said = |kind: u8| match has(kind) {
                true if more == 0 => Said::Least,
                true => Said::More(more, more.to_string()),
                false => Said::Plain,
            };
            source.said = nodes.iter().map(|node| said(node.kind)).collect();
            let text = format::long(&source, &[]).expect("a tree");
            let back = read(&text, program.beside()).expect(&text);
            let mut bytes = product::program_bytes(&back.nodes);
            assert_eq!(product::check(program.beside(), &bytes), Ok(()), "{text}");
            for (at, node) in nodes.iter().enumerate().filter(|(_, node)| has(node.kind)) {
                let delay = bytes[4 * at + 1];
                if let Some(less) = delay.checked_sub(more + 1) {
                    bytes[4 * at + 1] = less;
                    let met = product::check(program.beside(), &bytes);
                    assert_eq!(met, Err(Refusal::new(7, at)), "{text}");
                    least += 1;
                } else {
                    assert_eq!((node.kind, delay), (21, more));
                }
                bytes[4 * at + 1] = delay;
            }
        }
    }
    assert!(least > 2_000, "{least}");
}

/// A text that is written from its reading stands for the same, with its names, its
/// comments and what it leaves out, and is written the same again.
#[test]
fn long_texts_are_written_back() {
    let examples = examples().into_iter().map(|(_, text)| text);
    let typed = (0..1_500)
        .map(typed)
        .filter(|text| read(text, Beside::NOTHING).is_ok());
    let mut written = 0;
    for text in examples.chain(typed) {
        let source = read(&text, Beside::NOTHING).expect(&text);
        let made = format::long(&source, text.as_bytes()).expect("a tree");
        let back = read(&made, Beside::NOTHING).unwrap_or_else(|broken| {
            panic!("{broken:?}\n{text}\n{made}");
        });
        assert_eq!(back.nodes, source.nodes, "{text}\n{made}");
        assert_eq!(back.names, source.names, "{text}\n{made}");
        assert_eq!(back.said, source.said, "{text}\n{made}");
        let comments = |text: &str, source: &Source| -> Vec<String> {
            let spans = source.comments.iter();
            let mut all: Vec<String> = spans
                .map(|span| text[span.start..span.end].trim_end().to_string())
                .collect();
            all.sort();
            all
        };
        assert_eq!(comments(&made, &back), comments(&text, &source), "{made}");
        let again = format::long(&back, made.as_bytes()).expect("a tree");
        assert_eq!(again, made);
        written += 1;
    }
    assert!(written > 400, "{written}");
}

/// The grammar as data, read by Earley's method, takes what the tool takes, with the
/// same nodes and names, and is broken where the tool says so.
#[test]
fn a_grammar_as_data_agrees() {
    let (mut taken, mut words, mut order) = (0, 0, 0);
    for seed in 0..6_000 {
        let text = typed(seed);
        let pulse = [1, 1, 1, 2, 8][seed as usize % 5];
        let beside = Beside::pulse(pulse);
        let other = long::program(&text, pulse, &BUILT_IN);
        match (read(&text, beside), other) {
            (Ok(source), Ok(other)) => {
                let bytes = product::program_bytes(&source.nodes);
                assert_eq!(bytes, other.bytes, "{text}");
                assert_eq!(source.names.words, other.words, "{text}");
                assert_eq!(source.names.arrays, other.arrays, "{text}");
                assert_eq!(source.names.procedures, other.procedures, "{text}");
                assert_eq!(source.procedures, other.procedures.len(), "{text}");
                taken += 1;
            }
            (Err(broken), Err(fault)) => match (broken.number, fault) {
                (18, Fault::Order(place)) => {
                    assert_eq!(broken.span.start, place, "{text}");
                    order += 1;
                }
                // A name is looked at before the words behind it are.
                (17, Fault::Order(place)) => assert!(broken.span.start <= place, "{text}"),
                (17, Fault::Word(place)) => assert_eq!(broken.span.start, place, "{text}"),
                (17, Fault::Meaning) => words += 1,
                (number, fault) => panic!("{number} {fault:?} {broken:?}\n{text}"),
            },
            (tool, other) => panic!("{tool:?}\n{other:?}\n{text}"),
        }
        read_alike(&text);
    }
    assert!(
        taken > 1_500 && words > 500 && order > 500,
        "{taken} {words} {order}"
    );
}

/// What is accepted of a long text is asked of the product: a text and its outline, and
/// the bytes that are read, are one program.
#[test]
fn examples_are_accepted() {
    for (name, text) in examples() {
        let source = read(&text, Beside::NOTHING).expect(&name);
        let program = Program {
            procedures: source.procedures,
            pulse: 1,
            bytes: product::program_bytes(&source.nodes),
        };
        assert_eq!(
            product::check(program.beside(), &program.bytes),
            Ok(()),
            "{name}"
        );
    }
}
