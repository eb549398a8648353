//! `hub delays`: the text as it stood, with the least delays.

use crate::programs::{programs, Chance};
use hub::types::{Beside, Refusal};
use hub::{commands, format, product, source};
use std::fs;

/// What the command writes for a text in a file of its own.
fn rewritten(text: &str, name: &str) -> String {
    let file = std::env::temp_dir().join(format!("hub-delays-{}-{name}", std::process::id()));
    fs::write(&file, text).expect("a file");
    let words = ["delays", file.to_str().expect("a name in letters")].map(String::from);
    let told = commands::run(&words);
    fs::remove_file(&file).expect("it goes");
    assert_eq!((told.exit, &*told.error), (0, ""), "{text}");
    String::from_utf8(told.output).expect("a text")
}

/// Too small, too big or left out: each delay becomes the least, and a tick's stays.
#[test]
fn every_delay_becomes_the_least() {
    let mut chance = Chance(9);
    let mut least = 0;
    for program in programs()
        .iter()
        .filter(|program| program.pulse == 1)
        .take(120)
    {
        let mut source =
            source::Source::of_nodes(program.procedures, &product::nodes(&program.bytes));
        let delayed = |kind: u8| matches!(kind, 18 | 21..=25 | 27);
        for node in source.nodes.iter_mut().filter(|node| delayed(node.kind)) {
            node.delay = chance.below(256) as u8;
        }
        let text = format::long(&source, &[]).expect("a tree");
        let made = rewritten(&text, "long.hub");
        let mut back = source::read(made.as_bytes()).expect(&made);
        back.settle(Beside::NOTHING).expect(&made);
        let beside = program.beside();
        let mut bytes = product::program_bytes(&back.nodes);
        assert_eq!(product::check(beside, &bytes), Ok(()), "{made}");
        for (at, node) in back.nodes.iter().enumerate() {
            if delayed(node.kind) && node.delay > 0 {
                bytes[4 * at + 1] -= 1;
                assert_eq!(
                    product::check(beside, &bytes),
                    Err(Refusal::new(7, at)),
                    "{made}"
                );
                bytes[4 * at + 1] += 1;
                least += 1;
            } else {
                assert_eq!(
                    node.delay,
                    source.nodes[at].delay * u8::from(!delayed(node.kind))
                );
            }
        }
    }
    assert!(least > 500, "{least}");
}

/// All but the delays is as it stood.
#[test]
fn the_rest_stays_as_it_stands() {
    let text = "# a comment\nword left\n\twhile   left do  # here\n left:=left-1@+3;tick 0x9 end\n";
    let made =
        "# a comment\nword left\n\twhile   left @1 do  # here\n left:=left-1@17;tick 0x9 end\n";
    assert_eq!(rewritten(text, "stays.hub"), made);
    let outline = "while @9\n  variable x0  # a word\n  assign x0 @3\n    constant 5\n";
    let made = "while @1\n  variable x0  # a word\n  assign x0 @1\n    constant 5\n";
    assert_eq!(rewritten(outline, "stays.outline"), made);
}
