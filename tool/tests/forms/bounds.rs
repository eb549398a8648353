//! Bounds: worked out by hand, and on generated programs held against runs.

use crate::programs::{programs, Chance};
use hub::bound::{bounds, Bound, Lack, Span, Takes};
use hub::store::LENGTH;
use hub::types::Beside;
use hub::{product, source};

fn span(least: u32, most: u32) -> Span {
    Span {
        least: Ok(least),
        most: Ok(most),
    }
}

fn at_least(least: u32) -> Span {
    Span {
        least: Ok(least),
        most: Err(Lack::None),
    }
}

const NEVER: Span = Span::NEVER;

fn of(text: &str, pulse: u8) -> Vec<Bound> {
    let mut source = source::read(text.as_bytes()).expect(text);
    source.settle(Beside::pulse(pulse)).expect(text);
    let beside = Beside {
        procedures: source.procedures,
        ..Beside::pulse(pulse)
    };
    let bytes = product::program_bytes(&source.nodes);
    assert_eq!(product::check(beside, &bytes), Ok(()), "{text}");
    bounds(beside, &source.nodes)
}

fn takes(text: &str, pulse: u8) -> Vec<Takes> {
    of(text, pulse)
        .into_iter()
        .map(|bound| bound.takes)
        .collect()
}

#[test]
fn parts_and_rounds_take_what_the_page_says() {
    use Takes::{Main, Part, Procedure, Round};
    let table: &[(&str, Vec<Takes>)] = &[
        ("ok", vec![Main(span(0, 0))]),
        ("tick 3 ; tick 4 || tick 5", vec![Main(span(7, 7))]),
        ("x0 := x1 + 1", vec![Main(span(17, 17))]),
        ("if x0 then tick 3 else tick 9 end", vec![Main(span(3, 9))]),
        (
            "if x0 @2 then if x1 then tick 1 end else tick 9 end ; tick 1",
            vec![Main(span(3, 12))],
        ),
        (
            "while x0 do x0 := x0 - 1 end",
            vec![Main(at_least(1)), Round(span(19, 19), Some(span(1, 1)))],
        ),
        (
            "repeat if x1 then tick 4 end until x0 = 3 end",
            vec![Main(at_least(6)), Round(span(6, 10), None)],
        ),
        (
            "tick 2 ; loop @3 do if x0 then exit end ; tick 5 ; if x1 then tick 9 ; exit end end",
            vec![
                Main(at_least(2)),
                Part(span(2, 2)),
                Round(span(8, 8), Some(span(0, 14))),
            ],
        ),
        (
            "loop do tick 4 end",
            vec![Main(NEVER), Round(span(5, 5), None)],
        ),
        (
            "procedure p do if x0 then tick 7 end end call p ; call p @3",
            vec![Procedure(0, span(0, 7)), Main(span(4, 18))],
        ),
        (
            "procedure p do while x0 do tick 7 end end loop @2 do call p ; exit end",
            vec![
                Procedure(0, at_least(1)),
                Round(span(8, 8), Some(span(1, 1))),
                Main(at_least(2)),
                Round(NEVER, Some(at_least(2))),
            ],
        ),
        (
            "loop do while x0 do if x1 then exit end ; tick 4 end ; tick 9 end",
            vec![
                Main(at_least(1)),
                Round(at_least(11), Some(span(1, 1))),
                Round(span(5, 5), Some(span(1, 1))),
                Part(span(9, 9)),
            ],
        ),
    ];
    for (text, expected) in table {
        assert_eq!(takes(text, 1), *expected, "{text}");
    }
}

/// A write takes longer with longer pulses, and so does what it is in.
#[test]
fn longer_pulses_are_asked_for() {
    let text = "while x0 @9 do x0 := x0 - 1 end";
    let round = |pulse: u8| match takes(text, pulse)[1] {
        Takes::Round(round, _) => round.least,
        _ => Err(Lack::None),
    };
    assert_eq!([1, 2, 8].map(round), [Ok(27), Ok(28), Ok(34)]);
}

/// The end of every run is within the bounds of its program.
#[test]
fn runs_end_within_their_bounds() {
    let (mut chance, mut ended, mut both) = (Chance(8), 0, 0);
    for program in programs() {
        let nodes = product::nodes(&program.bytes);
        let all = bounds(program.beside(), &nodes);
        let whole = all.iter().find_map(|bound| match bound.takes {
            Takes::Main(span) => Some(span),
            _ => None,
        });
        let whole = whole.expect("a program");
        for _ in 0..8 {
            let mut start = [0; LENGTH];
            for word in &mut start {
                *word = [0, 1, 2, 3, 65_535][chance.below(5)];
            }
            let end = product::reference(program.beside(), &program.bytes, &start, 20_000);
            let Some(end) = end.expect("a program") else {
                continue;
            };
            let least = whole.least.expect("it ends");
            assert!(least <= end.instant, "{nodes:?}");
            assert!(
                whole.most.is_ok_and(|most| end.instant <= most) || whole.most.is_err(),
                "{nodes:?}"
            );
            ended += 1;
            both += usize::from(whole.most.is_ok());
        }
    }
    assert!(ended > 500 && both > 100, "{ended} {both}");
}

/// What is too big to be asked about is told as such, and not as what never ends.
#[test]
fn what_is_too_big_is_not_found() {
    let unknown = Span {
        least: Err(Lack::Unknown),
        most: Err(Lack::Unknown),
    };
    let long = vec!["ok"; 100].join(" ; ");
    assert_eq!(takes(&long, 1), [Takes::Main(unknown)]);
    let mut calls = "procedure p0 do tick 255 ; tick 255 ; tick 255 end\n".to_string();
    for next in 1..8 {
        let call = format!("call p{}", next - 1);
        let body = vec![call; 7].join(" ; ");
        calls += &format!("procedure p{next} do {body} end\n");
    }
    let takes = takes(&(calls + "if x0 then call p7 else tick 1 end"), 1);
    assert_eq!(takes[3], Takes::Procedure(3, span(262_794, 262_794)));
    assert_eq!(takes[7], Takes::Procedure(7, unknown));
    assert_eq!(takes[8], Takes::Main(unknown));
    assert!(takes
        .iter()
        .all(|takes| !format!("{takes:?}").contains("None")));
}
