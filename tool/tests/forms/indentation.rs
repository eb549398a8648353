//! The indentation of outlines, held against the order of their lines: of every
//! line that is moved it is worked out anew what it stands under.

use crate::programs::{programs, Chance};
use hub::assemble::assemble;
use hub::names::Names;
use hub::{outline, preorder, product};

/// For each line the nearest line before it that is less deep.
fn above(depths: &[usize]) -> Vec<Option<usize>> {
    let above = |at: usize| (0..at).rev().find(|before| depths[*before] < depths[at]);
    (0..depths.len()).map(above).collect()
}

/// The outline of these lines, each so deep.
fn indented(lines: &[&str], depths: &[usize]) -> String {
    let line = |(line, depth): (&&str, &usize)| format!("{}{line}\n", " ".repeat(*depth));
    lines.iter().zip(depths).map(line).collect()
}

/// A moved line is refused where lines then stand under others than their parents,
/// or children of one parent not equally deep, and nowhere else.
#[test]
fn moved_lines_are_refused_where_they_disagree_with_the_tree() {
    let mut chance = Chance(7);
    let (mut refused, mut taken) = (0, 0);
    for program in programs().into_iter().filter(|one| one.procedures == 0) {
        let nodes = product::nodes(&program.bytes);
        let outline = outline::outline(0, &nodes, &Names::default());
        let lines: Vec<&str> = outline.lines().map(str::trim_start).collect();
        let own = outline.lines().zip(&lines);
        let own: Vec<usize> = own.map(|(line, said)| line.len() - said.len()).collect();
        let (places, _) = preorder::places(&nodes);
        let parents: Vec<Option<usize>> = places.iter().map(|b| b.map(|b| b.node)).collect();
        assert_eq!(above(&own), parents, "{outline}");
        for _ in 0..10 {
            let mut depths = own.clone();
            let moved = chance.below(lines.len());
            depths[moved] = chance.below(own[moved] + 4);
            let beside = |at: &usize| {
                let first = parents[*at].map_or(*at, |parent| parent + 1);
                depths[*at] == depths[first]
            };
            let flat = depths.iter().all(|depth| *depth == depths[0]);
            let agrees = above(&depths) == parents && (0..lines.len()).all(|at| beside(&at));
            let text = indented(&lines, &depths);
            match assemble(&text) {
                Ok(read) => {
                    assert!(agrees || flat, "{text}");
                    assert_eq!(read.nodes, nodes, "{text}");
                    taken += 1;
                }
                Err(wrong) => {
                    assert!(!agrees, "{wrong:?}\n{text}");
                    assert!(wrong.line > moved, "{wrong:?}\n{text}");
                    assert_eq!(wrong.marks[0].line, wrong.line);
                    assert_ne!(wrong.marks[1].line, wrong.line);
                    refused += 1;
                }
            }
        }
    }
    assert!(refused > 1_000 && taken > 200, "{refused} {taken}");
}

/// Lines that all stand equally deep are read by their order alone.
#[test]
fn without_indentation_the_order_counts() {
    for program in programs() {
        let nodes = product::nodes(&program.bytes);
        let outline = outline::outline(program.procedures, &nodes, &Names::default());
        let lines: Vec<&str> = outline.lines().map(str::trim_start).collect();
        for depth in [0, 3] {
            let flat = indented(&lines, &vec![depth; lines.len()]);
            let read = assemble(&flat).unwrap_or_else(|wrong| panic!("{wrong:?}\n{flat}"));
            assert_eq!(
                (read.procedures, read.nodes),
                (program.procedures, nodes.clone())
            );
        }
    }
}
