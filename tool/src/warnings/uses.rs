//! What a program reads, writes and calls, and what it doesn't.

use super::conditions::Conditions;
use super::{word_of, Warning};
use crate::input::Program;
use crate::preorder::{roots, subtree_end};
use crate::refusals::run_by;
use crate::types::Node;
use std::collections::BTreeSet;

/// A word, or an array.
type Place = (bool, u16);

fn read(node: &Node) -> Option<Place> {
    match node.kind {
        2 => Some((false, node.n)),
        10 => Some((true, node.n)),
        _ => None,
    }
}

fn written(node: &Node) -> Option<Place> {
    match node.kind {
        18 => Some((false, node.n)),
        24 => Some((true, node.n)),
        _ => None,
    }
}

fn name(program: &Program, (array, n): Place) -> String {
    match array {
        true => program.names.array(n),
        false => program.names.word(n),
    }
}

/// The innermost loop around a node, in its procedure.
pub fn loop_around(nodes: &[Node], node: usize) -> Option<usize> {
    let around = |other: &usize| {
        let end = subtree_end(nodes, *other);
        matches!(nodes[*other].kind, 22 | 23 | 25) && (*other..end).contains(&node)
    };
    (0..=node).rev().find(around)
}

/// Loops whose condition reads nothing that a round writes: once they go round they
/// don't end. An exit may still leave them.
pub fn endless(procedures: usize, program: &Program, conditions: &Conditions) -> Vec<Warning> {
    let nodes = &program.nodes;
    let mut all = Vec::new();
    for (at, node) in nodes.iter().enumerate() {
        if !matches!(node.kind, 22 | 23) || conditions.always(at).is_some() {
            continue;
        }
        let body = subtree_end(nodes, at + 1);
        let reads: BTreeSet<Place> = nodes[at + 1..body].iter().filter_map(read).collect();
        let part = body..subtree_end(nodes, body);
        let leaves = part.clone().any(|exit| leaves(nodes, at, exit));
        let run = run_by(procedures, nodes, part);
        let writes = run.iter().filter_map(|node| written(&nodes[*node]));
        let changes = writes.into_iter().any(|place| reads.contains(&place));
        if !changes && !leaves && !reads.is_empty() {
            let names: Vec<String> = reads.iter().map(|place| name(program, *place)).collect();
            let (names, word) = (names.join(", "), word_of(node.kind));
            let what = format!(
                "this {word} reads {names} and a round writes nothing of it: once it goes round \
                 it goes round for ever"
            );
            let remedy = "write in the body what the condition reads";
            all.push(Warning::new("endless", at, what, remedy));
        }
    }
    all
}

/// Whether a node is an exit of a loop around this one.
fn leaves(nodes: &[Node], around: usize, exit: usize) -> bool {
    let own = |other: &usize| {
        let end = subtree_end(nodes, *other);
        nodes[*other].kind == LOOP && (*other..end).contains(&exit)
    };
    nodes[exit].kind == EXIT && !(around..exit).any(|other| own(&other))
}

const LOOP: u8 = 25;
const EXIT: u8 = 26;

/// Words and arrays that are written and never read, at their first write. They may be
/// results.
pub fn unread(program: &Program) -> Vec<Warning> {
    let nodes = &program.nodes;
    let reads: BTreeSet<Place> = nodes.iter().filter_map(read).collect();
    let mut told = BTreeSet::new();
    let mut all = Vec::new();
    for (at, node) in nodes.iter().enumerate() {
        let Some(place) = written(node).filter(|place| !reads.contains(place)) else {
            continue;
        };
        if told.insert(place) {
            let name = name(program, place);
            let what = format!("{name} is written and never read");
            let remedy = "leave it out, unless it is a result";
            all.push(Warning {
                note: true,
                name,
                ..Warning::new("unread", at, what, remedy)
            });
        }
    }
    all
}

/// Procedures that nobody calls.
pub fn uncalled(procedures: usize, program: &Program) -> Vec<Warning> {
    let nodes = &program.nodes;
    let calls = nodes.iter().filter(|node| node.kind == CALL);
    let called: BTreeSet<u16> = calls.map(|node| node.n).collect();
    let (roots, _) = roots(nodes);
    let numbered = (0..).zip(roots).take(procedures);
    numbered
        .filter(|(number, _)| !called.contains(number))
        .map(|(number, root)| {
            let name = program.names.procedure(number);
            let what = format!("nobody calls procedure {name}");
            Warning::new("uncalled", root, what, "leave it out, or call it")
        })
        .collect()
}

const CALL: u8 = 27;
