//! Who calls whom in a refused program, for what is told of a call.

use crate::preorder::{roots, subtree_end};
use crate::types::Node;
use std::ops::Range;

pub const CALL: u8 = 27;

/// The nodes of each side of a parallel node.
pub fn sides(nodes: &[Node], parallel: usize) -> [Range<usize>; 2] {
    let middle = subtree_end(nodes, parallel + 1);
    [parallel + 1..middle, middle..subtree_end(nodes, middle)]
}

/// The number of the procedure that a node stands in; that of the main program
/// is the number of procedures.
pub fn root_of(nodes: &[Node], node: usize) -> usize {
    let (roots, _) = roots(nodes);
    roots.iter().filter(|root| **root <= node).count() - 1
}

/// The nodes of a body.
fn body(nodes: &[Node], procedure: usize) -> Range<usize> {
    let (roots, _) = roots(nodes);
    let first = roots[procedure];
    first..subtree_end(nodes, first)
}

/// The procedures that these nodes call themselves, in order.
fn called(nodes: &[Node], part: Range<usize>) -> Vec<usize> {
    let calls = nodes[part].iter().filter(|node| node.kind == CALL);
    calls.map(|call| usize::from(call.n)).collect()
}

/// Which procedures these nodes reach.
pub fn reached(procedures: usize, nodes: &[Node], part: Range<usize>) -> Vec<bool> {
    let mut reached = vec![false; procedures];
    let mut due = called(nodes, part);
    while let Some(procedure) = due.pop() {
        if !std::mem::replace(&mut reached[procedure], true) {
            due.extend(called(nodes, body(nodes, procedure)));
        }
    }
    reached
}

/// These nodes, and those of all bodies that they reach.
pub fn run_by(procedures: usize, nodes: &[Node], part: Range<usize>) -> Vec<usize> {
    let reached = reached(procedures, nodes, part.clone());
    let bodies = (0..procedures).filter(|procedure| reached[*procedure]);
    part.chain(bodies.flat_map(|procedure| body(nodes, procedure)))
        .collect()
}

/// The first procedure that both sides of a parallel node reach, and on each side
/// the first call that reaches it.
pub fn shared(procedures: usize, nodes: &[Node], parallel: usize) -> Option<(usize, [usize; 2])> {
    let sides = sides(nodes, parallel);
    let [left, right] = sides.clone().map(|side| reached(procedures, nodes, side));
    let procedure = (0..procedures).find(|procedure| left[*procedure] && right[*procedure])?;
    let reaches = |call: &usize| {
        let own = reached(procedures, nodes, *call..*call + 1);
        nodes[*call].kind == CALL && own[procedure]
    };
    let [left, right] = sides.map(|mut side| side.find(reaches));
    Some((procedure, [left?, right?]))
}
