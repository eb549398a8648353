//! The ways through a statement: which conditions decide whether it comes to an exit of
//! the loop around it, and which statement does.

use super::{Found, Lack};
use crate::preorder::subtree_end;
use crate::types::Node;
use std::collections::BTreeMap;

/// More conditions than this are not tried in all ways.
const MOST: usize = 10;

/// What the conditions of some statements come to.
pub type Choice = BTreeMap<usize, bool>;

/// All choices for the conditions in a statement on which it depends whether it comes to
/// an exit of a loop around it; unknown where there are too many.
pub fn all(nodes: &[Node], at: usize) -> Found<Vec<Choice>> {
    let decides = |node: &usize| matches!(nodes[*node].kind, 21 | 22) && exits(nodes, *node);
    let deciding: Vec<usize> = (at..subtree_end(nodes, at)).filter(decides).collect();
    // Those in a loop of their own decide nothing here.
    let outside = |node: &usize| !(at..*node).any(|other| holds(nodes, other, *node));
    let deciding: Vec<usize> = deciding.into_iter().filter(outside).collect();
    if deciding.len() > MOST {
        return Err(Lack::Unknown);
    }
    let choice = |number: usize| {
        let bits = deciding.iter().enumerate();
        bits.map(|(bit, node)| (*node, number >> bit & 1 == 1))
            .collect()
    };
    Ok((0..1 << deciding.len()).map(choice).collect())
}

/// Whether a statement has an exit of a loop around it.
pub fn exits(nodes: &[Node], at: usize) -> bool {
    let own = |exit: &usize| {
        nodes[*exit].kind == EXIT && !(at..*exit).any(|other| holds(nodes, other, *exit))
    };
    (at..subtree_end(nodes, at)).any(|node| own(&node))
}

/// Whether a node is a loop that exits end, with another node in it.
fn holds(nodes: &[Node], around: usize, node: usize) -> bool {
    nodes[around].kind == LOOP && (around..subtree_end(nodes, around)).contains(&node)
}

/// How a statement goes on if its conditions come to what is chosen.
#[derive(Clone, Copy, Debug, PartialEq, Eq)]
pub enum Way {
    Finishes,
    Exits,
    /// It goes round for ever.
    Never,
}

pub fn way(nodes: &[Node], at: usize, choice: &Choice) -> Way {
    let part = |number: usize| (0..number).fold(at + 1, |part, _| subtree_end(nodes, part));
    match nodes[at].kind {
        EXIT => Way::Exits,
        19 => match way(nodes, part(0), choice) {
            Way::Finishes => way(nodes, part(1), choice),
            other => other,
        },
        21 => match choice.get(&at) {
            Some(true) => way(nodes, part(1), choice),
            Some(false) => way(nodes, part(2), choice),
            None => Way::Finishes,
        },
        22 if choice.get(&at) == Some(&true) => match way(nodes, part(1), choice) {
            Way::Exits => Way::Exits,
            _ => Way::Never,
        },
        23 => way(nodes, part(1), choice),
        _ => Way::Finishes,
    }
}

pub const LOOP: u8 = 25;
const EXIT: u8 = 26;
