//! Conditions that are always true or always false: those of constants alone, and those
//! that come to the same whatever their comparisons give, as `!(a < b)`.

use super::Warning;
use crate::preorder::{children, subtree_end};
use crate::product;
use crate::store::LENGTH;
use crate::types::{Beside, Node};

/// With more comparisons than this a condition is not looked at: twice as many are
/// asked about for each.
const MOST: usize = 6;

pub struct Conditions<'n> {
    nodes: &'n [Node],
    /// Of each statement that has a condition, what it always comes to.
    always: Vec<Option<bool>>,
}

impl<'n> Conditions<'n> {
    pub fn of(beside: Beside, nodes: &'n [Node]) -> Conditions<'n> {
        let tested = |node: &Node| matches!(node.kind, 21..=23);
        let known = |node: usize| tested(&nodes[node]).then(|| always(beside, nodes, node + 1));
        let always = (0..nodes.len()).map(|node| known(node).flatten());
        Conditions {
            nodes,
            always: always.collect(),
        }
    }

    /// What the condition of a statement always comes to, if it does.
    pub fn always(&self, statement: usize) -> Option<bool> {
        self.always[statement]
    }

    pub fn warnings(&self) -> Vec<Warning> {
        let mut all = Vec::new();
        for (statement, always) in self.always.iter().enumerate() {
            let Some(always) = always else {
                continue;
            };
            let node = statement + 1;
            let (what, remedy) = match (always, self.nodes[node].kind) {
                (true, COMPLEMENT) => (
                    "this condition always holds: ! turns all bits over, and neither 0 nor 1 \
                     becomes 0 by it",
                    "write not in a long text, or (..) = 0",
                ),
                (true, _) if self.nodes[statement].kind == WHILE => (
                    "this condition always holds",
                    "write loop in a long text, if it is meant to go round for ever",
                ),
                (true, _) => ("this condition always holds", "leave it out"),
                (false, _) => ("this condition never holds", "leave it out"),
            };
            all.push(Warning::new("condition", node, what, remedy));
        }
        all
    }
}

const COMPLEMENT: u8 = 3;
const WHILE: u8 = 22;

/// What an expression always comes to. It may have words in comparisons only, which
/// give 0 or 1.
fn always(beside: Beside, nodes: &[Node], root: usize) -> Option<bool> {
    let mut unknown = Vec::new();
    let shape = shape(nodes, root, &mut unknown)?;
    if unknown.len() > MOST {
        return None;
    }
    let given = |choice: usize| {
        let mut nodes = shape.clone();
        for (bit, at) in unknown.iter().enumerate() {
            nodes[*at].n = (choice >> bit & 1) as u16;
        }
        holds(beside, nodes)
    };
    let mut found = (0..1 << unknown.len()).map(given);
    let first = found.next()??;
    found.all(|other| other == Some(first)).then_some(first)
}

/// An expression with a constant in place of each comparison of words, and where these
/// stand; none where words stand elsewhere.
fn shape(nodes: &[Node], root: usize, unknown: &mut Vec<usize>) -> Option<Vec<Node>> {
    let mut shape = Vec::new();
    let mut at = root;
    let end = subtree_end(nodes, root);
    while at < end {
        let (node, part) = (nodes[at], at..subtree_end(nodes, at));
        let reads = nodes[part.clone()]
            .iter()
            .any(|node| matches!(node.kind, 2 | 10));
        match node.kind {
            8 | 9 if reads => {
                unknown.push(shape.len());
                shape.push(Node {
                    kind: 1,
                    delay: 0,
                    n: 0,
                });
                at = part.end;
            }
            _ if reads && children(node.kind) == 0 || node.kind == 10 => return None,
            _ => {
                shape.push(node);
                at += 1;
            }
        }
    }
    Some(shape)
}

/// Whether an expression without words holds, by the rules of the product: it is
/// assigned to a word.
fn holds(beside: Beside, expression: Vec<Node>) -> Option<bool> {
    let assigned = Node {
        kind: 18,
        delay: u8::MAX,
        n: 0,
    };
    let program = product::program_bytes(&[vec![assigned], expression].concat());
    let alone = Beside {
        procedures: 0,
        ..beside
    };
    let end = product::reference(alone, &program, &[0; LENGTH], 1_000).ok()??;
    Some(end.words[0] != 0)
}
