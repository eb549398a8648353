//! The tree that nodes are: each is followed by its children, in their order.

use crate::kinds;
use crate::types::Node;

/// A place below a node: which of its children stands there.
#[derive(Clone, Copy, Debug, PartialEq, Eq)]
pub struct Below {
    pub node: usize,
    pub child: usize,
}

/// For each node its place below its parent, none for a root; and the place that
/// is empty where the nodes run out.
pub fn places(nodes: &[Node]) -> (Vec<Option<Below>>, Option<Below>) {
    let (mut due, mut places): (Vec<Below>, _) = (Vec::new(), Vec::new());
    for (node, found) in nodes.iter().enumerate() {
        places.push(due.last().copied());
        if let Some(next) = due.last_mut() {
            next.child += 1;
        }
        if children(found.kind) > 0 {
            due.push(Below { node, child: 0 });
        }
        let whole = |below: &Below| below.child == children(nodes[below.node].kind);
        while due.last().is_some_and(whole) {
            due.pop();
        }
    }
    (places, due.last().copied())
}

/// The nodes at which whole statements begin, one after another, and whether the
/// last nodes are a statement that isn't whole.
pub fn roots(nodes: &[Node]) -> (Vec<usize>, bool) {
    let (places, missing) = places(nodes);
    let root = |node: &usize| places[*node].is_none();
    let mut roots: Vec<usize> = (0..nodes.len()).filter(root).collect();
    if missing.is_some() {
        roots.pop();
    }
    (roots, missing.is_some())
}

/// The number of the node after the last one below this node.
pub fn subtree_end(nodes: &[Node], node: usize) -> usize {
    (0..children(nodes[node].kind)).fold(node + 1, |next, _| subtree_end(nodes, next))
}

/// How many children a node of this kind has.
pub fn children(kind: u8) -> usize {
    kinds::children(kind).len()
}
