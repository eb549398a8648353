//! The nodes of a text as a tree, with their places and how they were written.

use super::{Place, Said, Source};
use crate::types::{Node, Span};

/// A node with its children.
pub struct Tree {
    pub node: Node,
    pub place: Place,
    pub said: Said,
    pub children: Vec<Tree>,
}

impl Tree {
    pub fn leaf(kind: u8, n: u16, mark: Span) -> Tree {
        Tree {
            node: Node { kind, delay: 0, n },
            place: Place {
                whole: mark,
                mark,
                delay: None,
            },
            said: Said::Plain,
            children: Vec::new(),
        }
    }

    /// A node with one part behind its word or sign.
    pub fn before(kind: u8, mark: Span, part: Tree) -> Tree {
        let whole = mark.to(part.place.whole);
        Tree {
            children: vec![part],
            ..Tree::leaf(kind, 0, mark)
        }
        .over(whole)
    }

    /// Two parts with a sign between them.
    pub fn joined(kind: u8, mark: Span, left: Tree, right: Tree) -> Tree {
        let whole = left.place.whole.to(right.place.whole);
        Tree {
            children: vec![left, right],
            ..Tree::leaf(kind, 0, mark)
        }
        .over(whole)
    }

    pub fn over(mut self, whole: Span) -> Tree {
        self.place.whole = whole;
        self
    }

    /// Adds the nodes in preorder.
    pub fn put(self, source: &mut Source) {
        source.nodes.push(self.node);
        source.places.push(self.place);
        source.said.push(self.said);
        for child in self.children {
            child.put(source);
        }
    }
}

impl Span {
    pub fn to(self, last: Span) -> Span {
        Span {
            start: self.start,
            end: last.end,
        }
    }
}
