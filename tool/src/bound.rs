//! How long the parts of a program take, least and most. The product is asked: a part is
//! run by the rules with constants in place of its conditions, so chosen that it takes
//! least or most. What is assumed is that a statement takes no less if a part of it
//! takes more.

mod asking;
mod choices;

use crate::answers::counted;
use crate::preorder::{children, roots, subtree_end};
use crate::types::{Beside, Node};
use asking::Asking;

/// Instants, or why there is no such number.
#[derive(Clone, Copy, Debug, PartialEq, Eq)]
pub struct Span {
    pub least: Found<u32>,
    pub most: Found<u32>,
}

/// Why there is no least or no most.
#[derive(Clone, Copy, Debug, PartialEq, Eq)]
pub enum Lack {
    /// There is none: it never ends, or may go round as often as one likes.
    None,
    /// What would have to be asked is more than a program or a run may be, or there are too
    /// many ways to try.
    Unknown,
}

pub type Found<T> = Result<T, Lack>;

impl Span {
    /// Of what never ends.
    pub const NEVER: Span = Span {
        least: Err(Lack::None),
        most: Err(Lack::None),
    };

    /// For a reader.
    pub fn text(self) -> String {
        let instants = |number: u32| counted(number as usize, "instant");
        match (self.least, self.most) {
            (Ok(least), Ok(most)) if least == most => instants(least),
            (Ok(least), Ok(most)) => format!("{least} to {}", instants(most)),
            (Ok(least), Err(Lack::None)) => format!("{} or more", instants(least)),
            (Ok(least), Err(Lack::Unknown)) => {
                format!("{} or more, the most isn't found", instants(least))
            }
            (Err(Lack::None), _) => "never".to_string(),
            (Err(Lack::Unknown), Ok(most)) => format!("at most {}", instants(most)),
            (Err(Lack::Unknown), Err(_)) => "not found, it is too big".to_string(),
        }
    }

    /// Whether nothing is left unknown.
    pub fn is_known(self) -> bool {
        ![self.least, self.most].contains(&Err(Lack::Unknown))
    }
}

/// How long a round of a loop takes that goes round.
pub fn round(beside: Beside, nodes: &[Node], at: usize) -> Span {
    match Asking::of(beside, nodes).round(at) {
        Takes::Round(round, _) => round,
        _ => Span::NEVER,
    }
}

/// A part of a program, and how long it takes.
#[derive(Clone, Debug, PartialEq, Eq)]
pub struct Bound {
    pub node: usize,
    pub takes: Takes,
}

#[derive(Clone, Copy, Debug, PartialEq, Eq)]
pub enum Takes {
    /// A procedure, by its number, or the main program.
    Procedure(usize, Span),
    Main(Span),
    /// A statement without loops.
    Part(Span),
    /// A round of a loop that goes round, and the last one: what a while takes when it
    /// ends, or a loop until an exit.
    Round(Span, Option<Span>),
}

/// The least and the most.
#[derive(Clone, Copy, Debug, PartialEq, Eq)]
pub enum Want {
    Least,
    Most,
}

/// The bounds of an accepted program, in the order of its nodes.
pub fn bounds(beside: Beside, nodes: &[Node]) -> Vec<Bound> {
    let asking = Asking::of(beside, nodes);
    let (roots, _) = roots(nodes);
    let mut all = Vec::new();
    for (number, root) in roots.into_iter().enumerate() {
        let span = asking.span(root);
        let takes = match number < beside.procedures {
            true => Takes::Procedure(number, span),
            false => Takes::Main(span),
        };
        all.push(Bound { node: root, takes });
        parts(&asking, nodes, root, &mut all);
    }
    all
}

/// The loops in a statement, and the largest statements without loops beside them.
fn parts(asking: &Asking, nodes: &[Node], at: usize, all: &mut Vec<Bound>) {
    if !has_loop(nodes, at) {
        return;
    }
    if is_loop(nodes[at].kind) {
        let takes = asking.round(at);
        all.push(Bound { node: at, takes });
    }
    let whole_body = is_loop(nodes[at].kind);
    let mut part = at + 1;
    for _ in 0..children(nodes[at].kind) {
        let told = matches!(nodes[part].kind, 17..=21 | 24 | 27);
        if told && !has_loop(nodes, part) && !whole_body {
            let takes = Takes::Part(asking.span(part));
            all.push(Bound { node: part, takes });
        }
        parts(asking, nodes, part, all);
        part = subtree_end(nodes, part);
    }
}

fn has_loop(nodes: &[Node], at: usize) -> bool {
    let part = &nodes[at..subtree_end(nodes, at)];
    part.iter().any(|node| is_loop(node.kind))
}

fn is_loop(kind: u8) -> bool {
    matches!(kind, 22 | 23 | 25)
}
