//! A program's nodes as an outline: a line for each, indented below its parent.
//! Every kind has words, also in a program that the product refuses. Where there
//! are procedures, a heading stands over each and over the main program.

use crate::kinds::NODES;
use crate::names::Names;
use crate::preorder;
use crate::template::{byte, word};
use crate::types::Node;
use std::cmp::Ordering;

/// A line that stands over a statement.
#[derive(Clone, Copy, Debug, PartialEq, Eq)]
pub enum Heading {
    Procedure(u16),
    Main,
}

/// The outline of nodes in preorder, of which so many statements are procedures; what
/// has a name is shown with it, behind the sign for what is passed over.
pub fn outline(procedures: usize, nodes: &[Node], names: &Names) -> String {
    let (places, _) = preorder::places(nodes);
    let (mut lines, mut roots, mut depths) = (String::new(), 0, Vec::new());
    for (node, place) in nodes.iter().zip(&places) {
        if place.is_none() && procedures > 0 {
            match roots.cmp(&procedures) {
                Ordering::Less => {
                    let heading = format!("procedure {roots}");
                    let name = names.procedures.get(roots).map(String::as_str);
                    lines += &(noted(heading, name) + "\n");
                }
                Ordering::Equal => lines += "main\n",
                Ordering::Greater => {}
            }
            roots += 1;
        }
        let under_heading = usize::from(procedures > 0);
        let depth = place.map_or(under_heading, |below| 1 + depths[below.node]);
        let line = "  ".repeat(depth) + &words_of(node);
        lines += &(noted(line, name_of(node, names)) + "\n");
        depths.push(depth);
    }
    lines
}

fn noted(line: String, name: Option<&str>) -> String {
    match name {
        Some(name) => format!("{line:NOTES$}  # {name}"),
        None => line,
    }
}

/// Where names stand, if the lines aren't longer.
const NOTES: usize = 28;

/// The name of what a node is about.
fn name_of<'n>(node: &Node, names: &'n Names) -> Option<&'n str> {
    let named = match node.kind {
        2 | 18 => &names.words,
        10 | 24 => &names.arrays,
        27 => &names.procedures,
        _ => return None,
    };
    named.get(usize::from(node.n)).map(String::as_str)
}

/// The heading that words are, if they are one.
pub fn heading_of(words: &[&str]) -> Result<Option<Heading>, String> {
    match words {
        ["procedure", number] => word(number).map(|number| Some(Heading::Procedure(number))),
        ["main"] => Ok(Some(Heading::Main)),
        _ => Ok(None),
    }
}

/// A node in words.
pub fn words_of(node: &Node) -> String {
    let field = |letter| match letter {
        'k' => node.kind.to_string(),
        'd' => node.delay.to_string(),
        _ => node.n.to_string(),
    };
    NODES.write(node.kind, field, |words| node_of(words) == Ok(*node))
}

/// The node that words stand for.
pub fn node_of(words: &[&str]) -> Result<Node, String> {
    let (kind, fields) = NODES.read(words)?;
    let mut node = Node {
        kind,
        delay: 0,
        n: 0,
    };
    for (letter, value) in fields {
        match letter {
            'k' => node.kind = byte(value)?,
            'd' => node.delay = byte(value)?,
            _ => node.n = word(value)?,
        }
    }
    Ok(node)
}
