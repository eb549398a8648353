//! Expressions with the fewest parentheses.

use super::{Tree, Writer};
use crate::source::Said;
use crate::types::Node;

impl Writer<'_> {
    /// An expression: what binds less than `least` stands in parentheses.
    pub(super) fn expression(&self, tree: &Tree, least: u8) -> String {
        let Node { kind, n, .. } = tree.node;
        let said = self.said.get(tree.at);
        let (binds, sign, tree) = match kind {
            7 => (1, "|", tree),
            6 => (2, "&", tree),
            8 if said == Some(&Said::Not) => {
                let part = self.expression(&tree.parts[0], 3);
                return bracketed(3 < least, format!("not {part}"));
            }
            8 if self.long && negated(tree).is_some() => {
                let inner = &tree.parts[0];
                let sign = match inner.node.kind {
                    8 => "!=",
                    _ if self.is_changed(inner) => "<=",
                    _ => ">=",
                };
                (3, sign, inner)
            }
            8 => (3, "=", tree),
            9 if self.is_changed(tree) => (3, ">", tree),
            9 => (3, "<", tree),
            4 => (4, "+", tree),
            5 => (4, "-", tree),
            3 => return format!("!{}", self.expression(&tree.parts[0], 5)),
            2 => return self.names.word(n),
            10 => {
                let index = self.expression(&tree.parts[0], 0);
                return format!("{}[{index}]", self.names.array(n));
            }
            _ => return self.written(tree).unwrap_or(n.to_string()),
        };
        // A comparison doesn't chain: neither side may be one.
        let left = if binds == 3 { 4 } else { binds };
        let sides = match self.is_changed(tree) {
            true => [&tree.parts[1], &tree.parts[0]],
            false => [&tree.parts[0], &tree.parts[1]],
        };
        let left = self.expression(sides[0], left);
        let right = self.expression(sides[1], binds + 1);
        bracketed(binds < least, format!("{left} {sign} {right}"))
    }

    /// Whether a less was written with its sides changed.
    fn is_changed(&self, tree: &Tree) -> bool {
        self.said.get(tree.at) == Some(&Said::Changed)
    }
}

fn bracketed(brackets: bool, text: String) -> String {
    match brackets {
        true => format!("({text})"),
        false => text,
    }
}

/// The comparison that is said to be false: `(a = b) = 0`, `(a < b) = 0`.
fn negated(tree: &Tree) -> Option<&Tree> {
    let zero = Node {
        kind: 1,
        delay: 0,
        n: 0,
    };
    let comparison = matches!(tree.parts[0].node.kind, 8 | 9);
    (comparison && tree.parts[1].node == zero).then(|| &tree.parts[0])
}
