//! A program as text with the fewest brackets: on a line where it fits, else
//! broken over lines, each part indented below what it belongs to.

mod expressions;
mod long;

pub use long::long;

use crate::input::Program;
use crate::layout::TEXT;
use crate::names::Names;
use crate::preorder::children;
use crate::source::Said;
use crate::types::Node;
use std::collections::BTreeMap;

/// How wide a line may be before a statement is broken over several.
const WIDTH: usize = 80;

/// A node with its children, by the program's order.
#[derive(Clone, Debug)]
pub struct Tree {
    pub at: usize,
    pub node: Node,
    pub parts: Vec<Tree>,
}

/// Whether a program can be a text that the product reads: it has no words for
/// arrays, loops that exits end, exits, and procedures.
pub fn has_text(procedures: usize, nodes: &[Node]) -> bool {
    let untyped = |node: &Node| matches!(node.kind, 10 | 24..=27);
    procedures == 0 && !nodes.iter().any(untyped)
}

/// The tree of an accepted program without procedures.
pub fn tree(nodes: &[Node]) -> Option<Tree> {
    let mut trees = trees(nodes)?;
    trees.pop().filter(|_| trees.is_empty())
}

/// The trees of an accepted program's nodes, the main program's last.
pub fn trees(nodes: &[Node]) -> Option<Vec<Tree>> {
    let (mut at, mut trees) = (0, Vec::new());
    while at < nodes.len() {
        trees.push(tree_from(nodes, &mut at)?);
    }
    Some(trees)
}

fn tree_from(nodes: &[Node], next: &mut usize) -> Option<Tree> {
    let at = *next;
    let node = *nodes.get(at)?;
    *next += 1;
    let parts = (0..children(node.kind)).map(|_| tree_from(nodes, next));
    let parts = parts.collect::<Option<Vec<_>>>()?;
    Some(Tree { at, node, parts })
}

/// The text of a program, as the product reads it. Where indenting would make it
/// longer than a text may be, it stands on one line.
pub fn format(tree: &Tree) -> String {
    let names = Names::default();
    let writer = Writer::new(&names, &[], false);
    let broken = writer.lines(tree, 0, Binds::Parallel) + "\n";
    if broken.len() <= TEXT {
        return broken;
    }
    writer.on_a_line(tree, Binds::Parallel) + "\n"
}

/// What a statement without braces may be: any, no parallel, or neither
/// parallel nor sequence.
#[derive(Clone, Copy, PartialEq, PartialOrd)]
enum Binds {
    Parallel,
    Sequence,
    Single,
}

impl Binds {
    fn of(kind: u8) -> Binds {
        match kind {
            20 => Binds::Parallel,
            19 => Binds::Sequence,
            _ => Binds::Single,
        }
    }

    /// What may stand left of the sign of a node of this kind, and right of it.
    fn sides(kind: u8) -> (Binds, Binds) {
        match kind {
            20 => (Binds::Sequence, Binds::Parallel),
            _ => (Binds::Single, Binds::Sequence),
        }
    }
}

/// How nodes are written.
pub struct Writer<'w> {
    names: &'w Names,
    /// How each node was written, where that is known.
    said: &'w [Said],
    /// Whether it is a long text, in which more can be left out.
    long: bool,
    /// Whether every delay is told as its number.
    every_delay: bool,
    /// The comments that stand above a statement, by its node.
    comments: BTreeMap<usize, Vec<String>>,
}

impl<'w> Writer<'w> {
    pub fn new(names: &'w Names, said: &'w [Said], long: bool) -> Writer<'w> {
        Writer {
            names,
            said,
            long,
            every_delay: false,
            comments: BTreeMap::new(),
        }
    }

    /// Of an accepted program for its reader, with every delay.
    pub fn of_program(program: &'w Program) -> Writer<'w> {
        Writer {
            every_delay: true,
            ..Writer::new(&program.names, &program.said, program.long)
        }
    }

    /// A statement on one line.
    fn on_a_line(&self, tree: &Tree, may_be: Binds) -> String {
        if Binds::of(tree.node.kind) < may_be {
            return format!("{{ {} }}", self.on_a_line(tree, Binds::Parallel));
        }
        let part = |k: usize| self.on_a_line(&tree.parts[k], Binds::Parallel);
        let head = || self.head(tree);
        match tree.node.kind {
            19 | 20 => {
                let (left, right) = Binds::sides(tree.node.kind);
                let left = self.on_a_line(&tree.parts[0], left);
                let right = self.on_a_line(&tree.parts[1], right);
                format!("{left} {} {right}", sign(tree.node.kind))
            }
            21 if self.has_no_else(tree) => format!("{} then {} end", head(), part(1)),
            21 => format!("{} then {} else {} end", head(), part(1), part(2)),
            22 => format!("{} do {} end", head(), part(1)),
            23 => format!("repeat {} {} end", part(1), head()),
            25 => format!("{} do {} end", head(), part(0)),
            _ => head(),
        }
    }

    /// A statement, below its comments, broken over lines where it doesn't fit on one.
    fn lines(&self, tree: &Tree, indent: usize, may_be: Binds) -> String {
        let blank = " ".repeat(indent);
        let mut text = String::new();
        for comment in self.comments.get(&tree.at).into_iter().flatten() {
            text += &format!("{blank}{comment}\n");
        }
        let line = self.on_a_line(tree, may_be);
        // In a long text statements that follow each other stand below each other, and so do
        // those in a loop.
        let apart = self.long && (tree.node.kind == 19 || tree.has_steps_in_loops());
        if indent + line.len() <= WIDTH && !apart && !self.has_comments_in(tree) {
            return text + &blank + &line;
        }
        if Binds::of(tree.node.kind) < may_be {
            let inner = self.broken(tree, indent + 2, line);
            return format!("{text}{blank}{{\n{inner}\n{blank}}}");
        }
        text + &self.broken(tree, indent, line)
    }

    /// A statement over several lines, without its own comments.
    fn broken(&self, tree: &Tree, indent: usize, line: String) -> String {
        let blank = " ".repeat(indent);
        let part = |k: usize| self.lines(&tree.parts[k], indent + 2, Binds::Parallel);
        let head = || self.head(tree);
        match tree.node.kind {
            19 => {
                let (left, right) = Binds::sides(19);
                let left = self.lines(&tree.parts[0], indent, left);
                format!("{left} ;\n{}", self.lines(&tree.parts[1], indent, right))
            }
            20 => self.sides(tree, indent),
            21 => {
                let other = match self.has_no_else(tree) {
                    true => String::new(),
                    false => format!("{blank}else\n{}\n", part(2)),
                };
                format!("{blank}{} then\n{}\n{other}{blank}end", head(), part(1))
            }
            22 => format!("{blank}{} do\n{}\n{blank}end", head(), part(1)),
            23 => format!("{blank}repeat\n{}\n{blank}{} end", part(1), head()),
            25 => format!("{blank}{} do\n{}\n{blank}end", head(), part(0)),
            _ => blank + &line,
        }
    }

    /// The sides of a parallel, one below the other with the sign in front.
    fn sides(&self, tree: &Tree, indent: usize) -> String {
        let (left, right) = Binds::sides(20);
        let second = &tree.parts[1];
        let below = match second.node.kind {
            20 => self.sides(second, indent),
            _ => self.lines(second, indent + 3, right),
        };
        let blank = " ".repeat(indent);
        let first = self.lines(&tree.parts[0], indent + 3, left);
        format!("{first}\n{blank}|| {}", below.trim_start())
    }

    fn has_comments_in(&self, tree: &Tree) -> bool {
        let parts = tree.at + 1..tree.end();
        self.comments.range(parts).next().is_some()
    }

    /// Whether an else is left out: it is ok, without a comment.
    fn has_no_else(&self, tree: &Tree) -> bool {
        let other = &tree.parts[2];
        self.long && other.node.kind == 16 && !self.comments.contains_key(&other.at)
    }

    /// A statement without the statements in it. What no text has a word for is
    /// written much like the rest, for a reader.
    pub fn head(&self, tree: &Tree) -> String {
        let Node { kind, delay, n } = tree.node;
        let e = |part: usize| self.expression(&tree.parts[part], 0);
        let after = self.delay(tree);
        match kind {
            16 => "ok".to_string(),
            17 => format!("tick {}", self.written(tree).unwrap_or(delay.to_string())),
            18 => format!("{} := {}{after}", self.names.word(n), e(0)),
            19 | 20 => sign(kind).to_string(),
            21 => format!("if {}{after}", e(0)),
            22 => format!("while {}{after}", e(0)),
            23 => format!("until {}{after}", e(0)),
            24 => format!("{}[{}] := {}{after}", self.names.array(n), e(0), e(1)),
            25 => format!("loop{after}"),
            26 => "exit".to_string(),
            27 => format!("call {}{after}", self.names.procedure(n)),
            _ => self.expression(tree, 0),
        }
    }

    /// A delay as it was written, or else as its number.
    fn delay(&self, tree: &Tree) -> String {
        match self.said.get(tree.at).filter(|_| !self.every_delay) {
            Some(Said::Least) => String::new(),
            Some(Said::More(_, word)) => format!(" @+{word}"),
            Some(Said::Written(word)) => format!(" @{word}"),
            _ => format!(" @{}", tree.node.delay),
        }
    }

    /// A number as it was written, if that is known.
    fn written(&self, tree: &Tree) -> Option<String> {
        match self.said.get(tree.at)? {
            Said::Written(word) => Some(word.clone()),
            _ => None,
        }
    }
}

impl Tree {
    /// Whether a loop has statements in it that follow each other.
    fn has_steps_in_loops(&self) -> bool {
        match self.node.kind {
            22 | 23 | 25 => self.has_steps(),
            _ => self.parts.iter().any(Tree::has_steps_in_loops),
        }
    }

    fn has_steps(&self) -> bool {
        self.node.kind == 19 || self.parts.iter().any(Tree::has_steps)
    }

    /// The number of the node after the last one below this one.
    fn end(&self) -> usize {
        self.parts.last().map_or(self.at + 1, Tree::end)
    }
}

fn sign(kind: u8) -> &'static str {
    match kind {
        19 => ";",
        _ => "||",
    }
}
