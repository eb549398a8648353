//! Peers that go wrong about loops: a compiler that makes the circuit of another
//! program, in which loops are left otherwise, and a check.

use peers::{Bytes, Peer, Reply, SECOND};
use second::kinds::row;
use std::slice::ChunksExact;
use values::{Given, Refusal, Shape};

const PARALLEL: u8 = 20;
const SEQUENCE: u8 = 19;
const LOOP: u8 = 25;
const EXIT: u8 = 26;

/// Spends a loop's delay on leaving it too.
pub const DELAY_SPENT: Peer = faulty("delay spent", |given, program, file| {
    compiled(delay_spent, given, program, file)
});

/// Leaves with a loop the loops around it.
pub const OUTER_LEFT: Peer = faulty("outer left", |given, program, file| {
    compiled(outer_left, given, program, file)
});

/// Runs what follows an exit, and leaves the loop only then.
pub const REST_RUN: Peer = faulty("rest run", |given, program, file| {
    compiled(rest_run, given, program, file)
});

/// Sees no parallel node between an exit and its loop.
pub const THROUGH_PARALLEL: Peer = Peer {
    name: "through parallel",
    check: |given, program| {
        let mut reply = (SECOND.check)(given, program);
        if let Err(Refusal { number: 22, .. }) = reply.result {
            reply.result = (SECOND.check)(given, &in_sequence(program)).result;
        }
        reply
    },
    ..SECOND
};

const fn faulty(name: &'static str, compile: fn(Given, Bytes, Bytes) -> Reply<Shape>) -> Peer {
    Peer {
        name,
        compile,
        ..SECOND
    }
}

/// The netlist of what a program is taken for, where that too is accepted.
fn compiled(taken: fn(Tree) -> Tree, given: Given, program: &[u8], file: &[u8]) -> Reply<Shape> {
    let right = (SECOND.compile)(given, program, file);
    if right.result.is_err() {
        return right;
    }
    let roots = Tree::all(&mut program.chunks_exact(4)).into_iter();
    let other: Vec<u8> = roots.flat_map(|root| taken(root).bytes()).collect();
    let wrong = (SECOND.compile)(given, &other, file);
    if wrong.result.is_err() {
        return right;
    }
    wrong
}

/// The program with sequences in place of its parallel nodes.
fn in_sequence(program: &[u8]) -> Vec<u8> {
    let mut program = program.to_vec();
    for node in program.chunks_exact_mut(4) {
        if node[0] == PARALLEL {
            node[0] = SEQUENCE;
        }
    }
    program
}

/// Each exit comes after a tick of its loop's delay.
fn delay_spent(tree: Tree) -> Tree {
    fn within(tree: Tree, delay: u8) -> Tree {
        match tree.node[0] {
            EXIT => in_turn(leaf([17, delay, 0, 0]), tree),
            LOOP => {
                let delay = tree.node[1];
                tree.map(|part| within(part, delay))
            }
            _ => tree.map(|part| within(part, delay)),
        }
    }
    within(tree, 0)
}

/// After each loop that an exit may follow, one does.
fn outer_left(tree: Tree) -> Tree {
    fn within(tree: Tree, in_loop: bool) -> Tree {
        match tree.node[0] {
            LOOP => {
                let whole = tree.map(|part| within(part, true));
                match in_loop {
                    true => in_turn(whole, leaf([EXIT, 0, 0, 0])),
                    false => whole,
                }
            }
            PARALLEL => tree.map(|side| within(side, false)),
            _ => tree.map(|part| within(part, in_loop)),
        }
    }
    within(tree, false)
}

/// An exit and what follows it change places.
fn rest_run(tree: Tree) -> Tree {
    let mut tree = tree.map(rest_run);
    if tree.node[0] == SEQUENCE && tree.children[0].node[0] == EXIT {
        tree.children.reverse();
    }
    tree
}

/// A node with its children.
struct Tree {
    node: [u8; 4],
    children: Vec<Tree>,
}

impl Tree {
    /// The bodies of the procedures and the main program.
    fn all(nodes: &mut ChunksExact<u8>) -> Vec<Tree> {
        let mut roots = vec![];
        while nodes.len() > 0 {
            roots.push(Tree::next(nodes));
        }
        roots
    }

    fn next(nodes: &mut ChunksExact<u8>) -> Tree {
        let node = nodes.next().expect("a node for each child");
        let children = row(node[0]).expect("a known kind").children.iter();
        Tree {
            node: node.try_into().expect("four bytes"),
            children: children.map(|_| Tree::next(nodes)).collect(),
        }
    }

    fn bytes(&self) -> Vec<u8> {
        let children = self.children.iter().flat_map(Tree::bytes);
        self.node.into_iter().chain(children).collect()
    }

    fn map(self, change: impl Fn(Tree) -> Tree) -> Tree {
        Tree {
            node: self.node,
            children: self.children.into_iter().map(change).collect(),
        }
    }
}

fn leaf(node: [u8; 4]) -> Tree {
    Tree {
        node,
        children: vec![],
    }
}

fn in_turn(p: Tree, q: Tree) -> Tree {
    Tree {
        node: [SEQUENCE, 0, 0, 0],
        children: vec![p, q],
    }
}
