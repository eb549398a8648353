//! What a refusal leaves to be found out, by asking the product about programs,
//! texts and netlists that differ a little from the refused one.

use super::calls;
use crate::kinds::{self, idle_array};
use crate::preorder::{children, subtree_end};
use crate::product;
use crate::store::{ARRAYS, VARIABLES};
use crate::types::{Beside, Cell, Netlist, Node, Refusal, Wiring};
use std::collections::BTreeMap;
use std::ops::Range;

/// The least delay of a node, which its statements have no part in: the product is
/// asked about that node alone. None where 255 is too small.
pub fn least_delay(beside: Beside, nodes: &[Node], node: usize) -> Option<u8> {
    let (mut alone, procedures) = alone(nodes, node);
    // It is the same for both circuits, and functional ones have no calls.
    let beside = Beside {
        procedures,
        wiring: Wiring::Imperative,
        ..beside
    };
    let mut too_small = |delay: u8| {
        alone[procedures].delay = delay;
        asked(beside, &alone) == Err(Refusal::new(7, procedures))
    };
    let (mut least, mut most) = (0_u16, 256);
    while least < most {
        let middle = (least + most) / 2;
        match too_small(middle as u8) {
            true => least = middle + 1,
            false => most = middle,
        }
    }
    least.try_into().ok()
}

/// A node with its expressions, and ok in place of its statements; before a call, the
/// procedure that it calls. Tells the number of procedures.
fn alone(nodes: &[Node], node: usize) -> (Vec<Node>, usize) {
    let ok = Node {
        kind: 16,
        delay: 0,
        n: 0,
    };
    if nodes[node].kind == calls::CALL {
        return (
            vec![
                ok,
                Node {
                    n: 0,
                    ..nodes[node]
                },
            ],
            1,
        );
    }
    let mut alone = vec![nodes[node]];
    let mut next = node + 1;
    for _ in 0..children(nodes[node].kind) {
        let end = subtree_end(nodes, next);
        match nodes[next].kind < ok.kind {
            true => alone.extend(&nodes[next..end]),
            false => alone.push(ok),
        }
        next = end;
    }
    (alone, 0)
}

/// Whether a node is of a kind that no functional circuit has: the product is asked about
/// that node, with constants and ok below it.
pub fn is_added(node: Node) -> bool {
    let plain = |kind, delay| Node { kind, delay, n: 0 };
    let mut alone = match node.kind < OK {
        true => vec![plain(18, u8::MAX), node],
        false => vec![node],
    };
    let own = alone.len() - 1;
    let below = kinds::children(node.kind).iter();
    alone.extend(below.map(|child| match EXPRESSIONS.contains(child) {
        true => plain(1, 0),
        false => plain(OK, 0),
    }));
    asked(Beside::FUNCTIONAL, &alone) == Err(Refusal::new(28, own))
}

const OK: u8 = 16;

/// The children of nodes that are expressions.
const EXPRESSIONS: [&str; 6] = [
    "operand",
    "first operand",
    "second operand",
    "index",
    "value",
    "condition",
];

/// Whether a node, of a program in which at most delays are too small, has a delay for
/// something to settle in. A tick is there for its delay: another would be another program.
pub fn settles(beside: Beside, nodes: &[Node], node: usize) -> bool {
    let mut nodes = nodes.to_vec();
    nodes[node].delay = 255;
    nodes[node].kind != TICK && asked(beside, &nodes) != Err(Refusal::new(3, node))
}

const TICK: u8 = 17;

/// The first uses, one on each side, for which a parallel node is refused, be it
/// in a body that a side reaches. The product is asked about two statements side
/// by side that have these uses alone.
pub fn clash(beside: Beside, nodes: &[Node], parallel: usize) -> Option<[usize; 2]> {
    let [left, right] = calls::sides(nodes, parallel);
    let reached = |side: &Range<usize>| calls::run_by(beside.procedures, nodes, side.clone());
    let uses = |side| {
        let run = reached(side).into_iter();
        run.filter(|k| matches!(nodes[*k].kind, 2 | 10 | 18 | 24))
    };
    let alone = Beside {
        procedures: 0,
        ..beside
    };
    for left in uses(&left) {
        for right in uses(&right) {
            let sides = with_uses([nodes[left], nodes[right]]);
            if asked(alone, &sides) == Err(Refusal::new(8, 0)) {
                return Some([left, right]);
            }
        }
    }
    None
}

/// The loop around a refused exit and the innermost parallel node between the
/// two, if that is what the exit is refused for: the product has nothing to say
/// about it where parallel nodes are sequences.
pub fn between(beside: Beside, nodes: &[Node], exit: usize) -> Option<[usize; 2]> {
    let apart = |node: &Node| match node.kind {
        20 => Node { kind: 19, ..*node },
        _ => *node,
    };
    let apart: Vec<Node> = nodes.iter().map(apart).collect();
    if asked(beside, &apart) == Err(Refusal::new(22, exit)) {
        return None;
    }
    let holds = |node: &usize| exit < subtree_end(nodes, *node);
    let around = |kind: u8| {
        let mut inwards = (0..exit).filter(holds);
        inwards.rfind(|node| nodes[*node].kind == kind)
    };
    Some([around(25)?, around(20)?])
}

/// Two uses of variables or arrays, side by side; what is read goes to variables
/// of each side's own.
fn with_uses(uses: [Node; 2]) -> Vec<Node> {
    let node = |kind, delay, n| Node { kind, delay, n };
    let taken = uses.map(|used| used.n);
    let mut free = (0..VARIABLES as u16).filter(|variable| !taken.contains(variable));
    let mut nodes = vec![node(20, 0, 0)];
    for used in uses {
        let zero = node(1, 0, 0);
        let own = node(18, 255, free.next().unwrap_or(0));
        let writes = node(used.kind, 255, used.n);
        match used.kind {
            2 => nodes.extend([own, used]),
            10 => nodes.extend([own, used, zero]),
            18 => nodes.extend([writes, zero]),
            _ => nodes.extend([writes, zero, zero]),
        }
    }
    nodes
}

fn asked(beside: Beside, nodes: &[Node]) -> Result<(), Refusal> {
    product::check(beside, &product::program_bytes(nodes))
}

/// Whether the finish is all that a refused netlist has wrong: with the start
/// as its finish it is accepted.
pub fn finish_alone(netlist: &Netlist) -> bool {
    let started = Netlist {
        finish: 0,
        ..netlist.clone()
    };
    product::check_netlist(&started).is_ok()
}

/// The field of a refused cell that some other value would do for, or `array`
/// where an array, or its address, would.
pub fn wrong_field(netlist: &Netlist, place: usize) -> Option<&'static str> {
    let fits = |change: &dyn Fn(&mut Cell)| {
        let mut changed = netlist.clone();
        change(&mut changed.cells[place]);
        product::check_netlist(&changed) != Err(Refusal::new(12, place))
    };
    let wires = one_of_each(netlist);
    if (0..=255).any(|delay| fits(&|cell| cell.delay = delay)) {
        Some("delay")
    } else if wires.iter().any(|a| fits(&|cell| cell.a = *a)) {
        Some("a")
    } else if wires.iter().any(|b| fits(&|cell| cell.b = *b)) {
        Some("b")
    } else if idle_arrays().any(|idle| fits(&|cell| *cell = idle)) {
        Some("array")
    } else if (0..=255).any(|kind| fits(&|cell| cell.kind = kind)) {
        Some("kind")
    } else {
        None
    }
}

/// Of each kind the first cell and the last: an input is refused for its kind, or
/// because it stands too high.
fn one_of_each(netlist: &Netlist) -> Vec<u16> {
    let mut ends: BTreeMap<u8, [u16; 2]> = BTreeMap::new();
    for (number, cell) in (0..).zip(&netlist.cells) {
        ends.entry(cell.kind).or_insert([number; 2])[1] = number;
    }
    ends.into_values().flatten().collect()
}

fn idle_arrays() -> impl Iterator<Item = Cell> {
    (0..ARRAYS as u8).flat_map(idle_array)
}

/// What may stand in a text: words, with an example of each.
const WORDS: &[(&str, &str)] = &[
    ("ok", "ok"),
    ("tick", "tick"),
    ("if", "if"),
    ("then", "then"),
    ("else", "else"),
    ("while", "while"),
    ("do", "do"),
    ("repeat", "repeat"),
    ("until", "until"),
    ("end", "end"),
    ("x0", "a variable"),
    ("0", "a number"),
    (":=", ":="),
    ("@", "@"),
    (";", ";"),
    ("||", "||"),
    ("{", "{"),
    ("}", "}"),
    ("(", "("),
    (")", ")"),
    ("!", "!"),
    ("+", "+"),
    ("-", "-"),
    ("=", "="),
    ("<", "<"),
    ("&", "&"),
    ("|", "|"),
];

/// The words with which the beginning of a text can go on.
pub fn words_that_fit(beside: Beside, begun: &[u8]) -> Vec<&'static str> {
    let fits = |word: &str| {
        let text = [begun, b" ", word.as_bytes()].concat();
        let broken = Refusal::new(18, begun.len() + 1);
        let met = product::read_text(beside, &text).err();
        met.is_none_or(|met| met != broken && met.number != 17)
    };
    let words = WORDS.iter().filter(|(word, _)| fits(word));
    let mut named: Vec<&str> = words.map(|(_, name)| *name).collect();
    let whole = Err(Refusal::new(18, begun.len()));
    if product::read_text(beside, begun) != whole {
        named.push("the end of the text");
    }
    named
}
