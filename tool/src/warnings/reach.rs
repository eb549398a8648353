//! Statements that are never reached: behind what never finishes, and in branches that
//! are never taken.

use super::conditions::Conditions;
use super::Warning;
use crate::input::Program;
use crate::preorder::{roots, subtree_end};
use crate::types::Node;

pub fn unreached(procedures: usize, program: &Program, conditions: &Conditions) -> Vec<Warning> {
    let mut walk = Walk {
        nodes: &program.nodes,
        conditions,
        finishes: Vec::new(),
        unreached: Vec::new(),
    };
    let (roots, _) = roots(&program.nodes);
    for root in roots.into_iter().take(procedures + 1) {
        let way = walk.statement(root);
        walk.finishes.push(way.finishes);
    }
    let warning = |(node, why): &(usize, &str)| {
        let what = format!("this is never reached: {why}");
        Warning::new(
            "unreached",
            *node,
            what,
            "leave it out, or change what stands before it",
        )
    };
    walk.unreached.iter().map(warning).collect()
}

/// How a statement may go on: by its finish, or by an exit of the loop around it.
#[derive(Clone, Copy)]
struct Way {
    finishes: bool,
    exits: bool,
}

const ON: Way = Way {
    finishes: true,
    exits: false,
};

struct Walk<'w> {
    nodes: &'w [Node],
    conditions: &'w Conditions<'w>,
    /// Of the procedures so far.
    finishes: Vec<bool>,
    unreached: Vec<(usize, &'static str)>,
}

impl Walk<'_> {
    fn statement(&mut self, at: usize) -> Way {
        let first = at + 1;
        match self.nodes[at].kind {
            19 => self.sequence(first),
            20 => {
                let second = subtree_end(self.nodes, first);
                let (left, right) = (self.statement(first), self.statement(second));
                Way {
                    finishes: left.finishes && right.finishes,
                    exits: false,
                }
            }
            21 => self.choice(at),
            22 => self.while_loop(at),
            23 => {
                let body = self.statement(subtree_end(self.nodes, first));
                let tested = self.conditions.always(at) != Some(false);
                Way {
                    finishes: body.finishes && tested,
                    ..body
                }
            }
            25 => Way {
                finishes: self.statement(first).exits,
                exits: false,
            },
            26 => Way {
                finishes: false,
                exits: true,
            },
            27 => {
                let called = usize::from(self.nodes[at].n);
                Way {
                    finishes: self.finishes.get(called).copied().unwrap_or(true),
                    ..ON
                }
            }
            _ => ON,
        }
    }

    fn sequence(&mut self, first: usize) -> Way {
        let left = self.statement(first);
        let second = subtree_end(self.nodes, first);
        if !left.finishes {
            let why = "what stands before it never finishes";
            self.unreached.push((second, why));
            return left;
        }
        let right = self.statement(second);
        Way {
            finishes: right.finishes,
            exits: left.exits || right.exits,
        }
    }

    fn choice(&mut self, at: usize) -> Way {
        let then = subtree_end(self.nodes, at + 1);
        let other = subtree_end(self.nodes, then);
        let (taken, left) = match self.conditions.always(at) {
            None => {
                let (left, right) = (self.statement(then), self.statement(other));
                return Way {
                    finishes: left.finishes || right.finishes,
                    exits: left.exits || right.exits,
                };
            }
            Some(true) => (then, other),
            Some(false) => (other, then),
        };
        // An else that is ok says nothing.
        if self.nodes[left].kind != OK {
            let why = "the condition always decides otherwise";
            self.unreached.push((left, why));
        }
        self.statement(taken)
    }

    fn while_loop(&mut self, at: usize) -> Way {
        let body = subtree_end(self.nodes, at + 1);
        match self.conditions.always(at) {
            Some(false) => {
                self.unreached.push((body, "the condition never holds"));
                ON
            }
            always => {
                let body = self.statement(body);
                Way {
                    finishes: always.is_none(),
                    ..body
                }
            }
        }
    }
}

const OK: u8 = 16;
