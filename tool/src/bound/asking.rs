//! The times of statements, asked of the reference run of the product.

use super::choices::{self, Choice, Way, LOOP};
use super::{Found, Lack, Span, Takes, Want};
use crate::preorder::{children, roots, subtree_end};
use crate::product;
use crate::store::{LENGTH, VARIABLES};
use crate::types::{Beside, Node, Wiring};

/// The longest run that is asked for.
const BUDGET: u32 = 1_000_000;

pub struct Asking<'n> {
    beside: Beside<'n>,
    nodes: &'n [Node],
    /// The bodies with constants in place of their conditions, for the least and for the
    /// most, if they have such a time.
    bodies: [Vec<Found<Vec<Node>>>; 2],
}

impl<'n> Asking<'n> {
    pub fn of(beside: Beside<'n>, nodes: &'n [Node]) -> Asking<'n> {
        let mut asking = Asking {
            beside,
            nodes,
            bodies: [Vec::new(), Vec::new()],
        };
        let (roots, _) = roots(nodes);
        for root in roots.into_iter().take(beside.procedures) {
            for want in [Want::Least, Want::Most] {
                let body = asking.resolved(root, want, &Choice::new());
                asking.bodies[want as usize].push(body);
            }
        }
        asking
    }

    /// How long a statement takes.
    pub fn span(&self, at: usize) -> Span {
        let time = |want| {
            let ways = choices::all(self.nodes, at)?;
            let finishes = |choice: &&Choice| choices::way(self.nodes, at, choice) == Way::Finishes;
            let times = ways.iter().filter(finishes);
            best(
                want,
                times.map(|choice| self.time(&self.resolved(at, want, choice)?, want)),
            )
        };
        Span {
            least: time(Want::Least),
            most: time(Want::Most),
        }
    }

    /// How long a round of a loop takes.
    pub fn round(&self, at: usize) -> Takes {
        let least = self.rounds(at, Want::Least);
        let most = self.rounds(at, Want::Most);
        let [round, last] = [0, 1].map(|k| Span {
            least: least[k],
            most: most[k],
        });
        let tells = self.nodes[at].kind != REPEAT && last != Span::NEVER;
        Takes::Round(round, tells.then_some(last))
    }

    /// A round that goes round, and the last one.
    fn rounds(&self, at: usize, want: Want) -> [Found<u32>; 2] {
        let body = match self.nodes[at].kind {
            LOOP => at + 1,
            _ => subtree_end(self.nodes, at + 1),
        };
        let ways = match choices::all(self.nodes, body) {
            Ok(ways) => ways,
            Err(lack) => return [Err(lack); 2],
        };
        let asked = |way: Way| {
            let ways = ways.iter();
            let ways = ways.filter(move |choice| choices::way(self.nodes, body, choice) == way);
            ways.map(move |choice| {
                let body = self.resolved(body, want, choice)?;
                match way {
                    Way::Exits => self.time(&[vec![self.nodes[at]], body].concat(), want),
                    _ => self.one_round(self.nodes[at], &body, want),
                }
            })
        };
        let last = match self.nodes[at].kind {
            LOOP => best(want, asked(Way::Exits)),
            WHILE => self.time(&[self.nodes[at], constant(0), OK], want),
            _ => Err(Lack::None),
        };
        [best(want, asked(Way::Finishes)), last]
    }

    /// What one round more makes a loop take: with a word that nobody uses in place of the
    /// condition the loop is run once round and not at all.
    fn one_round(&self, own: Node, body: &[Node], want: Want) -> Found<u32> {
        if own.kind == REPEAT {
            return self.time(&[&[own, constant(1)][..], body].concat(), want);
        }
        let free = self.free_word(body)?;
        let word = node(2, 0, free);
        let set = |value| vec![node(18, 1, free), constant(value)];
        let body = body.to_vec();
        let (once, never) = match own.kind {
            WHILE => {
                let once = [
                    vec![SEQUENCE],
                    set(1),
                    vec![own, word, SEQUENCE],
                    body,
                    set(0),
                ];
                let never = [vec![SEQUENCE], set(0), vec![own, word, OK]];
                (once.concat(), never.concat())
            }
            _ => {
                let leave = vec![node(21, 0, 0), word, EXIT, OK];
                let round = [
                    vec![own, SEQUENCE],
                    leave.clone(),
                    vec![SEQUENCE],
                    body,
                    set(1),
                ];
                let never = [vec![SEQUENCE], set(1), vec![own, SEQUENCE], leave, vec![OK]];
                let once = [vec![SEQUENCE], set(0), round.concat()];
                (once.concat(), never.concat())
            }
        };
        // Both begin with setting the word, and the round ends with it.
        let set = self.time(&set(0), want)?;
        let (once, never) = (self.time(&once, want)?, self.time(&never, want)?);
        let round = once.checked_sub(never + set);
        round.ok_or(Lack::Unknown)
    }

    /// A word that neither these nodes nor any body use.
    fn free_word(&self, body: &[Node]) -> Found<u16> {
        let bodies = self.bodies.iter().flatten().flatten().flatten();
        let nodes: Vec<&Node> = body.iter().chain(bodies).collect();
        let used = |word: u16| {
            nodes
                .iter()
                .any(|node| matches!(node.kind, 2 | 18) && node.n == word)
        };
        let free = (0..VARIABLES as u16).find(|word| !used(*word));
        free.ok_or(Lack::Unknown)
    }

    /// How long nodes take that are one statement without open conditions; an exit that
    /// is left in them, and isn't come to, has a loop around it.
    fn time(&self, statement: &[Node], want: Want) -> Found<u32> {
        let bodies = &self.bodies[want as usize];
        let bodies = bodies.iter().map(|body| body.clone().unwrap_or(vec![OK]));
        let mut nodes: Vec<Node> = bodies.flatten().collect();
        // In a program for a functional circuit no exit is left.
        if self.beside.wiring == Wiring::Functional {
            nodes.extend(statement);
        } else {
            nodes.extend([node(LOOP, u8::MAX, 0), SEQUENCE]);
            nodes.extend(statement);
            nodes.push(EXIT);
        }
        let program = product::program_bytes(&nodes);
        let beside = Beside {
            procedures: self.bodies[want as usize].len(),
            ..self.beside
        };
        let end = product::reference(beside, &program, &[0; LENGTH], BUDGET);
        match end {
            Ok(Some(end)) => Ok(end.instant),
            _ => Err(Lack::Unknown),
        }
    }

    /// The nodes of a statement with constants in place of its conditions, so that it
    /// takes least or most; conditions that are chosen come to what they are chosen for.
    fn resolved(&self, at: usize, want: Want, choice: &Choice) -> Found<Vec<Node>> {
        let own = self.nodes[at];
        let parts = self.parts(at);
        let raw = |part: usize| self.nodes[part..subtree_end(self.nodes, part)].to_vec();
        let of = |part: usize| self.resolved(part, want, choice);
        Ok(match own.kind {
            19 if choices::way(self.nodes, parts[0], choice) != Way::Finishes => {
                [vec![own], of(parts[0])?, raw(parts[1])].concat()
            }
            19 | 20 => [vec![own], of(parts[0])?, of(parts[1])?].concat(),
            21 => {
                let chosen = choice.get(&at).copied();
                let sides = [of(parts[1]), of(parts[2])];
                let holds = match chosen {
                    Some(holds) => holds,
                    None => self.better(want, &sides)?,
                };
                let [then, other] = sides;
                let taken = if holds { &then } else { &other };
                taken.as_ref().map_err(|lack| *lack)?;
                let then = then.unwrap_or_else(|_| raw(parts[1]));
                let other = other.unwrap_or_else(|_| raw(parts[2]));
                [vec![own, constant(holds.into())], then, other].concat()
            }
            22 if choice.get(&at) == Some(&true) => {
                [vec![own, constant(1)], of(parts[1])?].concat()
            }
            22 if want == Want::Least => [vec![own, constant(0)], raw(parts[1])].concat(),
            23 if want == Want::Least => [vec![own, constant(1)], of(parts[1])?].concat(),
            LOOP if want == Want::Least => self.left_soonest(at)?,
            22 | 23 | LOOP => return Err(Lack::None),
            27 => {
                let called = self.bodies[want as usize].get(usize::from(own.n));
                let body = called.ok_or(Lack::Unknown)?;
                body.as_ref().map_err(|lack| *lack)?;
                vec![own]
            }
            _ => raw(at),
        })
    }

    /// A loop that is left in its first round, as soon as can be.
    fn left_soonest(&self, at: usize) -> Found<Vec<Node>> {
        let ways = choices::all(self.nodes, at + 1)?;
        let leaves = |choice: &&Choice| choices::way(self.nodes, at + 1, choice) == Way::Exits;
        let mut soonest = Err(Lack::None);
        for choice in ways.iter().filter(leaves) {
            let body = match self.resolved(at + 1, Want::Least, choice) {
                Ok(body) => body,
                Err(Lack::None) => continue,
                Err(Lack::Unknown) => return Err(Lack::Unknown),
            };
            let nodes = [vec![self.nodes[at]], body].concat();
            let time = self.time(&nodes, Want::Least)?;
            if !matches!(&soonest, Ok((least, _)) if *least <= time) {
                soonest = Ok((time, nodes));
            }
        }
        soonest.map(|(_, nodes)| nodes)
    }

    /// Whether the first of two sides takes less, or more. Where one has no end, the other
    /// takes less, and there is no most.
    fn better(&self, want: Want, sides: &[Found<Vec<Node>>; 2]) -> Found<bool> {
        let time = |side: &Found<Vec<Node>>| match side {
            Ok(nodes) => self.time(nodes, want),
            Err(lack) => Err(*lack),
        };
        let [then, other] = sides.each_ref().map(time);
        let taken = best(want, [then, other].into_iter())?;
        Ok(then == Ok(taken))
    }

    /// Where the children of a statement stand.
    fn parts(&self, at: usize) -> Vec<usize> {
        let mut part = at + 1;
        let mut parts = Vec::new();
        for _ in 0..children(self.nodes[at].kind) {
            parts.push(part);
            part = subtree_end(self.nodes, part);
        }
        parts
    }
}

/// The least or the most of times. What has none takes longest, so that with it there is no
/// most; where one is unknown, so are both.
fn best(want: Want, times: impl Iterator<Item = Found<u32>>) -> Found<u32> {
    let times: Vec<Found<u32>> = times.collect();
    if times.contains(&Err(Lack::Unknown)) {
        return Err(Lack::Unknown);
    }
    let known = times.iter().flatten().copied();
    let best = match want {
        Want::Least => known.min(),
        Want::Most if times.contains(&Err(Lack::None)) => None,
        Want::Most => known.max(),
    };
    best.ok_or(Lack::None)
}

const WHILE: u8 = 22;
const REPEAT: u8 = 23;
const OK: Node = node(16, 0, 0);
const SEQUENCE: Node = node(19, 0, 0);
const EXIT: Node = node(26, 0, 0);

const fn node(kind: u8, delay: u8, n: u16) -> Node {
    Node { kind, delay, n }
}

const fn constant(n: u16) -> Node {
    node(1, 0, n)
}
