//! The bodies of procedures, and calls of them.

use super::author::Author;
use super::scope::{Body, Scope, Set, FIRST_ARRAY};

const MOST_PROCEDURES: usize = 8;

impl Author<'_> {
    /// Some bodies, short ones more often than not, each with some of the
    /// variables, so that two of them may stand on two sides.
    pub fn bodies(&mut self, limit: usize, scope: Scope) {
        let most = MOST_PROCEDURES.min(limit - 1);
        for left in (1..=self.random.between(1, most)).rev() {
            let room = limit - left - self.count();
            let room = match self.random.below(4) {
                0 => 1,
                1 => room.min(4),
                _ => room.min(limit / 2),
            };
            let (reads, writes) = (self.random.bits() as Set, self.random.bits() as Set);
            let own = Scope {
                reads: scope.reads & (reads | writes),
                writes: scope.writes & writes,
                ..scope
            };
            let first = self.bytes.len();
            let body_limit = self.count() + self.random.between(1, room);
            self.statement(body_limit, own);
            self.bodies.push(self.body(first));
        }
    }

    /// What the body from this byte on does.
    fn body(&self, first: usize) -> Body {
        let mut body = Body {
            reaches: 1 << self.bodies.len(),
            ..Body::default()
        };
        for node in self.bytes[first..].chunks_exact(4) {
            match node[0] {
                2 => body.reads |= 1 << node[2],
                10 => body.reads |= 1 << (FIRST_ARRAY + u16::from(node[2])),
                18 => body.writes |= 1 << node[2],
                24 => body.writes |= 1 << (FIRST_ARRAY + u16::from(node[2])),
                27 => {
                    let called = self.bodies[usize::from(node[2])];
                    body.reads |= called.reads;
                    body.writes |= called.writes;
                    body.reaches |= called.reaches;
                }
                _ => {}
            }
        }
        body
    }

    /// The procedures that may be called in a scope.
    pub fn callable(&self, scope: Scope) -> Vec<u16> {
        let bodies = (0..).zip(&self.bodies);
        let allowed = bodies.filter(|(_, &body)| scope.allows(body));
        allowed.map(|(procedure, _)| procedure).collect()
    }

    /// The pairs of these that neither clash nor reach one procedure.
    pub fn pairs(&self, scope: Scope) -> Vec<(u16, u16)> {
        let callable = self.callable(scope);
        let pairs = callable
            .iter()
            .flat_map(|&p| callable.iter().map(move |&q| (p, q)));
        let apart = |&(p, q): &(u16, u16)| {
            let [p, q] = [p, q].map(|procedure| self.bodies[usize::from(procedure)]);
            p.reaches & q.reaches == 0
                && p.writes & (q.reads | q.writes) == 0
                && q.writes & p.reads == 0
        };
        pairs.filter(apart).collect()
    }

    pub fn call_one(&mut self, scope: Scope) {
        let procedure = self.random.pick(&self.callable(scope));
        self.call(procedure);
    }

    /// call; body; the same call
    pub fn call_twice(&mut self, limit: usize, scope: Scope) {
        let procedure = self.random.pick(&self.callable(scope));
        self.node(19, 0);
        self.call(procedure);
        self.node(19, 0);
        self.statement(limit - 1, scope);
        self.call(procedure);
    }

    /// call || another call
    pub fn call_both(&mut self, scope: Scope) {
        let (p, q) = self.random.pick(&self.pairs(scope));
        self.node(20, 0);
        self.call(p);
        self.call(q);
    }

    fn call(&mut self, procedure: u16) {
        let place = self.node(27, procedure);
        self.set_delay_again(place, 0);
    }
}
