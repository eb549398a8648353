//! Expressions within a limit of nodes and of time.

use super::author::{Author, MOST_DELAY};
use super::scope::{Scope, Set, VARIABLES};
use second::operator::Operator;

const OPERATORS: [Operator; 7] = [
    Operator::Complement,
    Operator::Sum,
    Operator::Difference,
    Operator::And,
    Operator::Or,
    Operator::Equal,
    Operator::Less,
];

impl Author<'_> {
    /// The expression of a statement, mostly short, so that room is left for
    /// statements; gives its time.
    pub fn own_expression(&mut self, limit: usize, scope: Scope) -> u32 {
        let usual = if self.random.once_in(12) { 40 } else { 9 };
        let room = (limit - self.count()).min(usual);
        let limit = self.count() + self.random.between(1, room);
        self.expression(limit, MOST_DELAY, scope.reads)
    }

    /// Writes an expression within a limit and a time; gives its time.
    fn expression(&mut self, limit: usize, time: u32, reads: Set) -> u32 {
        let room = limit - self.count();
        let times = self.times;
        let readable = reads & !VARIABLES != 0 && times.of_element() <= time && room >= 2;
        if readable && self.random.once_in(3) {
            let array = self.array(reads);
            self.node(10, array);
            return times.of_element() + self.index(limit, time - times.of_element(), reads);
        }
        let fits = |operator: &Operator| times.of(*operator) <= time && inputs(*operator) < room;
        let operators: Vec<Operator> = OPERATORS.into_iter().filter(fits).collect();
        // Where a complement alone fits, a leaf is mostly the better choice.
        let leaves_in_twelve = if room < 3 { 9 } else { 2 };
        if operators.is_empty() || self.random.below(12) < leaves_in_twelve {
            self.leaf(reads);
            return 0;
        }
        let operator = self.random.pick(&operators);
        self.node(operator.kind(), 0);
        let left = time - times.of(operator);
        let mut children = 0;
        if inputs(operator) == 2 {
            let first_limit = self.random.between(self.count() + 1, limit - 1);
            children = self.expression(first_limit, left, reads);
        }
        times.of(operator) + children.max(self.expression(limit, left, reads))
    }

    /// Writes an index; gives its time. Few elements meet more often than 64 do,
    /// and one index in three is above 63.
    pub fn index(&mut self, limit: usize, time: u32, reads: Set) -> u32 {
        if !self.random.once_in(3) {
            return self.expression(limit, time, reads);
        }
        let n = 64 * self.random.below(1_024) + self.random.below(6);
        self.node(1, n as u16);
        0
    }

    fn leaf(&mut self, reads: Set) {
        if reads & VARIABLES != 0 && !self.random.once_in(3) {
            let variable = self.variable(reads);
            self.node(2, variable);
        } else {
            let small = self.random.below(6) as u16;
            let any = self.random.word();
            let n = if self.random.once_in(4) { any } else { small };
            self.node(1, n);
        }
    }
}

fn inputs(operator: Operator) -> usize {
    match operator {
        Operator::Complement => 1,
        _ => 2,
    }
}
