//! Statements, without those of loops and of calls.

use super::author::{Author, MOST_DELAY};
use super::forms::Form;
use super::scope::{Scope, Set};
use super::Sides;

impl Author<'_> {
    pub fn statement(&mut self, limit: usize, scope: Scope) {
        match self.form(limit - self.count(), scope) {
            Form::Ok => {
                self.node(16, 0);
            }
            Form::Tick => {
                let place = self.node(17, 0);
                self.set_delay(place, 1);
            }
            Form::Assign => self.assignment(limit, scope),
            Form::AssignElement => self.element_assignment(limit, scope),
            Form::Sequence => {
                self.node(19, 0);
                self.two_statements(limit, scope, scope);
            }
            Form::Parallel => self.parallel(limit, scope),
            Form::If => self.choice(limit, scope),
            Form::While => self.free_loop(22, limit, scope),
            Form::Repeat => self.free_loop(23, limit, scope),
            Form::WhileCounting => self.while_counting(limit, scope),
            Form::RepeatCounting => self.repeat_counting(limit, scope),
            Form::Exit => {
                self.node(26, 0);
            }
            Form::Loop => self.loop_around(limit, scope.in_loop()),
            Form::LoopPolling => self.loop_polling(limit, scope.in_loop()),
            Form::LoopCounting => self.loop_counting(limit, scope.in_loop()),
            Form::Call => self.call_one(scope),
            Form::CallTwice => self.call_twice(limit, scope),
            Form::CallBoth => self.call_both(scope),
        }
    }

    /// Two statements, of which the second has what room the first leaves.
    fn two_statements(&mut self, limit: usize, p_scope: Scope, q_scope: Scope) {
        let p_limit = self.random.between(self.count() + 1, limit - 1);
        self.statement(p_limit, p_scope);
        self.statement(limit, q_scope);
    }

    fn assignment(&mut self, limit: usize, scope: Scope) {
        let variable = self.variable(scope.writes);
        let place = self.node(18, variable);
        let time = self.own_expression(limit, scope);
        self.set_delay(place, time.max(1));
    }

    fn element_assignment(&mut self, limit: usize, scope: Scope) {
        let array = self.array(scope.writes);
        let place = self.node(24, array);
        let index_limit = limit.min(self.count() + 8) - 1;
        let index = self.index(index_limit, MOST_DELAY, scope.reads);
        let value = self.own_expression(limit, scope);
        self.set_delay(place, index.max(value).max(1));
    }

    /// Each side may read what the other doesn't write, and no exit leaves a side.
    fn parallel(&mut self, limit: usize, scope: Scope) {
        self.node(20, 0);
        let exits = scope.exits && self.sides == Sides::Leaving;
        let scope = Scope { exits, ..scope };
        if self.sides == Sides::Clashing {
            return self.two_statements(limit, scope, scope);
        }
        let share = self.random.bits() as Set;
        let (p_writes, q_writes) = (scope.writes & share, scope.writes & !share);
        let reached = match self.sides {
            Sides::Sharing => [scope.reaches; 2],
            _ => self.apart(scope.reaches),
        };
        let side = |writes: Set, others: Set, reaches: Set| Scope {
            reads: scope.reads & !others,
            writes,
            reaches,
            ..scope
        };
        let p_scope = side(p_writes, q_writes, reached[0]);
        self.two_statements(limit, p_scope, side(q_writes, p_writes, reached[1]));
    }

    /// Procedures for two sides. Often one side alone has any.
    fn apart(&mut self, reaches: Set) -> [Set; 2] {
        match self.random.below(4) {
            0 => [reaches, 0],
            1 => [0, reaches],
            _ => {
                let share = self.random.bits() as Set;
                [reaches & share, reaches & !share]
            }
        }
    }

    fn choice(&mut self, limit: usize, scope: Scope) {
        let place = self.node(21, 0);
        let time = self.own_expression(limit - 2, scope);
        self.set_delay(place, time);
        self.two_statements(limit, scope, scope);
    }
}
