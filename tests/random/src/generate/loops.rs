//! Loops of every kind, those that count down and those that are left by an exit.

use super::author::Author;
use super::scope::Scope;
use second::operator::Operator;

impl Author<'_> {
    /// while or repeat with any condition and any body.
    pub fn free_loop(&mut self, kind: u8, limit: usize, scope: Scope) {
        let place = self.node(kind, 0);
        let time = self.own_expression(limit - 1, scope);
        self.set_delay_again(place, time);
        self.statement(limit, scope);
    }

    /// while x do body; x := x - 1
    pub fn while_counting(&mut self, limit: usize, scope: Scope) {
        let variable = self.variable(scope.writes);
        let place = self.node(22, 0);
        self.node(2, variable);
        self.set_delay_again(place, 0);
        self.counting_body(variable, limit, scope);
    }

    /// repeat body; x := x - 1 until x = 0
    pub fn repeat_counting(&mut self, limit: usize, scope: Scope) {
        let variable = self.variable(scope.writes);
        let place = self.node(23, 0);
        self.node(8, 0);
        self.node(2, variable);
        self.node(1, 0);
        self.set_delay_again(place, self.times.of(Operator::Equal));
        self.counting_body(variable, limit, scope);
    }

    /// loop body, with exits anywhere or none.
    pub fn loop_around(&mut self, limit: usize, scope: Scope) {
        self.loop_node();
        self.statement(limit, scope);
    }

    /// loop, with a delay; its body comes next.
    fn loop_node(&mut self) {
        let place = self.node(25, 0);
        self.set_delay_again(place, 0);
    }

    /// loop body; if e then exit else rest, or with the branches or the statements
    /// the other way round.
    pub fn loop_polling(&mut self, limit: usize, scope: Scope) {
        self.loop_node();
        self.node(19, 0);
        let test_first = self.random.once_in(2);
        if test_first {
            let test_limit = self.random.between(self.count() + 4, limit - 1);
            self.exit_in_branch(test_limit, scope);
            return self.statement(limit, scope);
        }
        let body_limit = self.random.between(self.count() + 1, limit - 4);
        self.statement(body_limit, scope);
        self.exit_in_branch(limit, scope);
    }

    /// if e then exit else rest, or the other way round.
    fn exit_in_branch(&mut self, limit: usize, scope: Scope) {
        let place = self.node(21, 0);
        let time = self.own_expression(limit - 2, scope);
        self.set_delay(place, time);
        if self.random.once_in(2) {
            self.node(26, 0);
            return self.statement(limit, scope);
        }
        self.statement(limit - 1, scope);
        self.node(26, 0);
    }

    /// loop if x then body; x := x - 1 else exit
    pub fn loop_counting(&mut self, limit: usize, scope: Scope) {
        let variable = self.variable(scope.writes);
        self.loop_node();
        let place = self.node(21, 0);
        self.node(2, variable);
        self.set_delay(place, 0);
        self.counting_body(variable, limit - 1, scope);
        self.node(26, 0);
    }

    /// A statement that lets x alone, and the four nodes of x := x - 1.
    fn counting_body(&mut self, variable: u16, limit: usize, scope: Scope) {
        self.node(19, 0);
        self.statement(limit - 4, scope.without_writing(variable));
        let place = self.node(18, variable);
        self.node(5, 0);
        self.node(2, variable);
        self.node(1, 1);
        self.set_delay(place, self.times.of(Operator::Difference));
    }
}
