//! The forms of statements, and the choice of one.

use super::author::Author;
use super::scope::{Scope, VARIABLES};

#[derive(Clone, Copy, PartialEq)]
pub enum Form {
    Ok,
    Tick,
    Assign,
    AssignElement,
    Sequence,
    Parallel,
    If,
    While,
    Repeat,
    /// A loop around a body and a counting down of its condition.
    WhileCounting,
    RepeatCounting,
    Exit,
    Loop,
    /// A loop around two statements and an exit in a branch.
    LoopPolling,
    LoopCounting,
    Call,
    /// A call, a statement and another call of the same procedure.
    CallTwice,
    /// Calls of two procedures that may run together, side by side.
    CallBoth,
}

/// The forms, with the least room of each and how often it is to be chosen.
const FORMS: [(Form, usize, usize); 18] = [
    (Form::Ok, 1, 1),
    (Form::Tick, 1, 2),
    (Form::Assign, 2, 4),
    (Form::AssignElement, 3, 5),
    (Form::Sequence, 3, 12),
    (Form::Parallel, 3, 8),
    (Form::If, 4, 6),
    (Form::While, 3, 2),
    (Form::Repeat, 3, 2),
    (Form::WhileCounting, 8, 6),
    (Form::RepeatCounting, 10, 5),
    (Form::Exit, 1, 2),
    (Form::Loop, 2, 2),
    (Form::LoopPolling, 7, 7),
    (Form::LoopCounting, 10, 9),
    (Form::Call, 1, 6),
    (Form::CallTwice, 5, 6),
    (Form::CallBoth, 3, 6),
];

impl Author<'_> {
    /// A form that fits, by weight; where room is large, none without parts.
    pub fn form(&mut self, room: usize, scope: Scope) -> Form {
        let wanted = if room > 10 { 3..=room } else { 1..=room };
        let variables = scope.writes & VARIABLES != 0;
        let calls = !self.callable(scope).is_empty();
        let may_stand = |form: Form| match form {
            Form::Assign | Form::WhileCounting | Form::RepeatCounting => variables,
            Form::AssignElement => scope.writes & !VARIABLES != 0,
            Form::Exit => scope.exits,
            Form::Loop | Form::LoopPolling => self.loops,
            Form::LoopCounting => self.loops && variables,
            Form::Call | Form::CallTwice => calls,
            Form::CallBoth => !self.pairs(scope).is_empty(),
            _ => true,
        };
        let fits = |form: Form, least: usize| wanted.contains(&least) && may_stand(form);
        let chosen: Vec<Form> = FORMS
            .iter()
            .filter(|&&(form, least, _)| fits(form, least))
            .flat_map(|&(form, _, weight)| vec![form; weight])
            .collect();
        self.random.pick(&chosen)
    }
}
