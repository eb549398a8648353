//! What an accepted program most likely gets wrong. Nothing here is refused; what a
//! condition comes to, and which delay is the least, is asked of the product.

mod conditions;
mod reach;
mod uses;

use crate::bound;
use crate::input::Program;
use crate::kinds::NODES;
use crate::refusals::{least_delay, settles};
use crate::source::Said;
use crate::types::Beside;
use conditions::Conditions;

#[derive(Clone, Debug, PartialEq, Eq)]
pub struct Warning {
    /// What it is about, in a word, for scripts.
    pub about: &'static str,
    pub node: usize,
    pub what: String,
    pub remedy: String,
    /// The word or the procedure that it is about, if it is about one.
    pub name: String,
    /// A note may be as it is meant, and isn't denied.
    pub note: bool,
}

impl Warning {
    fn new(about: &'static str, node: usize, what: impl Into<String>, remedy: &str) -> Warning {
        Warning {
            about,
            node,
            what: what.into(),
            remedy: remedy.to_string(),
            name: String::new(),
            note: false,
        }
    }
}

/// The warnings about a program, in the order of its nodes; `line` tells the line of a
/// node, for a reader.
pub fn warnings(beside: Beside, program: &Program, line: &dyn Fn(usize) -> String) -> Vec<Warning> {
    let conditions = Conditions::of(beside, &program.nodes);
    let mut all = conditions.warnings();
    all.extend(uses::endless(beside.procedures, program, &conditions));
    all.extend(reach::unreached(beside.procedures, program, &conditions));
    all.extend(long_delays(beside, program, line));
    all.extend(uses::unread(program));
    all.extend(uses::uncalled(beside.procedures, program));
    all.sort_by_key(|warning| (warning.note, warning.node));
    all
}

/// Delays above the least, but for those that say so, with the loop whose every round
/// they make longer.
fn long_delays(beside: Beside, program: &Program, line: &dyn Fn(usize) -> String) -> Vec<Warning> {
    let nodes = &program.nodes;
    let meant = |node: usize| matches!(program.said.get(node), Some(Said::More(..) | Said::Least));
    let mut all = Vec::new();
    for node in (0..nodes.len()).filter(|node| !meant(*node) && settles(beside, nodes, *node)) {
        let delay = nodes[node].delay;
        let least = least_delay(beside, nodes, node).unwrap_or(delay);
        let more = delay - least;
        if more == 0 {
            continue;
        }
        let mut what = format!("this delay is {delay}, and {least} is the least: {more} more");
        if let Some(around) = uses::loop_around(nodes, node) {
            let (word, line) = (word_of(nodes[around].kind), line(around));
            let round = bound::round(beside, nodes, around);
            what += &format!(" in each round of the {word} in {line}");
            if round.least.is_ok() {
                what += &format!(", which takes {}", round.text());
            }
        }
        let remedy = format!("write @{least}, or in a long text @+{more} if it is meant");
        all.push(Warning::new("delay", node, what, &remedy));
    }
    all
}

/// The word for a kind of node.
fn word_of(kind: u8) -> &'static str {
    let own = NODES.kinds.iter().find(|template| template.kind == kind);
    own.and_then(|template| template.words.split(' ').next())
        .unwrap_or("node")
}
