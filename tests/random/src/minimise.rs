//! Makes a failing job smaller, step by step, for as long as it still fails.
//!
//! A step drops a procedure, puts a smaller subtree for a subtree, lowers a
//! number of a node, clears a start word, shortens the pulses, or drops the table
//! or a call on the run. It is greedy: the first
//! step that keeps the failure is taken, until none does. Of programs of one
//! length the one whose bytes come first is the smaller, so there is an end.

use crate::job::Job;
use second::kinds::{row, Sort};
use std::cmp::Ordering;
use std::ops::Range;

const NODE: usize = 4;
const OK: [u8; NODE] = [16, 0, 0, 0];
const TICK: [u8; NODE] = [17, 1, 0, 0];
const ZERO: [u8; NODE] = [1, 0, 0, 0];
const CALL: u8 = 27;

/// The smallest job that the steps lead to and that still fails.
pub fn minimise(job: &Job, fails: impl Fn(&Job) -> bool) -> Job {
    let mut smallest = job.clone();
    while let Some(smaller) = steps(&smallest).into_iter().find(&fails) {
        smallest = smaller;
    }
    smallest
}

/// Every job one step smaller, the large steps first.
fn steps(job: &Job) -> Vec<Job> {
    let with_program = |program| Job {
        program,
        ..job.clone()
    };
    let programs = smaller_programs(&job.program).into_iter().map(with_program);
    fewer_procedures(job)
        .into_iter()
        .chain(programs)
        .chain(without_table(job))
        .chain(shorter_pulses(job))
        .chain(fewer_calls(job))
        .chain(cleared_words(job))
        .collect()
}

/// The job without one of its procedures, whose callers only wait.
fn fewer_procedures(job: &Job) -> Vec<Job> {
    let nodes: Vec<&[u8]> = job.program.chunks_exact(NODE).collect();
    let (mut fewer, mut first) = (vec![], 0);
    for procedure in 0..job.procedures.min(nodes.len()) {
        let next = subtree_end(&nodes, first);
        let left = nodes[..first].iter().chain(&nodes[next..]);
        let program = left.flat_map(|node| without_call(node, procedure));
        fewer.push(Job {
            procedures: job.procedures - 1,
            program: program.collect(),
            ..job.clone()
        });
        first = next;
    }
    fewer
}

/// A node of a program that has lost a procedure.
fn without_call(node: &[u8], procedure: usize) -> [u8; NODE] {
    let [kind, delay, low, high] = [node[0], node[1], node[2], node[3]];
    let called = u16::from_le_bytes([low, high]);
    match usize::from(called).cmp(&procedure) {
        Ordering::Equal if kind == CALL => [17, delay, 0, 0],
        Ordering::Greater if kind == CALL => {
            let [low, high] = (called - 1).to_le_bytes();
            [CALL, delay, low, high]
        }
        _ => [kind, delay, low, high],
    }
}

/// Programs with fewer nodes, then those with a lower number in a node.
fn smaller_programs(program: &[u8]) -> Vec<Vec<u8>> {
    let nodes: Vec<&[u8]> = program.chunks_exact(NODE).collect();
    let numbers = 0..nodes.len();
    let fewer = numbers.clone().flat_map(|node| fewer_nodes(&nodes, node));
    let lower = numbers.flat_map(|node| lower_numbers(program, node));
    fewer.chain(lower).collect()
}

/// The program with the subtree at `node` replaced by something smaller.
fn fewer_nodes(nodes: &[&[u8]], node: usize) -> Vec<Vec<u8>> {
    let end = subtree_end(nodes, node);
    let sort_of = |node: usize| row(nodes[node][0]).map(|row| row.sort());
    let leaves: &[[u8; NODE]] = match sort_of(node) {
        Some(Sort::Expression) => &[ZERO],
        _ => &[OK, TICK],
    };
    let old = nodes[node..end].concat();
    let is_smaller = |leaf: &&[u8; NODE]| (NODE, &leaf[..]) < (old.len(), &old[..]);
    let mut replacements: Vec<Vec<u8>> = leaves
        .iter()
        .filter(is_smaller)
        .map(|leaf| leaf.to_vec())
        .collect();
    for child in children(nodes, node) {
        if sort_of(child) == sort_of(node) {
            replacements.push(nodes[child..subtree_end(nodes, child)].concat());
        }
    }
    let put = |replacement: Vec<u8>| {
        [nodes[..node].concat(), replacement, nodes[end..].concat()].concat()
    };
    replacements.into_iter().map(put).collect()
}

/// The children of a node, as far as there are nodes for them.
fn children(nodes: &[&[u8]], node: usize) -> Vec<usize> {
    let mut found = vec![];
    let mut next = node + 1;
    while found.len() < child_count(nodes[node]) && next < nodes.len() {
        found.push(next);
        next = subtree_end(nodes, next);
    }
    found
}

/// The first node after the subtree at `node`: the one where nothing is owed.
pub fn subtree_end(nodes: &[&[u8]], node: usize) -> usize {
    let (mut next, mut owed) = (node, 1);
    while owed > 0 && next < nodes.len() {
        owed = owed - 1 + child_count(nodes[next]);
        next += 1;
    }
    next
}

fn child_count(node: &[u8]) -> usize {
    row(node[0]).map_or(0, |row| row.children.len())
}

/// The program with a lower delay or n at a node.
fn lower_numbers(program: &[u8], node: usize) -> Vec<Vec<u8>> {
    let mut lower = vec![];
    for place in NODE * node + 1..NODE * (node + 1) {
        let old = program[place];
        for new in [0, 1, old / 2, old.saturating_sub(1)] {
            if new < old {
                let mut changed = program.to_vec();
                changed[place] = new;
                lower.push(changed);
            }
        }
    }
    lower
}

/// The job under the built-in times, if it isn't so already.
fn without_table(job: &Job) -> Option<Job> {
    let without = |_| Job {
        table: None,
        ..job.clone()
    };
    job.table.as_ref().map(without)
}

/// The job with pulses of one instant, or one instant shorter.
fn shorter_pulses(job: &Job) -> Vec<Job> {
    let with_pulse = |pulse| Job {
        pulse,
        ..job.clone()
    };
    let shorter = [1, job.pulse.saturating_sub(1)].into_iter();
    let shorter = shorter.filter(|&pulse| (1..job.pulse).contains(&pulse));
    shorter.map(with_pulse).collect()
}

/// The job without one of its calls.
fn fewer_calls(job: &Job) -> Vec<Job> {
    let without = |call| {
        let mut fewer = job.clone();
        fewer.calls.remove(call);
        fewer
    };
    (0..job.calls.len()).map(without).collect()
}

/// The job with one byte of a start word cleared, or with every byte.
fn cleared_words(job: &Job) -> Vec<Job> {
    let length = job.words.len();
    let set = (0..length).filter(|&place| job.words[place] != 0);
    let cleared = |places: Range<usize>| {
        let mut cleared = job.clone();
        cleared.words[places].fill(0);
        cleared
    };
    let all = set.clone().next().map(|_| 0..length);
    all.into_iter()
        .chain(set.map(|place| place..place + 1))
        .map(cleared)
        .collect()
}

#[cfg(test)]
mod tests {
    use super::*;
    use crate::against_rules;
    use crate::faulty::runs::SLOW_PARALLEL;
    use peers::SECOND;

    #[test]
    fn a_fault_of_parallel_nodes_comes_down_to_one_of_them() {
        let fails = |job: &Job| against_rules::compare(&SLOW_PARALLEL, job).is_err();
        // Where a procedure has the parallel node, its main program stays.
        let alone = |job: &Job| job.procedures == 0 && fails(job);
        let failing = (0..).map(Job::of_seed).find(alone);
        let failing = failing.expect("a parallel program");
        let smallest = minimise(&failing, fails);
        assert_eq!(smallest.program, [[20, 0, 0, 0], OK, OK].concat());
        assert!(smallest.calls.is_empty() && smallest.table.is_none());
        assert_eq!(smallest.pulse, 1);
        assert!(smallest.words.iter().all(|&byte| byte == 0));
    }

    /// Procedures are dropped one by one, and the calls of those that stay name
    /// them by their new numbers.
    #[test]
    fn procedures_that_a_fault_does_not_need_are_dropped() {
        let [first, second] = [[TICK].concat(), [[18, 1, 0, 0], ZERO].concat()];
        let call = |procedure| [CALL, 1, procedure, 0];
        let main = [[19, 0, 0, 0], call(0), call(1)].concat();
        let job = Job {
            table: None,
            procedures: 2,
            pulse: 1,
            program: [first, second.clone(), main].concat(),
            calls: vec![],
            words: vec![],
            ..Job::of_seed(0)
        };
        let calls_an_assignment = |job: &Job| {
            let kinds: Vec<u8> = job.program.chunks_exact(NODE).map(|node| node[0]).collect();
            against_rules::compare(&SECOND, job).is_ok()
                && kinds.contains(&18)
                && kinds.contains(&CALL)
                && (SECOND.check)(job.given(), &job.program).result.is_ok()
        };
        let smallest = minimise(&job, calls_an_assignment);
        assert_eq!(smallest.procedures, 1);
        assert_eq!(smallest.program, [second, call(0).to_vec()].concat());
    }

    #[test]
    fn nothing_is_cut_from_what_fails_only_whole() {
        let job = Job::of_seed(7);
        let whole = job.clone();
        let smallest = minimise(&job, |job| job.program == whole.program);
        assert_eq!(smallest.program, whole.program);
    }
}
