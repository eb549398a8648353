//! A run of random jobs, and the report of a disagreement.
//!
//! A job depends on the run's seed and its own number alone, so any one can
//! be had again.

use crate::against_peer::Pair;
use crate::job::{self, Job};
use crate::list::Seen;
use crate::tally::Tally;
use crate::xorshift::Random;
use crate::{against_equations, against_full, against_functional, against_parts, against_rules};
use crate::{against_slow, against_tables, against_text};
use crate::{generate, listing, minimise, netlists};
use peers::{Peer, PROVED, SECOND};
use second::netfile;
use values::{Circuit, Format};

const LEFT: Peer = SECOND;
const RIGHT: Peer = PROVED;

/// Programs for each random netlist, which takes that much longer.
const PROGRAMS_FOR_NETLIST: u64 = 40;

/// All jobs of a run; the error reports the first disagreement.
pub fn run(seed: u64, count: u64) -> Result<Tally, String> {
    let mut tally = Tally::default();
    for number in 0..count {
        let job_seed = Random::new(seed).bits().wrapping_add(number);
        let job = Job::of_seed(job_seed);
        match compare(&job) {
            Ok((seen, functional, compact)) => tally.add(&job, seen, functional, compact),
            Err(what) => return Err(report(&job, number, &what)),
        }
        let met = against_parts::compare(&LEFT, &RIGHT, &mut Random::new(job_seed.rotate_left(32)));
        tally.add_parts(met.map_err(|what| format!("parts {number}: {what}"))?);
        if number % PROGRAMS_FOR_NETLIST == 0 {
            tally.crowded += compare_netlist(&mut Random::new(!job_seed))
                .map_err(|what| format!("netlist {number}: {what}"))?;
            tally.netlists += 1;
        }
    }
    Ok(tally)
}

/// A program: the peers with each other, and each by itself, calls with the
/// table, texts with the program, slow runs with full ones, compact states with full
/// ones and the circuit
/// with the rules, for the functional one with each compiler's netlist on the other's
/// simulator. Tells how many calls there were on compact states.
fn compare(job: &Job) -> Result<(Seen, Seen, u64), String> {
    let pair = Pair {
        left: &LEFT,
        right: &RIGHT,
    };
    pair.compare(job)?;
    against_tables::compare(&LEFT, job)?;
    against_tables::compare(&RIGHT, job)?;
    against_text::compare(&LEFT, job)?;
    against_text::compare(&RIGHT, job)?;
    against_slow::compare(&LEFT, job)?;
    against_slow::compare(&RIGHT, job)?;
    let mut compact = 0;
    for circuit in circuits(job) {
        against_full::compare(&LEFT, *circuit, job)?;
        compact += against_full::compare(&RIGHT, *circuit, job)?;
    }
    against_rules::compare(&LEFT, job)?;
    let imperative = against_rules::compare(&RIGHT, job)?;
    against_functional::compare(&RIGHT, &LEFT, job)?;
    let functional = against_functional::compare(&LEFT, &RIGHT, job)?;
    Ok((imperative, functional, compact))
}

/// The circuits of which compact states are compared with full ones: a functional one
/// has many more cells, and its turn comes once in eight.
fn circuits(job: &Job) -> &'static [Circuit] {
    match job.damage % 8 {
        0 => &Circuit::BOTH,
        _ => &[Circuit::Imperative],
    }
}

/// A random netlist: the peers with each other, and the states of each with
/// the equations. Tells how many runs of a peer met refusal 26.
fn compare_netlist(random: &mut Random) -> Result<u64, String> {
    let file = netlists::netlist(random);
    let words = generate::start_words(random);
    let (calls, damage) = (job::calls(file[1] + 1, random), random.bits());
    let pair = Pair {
        left: &LEFT,
        right: &RIGHT,
    };
    let compare = |peer, format| against_equations::compare(peer, format, &file, &words, damage);
    let both = || {
        pair.compare_netlist(&file, &words, &calls, damage)?;
        compare(&LEFT, Format::Full)?;
        compare(&RIGHT, Format::Full)?;
        compare(&LEFT, Format::Compact)?;
        compare(&RIGHT, Format::Compact)
    };
    both().map_err(|what: String| format!("{what}\nwords: {words:?}\n{}", cells_text(&file)))
}

fn cells_text(file: &[u8]) -> String {
    netfile::read(file).map_or(String::new(), |netlist| listing::netlist(&netlist))
}

/// The report of a disagreement, with a minimised program.
fn report(job: &Job, number: u64, what: &str) -> String {
    let smallest = minimise::minimise(job, |job| compare(job).is_err());
    let what_now = compare(&smallest).err().unwrap_or_default();
    let mut text = format!("job {number} disagrees: {what}\nminimised: {what_now}\n");
    let given = smallest.given();
    text += &given.table.map_or(String::new(), listing::table);
    text += &format!("procedures: {}, ", given.procedures);
    text += &format!("pulse length: {}\n", given.pulse);
    text += &format!("program: {:?}\n", smallest.program);
    text += &listing::program(&smallest.program);
    text += &format!("words: {:?}\n", smallest.words);
    text += &format!("budget: {}\ncalls: {:?}", smallest.budget, smallest.calls);
    text
}

#[cfg(test)]
mod tests {
    use super::*;
    use crate::list::Starts;

    #[test]
    fn a_short_run_agrees_and_sees_every_outcome() {
        let tally = run(2, 5_000).unwrap_or_else(|report| panic!("{report}"));
        let least = tally.ended.min(tally.open).min(tally.refused);
        let special = [tally.tables, tally.arrays, tally.loops, tally.calls];
        let rarest = special.into_iter().fold(least, u64::min);
        assert!(rarest >= 100, "{tally}");
        let [short, long] = tally.starts;
        let rarest = |starts: Starts| starts.early.min(starts.at_once).min(starts.late);
        assert!(rarest(short) >= 500, "{tally}");
        assert!(rarest(long) >= 60 && long.at_the_finish >= 500, "{tally}");
        let handed = tally.functional.into_iter().min();
        let handed_on = handed.unwrap_or(0).min(rarest(tally.functional_starts));
        assert!(handed_on >= 500, "{tally}");
        let pulses = tally.pulses.into_iter().fold(tally.no_pulses, u64::min);
        assert!(pulses >= 60, "{tally}");
        assert!(tally.parts.into_iter().min() >= Some(50), "{tally}");
        assert_eq!(tally.netlists, 125);
        assert!(tally.compact >= 100_000 && tally.crowded >= 60, "{tally}");
    }
}
