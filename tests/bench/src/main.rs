//! The time of an instant, on the three workloads, for every engine at hand.
//!
//! Engines take turns, so that a slow spell of the machine meets all of them,
//! and the best of several runs counts. Only ratios within one run of this
//! program mean anything.

mod c_engine;
mod engine;
mod icarus;
mod proved_engine;
mod second_engine;
#[cfg(test)]
mod tests;
mod tool;
mod verilator;
mod workload;

use engine::{Engine, Row};
use workload::Workload;

const WORKLOADS: [&str; 3] = ["a", "b", "c"];
const ROUNDS: usize = 5;

fn main() {
    for name in WORKLOADS {
        let workload = Workload::named(name);
        let rows = [
            second_engine::row(&workload),
            proved_engine::row(&workload),
            proved_engine::compact_row(&workload),
            proved_engine::slow_row(&workload),
            c_engine::row(&workload),
            c_engine::compact_row(&workload),
            verilator::row(&workload),
            icarus::row(&workload),
        ];
        print_table(&workload, &rows, &best_times(&workload, &rows));
    }
}

/// The least nanoseconds for an instant of each row, over all rounds.
fn best_times(workload: &Workload, rows: &[Row]) -> Vec<Option<f64>> {
    let mut best = vec![None; rows.len()];
    for _ in 0..ROUNDS {
        for (row, best) in rows.iter().zip(&mut best) {
            if let Ok(engine) = &row.engine {
                let time = time_of_instant(workload, row.name, engine);
                *best = Some(best.map_or(time, |so_far: f64| so_far.min(time)));
            }
        }
    }
    best
}

/// One run; an engine that comes to other words ends the bench.
fn time_of_instant(workload: &Workload, name: &str, engine: &Engine) -> f64 {
    let measured = (engine.run)();
    let expected = second_engine::words_after(workload, engine.instants);
    assert_eq!(measured.words, expected, "{name} on {}", workload.name);
    measured.nanoseconds as f64 / f64::from(engine.instants)
}

fn print_table(workload: &Workload, rows: &[Row], times: &[Option<f64>]) {
    let cells = workload.netlist.cells.len();
    println!(
        "workload {}: {cells} cells, best of {ROUNDS}",
        workload.name
    );
    println!(
        "  {:16} {:>10} {:>12} {:>20} {:>16}",
        "engine", "instants", "ns/instant", "ns/(cell * instant)", "ratio to second"
    );
    // The second simulator stands first and is always there.
    let unit = times[0].unwrap_or(f64::NAN);
    for (row, time) in rows.iter().zip(times) {
        match (&row.engine, time) {
            (Ok(engine), Some(time)) => println!(
                "  {:16} {:>10} {:>12.1} {:>20.3} {:>16.2}",
                row.name,
                engine.instants,
                time,
                time / cells as f64,
                time / unit
            ),
            (Err(why), _) => println!("  {:16} {why}", row.name),
            (Ok(_), None) => println!("  {:16} not run", row.name),
        }
    }
    println!();
}
