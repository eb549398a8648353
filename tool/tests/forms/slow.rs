//! Runs with gates that take their time beside ideal ones: what is the same in both, what
//! is printed of the rest, and the waves of both.

use crate::circuits;
use crate::programs::{programs, Program};
use hub::layout::value_in;
use hub::slow::Both;
use hub::store::{self, Store};
use hub::types::{Format, Netlist};
use hub::wave::{both, Shows};
use hub::{commands, product};
use std::fs;

const WORDS: [u16; 16] = [3, 1, 2, 4, 0, 1, 1, 9, 65_535, 2, 0, 0, 1, 7, 7, 7];
const BUDGETS: [u32; 4] = [0, 9, 40, 300];

fn start() -> Store {
    store::of_words(&WORDS)
}

/// The programs with pulses of one instant: the examples, and others.
fn of_pulse_1() -> Vec<Program> {
    let mut programs = programs();
    programs.retain(|program| program.pulse == 1);
    assert!(programs.len() > 100);
    programs
}

/// Every cell's word at the last instant of both runs, as the product tells them: in the
/// ideal one, and with gates that take their time.
fn words(program: &Program, file: &[u8], cells: usize, budget: u32) -> [Vec<u16>; 2] {
    let (mut state, mut ideal) = product::begin(Format::Full, file, &start()).expect("a run");
    if !ideal.ended && budget > 0 {
        ideal = product::go(Format::Full, file, &mut state, budget).expect("a run");
    }
    let ran = product::slow_run(program.beside(), &program.bytes, &start(), budget, cells);
    let (slow, values) = ran.expect("a run");
    assert_eq!(slow.count, slow.instant + 1);
    assert_eq!(
        (slow.ended, slow.instant, slow.words),
        (ideal.ended, ideal.instant, ideal.words)
    );
    let shown = (0..cells).map(|cell| value_in(&state, cell as u16));
    [shown.collect(), values]
}

fn assert_same_control(netlist: &Netlist, [ideal, slow]: &[Vec<u16>; 2]) {
    for (number, cell) in netlist.cells.iter().enumerate() {
        if matches!(cell.kind, 32..=40) {
            assert_eq!(ideal[number], slow[number], "cell {number}");
        }
    }
}

/// The cells and words that a page of `hub slow` lists.
fn listed(page: &str) -> Vec<(usize, u16, u16)> {
    let rows = page.lines().skip_while(|line| !line.ends_with("slow"));
    let row = |line: &str| {
        let line = line.split("  # ").next().unwrap_or_default();
        let words: Vec<&str> = line.split_whitespace().collect();
        let [first, .., ideal, slow] = words[..] else {
            panic!("no row: {line}");
        };
        let number = |word: &str| word.parse().expect("a number");
        (usize::from(number(first)), number(ideal), number(slow))
    };
    rows.skip(1).map(row).collect()
}

#[test]
fn what_is_listed_are_the_differences() {
    let name = format!("hub-slow-{}.prog", std::process::id());
    let file = std::env::temp_dir().join(name);
    let mut differences = 0;
    for program in of_pulse_1() {
        let circuit = circuits::of_program(&program);
        fs::write(&file, &program.bytes).expect("a file");
        for budget in BUDGETS {
            let cells = circuit.netlist.cells.len();
            let both = words(&program, &circuit.file, cells, budget);
            assert_same_control(&circuit.netlist, &both);
            let [ideal, slow] = &both;
            let differ = (0..cells).filter(|cell| ideal[*cell] != slow[*cell]);
            let differ: Vec<_> = differ.map(|k| (k, ideal[k], slow[k])).collect();
            let page = page(&file.to_string_lossy(), program.procedures, budget);
            assert_eq!(listed(&page), differ, "{page}");
            differences += differ.len();
        }
    }
    fs::remove_file(&file).expect("the file goes");
    assert!(differences > 100, "{differences}");
}

/// What `hub slow` prints.
fn page(file: &str, procedures: usize, budget: u32) -> String {
    let words = (0..).zip(WORDS).map(|(k, word)| format!("x{k}={word}"));
    let mut line = vec!["slow".to_string(), file.to_string()];
    line.extend(words);
    line.push(format!("--procedures={procedures}"));
    line.push(format!("--budget={budget}"));
    let told = commands::run(&line);
    assert_eq!(told.error, "");
    String::from_utf8(told.output).expect("a page")
}

/// A slow row stands below its ideal one, is what a run up to each instant tells, and is
/// marked where the two differ.
#[test]
fn waves_are_those_of_both_runs() {
    const TO: u32 = 40;
    for program in of_pulse_1().into_iter().step_by(5) {
        let circuit = circuits::of_program(&program);
        let cells = circuit.netlist.cells.len();
        let start = start();
        let begun = Both::begin(program.beside(), &program.bytes, &circuit, &start);
        let moments = both::moments(&mut begun.expect("both"), TO).expect("both");
        let wires = both::differing(&moments, &vec![None; cells]);
        let waves = both::waves(&moments, wires);
        for row in (0..waves.wires.len()).step_by(2) {
            let Shows::Cell(cell) = waves.wires[row].shows else {
                panic!("a cell");
            };
            assert_eq!(waves.wires[row + 1].shows, waves.wires[row].shows);
            assert!(waves.marks[row].is_empty() && !waves.marks[row + 1].is_empty());
            for at in 0..=waves.to {
                let words = words(&program, &circuit.file, cells, at);
                let own = words.map(|words| u32::from(words[usize::from(cell)]));
                let at = at as usize;
                assert_eq!(own, [row, row + 1].map(|row| waves.values[row][at]));
                assert_eq!(own[0] != own[1], waves.marks[row + 1].contains(&at));
            }
        }
    }
}
