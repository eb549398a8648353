//! Waveforms: what they show is the run, and what is written of them can be
//! read by others.

use crate::circuits;
use crate::circuits::recorded;
use crate::pictures::assert_legible;
use crate::programs::{programs, Program};
use crate::vcd::{read, values, Changes};
use hub::layout::{in_flight_in, start_left_in};
use hub::product;
use hub::store::{self, Store};
use hub::types::Format;
use hub::wave::scopes::scopes;
use hub::wave::{choice, svg, terminal, vcd, Waveforms};
use std::fs;
use std::process::Command;

const WORDS: [u16; 16] = [3, 1, 2, 4, 0, 1, 1, 9, 65_535, 2, 0, 0, 1, 7, 7, 7];

/// Start words, with elements that differ.
fn start() -> Store {
    let mut start = store::of_words(&WORDS);
    for place in store::OF_ARRAYS {
        start[place] = 7 * place as u16;
    }
    start
}

fn waves(program: &Program, from: u32, to: u32) -> Waveforms {
    let circuit = circuits::of_program(program);
    let wires = choice::wires(&circuit, &[], None, false).expect("wires");
    recorded(&circuit, (&start(), &[]), wires, from, to)
}

fn all_waves() -> impl Iterator<Item = Waveforms> {
    let stretches = [(0, 70), (5, 5), (13, 90)].into_iter().cycle();
    programs()
        .into_iter()
        .zip(stretches)
        .map(|(program, (from, to))| waves(&program, from, to))
}

/// A wire's values in a dump are those of the run.
fn assert_same(waves: &Waveforms, changes: &Changes) {
    let names = scopes(vcd::WHOLE, &waves.wires).full();
    assert_eq!(changes.len(), waves.wires.len());
    for ((wire, own), name) in waves.wires.iter().zip(&waves.values).zip(names) {
        let read = values(&changes[&name], waves.from.into(), waves.to.into());
        assert_eq!(read, *own, "{}", wire.name);
    }
}

#[test]
fn dumps_hold_the_values() {
    for waves in all_waves() {
        let (changes, last) = read(&vcd::vcd(&waves));
        assert_same(&waves, &changes);
        assert_eq!(last, u64::from(waves.to) + 1);
        for changes in changes.values() {
            let change = |pair: &[(u64, u64)]| pair[0].0 < pair[1].0 && pair[0].1 != pair[1].1;
            assert!(changes.windows(2).all(change), "only changes are written");
        }
    }
}

/// GTKWave's own converter takes each example's dump, and what it makes of it
/// holds the same values. Where it isn't installed nothing is tried.
#[test]
fn gtkwave_takes_the_dumps() {
    if Command::new("vcd2fst").arg("--help").output().is_err() {
        eprintln!("vcd2fst isn't installed");
        return;
    }
    let folder = std::env::temp_dir().join(format!("hub-gtkwave-{}", std::process::id()));
    fs::create_dir_all(&folder).expect("a folder");
    let [dump, other] = ["x.vcd", "x.fst"].map(|name| folder.join(name));
    for program in programs().into_iter().take(20) {
        let waves = waves(&program, 0, 120);
        fs::write(&dump, vcd::vcd(&waves)).expect("a dump");
        let made = Command::new("vcd2fst")
            .arg(&dump)
            .arg(&other)
            .output()
            .expect("it runs");
        assert!(
            made.status.success(),
            "{}",
            String::from_utf8_lossy(&made.stderr)
        );
        let back = Command::new("fst2vcd")
            .arg(&other)
            .output()
            .expect("it runs");
        let back = String::from_utf8(back.stdout).expect("a dump");
        assert_same(&waves, &read(&back).0);
    }
    fs::remove_dir_all(&folder).expect("the folder goes");
}

/// The waves of start, finish and the words are what the answers of a run say.
#[test]
fn waves_agree_with_the_answers() {
    for program in programs() {
        let waves = waves(&program, 0, 80);
        let value = |name: &str, at: usize| {
            let wire = waves.wires.iter().position(|wire| wire.name == name);
            wire.map(|wire| waves.values[wire][at])
        };
        let file = product::compile(program.beside(), &program.bytes).expect("a netlist");
        let (mut state, mut answer) = product::begin(Format::Full, &file, &start()).expect("a run");
        for at in 0..=80 {
            let started = at < usize::from(program.pulse);
            assert_eq!(value("start", at), Some(u32::from(started)));
            assert_eq!(value("finish", at), Some(u32::from(answer.ended)));
            for (variable, word) in answer.words.iter().enumerate() {
                let shown = value(&format!("x{variable}"), at);
                let word = u32::from(*word);
                assert_eq!(shown.unwrap_or(word), word);
            }
            answer = product::go(Format::Full, &file, &mut state, 1).expect("an instant");
        }
    }
}

/// The waves of all elements are what the state holds at each instant; some
/// elements change.
#[test]
fn elements_are_waves_too() {
    let names: Vec<String> = store::OF_ARRAYS.map(store::name).collect();
    let mut changes = 0;
    for program in programs() {
        let circuit = circuits::of_program(&program);
        let wires = choice::wires(&circuit, &[], Some(&names.join(",")), false).expect("wires");
        let waves = recorded(&circuit, (&start(), &[]), wires, 0, 90);
        let (mut state, answer) =
            product::begin(Format::Full, &circuit.file, &start()).expect("a run");
        let cells = circuit.netlist.cells.len();
        assert_eq!(
            product::contents(Format::Full, &answer, &state, cells),
            start()
        );
        let mut answer = product::go(Format::Full, &circuit.file, &mut state, 0).expect("a run");
        for at in 0..=90 {
            let shown: Vec<u32> = waves.values.iter().map(|values| values[at]).collect();
            let contents = product::contents(Format::Full, &answer, &state, cells);
            assert_eq!(
                shown,
                contents[store::OF_ARRAYS]
                    .iter()
                    .map(|word| u32::from(*word))
                    .collect::<Vec<u32>>()
            );
            answer = product::go(Format::Full, &circuit.file, &mut state, 1).expect("an instant");
        }
        changes += waves.values.iter().filter(|v| v[0] != v[90]).count();
        let (dumped, _) = read(&vcd::vcd(&waves));
        assert_same(&waves, &dumped);
    }
    assert!(changes > 20, "{changes} elements were written");
}

/// The number in flight and what is left of a start are what the state tells, in a
/// run that is started again as soon as that is taken, and in its dump. The start is
/// high for a pulse from each start on, and what is left of it falls by one.
#[test]
fn what_a_state_tells_is_a_wave_too() {
    let mut idle = 0;
    for program in programs() {
        let circuit = circuits::of_program(&program);
        let (mut state, _) = product::begin(Format::Full, &circuit.file, &start()).expect("a run");
        let mut starts = Vec::new();
        let mut numbers = vec![(in_flight_in(&state), start_left_in(&state))];
        for instant in 1..=90 {
            if product::is_idle(Format::Full, &circuit.file, &state) {
                assert_eq!(in_flight_in(&state), 0);
                starts.push(instant);
                product::start(Format::Full, &circuit.file, &mut state).expect("it is idle");
            } else {
                product::go(Format::Full, &circuit.file, &mut state, 1).expect("an instant");
            }
            numbers.push((in_flight_in(&state), start_left_in(&state)));
        }
        let asked = Some("start,in_flight,start_left");
        let wires = choice::wires(&circuit, &[], asked, false).expect("wires");
        let waves = recorded(&circuit, (&start(), &starts), wires, 0, 90);
        let left = |at: u32| {
            let last = starts
                .iter()
                .rev()
                .find(|start| **start <= at)
                .unwrap_or(&0);
            (last + u32::from(program.pulse)).saturating_sub(at)
        };
        let high = (0..=90).map(|at| u32::from(left(at) > 0)).collect();
        let lefts: Vec<u32> = (0..=90).map(|at| left(at).saturating_sub(1)).collect();
        let (in_flight, told): (Vec<u32>, Vec<u8>) = numbers.into_iter().unzip();
        let told: Vec<u32> = told.into_iter().map(u32::from).collect();
        assert_eq!(waves.values, [high, in_flight, told.clone()]);
        assert_eq!(told, lefts);
        let (dumped, _) = read(&vcd::vcd(&waves));
        assert_same(&waves, &dumped);
        idle += starts.len();
    }
    assert!(idle > 20, "{idle} second starts");
}

/// By the rules the finish is high from the program's end on for a pulse, and at no
/// other instant.
#[test]
fn the_finish_is_high_for_a_pulse_from_the_end_on() {
    let mut ended = 0;
    for program in programs() {
        let circuit = circuits::of_program(&program);
        let end = product::reference(program.beside(), &program.bytes, &start(), 300);
        let end = end.expect("a program").map(|end| end.instant);
        let wires = choice::wires(&circuit, &[], Some("finish"), false).expect("wires");
        let waves = recorded(&circuit, (&start(), &[]), wires, 0, 300);
        let pulse = u32::from(program.pulse);
        let due = |at: u32| end.is_some_and(|end| (end..end + pulse).contains(&at));
        let due: Vec<u32> = (0..=300).map(|at| u32::from(due(at))).collect();
        assert_eq!(waves.values, [due], "pulse {pulse}");
        ended += usize::from(end.is_some() && pulse > 1);
    }
    assert!(ended > 20, "{ended} programs with longer pulses ended");
}

/// A terminal's lines are one character for each instant, high where the wire
/// is.
#[test]
fn terminals_show_each_instant() {
    for waves in all_waves() {
        let text = terminal::terminal(&waves);
        for (wire, values) in waves
            .wires
            .iter()
            .zip(&waves.values)
            .filter(|(w, _)| w.control)
        {
            let begins = format!("{} ", wire.name);
            let lines = text.lines().filter(|line| line.starts_with(&begins));
            let drawn: String = lines
                .map(|line| line[begins.len()..].trim_start())
                .collect();
            let level = |value: &u32| if *value == 0 { '▁' } else { '█' };
            assert_eq!(
                drawn,
                values.iter().map(level).collect::<String>(),
                "{}",
                wire.name
            );
        }
    }
}

/// Every wire has its name in the picture, and every instant of a pulse is in
/// its path.
#[test]
fn pictures_of_waves_name_every_wire() {
    for waves in all_waves() {
        let text = svg::svg(&waves);
        let labels = text.matches("text-anchor=\"end\"").count();
        let paths = text.matches("<path ").count();
        assert_eq!(labels, waves.wires.len());
        assert_eq!(
            paths,
            waves.wires.iter().filter(|wire| wire.control).count()
        );
    }
}

/// No text of such a picture lies on another, however large the instants.
#[test]
fn pictures_of_waves_are_legible() {
    for (program, last) in programs()
        .into_iter()
        .zip([7, 40, 99, 240, 300].into_iter().cycle())
    {
        assert_legible(&svg::svg(&waves(&program, 0, last)));
    }
    let late = waves(&programs()[0], 999_700, 1_000_000);
    assert_legible(&svg::svg(&late));
}
