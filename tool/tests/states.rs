//! States in files: what stands behind them, and under which netlists they go on.

mod shared;

use hub::product;
use hub::store::LENGTH;
use hub::trailer::Trailer;
use hub::types::{Beside, Format, Mode, Wiring};
use shared::{hub, Folder};
use std::fs;
use std::path::{Path, PathBuf};

fn top() -> PathBuf {
    Path::new(env!("CARGO_MANIFEST_DIR")).join("..")
}

/// The examples, by name.
fn examples() -> Vec<PathBuf> {
    let entries = fs::read_dir(top().join("examples")).expect("the examples");
    let mut files: Vec<PathBuf> = entries
        .map(|entry| entry.expect("an entry").path())
        .collect();
    let program = |ending: &std::ffi::OsStr| ending == "hub" || ending == "outline";
    files.retain(|file| file.extension().is_some_and(program));
    files.sort();
    assert!(files.len() > 5);
    files
}

/// The exit status of a command line, and what is said of a fault.
fn told(words: &[&str]) -> (Option<i32>, String) {
    let ran = hub(words, "");
    let error = String::from_utf8_lossy(&ran.stderr).into_owned();
    (ran.status.code(), error)
}

/// A state goes on under its own program, and under each other one it is refused and
/// left as it was, in both formats.
#[test]
fn a_state_goes_on_under_its_own_program_alone() {
    let folder = Folder::new("own");
    let state = folder.at("a.state");
    let name = state.to_str().expect("a name in letters");
    for own in examples() {
        for format in [&[][..], &["--compact"]] {
            let own_name = own.to_str().expect("a name in letters");
            let begin = [&["begin", own_name, "-o", name], format].concat();
            assert_eq!(told(&begin), (Some(0), String::new()));
            let begun = fs::read(&state).expect("a state");
            for other in examples().iter().filter(|other| **other != own) {
                let other = other.to_str().expect("a name in letters");
                for call in [
                    &["go", other, name, "--by", "5"][..],
                    &["start", other, name],
                ] {
                    let (exit, error) = told(call);
                    assert_eq!(exit, Some(1), "{call:?}");
                    assert!(error.contains("a state of another netlist"), "{error}");
                    assert_eq!(fs::read(&state).expect("a state"), begun);
                }
            }
            let (exit, error) = told(&["go", own_name, name, "--by", "5"]);
            assert!(matches!(exit, Some(0 | 2)) && error.is_empty(), "{error}");
        }
    }
}

/// What the product has written stands in front, and a bare state is that alone.
#[test]
fn a_state_is_the_products_with_a_trailer_behind_it() {
    let folder = Folder::new("trailer");
    let [net, state] = ["a.net", "a.state"].map(|name| folder.at(name));
    let file = product::compile(Beside::NOTHING, &[17, 9, 0, 0]).expect("a program");
    fs::write(&net, &file).expect("a file");
    let [net, name] = [&net, &state].map(|path| path.to_str().expect("a name in letters"));
    for format in Format::BOTH {
        let compact: &[&str] = match format {
            Format::Full => &[],
            Format::Compact => &["--compact"],
        };
        let (mut own, _) = product::begin(format, &file, &[0; LENGTH]).expect("a netlist");
        let trailer = Trailer::new(format, &file);
        for bare in [&[][..], &["--bare"]] {
            let begin = [&["begin", net, "-o", name], compact, bare].concat();
            assert_eq!(told(&begin).0, Some(0));
            let behind = match bare.is_empty() {
                true => trailer.bytes(),
                false => Vec::new(),
            };
            assert_eq!(
                fs::read(&state).expect("a state"),
                [&own[..], &behind].concat()
            );
        }
        let go = [&["go", net, name, "--by", "4", "--bare"], compact].concat();
        assert_eq!(told(&go).0, Some(2));
        product::go(format, &file, &mut own, 4).expect("it goes on");
        assert_eq!(fs::read(&state).expect("a state"), own);
    }
}

/// Names and all, a trailer is found again behind any bytes; a file that is cut off
/// or that has none is told from one that has.
#[test]
fn trailers_are_found_again() {
    let state: Vec<u8> = (0..200).collect();
    let modes = Wiring::BOTH.map(|wiring| Format::BOTH.map(|format| Mode { format, wiring }));
    for mode in modes.into_iter().flatten() {
        for names in ["", "x0 clock\n", "x0 clock\nx1 flag\n"] {
            let names = names.to_string();
            let trailer = Trailer {
                names,
                ..Trailer::new(mode, &[1, 2, 3])
            };
            let file = [&state[..], &trailer.bytes()].concat();
            assert_eq!(Trailer::split(&file), Some((&state[..], trailer.clone())));
            assert!(trailer.is_of(&[1, 2, 3]));
            assert!(!trailer.is_of(&[1, 3, 2]) && !trailer.is_of(&[1, 2]));
            for cut in 1..trailer.bytes().len() {
                assert_eq!(Trailer::split(&file[..file.len() - cut]), None, "{cut}");
            }
        }
    }
    for length in 0..64 {
        assert_eq!(Trailer::split(&vec![0; length]), None);
        assert_eq!(Trailer::split(&vec![255; length]), None);
    }
}

/// A state that was begun on a functional circuit goes on so without being told, under the
/// program and under its netlist; what is given otherwise is refused, and leaves it as it was.
#[test]
fn a_state_knows_its_circuit() {
    let folder = Folder::new("circuit");
    let [net, state] = ["a.net", "a.state"].map(|name| folder.at(name));
    let [net, name] = [&net, &state].map(|path| path.to_str().expect("a name in letters"));
    let program = top().join("examples/two_boards.hub");
    let program = program.to_str().expect("a name in letters");
    let compile = ["compile", program, "--functional", "-o", net];
    assert_eq!(told(&compile).0, Some(0));
    for compact in [&[][..], &["--compact"]] {
        for (begun_by, gone_on_by) in [(program, net), (net, program), (program, program)] {
            let begin = [
                "begin",
                begun_by,
                "x0=1",
                "x1=2",
                "--functional",
                "-o",
                name,
            ];
            assert_eq!(told(&[&begin, compact].concat()).0, Some(0));
            let begun = fs::read(&state).expect("a state");
            for wrong in ["--pulse", "--procedures"] {
                let go = ["go", program, name, "--by", "60", wrong, "2"];
                assert_eq!(told(&go).0, Some(64), "{wrong}");
                assert_eq!(fs::read(&state).expect("a state"), begun);
            }
            for end in ["\"instant\":40,", "\"instant\":81,"] {
                let ran = hub(&["go", gone_on_by, name, "--by", "60", "--json"], "");
                let output = String::from_utf8_lossy(&ran.stdout).into_owned();
                assert!(output.contains(end), "{output}");
                assert!(output.contains("\"circuit\":\"functional\""), "{output}");
                assert_eq!(told(&["start", gone_on_by, name]).0, Some(0));
            }
        }
    }
    let begin = ["begin", program, "-o", name];
    assert_eq!(told(&begin).0, Some(0));
    let (exit, error) = told(&["go", program, name, "--by", "5", "--functional"]);
    assert_eq!(exit, Some(64));
    assert!(error.contains("was begun without --functional"), "{error}");
}
