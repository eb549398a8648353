//! What `hub verilog` writes, run by Icarus Verilog: its own testbench passes, and one
//! that expects something else doesn't.

#[path = "shared/folder.rs"]
mod folder;

use folder::Folder;
use std::fs;
use std::path::{Path, PathBuf};
use std::process::Command;

/// Examples, start words and options: words alone, functional circuits, arrays,
/// procedures, runs that are still open.
const RUNS: &[&str] = &[
    "two_boards.hub x0=3 x1=5",
    "two_boards.hub x0=3 x1=65535 --budget 500",
    "overstepped.hub x0=2 x1=9",
    "eight_groups.hub x0=1 x1=2 x2=3 x3=4 x4=5 x5=6 x6=7 x7=8",
    "sixty_four_boards.hub x0=9",
    "two_boards.hub x0=3 x1=5 --functional",
    "overstepped.hub x0=2 x1=9 --functional",
    "eight_groups.hub x0=1 x1=2 x2=3 x3=4 x4=5 x5=6 x6=7 x7=8 --functional",
    "sixty_four_boards.hub x0=9 --functional --budget 300",
    "hall.hub",
    "first_flag.hub",
    "board_times.outline a0=7,0,9",
    "fallen_flag.outline a0=5,6,7,8",
    "top_board.outline x0=4 x1=7",
];

/// Programs of the tests' own, with pulses of each length.
const PULSES: &str =
    "{ x0 := 5 @1; while x0 @9 do x0 := x0 - 1 @17 end } || { tick 40; x1 := 7 @1 }";

fn top() -> PathBuf {
    Path::new(env!("CARGO_MANIFEST_DIR")).join("..")
}

fn printed(command: &mut Command) -> String {
    let output = command.output();
    let output = output.unwrap_or_else(|error| panic!("{command:?} can't be run: {error}"));
    let error = String::from_utf8_lossy(&output.stderr);
    assert!(output.status.success(), "{command:?}: {error}");
    String::from_utf8(output.stdout).expect("a text")
}

/// Writes the Verilog of a program, with options.
fn written(folder: &Folder, words: &str) -> PathBuf {
    let file = folder.at("hub.v");
    let words = words.split_whitespace();
    printed(
        Command::new(env!("CARGO_BIN_EXE_hub"))
            .arg("verilog")
            .args(words)
            .arg("-o")
            .arg(&file)
            .current_dir(top().join("examples")),
    );
    file
}

/// What the testbench prints.
fn run(folder: &Folder, file: &Path) -> String {
    let program = folder.at("hub.vvp");
    let warned = printed(
        Command::new("iverilog")
            .args(["-Wall", "-o"])
            .args([&program, file]),
    );
    assert_eq!(warned, "");
    printed(Command::new("vvp").arg(program))
}

#[test]
#[ignore = "asks for Icarus Verilog"]
fn testbenches_pass() {
    let folder = Folder::new("verilog");
    for words in RUNS {
        let told = run(&folder, &written(&folder, words));
        assert!(told.starts_with("PASS: "), "{words}: {told}");
    }
}

#[test]
#[ignore = "asks for Icarus Verilog"]
fn testbenches_pass_with_longer_pulses() {
    let folder = Folder::new("verilog-pulses");
    let program = folder.at("pulses.hub");
    fs::write(&program, PULSES).expect("a file");
    for pulse in 1..=8 {
        let words = format!("{} --pulse {pulse}", program.display());
        let told = run(&folder, &written(&folder, &words));
        assert!(told.starts_with("PASS: ended at "), "{words}: {told}");
    }
}

#[test]
#[ignore = "asks for Icarus Verilog"]
fn a_testbench_fails_on_another_circuit() {
    let folder = Folder::new("verilog-wrong");
    let file = written(&folder, "two_boards.hub x0=3 x1=5");
    let text = fs::read_to_string(&file).expect("a text");
    for (old, new, told) in [
        (
            "X0 = 16'd3",
            "X0 = 16'd9",
            "FAIL: finish is 0 at 96, and not 1 at 96",
        ),
        ("X7 = 16'd0", "X7 = 16'd9", "FAIL: x7 is 9, and not 0"),
    ] {
        fs::write(&file, text.replace(old, new)).expect("a file");
        let lines = run(&folder, &file);
        assert!(lines.lines().any(|line| line == told), "{lines}");
        assert!(!lines.contains("PASS"), "{lines}");
    }
    let file = written(&folder, "board_times.outline a0=7,0,9");
    let text = fs::read_to_string(&file).expect("a text");
    let (_, rest) = text.split_once("last = 1024'h").expect("an array");
    let (digits, _) = rest.split_once(';').expect("a number");
    fs::write(
        &file,
        text.replace(&format!("last = 1024'h{digits};"), "last = 1024'habcd;"),
    )
    .expect("a file");
    let lines = run(&folder, &file);
    assert!(lines.starts_with("FAIL: a0["), "{lines}");
}
