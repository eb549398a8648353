//! Running compilers and what they make: whether they are there, folders for
//! their files, and what they print.

use crate::engine::Measured;
use std::fs;
use std::path::{Path, PathBuf};
use std::process::Command;
use values::Words;

/// Whether a program is on the PATH.
pub fn is_on_path(program: &str) -> bool {
    let path = std::env::var_os("PATH").unwrap_or_default();
    std::env::split_paths(&path).any(|folder| folder.join(program).is_file())
}

/// The folder for the files of one tool and workload, among cargo's own.
pub fn folder(tool: &str, workload: &str) -> PathBuf {
    let target = Path::new(env!("CARGO_MANIFEST_DIR")).join("../../target");
    let folder = target.join("bench").join(format!("{tool}-{workload}"));
    fs::create_dir_all(&folder).unwrap_or_else(|error| panic!("{}: {error}", folder.display()));
    folder
}

/// Runs a command and gives what it prints; a failing one ends the bench.
pub fn output(command: &mut Command) -> String {
    let output = command
        .output()
        .unwrap_or_else(|error| panic!("{command:?}: {error}"));
    let error = String::from_utf8_lossy(&output.stderr);
    assert!(output.status.success(), "{command:?}: {error}");
    String::from_utf8_lossy(&output.stdout).into_owned()
}

/// The sixteen words in 64 hexadecimal digits, the last word first.
pub fn words_of_hex(digits: &str) -> Words {
    assert_eq!(digits.len(), 64, "not 256 bits: {digits}");
    std::array::from_fn(|variable| {
        let at = 4 * (15 - variable);
        u16::from_str_radix(&digits[at..at + 4], 16).expect("hexadecimal digits")
    })
}

/// Runs a command that prints the nanoseconds of a run and the words.
pub fn measured(command: &mut Command) -> Measured {
    let printed = output(command);
    let (nanoseconds, words) = printed.trim().split_once(' ').expect("a time and words");
    Measured {
        nanoseconds: nanoseconds.parse().expect("a number"),
        words: words_of_hex(words),
    }
}
