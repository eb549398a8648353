//! What the tests of files share: a folder of their own, and the tool in it.

mod folder;

pub use folder::Folder;
use std::io::Write;
use std::process::{Command, Output, Stdio};

/// Runs the tool with a text as its standard input.
pub fn hub(words: &[&str], input: &str) -> Output {
    let mut process = Command::new(env!("CARGO_BIN_EXE_hub"))
        .args(words)
        .stdin(Stdio::piped())
        .stdout(Stdio::piped())
        .stderr(Stdio::piped())
        .spawn()
        .expect("the tool runs");
    let mut pipe = process.stdin.take().expect("a pipe");
    // A command line that is refused reads nothing.
    let _ = pipe.write_all(input.as_bytes());
    drop(pipe);
    process.wait_with_output().expect("it ends")
}
