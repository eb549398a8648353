//! The proved implementation as a peer.

use crate::peer::{implementation, Peer};
use ::bindings::{calls, cell_calls, functional_calls};
use std::fs::File;
use std::io::Write;
use std::path::Path;
use std::process::{Command, Output, Stdio};

pub const PROVED: Peer = implementation! {
    name: "proved",
    hubrun_text: |input| printed("hubrun", input),
    hubtext_bytes: |input| printed("hubtext", input),
};

/// What a program prints. It may stop reading early, so that a broken pipe is
/// no failure.
fn printed(program: &str, input: &[u8]) -> Vec<u8> {
    run(program, input, Stdio::piped()).stdout
}

/// What a program says on standard error, where its output can't be written.
pub fn complaint(program: &str) -> Vec<u8> {
    let full = File::create("/dev/full").expect("Linux has it");
    run(program, b"", full.into()).stderr
}

fn run(program: &str, input: &[u8], output: Stdio) -> Output {
    let crates = Path::new(env!("CARGO_MANIFEST_DIR")).join("../../crates");
    let built = crates.join(program).join("out").join(program);
    let mut process = Command::new(built)
        .stdin(Stdio::piped())
        .stdout(output)
        .stderr(Stdio::piped())
        .spawn()
        .unwrap_or_else(|error| panic!("{program}: {error}"));
    let mut pipe = process.stdin.take().expect("a pipe");
    let _ = pipe.write_all(input);
    drop(pipe);
    process.wait_with_output().expect("it ends")
}
