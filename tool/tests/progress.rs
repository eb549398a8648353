//! The line that tells how far a long run has come.

use hub::progress::Progress;
use std::time::Duration;

const HOUR: Duration = Duration::from_secs(3_600);

/// What is written while a run shows these instants.
fn written(wait: Duration, instants: &[u32]) -> String {
    let mut out = Vec::new();
    let mut progress = Progress::on(Some(&mut out), wait, 1_000);
    for instant in instants {
        progress.show(*instant);
    }
    drop(progress);
    String::from_utf8(out).expect("letters")
}

#[test]
fn a_short_run_shows_nothing() {
    assert_eq!(written(HOUR, &[10, 500, 1_000]), "");
}

/// The second comes too soon after the first; at the end the line is erased.
#[test]
fn a_long_run_shows_a_line_now_and_then() {
    let told = written(Duration::ZERO, &[250, 251]);
    assert_eq!(told, "\rinstant 250 of 1000 (25 %)\r\x1b[K");
}

#[test]
fn where_nobody_looks_nothing_is_written() {
    let run = std::process::Command::new(env!("CARGO_BIN_EXE_hub"))
        .args(["run", "tests/long.hub"])
        .current_dir(env!("CARGO_MANIFEST_DIR"))
        .output()
        .expect("the tool runs");
    assert_eq!((run.status.code(), run.stderr), (Some(2), Vec::new()));
}
