//! The commands on long texts that are typed by chance: each is done or refused, and
//! what they write stands for the same program.

use crate::long_typing::typed;
use hub::commands::{self, Told};
use hub::types::{DONE, OPEN, REFUSED};
use std::fs;
use std::path::Path;

/// What a command tells of a file.
fn told(command: &str, file: &Path, more: &[&str]) -> Told {
    let name = file.to_str().expect("a name in letters");
    let words = [&[command, name], more].concat();
    let words: Vec<String> = words.into_iter().map(String::from).collect();
    commands::run(&words)
}

const COMMANDS: [(&str, &[&str]); 8] = [
    ("check", &[]),
    ("check", &["--pulse", "3", "--json"]),
    ("run", &["x0=3", "--budget", "500"]),
    ("cells", &[]),
    ("wave", &["--to", "20"]),
    ("bound", &[]),
    ("outline", &[]),
    ("delays", &[]),
];

/// Of an accepted text what is formatted has the same nodes, and so has what is
/// formatted from that.
fn formatted(file: &Path) {
    let outline = told("outline", file, &[]);
    let text = told("format", file, &[]);
    let shown = String::from_utf8_lossy(&text.output);
    assert_eq!((outline.exit, text.exit), (DONE, DONE), "{}", text.error);
    fs::write(file, &text.output).expect("a file");
    assert_eq!(told("outline", file, &[]), outline, "{shown}");
    assert_eq!(told("format", file, &[]), text, "{shown}");
}

#[test]
fn commands_are_done_or_refused() {
    let file = std::env::temp_dir().join(format!("hub-typed-{}.hub", std::process::id()));
    let (mut accepted, mut refused) = (0, 0);
    for seed in 0..400 {
        let text = typed(7_000 + seed);
        fs::write(&file, &text).expect("a file");
        for (command, more) in COMMANDS {
            let Told { exit, error, .. } = told(command, &file, more);
            let ends = [DONE, REFUSED, OPEN].contains(&exit);
            assert!(ends, "{command}: {exit}, {error}\n{text}");
        }
        match told("check", &file, &[]).exit {
            DONE => {
                formatted(&file);
                accepted += 1;
            }
            _ => refused += 1,
        }
    }
    fs::remove_file(&file).expect("it goes");
    assert!(accepted > 40 && refused > 40, "{accepted} {refused}");
}
