//! The program `hub`: what a command tells goes to standard output, a fault to
//! standard error, and the exit status says which.

use hub::commands::Told;
use hub::version::{self, Built};
use hub::{colour, files};
use std::io::{stderr, stdout, Write};

/// As ./hub tells it to the compiler.
const BUILT: Built = Built {
    commit: option_env!("HUB_COMMIT"),
    kit: option_env!("HUB_KIT"),
    archive: option_env!("HUB_SUM"),
};

fn main() {
    let words = std::env::args_os().skip(1);
    let words: Vec<String> = words
        .map(|word| word.to_string_lossy().into_owned())
        .collect();
    let told = match version::is_asked(&words) {
        true => Told::printing(version::answer(
            &BUILT,
            words.contains(&"--json".to_string()),
        )),
        false => hub::commands::run(&words),
    };
    let output = match told.tells && colour::wanted(&stdout()) {
        true => colour::painted(&String::from_utf8_lossy(&told.output)).into_bytes(),
        false => told.output,
    };
    let (exit, error) = match files::print(&output) {
        Ok(()) => (told.exit, told.error),
        Err(fault) => (fault.exit, format!("hub: {}\n", fault.message)),
    };
    let error = match colour::wanted(&stderr()) {
        true => colour::painted(&error),
        false => error,
    };
    // There is nobody left to tell if this can't be written.
    let _ = stderr().write_all(error.as_bytes());
    std::process::exit(exit);
}
