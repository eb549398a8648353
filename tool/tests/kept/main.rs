//! Every command on every example, compared with kept output. A file of kept/
//! has command lines, `$ hub ..`, each with what it tells below it: standard
//! output, standard error, and the exit status where it isn't 0. With KEEP=1 the
//! files are made anew, to be looked at before they are kept.

mod help_inputs;
mod inputs;
mod json;
mod long_inputs;

use std::fs;
use std::path::{Path, PathBuf};
use std::process::{Command, Output};
use std::sync::atomic::{AtomicUsize, Ordering};

/// Stands for a folder that the command lines of a file share.
const FOLDER: &str = "FOLDER";
const PROMPT: &str = "$ hub ";

fn top() -> PathBuf {
    Path::new(env!("CARGO_MANIFEST_DIR")).join("..")
}

/// The files of a folder with this ending, in order.
fn files(folder: &Path, ending: &str) -> Vec<PathBuf> {
    let entries = fs::read_dir(folder).expect("a readable folder");
    let mut files: Vec<PathBuf> = entries
        .map(|entry| entry.expect("an entry").path())
        .collect();
    files.retain(|file| file.extension().is_some_and(|found| found == ending));
    files.sort();
    files
}

fn kept() -> Vec<PathBuf> {
    files(
        &Path::new(env!("CARGO_MANIFEST_DIR")).join("tests/kept"),
        "txt",
    )
}

/// A folder for a kept file's command lines, with what they find in it.
fn with_folder<T>(file: &Path, work: impl FnOnce(&Path) -> T) -> T {
    static NEXT: AtomicUsize = AtomicUsize::new(0);
    let name = file.file_stem().expect("a name").to_string_lossy();
    let next = NEXT.fetch_add(1, Ordering::Relaxed);
    let folder = format!("hub-{name}-{}-{next}", std::process::id());
    let folder = std::env::temp_dir().join(folder);
    fs::create_dir_all(&folder).expect("a folder");
    inputs::make(&folder);
    let result = work(&folder);
    fs::remove_dir_all(&folder).expect("the folder goes");
    result
}

/// Follows a command line, with more words after it.
fn ran(line: &str, more: &[&str], folder: &Path) -> Output {
    let folder = folder.to_str().expect("a name in letters");
    let words = line[PROMPT.len()..].split_whitespace();
    Command::new(env!("CARGO_BIN_EXE_hub"))
        .args(words.map(|word| word.replace(FOLDER, folder)))
        .args(more)
        .current_dir(top())
        .output()
        .expect("the tool runs")
}

/// What a command line tells.
fn told(line: &str, folder: &Path) -> String {
    let ran = ran(line, &[], folder);
    let mut text = String::from_utf8_lossy(&ran.stdout).into_owned();
    text += &String::from_utf8_lossy(&ran.stderr);
    if !ran.status.success() {
        text += &format!("[exit {}]\n", ran.status.code().unwrap_or(-1));
    }
    text.replace(folder.to_str().expect("a name in letters"), FOLDER)
}

/// A kept file as its command lines make it now.
fn remade(text: &str, folder: &Path) -> String {
    let heading = text.lines().take_while(|line| !line.starts_with(PROMPT));
    let mut made: String = heading.map(|line| format!("{line}\n")).collect();
    for line in text.lines().filter(|line| line.starts_with(PROMPT)) {
        made += &format!("{line}\n{}", told(line, folder));
    }
    made
}

#[test]
fn command_lines_give_what_is_kept() {
    for file in kept() {
        let text = fs::read_to_string(&file).expect("a kept file");
        let made = with_folder(&file, |folder| remade(&text, folder));
        if std::env::var_os("KEEP").is_some() {
            fs::write(&file, &made).expect("a file that can be written");
        } else {
            assert_eq!(made, text, "{}", file.display());
        }
    }
}

/// With --json every command line prints one value, and nothing else.
#[test]
fn every_command_line_prints_json_if_asked() {
    for file in kept() {
        let text = fs::read_to_string(&file).expect("a kept file");
        let lines = text.lines().filter(|line| line.starts_with(PROMPT));
        with_folder(&file, |folder| {
            for line in lines.filter(|line| !line.contains("--json")) {
                let ran = ran(line, &["--json"], folder);
                let output = String::from_utf8(ran.stdout).expect("letters");
                assert!(json::is_json(&output), "{line}\n{output}");
                assert_eq!(output.lines().count(), 1, "{line}\n{output}");
                assert_eq!(ran.stderr, b"", "{line}");
            }
        });
    }
}

/// The lines of all kept files.
fn kept_lines() -> Vec<String> {
    let texts = kept()
        .into_iter()
        .map(|file| fs::read_to_string(file).expect("a kept file"));
    texts
        .flat_map(|text| text.lines().map(String::from).collect::<Vec<_>>())
        .collect()
}

/// A command line of the kept files names each pair.
#[test]
fn every_command_is_kept_on_every_example() {
    let lines = kept_lines();
    let commands = hub::commands::COMMANDS.iter().map(|command| command.name);
    for command in commands.filter(|name| *name != "help") {
        let begins = format!("{PROMPT}{command} ");
        for example in files(&top().join("examples"), "hub") {
            let name = example.file_stem().expect("a name").to_string_lossy();
            let found = lines
                .iter()
                .any(|line| line.starts_with(&begins) && line.contains(&*name));
            assert!(found, "no kept line of 'hub {command}' for {name}");
        }
    }
}

/// The kept files show the message of every refusal that has landed.
#[test]
fn every_refusal_is_kept() {
    let lines = kept_lines();
    let numbers: Vec<u8> = hub::refusals::RULES
        .iter()
        .map(|rule| rule.number)
        .collect();
    assert_eq!(numbers, (1..=31).collect::<Vec<u8>>());
    for number in numbers {
        let met = format!(": refused {number}: ");
        assert!(
            lines.iter().any(|line| line.contains(&met)),
            "refusal {number}"
        );
    }
}

/// The kept files show every rule of the reader of long texts.
#[test]
fn every_rule_of_the_reader_is_kept() {
    let lines = kept_lines();
    for rule in hub::source::rules::ALL {
        let met = |line: &String| {
            let mut rest = line.split(": refused 1").nth(1)?;
            for part in rule.split("{}") {
                rest = &rest[rest.find(part)? + part.len()..];
            }
            Some(())
        };
        assert!(lines.iter().any(|line| met(line).is_some()), "{rule}");
    }
}

/// The help of every command is kept, with an example of that command.
#[test]
fn every_command_has_an_example() {
    let lines = kept_lines();
    for command in hub::commands::COMMANDS {
        let name = command.name;
        let words = format!("hub {name} ");
        assert!(command.example.contains(&words), "{}", command.example);
        let page = format!("{PROMPT}help {name}");
        assert!(lines.contains(&page), "no kept help of {name}");
    }
}

/// The usage line of every command names all options that it takes.
#[test]
fn usage_lines_name_all_options() {
    let lines = kept_lines();
    for command in hub::commands::COMMANDS {
        let begins = format!("usage: hub {} ", command.name);
        let usage = lines.iter().find(|line| line.starts_with(&begins));
        let usage = usage.expect("a kept usage line");
        for option in command.options.names() {
            assert!(usage.contains(&option), "{option} in {usage}");
        }
    }
}
