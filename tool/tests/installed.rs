//! What dist/install puts below a prefix: the tool, the archive and the header with
//! their file for pkg-config, and the module for Python, each used from there.

#[path = "shared/folder.rs"]
mod folder;

use folder::Folder;
use std::fs;
use std::path::{Path, PathBuf};
use std::process::Command;

fn top() -> PathBuf {
    Path::new(env!("CARGO_MANIFEST_DIR")).join("..")
}

/// What a command prints. One that isn't there, or fails, is a failure.
fn printed(command: &mut Command) -> String {
    let output = command.output();
    let output = output.unwrap_or_else(|error| panic!("{command:?} can't be run: {error}"));
    let error = String::from_utf8_lossy(&output.stderr);
    assert!(output.status.success(), "{command:?}: {error}");
    String::from_utf8(output.stdout).expect("a text")
}

fn installed(prefix: &Path) {
    let install = top().join("dist/install");
    let tool = env!("CARGO_BIN_EXE_hub");
    printed(
        Command::new(install)
            .args([bindings::ARCHIVE, tool])
            .arg(prefix),
    );
}

/// The flags that the file for pkg-config has under a name.
fn flags(prefix: &Path, name: &str) -> Vec<String> {
    let file = fs::read_to_string(prefix.join("lib/pkgconfig/hub.pc")).expect("the file");
    let prefix = prefix.to_str().expect("a name");
    assert!(file.starts_with(&format!("prefix={prefix}\n")), "{file}");
    let flags = file.lines().find_map(|line| line.strip_prefix(name));
    let flags = flags.expect("a line").replace("${prefix}", prefix);
    flags.split_whitespace().map(str::to_string).collect()
}

#[test]
fn what_is_installed_is_used_from_there() {
    let folder = Folder::new("installed");
    let prefix = folder.at("prefix");
    installed(&prefix);

    let told = printed(Command::new(prefix.join("bin/hub")).arg("--version"));
    assert!(told.starts_with("hub "), "{told}");
    let example = prefix.join("share/doc/hub/examples/two_boards.hub");
    let told = printed(
        Command::new(prefix.join("bin/hub"))
            .arg("run")
            .arg(example)
            .args(["x0=3", "x1=5"]),
    );
    assert!(told.starts_with("ended at 96\n"), "{told}");

    let lines = fs::read_to_string(top().join("bindings/example.txt")).expect("the kept lines");
    let program = folder.at("example");
    printed(
        Command::new("cc")
            .args(flags(&prefix, "Cflags: "))
            .arg("-o")
            .arg(&program)
            .arg(top().join("bindings/c/example.c"))
            .args(flags(&prefix, "Libs: ")),
    );
    assert_eq!(printed(&mut Command::new(program)), lines);

    // Beside the example stands another hub.py, so that it is run from elsewhere.
    let python = folder.at("example.py");
    fs::copy(top().join("bindings/python/example.py"), &python).expect("a copy");
    let told = printed(
        Command::new("python3")
            .arg("-B")
            .arg(python)
            .env("PYTHONPATH", prefix.join("share/hub/python"))
            .env_remove("HUB_LIBRARY"),
    );
    assert_eq!(told, lines);
}

#[test]
fn pages_and_completion_are_installed() {
    let folder = Folder::new("pages");
    let prefix = folder.at("prefix");
    installed(&prefix);
    for file in [
        "share/man/man1/hub.1",
        "share/bash-completion/completions/hub",
        "share/doc/hub/LANGUAGE.md",
        "share/doc/hub/LIBRARY.md",
        "share/doc/hub/MANIFEST",
        "share/doc/hub/examples/hall.hub",
    ] {
        let length = fs::metadata(prefix.join(file)).map(|file| file.len());
        assert!(length.is_ok_and(|length| length > 100), "{file}");
    }
}
