//! The example in C and the one in Python, over the proved archive: both print the
//! lines that are kept in bindings/example.txt (KEEP=1 writes them anew, from C).

use std::fs;
use std::path::{Path, PathBuf};
use std::process::Command;

fn here(file: &str) -> PathBuf {
    Path::new(env!("CARGO_MANIFEST_DIR")).join(file)
}

fn made(file: &str) -> PathBuf {
    Path::new(env!("CARGO_TARGET_TMPDIR")).join(file)
}

/// What a command prints. One that isn't there, or fails, is a failure.
fn printed(command: &mut Command) -> String {
    let output = command.output().unwrap_or_else(|error| {
        panic!("{command:?} can't be run ({error}): install gcc and python3, which the test needs")
    });
    let error = String::from_utf8_lossy(&output.stderr);
    assert!(output.status.success(), "{command:?}: {error}");
    String::from_utf8(output.stdout).expect("a text")
}

fn kept() -> String {
    fs::read_to_string(here("example.txt")).expect("the kept lines")
}

/// Builds a program in C over the archive, and gives what it prints.
fn printed_by_c(source: &Path, program: &Path) -> String {
    let strict = ["-std=c11", "-Wall", "-Wextra", "-Wpedantic", "-Werror"];
    printed(
        Command::new("cc")
            .args(strict)
            .arg("-I")
            .arg(here("c"))
            .arg("-o")
            .args([program, source, bindings::ARCHIVE.as_ref()]),
    );
    printed(&mut Command::new(program))
}

/// What a program in Python prints, over a library made of the archive.
fn printed_by_python(source: &Path, name: &str) -> String {
    let library = made(name);
    printed(
        Command::new("cc")
            .args(["-shared", "-o"])
            .arg(&library)
            .args(["-Wl,--whole-archive", bindings::ARCHIVE])
            .arg("-Wl,--no-whole-archive"),
    );
    printed(
        Command::new("python3")
            .arg("-B")
            .arg(source)
            .env("PYTHONPATH", here("python"))
            .env("HUB_LIBRARY", &library),
    )
}

#[test]
fn c_calls_the_archive() {
    let lines = printed_by_c(&here("c/example.c"), &made("example"));
    if std::env::var_os("KEEP").is_some() {
        fs::write(here("example.txt"), &lines).expect("a file that can be written");
    }
    assert_eq!(lines, kept());
}

#[test]
fn python_calls_the_archive() {
    let lines = printed_by_python(&here("python/example.py"), "libhub.so");
    assert_eq!(lines, kept());
}

/// A block of the page on the library, in this language.
fn block(language: &str) -> String {
    let page = fs::read_to_string(here("../docs/LIBRARY.md")).expect("the page");
    let (_, rest) = page
        .split_once(&format!("```{language}\n"))
        .expect("a block");
    rest.split_once("```").expect("its end").0.to_string()
}

/// What the page says that its blocks print, behind the sign of a comment.
#[test]
fn the_page_shows_what_is_printed() {
    let (c, python) = (block("c"), block("python"));
    let source = made("page.c");
    let text = format!(
        "#include \"hub.h\"\n#include <stdio.h>\n#include <string.h>\nint main(void) {{\n{c}return 0;\n}}\n"
    );
    fs::write(&source, text).expect("a file");
    let lines = printed_by_c(&source, &made("page"));
    assert!(
        c.contains(&format!("/* {} */", lines.trim_end())),
        "{lines}"
    );
    let source = made("page.py");
    fs::write(&source, &python).expect("a file");
    let lines = printed_by_python(&source, "libpage.so");
    assert!(
        python.contains(&format!("# {}", lines.trim_end())),
        "{lines}"
    );
}
