//! Files: read from a name or standard input, and written whole or not at all.

mod shared;

use shared::{hub, Folder};
use std::fs;
use std::os::unix::fs::{symlink, PermissionsExt};
use std::path::Path;
use std::process::Command;

const GOOD: &str = "x0 := 5 @1";
const REFUSED: &str = "x0 := 5 @0";

/// The names of what is in a folder, in order.
fn names(folder: &Folder) -> Vec<String> {
    let entries = fs::read_dir(folder.at("")).expect("a folder");
    let name = |entry: fs::DirEntry| entry.file_name().to_string_lossy().into_owned();
    let mut names: Vec<String> = entries
        .map(|entry| name(entry.expect("an entry")))
        .collect();
    names.sort();
    names
}

fn compile(text: &str, to: &Path) -> Option<i32> {
    let to = to.to_str().expect("a name in letters");
    hub(&["compile", "-", "-o", to], text).status.code()
}

#[test]
fn a_refused_program_leaves_a_file_as_it_was() {
    let folder = Folder::new("refused");
    let file = folder.at("a.net");
    assert_eq!(compile(REFUSED, &file), Some(1));
    assert_eq!(names(&folder), [""; 0]);
    fs::write(&file, "before").expect("a file");
    assert_eq!(compile(REFUSED, &file), Some(1));
    assert_eq!(fs::read(&file).expect("it is there"), b"before");
    assert_eq!(names(&folder), ["a.net"]);
}

#[test]
fn a_written_file_is_whole_and_alone() {
    let folder = Folder::new("whole");
    let file = folder.at("a.net");
    fs::write(&file, vec![7; 9_999]).expect("a file");
    assert_eq!(compile(GOOD, &file), Some(0));
    assert_eq!(fs::read(&file).expect("it is there").len(), 512);
    assert_eq!(names(&folder), ["a.net"]);
}

#[test]
fn a_file_keeps_its_permissions_and_a_link_stays_one() {
    let folder = Folder::new("link");
    let (file, link) = (folder.at("a.net"), folder.at("link.net"));
    fs::write(&file, "before").expect("a file");
    fs::set_permissions(&file, fs::Permissions::from_mode(0o640)).expect("it is ours");
    symlink(&file, &link).expect("a link");
    assert_eq!(compile(GOOD, &link), Some(0));
    assert_eq!(fs::read(&file).expect("it is there").len(), 512);
    let mode = fs::metadata(&file)
        .expect("it is there")
        .permissions()
        .mode();
    assert_eq!(mode & 0o777, 0o640);
    assert!(link.is_symlink());
}

#[test]
fn a_state_that_is_refused_is_left_as_it_was() {
    let folder = Folder::new("state");
    let (file, state) = (folder.at("a.net"), folder.at("a.state"));
    assert_eq!(compile(GOOD, &file), Some(0));
    fs::write(&state, vec![9; 2_000]).expect("a file");
    let [file, name] = [&file, &state].map(|path| path.to_str().expect("a name in letters"));
    for call in [&["go", file, name, "--by", "1"][..], &["start", file, name]] {
        for bare in [&[][..], &["--bare"]] {
            let told = hub(&[call, bare].concat(), "");
            assert_eq!(told.status.code(), Some(1));
            assert_eq!(fs::read(&state).expect("it is there"), vec![9; 2_000]);
        }
    }
}

/// The pulse of its beginning is in flight.
#[test]
fn a_state_that_is_not_idle_is_left_as_it_was() {
    let folder = Folder::new("busy");
    let (file, state) = (folder.at("a.net"), folder.at("a.state"));
    assert_eq!(compile(GOOD, &file), Some(0));
    let [file, name] = [&file, &state].map(|path| path.to_str().expect("a name in letters"));
    assert_eq!(hub(&["begin", file, "-o", name], "").status.code(), Some(0));
    let begun = fs::read(&state).expect("it is there");
    let told = hub(&["start", file, name], "");
    let error = String::from_utf8_lossy(&told.stderr);
    assert!(error.contains(": refused 23: "), "{error}");
    assert_eq!(fs::read(&state).expect("it is there"), begun);
}

/// Of whatever name or link: what is read is not written over.
#[test]
fn what_is_read_is_left_as_it_was() {
    let folder = Folder::new("over");
    let (file, link) = (folder.at("me.hub"), folder.at("link.hub"));
    fs::write(&file, GOOD).expect("a file");
    symlink(&file, &link).expect("a link");
    let name = folder.at("").file_name().expect("a name").to_owned();
    let round = folder.at("..").join(name).join("me.hub");
    let names = [&file, &link, &round].map(|path| path.to_str().expect("a name in letters"));
    for from in names {
        for to in names {
            for command in ["compile", "read", "begin", "cells", "outline"] {
                let told = hub(&[command, from, "-o", to], "");
                let error = String::from_utf8_lossy(&told.stderr);
                assert_eq!(told.status.code(), Some(64), "{error}");
                assert!(error.contains("would write over"), "{error}");
                assert_eq!(fs::read(&file).expect("it is there"), GOOD.as_bytes());
            }
        }
    }
    let told = hub(&["format", names[0], "-o", names[0]], "");
    assert_eq!(told.status.code(), Some(0));
    assert!(link.is_symlink());
}

/// A text, an outline and bytes: each is written over by what stays of its form.
#[test]
fn what_is_changed_keeps_its_form() {
    let folder = Folder::new("form");
    let text = folder.at("me.hub");
    fs::write(&text, GOOD).expect("a file");
    let name = |ending: &str| folder.at(ending).to_str().expect("a name").to_string();
    let (text, outline, bytes) = (name("me.hub"), name("me.outline"), name("me.prog"));
    assert!(hub(&["outline", &text, "-o", &outline], "")
        .status
        .success());
    assert!(hub(&["read", &text, "-o", &bytes], "").status.success());
    let rows = [
        ("format", &text, true),
        ("format", &outline, false),
        ("format", &bytes, false),
        ("delays", &text, true),
        ("delays", &outline, true),
        ("delays", &bytes, false),
    ];
    for (command, file, taken) in rows {
        let before = fs::read(file).expect("it is there");
        let told = hub(&[command, file, "-o", file], "");
        let error = String::from_utf8_lossy(&told.stderr);
        assert_eq!(told.status.success(), taken, "{command} {file}: {error}");
        if !taken {
            assert!(error.contains("would write over"), "{error}");
            assert_eq!(fs::read(file).expect("it is there"), before);
        }
        assert!(
            hub(&["check", file], "").status.success(),
            "{command} {file}"
        );
    }
}

#[test]
fn standard_input_and_output_are_files_too() {
    let folder = Folder::new("standard");
    let file = folder.at("a.net");
    assert_eq!(compile(GOOD, &file), Some(0));
    let told = hub(&["compile", "-", "-o", "-"], GOOD);
    assert_eq!(told.stdout, fs::read(&file).expect("it is there"));
    let told = hub(&["read", "-", "-o", "-"], GOOD);
    assert_eq!(told.stdout, [18, 1, 0, 0, 1, 0, 5, 0]);
    let told = hub(&["check", "-"], REFUSED);
    let error = String::from_utf8_lossy(&told.stderr);
    assert!(
        error.starts_with("standard input:1:9: refused 7: "),
        "{error}"
    );
}

/// A full device is told; a reader that has gone is nobody's fault.
#[test]
fn standard_output_may_fail() {
    let full = fs::File::options()
        .write(true)
        .open("/dev/full")
        .expect("a device");
    let mut help = Command::new(env!("CARGO_BIN_EXE_hub"));
    let told = help
        .arg("help")
        .stdout(full)
        .output()
        .expect("the tool runs");
    assert_eq!(told.status.code(), Some(64));
    let error = String::from_utf8_lossy(&told.stderr);
    assert!(
        error.starts_with("hub: standard output can't be written: "),
        "{error}"
    );

    let (reader, writer) = std::io::pipe().expect("a pipe");
    drop(reader);
    let told = help
        .arg("run")
        .stdout(writer)
        .output()
        .expect("the tool runs");
    assert_eq!((told.status.code(), told.stderr.len()), (Some(0), 0));
}
