//! `./hub` itself, in a repository of four small crates, with a kit and a cargo that
//! only tell what they were asked: which archive it takes, when it proves, and what it
//! says.

#[path = "shared/folder.rs"]
mod folder;

use folder::Folder;
use std::fs;
use std::os::unix::fs::{symlink, PermissionsExt};
use std::path::{Path, PathBuf};
use std::process::{Command, Output};

/// Proves anything, and tells each call in a file.
const KIT: &str = "#!/bin/sh
crate=$(basename $PWD)
case $1 in
version) echo a kit; exit ;;
lib) [ ! -e ../../broken ] || { echo not proved; exit 1; } ;;
esac
echo \"$@ in $crate\" >>$(dirname $0)/asked
[ $crate != exports_c ] || { mkdir -p out && cat ../exports/src/lib.rt >out/libexports_c.a; }
";

/// What is asked of it where the archive is proved.
const EACH: [&str; 3] = ["lib in model", "lib in exports", "lib in exports_c"];

/// Builds a tool that tells which archive it has and what it was asked.
const CARGO: &str = "#!/bin/sh
while [ $# -gt 0 ]; do
    case $1 in
    --target-dir) to=$2 ;;
    --profile) profile=$2 ;;
    esac
    shift
done
mkdir -p $to/$profile
printf '#!/bin/sh\\necho \"%s %s: $*\"\\n' \"$(basename $HUB_ARCHIVE)\" \"$(cat $HUB_ARCHIVE)\" >$to/$profile/hub
chmod +x $to/$profile/hub
";

struct Repository {
    folder: Folder,
}

impl Repository {
    fn new(name: &str) -> Repository {
        let repository = Repository {
            folder: Folder::new(name),
        };
        let top = Path::new(env!("CARGO_MANIFEST_DIR")).join("..");
        for file in ["hub", "dist/sums", "dist/archive"] {
            let text = fs::read_to_string(top.join(file)).expect("a script");
            repository.program(&format!("top/{file}"), &text);
        }
        repository.program("bin/rt", KIT);
        repository.program("bin/cargo", CARGO);
        let crates = "model:\ntheory: model\nexports: model\nexports_c staticlib: exports\n";
        repository.write("top/crates.txt", crates);
        for name in ["model", "theory", "exports", "exports_c"] {
            repository.write(&format!("top/crates/{name}/src/lib.rt"), name);
        }
        repository.ship();
        repository
    }

    fn at(&self, file: &str) -> PathBuf {
        self.folder.at(file)
    }

    fn write(&self, file: &str, text: &str) {
        let path = self.at(file);
        fs::create_dir_all(path.parent().expect("a folder")).expect("a folder");
        fs::write(path, text).expect("a file");
    }

    fn program(&self, file: &str, text: &str) {
        self.write(file, text);
        let mode = fs::Permissions::from_mode(0o755);
        fs::set_permissions(self.at(file), mode).expect("a program");
    }

    /// Puts an archive into dist, made of what is there.
    fn ship(&self) {
        self.write("top/dist/libhub.a", "exports");
        let sources = printed(&mut Command::new(self.at("top/dist/sums")));
        let sum = printed(Command::new("sha256sum").arg(self.at("top/dist/libhub.a")));
        let sum = sum.split(' ').next().expect("a sum");
        let manifest = format!("archive: {sum}\nkit: a kit\ncommit: abc\nsources:\n{sources}");
        self.write("top/dist/MANIFEST", &manifest);
    }

    /// What was asked of the kit, but for its version.
    fn asked(&self) -> Vec<String> {
        let asked = fs::read_to_string(self.at("bin/asked")).unwrap_or_default();
        asked.lines().map(str::to_string).collect()
    }

    fn hub(&self, by: &str, words: &[&str]) -> (String, String, i32) {
        let path = std::env::var("PATH").expect("a path");
        let path = format!("{}:{path}", self.at("bin").display());
        let output = Command::new(self.at(by))
            .args(words)
            .env("PATH", path)
            .output();
        told(output.expect("./hub runs"))
    }
}

fn told(output: Output) -> (String, String, i32) {
    let [out, error] = [output.stdout, output.stderr].map(String::from_utf8);
    let exit = output.status.code().expect("an exit status");
    (out.expect("a text"), error.expect("a text"), exit)
}

fn printed(command: &mut Command) -> String {
    let (out, error, exit) = told(command.output().expect("it runs"));
    assert_eq!(exit, 0, "{command:?}: {error}");
    out
}

#[test]
fn the_shipped_archive_is_taken_and_told_once() {
    let repository = Repository::new("shipped");
    let (out, error, _) = repository.hub("top/hub", &["run", "x"]);
    assert_eq!(out, "libhub.a exports: run x\n");
    assert_eq!(
        error,
        "hub: using the archive that was proved at abc; './hub prove' proves it here\n\
         hub: building the tool\n"
    );
    let (_, error, _) = repository.hub("top/hub", &["run", "x"]);
    assert_eq!(error, "");
    assert_eq!(repository.asked(), [""; 0]);
}

#[test]
fn what_the_archive_is_not_made_of_does_not_matter() {
    let repository = Repository::new("theory");
    repository.write("top/crates/theory/src/lib.rt", "another");
    repository.write("top/crates/exports/must-fail/a.edit", "another");
    let crates = "model:\ntheory: model\nhubrun: model\nexports: model\nexports_c staticlib: exports\n";
    repository.write("top/crates.txt", crates);
    let (out, _, _) = repository.hub("top/hub", &["run"]);
    assert_eq!(out, "libhub.a exports: run\n");
}

#[test]
fn other_sources_are_proved_once() {
    let repository = Repository::new("sources");
    repository.write("top/crates/exports/src/lib.rt", "another");
    let (out, error, _) = repository.hub("top/hub", &["run"]);
    assert_eq!(out, "libexports.a another: run\n");
    let lines: Vec<&str> = error
        .lines()
        .map(|line| line.split(", 0:").next().unwrap_or(line))
        .collect();
    assert_eq!(
        lines,
        [
            "hub: proving and building the archive, which takes long the first time",
            "hub: model (1 of 3)",
            "hub: exports (2 of 3)",
            "hub: exports_c (3 of 3)",
            "hub: building the tool",
        ]
    );
    assert_eq!(repository.asked(), EACH);
    // The time of a file doesn't matter.
    repository.write("top/crates/exports/src/lib.rt", "another");
    let (_, error, _) = repository.hub("top/hub", &["run"]);
    assert_eq!(error, "");
    // A new file does.
    repository.write("top/crates/model/specs/More.antt", "more");
    let (_, error, _) = repository.hub("top/hub", &["run"]);
    assert!(error.contains("exports_c (3 of 3)"), "{error}");
}

#[test]
fn a_damaged_archive_is_not_taken() {
    let repository = Repository::new("damaged");
    repository.write("top/dist/libhub.a", "damaged");
    let (out, _, _) = repository.hub("top/hub", &["run"]);
    assert_eq!(out, "libexports.a exports: run\n");
}

#[test]
fn prove_holds_the_archive_against_the_shipped_one() {
    let repository = Repository::new("prove");
    let (out, error, exit) = repository.hub("top/hub", &["prove"]);
    let last = "hub: proved; the archive is dist/libhub.a, byte for byte";
    assert_eq!((out.as_str(), exit), ("", 0));
    assert_eq!(error.lines().last(), Some(last));
    assert_eq!(repository.asked(), EACH);
}

#[test]
fn what_is_not_proved_is_told() {
    let repository = Repository::new("broken");
    repository.write("top/crates/model/src/lib.rt", "another");
    repository.write("top/broken", "");
    let (out, error, exit) = repository.hub("top/hub", &["run"]);
    assert_eq!((out.as_str(), exit), ("", 70));
    assert!(
        error.contains("hub: model (1 of 3)\nnot proved\n"),
        "{error}"
    );
    assert!(error.contains("'rt lib' in "), "{error}");
}

#[test]
fn a_link_on_the_path_finds_the_repository() {
    let repository = Repository::new("link");
    symlink("../top/hub", repository.at("bin/one")).expect("a link");
    symlink(repository.at("bin/one"), repository.at("bin/two")).expect("a link");
    let (out, _, _) = repository.hub("bin/two", &["run"]);
    assert_eq!(out, "libhub.a exports: run\n");
}

#[test]
fn words_that_do_not_fit_are_told() {
    let repository = Repository::new("usage");
    let (_, error, exit) = repository.hub("top/hub", &["install"]);
    assert_eq!(
        (error.as_str(), exit),
        ("hub: usage: hub install PREFIX\n", 64)
    );
}
