//! The pages that show the tool: each command line in them is run, in
//! a folder with the examples and the course's files, and tells what the page
//! shows; each picture of the course is made again. With KEEP=1 pages and
//! pictures are made anew, to be looked at before they are kept.

use std::fs;
use std::os::unix::fs::symlink;
use std::path::{Path, PathBuf};
use std::process::Command;

const PAGES: [&str; 5] = [
    "docs/LANGUAGE.md",
    "docs/COURSE.md",
    "docs/JSON.md",
    "README.md",
    "examples/README.md",
];
const EXERCISES: &str = "docs/course/exercises";
const PROMPT: &str = "$ ";
const FENCE: &str = "```console";
/// What a command line is followed by where its exit status isn't 0.
const STATUS: &str = "[exit ";

fn top() -> PathBuf {
    Path::new(env!("CARGO_MANIFEST_DIR")).join("..")
}

fn keep() -> bool {
    std::env::var_os("KEEP").is_some()
}

/// A folder of this test's own, with the files that the pages name.
fn folder(page: &str) -> PathBuf {
    let name = page.replace(['/', '.'], "-");
    let folder = std::env::temp_dir().join(format!("hub-{name}-{}", std::process::id()));
    for part in ["examples", "docs/course", EXERCISES] {
        fs::create_dir_all(folder.join(part)).expect("a folder");
        for file in files(&top().join(part)) {
            let name = file.file_name().expect("a name");
            if !is_picture(&file) {
                fs::copy(&file, folder.join(part).join(name)).expect("a copied file");
            }
        }
    }
    // The README's command lines call the tool as it is called at the top.
    symlink(env!("CARGO_BIN_EXE_hub"), folder.join("hub")).expect("a link");
    folder
}

fn files(folder: &Path) -> Vec<PathBuf> {
    let entries = fs::read_dir(folder).expect("a readable folder");
    let mut files: Vec<_> = entries
        .map(|entry| entry.expect("an entry").path())
        .filter(|file| file.is_file())
        .collect();
    files.sort();
    files
}

/// Whether a file is made by a command line: a picture, or a page of a run.
fn is_picture(file: &Path) -> bool {
    file.extension()
        .is_some_and(|ending| ending == "svg" || ending == "html")
}

/// What a line of a shell tells, with the tool on its path.
fn told(line: &str, folder: &Path) -> String {
    let tool = Path::new(env!("CARGO_BIN_EXE_hub"));
    let tool = tool.parent().expect("a folder").display().to_string();
    let path = std::env::var("PATH").unwrap_or_default();
    let ran = Command::new("sh")
        .args(["-c", &format!("{{ {line}\n}} 2>&1")])
        .env("PATH", format!("{tool}:{path}"))
        .current_dir(folder)
        .output()
        .expect("a shell runs");
    let mut text = String::from_utf8_lossy(&ran.stdout).into_owned();
    if !ran.status.success() {
        text += &format!("{STATUS}{}]\n", ran.status.code().unwrap_or(-1));
    }
    text
}

/// A page as its command lines make it now, and how many there are.
fn remade(text: &str, folder: &Path) -> (String, usize) {
    let (mut made, mut count, mut shown) = (String::new(), 0, false);
    for line in text.lines() {
        if line == FENCE {
            shown = true;
        } else if line == "```" {
            shown = false;
        }
        let command = line.strip_prefix(PROMPT).filter(|_| shown);
        if shown && line != FENCE && command.is_none() {
            continue;
        }
        made += &format!("{line}\n");
        if let Some(command) = command {
            made += &told(command, folder);
            count += 1;
        }
    }
    (made, count)
}

#[test]
fn pages_show_what_the_tool_tells() {
    for page in PAGES {
        let folder = folder(page);
        let text = fs::read_to_string(top().join(page)).expect("a page");
        let (made, count) = remade(&text, &folder);
        assert!(count > 2, "{page} has command lines");
        if page.ends_with("COURSE.md") {
            compare_pictures(&folder, &text);
        }
        fs::remove_dir_all(&folder).expect("the folder goes");
        if keep() {
            fs::write(top().join(page), &made).expect("a page that can be written");
        } else {
            assert_eq!(made, text, "{page}");
        }
    }
}

/// The pictures that the course's command lines have made are those that are
/// kept, all of them, and the page shows each.
fn compare_pictures(folder: &Path, page: &str) {
    let [made, kept] = [folder, &top()].map(|folder| folder.join("docs/course"));
    let pictures = |folder: &Path| -> Vec<String> {
        let pictures = files(folder).into_iter().filter(|file| is_picture(file));
        let names = pictures.map(|file| file.file_name().expect("a name").to_os_string());
        names
            .map(|name| name.to_string_lossy().into_owned())
            .collect()
    };
    if keep() {
        for name in pictures(&made) {
            fs::copy(made.join(&name), kept.join(&name)).expect("a picture");
        }
    }
    assert_eq!(pictures(&made), pictures(&kept));
    for name in pictures(&made) {
        let [made, kept] = [&made, &kept].map(|folder| fs::read(folder.join(&name)));
        assert_eq!(made.expect("a picture"), kept.expect("a picture"), "{name}");
        assert!(
            page.contains(&format!("](course/{name})")),
            "{name} is shown"
        );
    }
}

/// The course has eight exercises, and the solution of each is as expected: all of its
/// runs pass, and nothing is warned of.
#[test]
fn exercises_have_solutions() {
    let course = fs::read_to_string(top().join("docs/COURSE.md")).expect("a page");
    let ending = |file: &PathBuf| file.extension().map(|e| e.to_string_lossy().into_owned());
    let all = files(&top().join(EXERCISES));
    let (cases, solutions): (Vec<PathBuf>, Vec<PathBuf>) = all
        .into_iter()
        .partition(|file| ending(file).is_some_and(|ending| ending == "cases"));
    assert_eq!((cases.len(), solutions.len()), (8, 8));
    for (cases, solution) in cases.iter().zip(&solutions) {
        let name = cases.file_stem().expect("a name").to_string_lossy();
        assert_eq!(cases.file_stem(), solution.file_stem());
        assert!(course.contains(&format!("({name})")), "{name} is asked for");
        let tested = told(&format!("hub test {}", cases.display()), &top());
        assert!(tested.ends_with(" passed, 0 failed\n"), "{tested}");
        let checked = told(&format!("hub check --deny {}", solution.display()), &top());
        assert!(!checked.contains(STATUS), "{checked}");
    }
}

/// The man page and the completion are those that the tool writes.
#[test]
fn written_files_are_those_of_the_tool() {
    for (file, line) in [
        ("docs/hub.1", "hub help --man"),
        ("tool/hub.bash", "hub help --bash"),
    ] {
        let made = told(line, &top());
        if keep() {
            fs::write(top().join(file), &made).expect("a file that can be written");
        }
        let kept = fs::read_to_string(top().join(file)).expect("a kept file");
        assert_eq!(made, kept, "{file}");
    }
}

/// Every refusal that has landed is met on the page of the language.
#[test]
fn the_language_page_meets_every_refusal() {
    let text = fs::read_to_string(top().join(PAGES[0])).expect("a page");
    for rule in hub::refusals::RULES {
        let met = format!(": refused {}: ", rule.number);
        assert!(text.contains(&met), "refusal {}", rule.number);
    }
}
