//! A vector of tests/vectors: its files, what they give and tell, and the calls that
//! they name. The layout of each folder is in its README.

use peers::{Reply, BOTH};
use std::fs;
use std::path::{Path, PathBuf};
use values::{Answer, Circuit, Format, Given, Refusal, Shape};

/// Longer than any file, and than any state of a vector, and filled so that a stray
/// write shows.
pub static LENT: [u8; 101_000] = [0xa5; 101_000];

/// One vector: the folder and the common beginning of its files' names.
pub struct Vector {
    pub stem: PathBuf,
}

impl Vector {
    pub fn bytes(&self, extension: &str) -> Vec<u8> {
        let path = self.path(extension);
        fs::read(&path).unwrap_or_else(|error| panic!("{path}: {error}"))
    }

    /// The bytes of a file that not every such vector has.
    pub fn may_have(&self, extension: &str) -> Option<Vec<u8>> {
        let exists = Path::new(&self.path(extension)).exists();
        exists.then(|| self.bytes(extension))
    }

    fn path(&self, extension: &str) -> String {
        format!("{}.{extension}", self.stem.display())
    }

    /// A text file, without the blanks at its ends.
    pub fn text(&self, extension: &str) -> String {
        let text = String::from_utf8(self.bytes(extension)).expect("a text file");
        text.trim().to_string()
    }

    /// A file with one number.
    pub fn number(&self, extension: &str) -> u32 {
        self.text(extension).parse().expect("a number")
    }

    /// The numbers in a file that not every such vector has.
    fn numbers<const COUNT: usize>(&self, extension: &str) -> Option<[u8; COUNT]> {
        self.may_have(extension)?;
        let text = self.text(extension);
        let numbers = text
            .split(' ')
            .map(|number| number.parse().expect("a byte"));
        let numbers: Vec<u8> = numbers.collect();
        Some(numbers.try_into().expect("as many numbers"))
    }

    /// What is given beside its program, if not nothing: the pulse length and the
    /// number of procedures.
    pub fn given<'a>(&self, table: &'a Option<Vec<u8>>) -> Given<'a> {
        let table = Given::table(table.as_deref());
        match self.numbers("given") {
            None => table,
            Some([pulse, procedures, _, _]) => Given {
                procedures: procedures.into(),
                pulse,
                ..table
            },
        }
    }

    /// The circuit that its program is compiled to, by the last of those numbers.
    pub fn circuit(&self) -> Circuit {
        match self.numbers("given") {
            Some([_, _, _, 1]) => Circuit::Functional,
            _ => Circuit::Imperative,
        }
    }

    /// The circuit that its calls are about and the format of its states.
    pub fn mode(&self) -> (Circuit, Format) {
        let [compact, functional] = self.numbers("mode").unwrap_or([0, 0]);
        (
            Circuit::BOTH[usize::from(functional)],
            Format::BOTH[usize::from(compact)],
        )
    }

    /// A call on the state in a buffer, by its line.
    pub fn call(&self, line: &str, state: &[u8]) -> Reply<Answer> {
        let words = self.may_have("words").unwrap_or_default();
        call(self.mode(), line, &self.bytes("net"), &words, state)
    }
}

/// A call on the state in a buffer, by its line: `begin`, `cont N` or `start`.
pub fn call(
    (circuit, format): (Circuit, Format),
    line: &str,
    file: &[u8],
    words: &[u8],
    state: &[u8],
) -> Reply<Answer> {
    match line.split_once(' ').unwrap_or((line, "")) {
        ("cont", n) => {
            let n = n.parse().expect("a number");
            BOTH.continue_of(circuit)(format, file, n, state)
        }
        ("start", "") => BOTH.start_of(circuit)(format, file, state),
        ("begin", "") => BOTH.begin_of(circuit)(format, file, words, state),
        _ => panic!("no call is '{line}'"),
    }
}

/// Each vector of these folders, one for each file with this extension; the
/// name says which, for a failure.
pub fn for_each(folders: &[&str], extension: &str, test: impl Fn(&Vector, &str)) {
    for folder in folders {
        for_each_in(folder, extension, &test);
    }
}

fn for_each_in(folder: &str, extension: &str, test: impl Fn(&Vector, &str)) {
    let root = Path::new(env!("CARGO_MANIFEST_DIR"))
        .join("../vectors")
        .join(folder);
    let entries = fs::read_dir(&root).unwrap_or_else(|error| panic!("{}: {error}", root.display()));
    let mut seen = 0;
    for entry in entries {
        let path = entry.expect("a readable folder").path();
        if path.extension().is_some_and(|found| found == extension) {
            let stem = path.with_extension("");
            let name = stem.display().to_string();
            test(&Vector { stem }, &name);
            seen += 1;
        }
    }
    assert!(seen > 0, "no vectors in {folder}");
}

pub fn shape_text(result: Result<Shape, Refusal>) -> String {
    match result {
        Ok(shape) => format!("ok {} {}", shape.cells, shape.finish),
        Err(refusal) => refusal.to_string(),
    }
}

pub fn answer_text(result: Result<Answer, Refusal>) -> String {
    match result {
        Ok(answer) => {
            let outcome = if answer.ended { "ended" } else { "open" };
            let words = answer.words.map(|word| word.to_string()).join(" ");
            format!("{outcome} {} {} {words}", answer.instant, answer.count)
        }
        Err(refusal) => refusal.to_string(),
    }
}

/// Asserts that the lent buffer begins with `result` and is otherwise as lent.
pub fn assert_result<T>(reply: &Reply<T>, result: &[u8], name: &str) {
    let (written, past) = reply.lent[0].split_at(result.len());
    assert!(written == result, "{name}: other bytes");
    assert!(
        past == &LENT[result.len()..],
        "{name}: bytes past the result"
    );
}

/// The calls of a script, each with its answer.
pub fn lines(script: &str) -> impl Iterator<Item = (&str, &str)> {
    script
        .lines()
        .map(|line| line.split_once(" -> ").expect("a call and an answer"))
}
