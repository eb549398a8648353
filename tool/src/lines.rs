//! Texts that people write a line for each thing, lists of cells and outlines:
//! what is wrong is told with its line.

use crate::files;
use crate::refusals::{Mark, Report};
use crate::types::{Fault, REFUSED};

/// What is wrong with such a text: the line, counted from 1, and why; places
/// that are shown, and what to do.
#[derive(Clone, Debug, PartialEq, Eq)]
pub struct Wrong {
    pub line: usize,
    pub why: String,
    pub marks: Vec<Mark>,
    pub remedy: Option<String>,
}

impl Wrong {
    pub fn new(line: usize, why: impl Into<String>) -> Wrong {
        Wrong {
            line,
            why: why.into(),
            marks: Vec::new(),
            remedy: None,
        }
    }

    pub fn fault(self, file: &str) -> Fault {
        let mut message = format!("{}, line {}: {}", files::shown(file), self.line, self.why);
        let remedy = self.remedy.map(|remedy| format!("  to do: {remedy}"));
        for line in Mark::all_lines(&self.marks)
            .lines()
            .chain(remedy.as_deref())
        {
            message += &format!("\n{line}");
        }
        Fault {
            exit: REFUSED,
            message,
        }
    }
}

/// The text of a file, which must be one: letters, and no bytes of zero.
pub fn read(name: &str) -> Result<String, Fault> {
    let bytes = files::read(name)?;
    text_of(files::shown(name), &bytes).map(String::from)
}

/// The text that bytes of a file are.
pub fn text_of<'b>(file: &str, bytes: &'b [u8]) -> Result<&'b str, Fault> {
    let text = std::str::from_utf8(bytes).ok();
    text.filter(|text| !text.contains('\0'))
        .ok_or_else(|| Fault::usage(format!("{file} is no text")))
}

/// The words of a line before its comment.
pub fn words(line: &str) -> Vec<&str> {
    let said = line.split('#').next().unwrap_or_default();
    said.split_whitespace().collect()
}

/// What is told of a refusal, with the line that its place is about.
pub fn lined(report: Report, text: &str, line: Option<usize>) -> Report {
    let said = line.and_then(|line| Some((line, text.lines().nth(line - 1)?)));
    match said {
        Some((line, words)) => Report {
            found: Some(format!("line {line}: {}", words.trim())),
            ..report
        },
        None => report,
    }
}
