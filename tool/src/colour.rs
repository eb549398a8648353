//! Colours on a terminal, for what a reader looks for first: that something is refused
//! or failed, where, and what to do.

use std::io::IsTerminal;

const RED: &str = "\x1b[1;31m";
const YELLOW: &str = "\x1b[1;33m";
const GREEN: &str = "\x1b[32m";
const PLAIN: &str = "\x1b[0m";

/// Whether a stream is to have colours: it is a terminal that knows them, and nobody has
/// set NO_COLOR.
pub fn wanted(stream: &impl IsTerminal) -> bool {
    let set = |name: &str| std::env::var_os(name).is_some_and(|value| !value.is_empty());
    let dumb = std::env::var_os("TERM").is_none_or(|term| term == "dumb");
    stream.is_terminal() && !dumb && !set("NO_COLOR")
}

/// A text with colours.
pub fn painted(text: &str) -> String {
    text.split_inclusive('\n').map(line).collect()
}

/// Words that are painted where they stand first in a line, and how.
const WORDS: [(&str, &str); 7] = [
    ("refused ", RED),
    ("warning:", YELLOW),
    ("note:", YELLOW),
    ("to do:", GREEN),
    ("  passed  ", GREEN),
    ("  failed  ", RED),
    ("hub: ", RED),
];

fn line(line: &str) -> String {
    if let Some((before, carets)) = carets(line) {
        let (marked, caption) = carets.split_at(carets.find([' ', '\n']).unwrap_or(carets.len()));
        return format!("{before}{RED}{marked}{PLAIN}{caption}");
    }
    for (word, colour) in WORDS {
        let own = match word {
            "hub: " => line.starts_with(word).then_some(0),
            "refused " | "warning:" | "note:" => line.find(&format!(": {word}")).map(|at| at + 2),
            "to do:" => line.starts_with("  to do:").then_some(2),
            _ => line.find(word),
        };
        if let Some(at) = own {
            let end = at + word.trim_end().len();
            // The number of a refusal belongs to it.
            let rest = &line[end..];
            let number = rest.find(':').filter(|_| word == "refused ").unwrap_or(0);
            let (before, painted, after) = (&line[..at], &line[at..end + number], &rest[number..]);
            return format!("{before}{colour}{painted}{PLAIN}{after}");
        }
    }
    line.to_string()
}

/// A line of carets under a place: what stands before them, and they.
fn carets(line: &str) -> Option<(&str, &str)> {
    let bar = line.find(" | ")?;
    let at = bar + 3 + line[bar + 3..].find('^')?;
    let blank = |text: &str| text.chars().all(|letter| letter == ' ');
    (blank(&line[..bar]) && blank(&line[bar + 3..at])).then_some(line.split_at(at))
}
