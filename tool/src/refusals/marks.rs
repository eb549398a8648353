//! A place in a text, as a reader finds it: line, column, and the line itself
//! with a caret under the place.

use crate::json::Json;
use crate::types::Span;

/// The most characters of a line that are shown.
const SHOWN: usize = 100;

#[derive(Clone, Debug, PartialEq, Eq)]
pub struct Mark {
    /// Both from 1.
    pub line: usize,
    pub column: usize,
    /// What is to be seen there.
    pub caption: String,
    shown: String,
    caret: String,
}

impl Mark {
    pub fn new(text: &[u8], span: Span, caption: impl Into<String>) -> Mark {
        let start = span.start.min(text.len());
        let line = 1 + text[..start].iter().filter(|byte| **byte == b'\n').count();
        let begin = text[..start]
            .iter()
            .rposition(|byte| *byte == b'\n')
            .map_or(0, |feed| feed + 1);
        let rest = text[start..].iter().position(|byte| *byte == b'\n');
        let end = rest.map_or(text.len(), |length| start + length);
        let before = characters(&text[begin..start]);
        let marked = characters(&text[start..span.end.clamp(start, end)]);
        let after = characters(&text[span.end.clamp(start, end)..end]);
        let (shown, caret) = drawn(&before, &marked, &after);
        Mark {
            line,
            column: 1 + before.len(),
            caption: caption.into(),
            shown,
            caret,
        }
    }

    /// The lines of several marks, one after another.
    pub fn all_lines(marks: &[Mark]) -> String {
        let before = |k: usize| k.checked_sub(1).map(|before| &marks[before]);
        let lines = marks.iter().enumerate();
        lines.map(|(k, mark)| mark.lines(before(k))).collect()
    }

    /// The line, unless it was shown before, and the caret under the place.
    fn lines(&self, before: Option<&Mark>) -> String {
        let number = self.line.to_string();
        let blank = " ".repeat(number.len());
        let Mark {
            shown,
            caret,
            caption,
            ..
        } = self;
        let again = before.is_some_and(|mark| mark.line == self.line && mark.shown == *shown);
        let line = match again {
            true => String::new(),
            false => format!("  {number} | {shown}").trim_end().to_string() + "\n",
        };
        let under = format!("  {blank} | {caret} {caption}");
        line + under.trim_end() + "\n"
    }

    pub fn json(&self) -> Json {
        Json::Object(vec![
            ("line", Json::number(self.line)),
            ("column", Json::number(self.column)),
            ("what", Json::text(&self.caption)),
        ])
    }
}

/// The characters of bytes, with a blank for each that has no width.
fn characters(bytes: &[u8]) -> Vec<char> {
    let seen = |letter: char| if letter.is_control() { ' ' } else { letter };
    String::from_utf8_lossy(bytes).chars().map(seen).collect()
}

/// A line, of which a part around the place is shown where it is long, and the
/// caret's line.
fn drawn(before: &[char], marked: &[char], after: &[char]) -> (String, String) {
    let left = before.len().min(SHOWN * 2 / 3);
    let skipped = before.len() - left;
    let lead = if skipped > 0 { "..." } else { "" };
    let room = SHOWN - left;
    let tail = marked.iter().chain(after).take(room);
    let cut = marked.len() + after.len() > room;
    let mut shown = String::from(lead);
    shown.extend(before[skipped..].iter().chain(tail));
    if cut {
        shown.push_str("...");
    }
    let caret = " ".repeat(lead.len() + left) + &"^".repeat(marked.len().clamp(1, room));
    (shown.trim_end().to_string(), caret)
}
