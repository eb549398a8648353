//! An outline back to a program's nodes. The order of the lines counts, the
//! indentation must agree with it, and text after `#` is passed over. A heading,
//! `procedure 0` or `main`, stands where the statement that it names begins.

mod indentation;

use crate::kinds;
use crate::lines::{self, Wrong};
use crate::outline::{heading_of, node_of, Heading};
use crate::preorder::{places, roots, Below};
use crate::source::{Place, Source};
use crate::types::Span;

/// A line that isn't empty.
struct Line<'t> {
    /// Counted from 1.
    number: usize,
    blanks: &'t str,
    words: Vec<&'t str>,
    place: Place,
    /// None for a heading.
    node: Option<usize>,
}

/// A program's nodes and, for each, its place.
pub fn assemble(text: &str) -> Result<Source, Wrong> {
    let mut source = Source::default();
    let mut lines = Vec::new();
    for (number, said) in (1..).zip(text.lines()) {
        let words = lines::words(said);
        if words.is_empty() {
            continue;
        }
        let wrong = |why| Wrong::new(number, why);
        let place = place(text, &words);
        let node = match heading_of(&words).map_err(wrong)? {
            Some(heading) => {
                put_heading(&mut source, &lines, heading).map_err(wrong)?;
                None
            }
            None => {
                source.nodes.push(node_of(&words).map_err(wrong)?);
                source.places.push(place);
                Some(source.nodes.len() - 1)
            }
        };
        let blanks = &said[..said.len() - said.trim_start().len()];
        lines.push(Line {
            number,
            blanks,
            words,
            place,
            node,
        });
    }
    indentation::check(text, &lines, &source.nodes)?;
    Ok(source)
}

/// Takes up a heading, which stands behind one whole statement for each
/// procedure before it.
fn put_heading(source: &mut Source, lines: &[Line], heading: Heading) -> Result<(), String> {
    let number = match heading {
        Heading::Procedure(number) if usize::from(number) != source.procedures => {
            let next = source.procedures;
            return Err(format!(
                "procedures stand in order: this is procedure {next}"
            ));
        }
        Heading::Procedure(number) => usize::from(number),
        Heading::Main => source.procedures,
    };
    if let (_, Some(Below { node, child })) = places(&source.nodes) {
        let role = kinds::children(source.nodes[node].kind)[child];
        let of = lines.iter().find(|line| line.node == Some(node));
        let of = of.map_or(String::new(), |line| {
            format!(" of the `{}` in line {}", line.words[0], line.number)
        });
        return Err(format!("the {role}{of} is missing before this heading"));
    }
    if roots(&source.nodes).0.len() != number {
        let before = "one whole statement for each procedure before it";
        return Err(format!(
            "a heading stands behind {before}; several are one in a sequence"
        ));
    }
    source.procedures += usize::from(heading != Heading::Main);
    Ok(())
}

/// Where a node stands: the words of its line, and among them its delay.
fn place(text: &str, words: &[&str]) -> Place {
    let spans: Vec<Span> = words.iter().map(|word| span(text, word)).collect();
    let whole = Span {
        start: spans[0].start,
        end: spans[spans.len() - 1].end,
    };
    let delay = words.iter().position(|word| word.starts_with('@'));
    Place {
        whole,
        mark: whole,
        delay: delay.map(|word| spans[word]),
    }
}

/// The bytes of a word that is part of a text.
fn span(text: &str, word: &str) -> Span {
    let start = word.as_ptr() as usize - text.as_ptr() as usize;
    let end = start + word.len();
    Span { start, end }
}
