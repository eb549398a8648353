//! Long texts: declarations, procedures and comments around the statements.

use super::{trees, Binds, Writer, WIDTH};
use crate::source::{Declared, Source};
use crate::types::Span;
use std::collections::BTreeMap;

/// The long text of a program that was read from a text, or that was given in another
/// form and has neither declarations nor comments.
pub fn long(source: &Source, text: &[u8]) -> Option<String> {
    let trees = trees(&source.nodes)?;
    let comments = Comments::of(source, text);
    let writer = Writer {
        comments: comments.above,
        ..Writer::new(&source.names, &source.said, true)
    };
    let mut parts: Vec<String> = Vec::new();
    let mut bodies = trees.iter();
    for (number, (declared, _)) in source.declared.iter().enumerate() {
        let mut part = comments.declared[number].join("");
        part += &match declared {
            Declared::Constants(all) => {
                let values = all.iter().map(|(name, value)| format!("{name} = {value}"));
                listed("constant", values.collect())
            }
            Declared::Words(names) => listed("word", names.clone()),
            Declared::Arrays(names) => listed("array", names.clone()),
            Declared::Procedure(name) => {
                let body = writer.lines(bodies.next()?, 2, Binds::Parallel);
                format!("\nprocedure {name} do\n{body}\nend\n")
            }
        };
        parts.push(part);
    }
    let main = bodies.next()?;
    let separate = if parts.is_empty() { "" } else { "\n" };
    let main = writer.lines(main, 0, Binds::Parallel);
    let last = comments.last.join("");
    let text = parts.concat() + separate + &main + "\n" + &last;
    Some(text.trim_start().to_string())
}

/// Names with commas between them, on as many lines as they need, each of which is a
/// declaration of its own.
fn listed(word: &str, names: Vec<String>) -> String {
    let mut text = String::new();
    let mut line = String::new();
    for name in names {
        if line.is_empty() {
            line = format!("{word} {name}");
        } else if line.len() + name.len() + 2 <= WIDTH {
            line += &format!(", {name}");
        } else {
            text += &format!("{line}\n");
            line = format!("{word} {name}");
        }
    }
    text + &line + "\n"
}

/// Where comments go: above the declaration or the statement that begins in their
/// line, or else above the next one.
struct Comments {
    above: BTreeMap<usize, Vec<String>>,
    declared: Vec<Vec<String>>,
    last: Vec<String>,
}

impl Comments {
    fn of(source: &Source, text: &[u8]) -> Comments {
        let mut comments = Comments {
            above: BTreeMap::new(),
            declared: vec![Vec::new(); source.declared.len()],
            last: Vec::new(),
        };
        let things = things(source);
        for span in &source.comments {
            let shown = String::from_utf8_lossy(&text[span.start..span.end]);
            let shown = shown.trim_end().to_string();
            match owner(&things, text, *span) {
                Some(Thing::Statement(node)) => {
                    comments.above.entry(node).or_default().push(shown);
                }
                Some(Thing::Declared(number)) => {
                    comments.declared[number].push(shown + "\n");
                }
                None => comments.last.push(shown + "\n"),
            }
        }
        comments
    }
}

#[derive(Clone, Copy)]
enum Thing {
    Declared(usize),
    Statement(usize),
}

/// The declarations and statements by where they begin; of a sequence or a parallel the
/// first statement that is neither.
fn things(source: &Source) -> Vec<(usize, Thing)> {
    let mut things: Vec<(usize, Thing)> = Vec::new();
    for (number, (_, span)) in source.declared.iter().enumerate() {
        things.push((span.start, Thing::Declared(number)));
    }
    for (node, place) in source.places.iter().enumerate() {
        if source.nodes[node].kind >= 16 {
            let joined = |node: &usize| matches!(source.nodes[*node].kind, 19 | 20);
            let first = (node..).find(|node| !joined(node)).unwrap_or(node);
            things.push((place.whole.start, Thing::Statement(first)));
        }
    }
    things.sort_by_key(|(start, _)| *start);
    things
}

fn owner(things: &[(usize, Thing)], text: &[u8], comment: Span) -> Option<Thing> {
    let line = text[..comment.start]
        .iter()
        .rposition(|byte| *byte == b'\n');
    let line = line.map_or(0, |feed| feed + 1);
    let inside = |(start, _): &&(usize, Thing)| (line..comment.start).contains(start);
    let after = |(start, _): &&(usize, Thing)| *start > comment.start;
    let own = things
        .iter()
        .rfind(inside)
        .or_else(|| things.iter().find(after));
    own.map(|(_, thing)| *thing)
}
