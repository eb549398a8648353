//! The tool's own reader of texts, which finds where each node stands. Of a text
//! that the product has read its nodes are held against the product's; of others,
//! long texts, it makes the nodes, and the product is asked about them.

mod broken;
mod declarations;
mod delays;
mod expressions;
mod habits;
mod nearest;
mod reader;
pub mod rules;
mod scope;
mod statements;
mod tree;
mod words;

pub use broken::Broken;
pub use nearest::nearest;
pub use words::{word_at, KEYWORDS, SIGNS};

use crate::names::Names;
use crate::types::{Node, Span};
use broken::Read;
use reader::Reader;
use scope::Scope;

/// Where a node stands: all of it, and the word or sign that names it; for a
/// node with a delay, that too, which is empty where it is left out.
#[derive(Clone, Copy, Debug, PartialEq, Eq)]
pub struct Place {
    pub whole: Span,
    pub mark: Span,
    pub delay: Option<Span>,
}

/// How a node was written, where its bytes don't tell.
#[derive(Clone, Debug, Default, PartialEq, Eq)]
pub enum Said {
    #[default]
    Plain,
    /// The delay is left out: it is the least that the product takes.
    Least,
    /// The delay is so much more than that, and how that is written.
    More(u8, String),
    /// The number is written in this way, by a constant's name or in hexadecimal.
    Written(String),
    /// A less with its sides changed: `a > b`, or in `a <= b`.
    Changed,
    /// An equal to 0 that is written as `not`.
    Not,
}

/// A declaration as it was written.
#[derive(Clone, Debug, PartialEq, Eq)]
pub enum Declared {
    /// Names and values.
    Constants(Vec<(String, String)>),
    Words(Vec<String>),
    Arrays(Vec<String>),
    Procedure(String),
}

/// The nodes of a text or an outline and, for each, its place.
#[derive(Clone, Debug, Default, PartialEq, Eq)]
pub struct Source {
    /// How many procedures stand before the main program.
    pub procedures: usize,
    pub nodes: Vec<Node>,
    pub places: Vec<Place>,
    /// How nodes were written; an outline says it all in its nodes.
    pub said: Vec<Said>,
    pub names: Names,
    /// In their order, with where each begins.
    pub declared: Vec<(Declared, Span)>,
    pub comments: Vec<Span>,
}

impl Source {
    /// Of a program that was given in another form; its procedures get names.
    pub fn of_nodes(procedures: usize, nodes: &[Node]) -> Source {
        let names: Vec<String> = (0..procedures).map(|number| format!("p{number}")).collect();
        let nowhere = Span { start: 0, end: 0 };
        let declared = |name: &String| (Declared::Procedure(name.clone()), nowhere);
        Source {
            procedures,
            nodes: nodes.to_vec(),
            declared: names.iter().map(declared).collect(),
            names: Names {
                procedures: names,
                ..Names::default()
            },
            ..Source::default()
        }
    }
}

/// The stack on which a text is read: brackets may stand some thousands deep.
const STACK: usize = 64 << 20;

/// Reads a text, or tells why it can't be read. Delays that are left out are still
/// to be settled.
pub fn read(text: &[u8]) -> Result<Source, Box<Broken>> {
    let reading = std::thread::Builder::new().stack_size(STACK);
    std::thread::scope(|scope| {
        let reading = reading.spawn_scoped(scope, || whole(text));
        let reading = reading.expect("a thread");
        reading
            .join()
            .unwrap_or_else(|fault| std::panic::resume_unwind(fault))
    })
}

/// The names that the beginning of a text declares.
pub fn names_in(begun: &[u8]) -> Names {
    let words = words::words(begun);
    words.map_or(Names::default(), |(words, _)| scope::names_in(&words))
}

fn whole(text: &[u8]) -> Read<Source> {
    let (words, comments) = words::words(text)?;
    let mut reader = Reader {
        scope: Scope::of(&words),
        words,
        at: 0,
        length: text.len(),
        depth: 0,
        open: Vec::new(),
    };
    let mut source = Source {
        comments,
        ..Source::default()
    };
    while let Some(declaration) = reader.declaration()? {
        source
            .declared
            .push((declaration.declared, declaration.span));
        if let Some(body) = declaration.body {
            source.procedures += 1;
            body.put(&mut source);
        }
    }
    let main = reader.parallel()?;
    if reader.peek().is_some() {
        return Err(reader.broken());
    }
    main.put(&mut source);
    source.names = reader.scope.names;
    Ok(source)
}
