//! A file of cases: a program, and lines of start words with what is expected of a run
//! from them.

use crate::lines::Wrong;
use crate::names::Names;
use crate::start::Given;
use crate::store::Store;
use std::path::Path;

/// A line `x0=3 x1=5 -> end 96 x0=0`.
#[derive(Clone, Debug)]
pub struct Case<'t> {
    /// Counted from 1.
    pub line: usize,
    pub start: Vec<&'t str>,
    pub end: Expected,
    pub words: Vec<&'t str>,
}

#[derive(Clone, Copy, Debug, PartialEq, Eq)]
pub enum Expected {
    /// An end at this instant.
    At(u32),
    /// Some end.
    Some,
    /// No end up to this instant.
    Open(u32),
}

/// A program's name, and its cases.
#[derive(Clone, Debug)]
pub struct Cases<'t> {
    pub program: Option<&'t str>,
    pub cases: Vec<Case<'t>>,
}

impl<'t> Cases<'t> {
    pub fn of(text: &'t str) -> Result<Cases<'t>, Wrong> {
        let mut all = Cases {
            program: None,
            cases: Vec::new(),
        };
        for (number, line) in (1..).zip(text.lines()) {
            let words = crate::lines::words(line);
            let wrong = |why: &str| Err(Wrong::new(number, why));
            match words[..] {
                [] => {}
                ["program", name] if all.program.is_none() && all.cases.is_empty() => {
                    all.program = Some(name);
                }
                ["program", ..] => {
                    return wrong("one line 'program NAME' stands before the cases");
                }
                _ => all.cases.push(case(number, &words)?),
            }
        }
        if all.cases.is_empty() {
            return Err(Wrong::new(
                1,
                "there is no case; one is x0=3 -> end 58 x0=0",
            ));
        }
        Ok(all)
    }

    /// The program's file, which stands beside that of the cases; without a name it has
    /// that of the cases.
    pub fn program_file(&self, cases: &str) -> String {
        let cases = Path::new(cases);
        let file = match self.program {
            Some(name) => cases.with_file_name(name),
            None => cases.with_extension("hub"),
        };
        file.to_string_lossy().into_owned()
    }
}

fn case<'t>(line: usize, words: &[&'t str]) -> Result<Case<'t>, Wrong> {
    let form = "a case is x0=3 -> end 58 x0=0, with 'end N', 'open N' or words behind the arrow";
    let wrong = || Wrong::new(line, form);
    let arrow = words.iter().position(|word| *word == "->");
    let arrow = arrow.ok_or_else(wrong)?;
    let (start, behind) = (&words[..arrow], &words[arrow + 1..]);
    let number = |word: &str| word.replace(',', "").parse().map_err(|_| wrong());
    let (end, words) = match behind {
        [] => return Err(wrong()),
        ["end", instant, words @ ..] => (Expected::At(number(instant)?), words),
        ["open", instant, words @ ..] => (Expected::Open(number(instant)?), words),
        words => (Expected::Some, words),
    };
    Ok(Case {
        line,
        start: start.to_vec(),
        end,
        words: words.to_vec(),
    })
}

impl Case<'_> {
    /// The words that the run starts with.
    pub fn store(&self, names: &Names) -> Result<Store, Wrong> {
        let mut store = [0; crate::store::LENGTH];
        for (place, word) in self.given(&self.start, names)?.all() {
            store[place] = word;
        }
        Ok(store)
    }

    /// The words that are expected, by their places.
    pub fn expected(&self, names: &Names) -> Result<Vec<(usize, u16)>, Wrong> {
        Ok(self.given(&self.words, names)?.all())
    }

    fn given(&self, words: &[&str], names: &Names) -> Result<Given, Wrong> {
        let mut given = Given::default();
        for word in words {
            let put = given.put(word, names);
            put.map_err(|why| Wrong::new(self.line, why))?;
        }
        Ok(given)
    }
}
