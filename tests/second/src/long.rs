//! Long texts, the tool's own language, to nodes: by words (`long_words`), the grammar
//! as data (`long_grammar`), and here what names stand for and the nodes.

use crate::grammar::Rule;
use crate::kinds::{row, Sort};
use crate::long_grammar::{grammar, AT_LEAST, AT_MOST, GREATER, NAMED, NEGATIVE, NOT, UNEQUAL};
use crate::long_words::{words, Word, NAME};
use crate::reading::{Link, Reading};
use crate::table::Times;
use std::collections::HashMap;

/// What a long text is.
#[derive(Clone, Debug, Default, PartialEq, Eq)]
pub struct Long {
    pub words: Vec<String>,
    pub arrays: Vec<String>,
    pub procedures: Vec<String>,
    pub bytes: Vec<u8>,
}

/// Why a text is none: its words and their order have places, by bytes.
#[derive(Clone, Copy, Debug, PartialEq, Eq)]
pub enum Fault {
    Word(usize),
    Order(usize),
    /// A name that is unknown, of another sort or declared twice, or a number that
    /// doesn't fit.
    Meaning,
}

/// The program that a long text is, for pulses of this length.
pub fn program(text: &str, pulse: u8, times: &Times) -> Result<Long, Fault> {
    let words = words(text).map_err(Fault::Word)?;
    let place = |broken: usize| words.get(broken).map_or(text.len(), |word| word.place);
    let signs: Vec<&'static str> = words.iter().map(|word| word.sign).collect();
    let reading = Reading::of(grammar(), &signs);
    let reading = reading.map_err(|broken| Fault::Order(place(broken)))?;
    let mut builder = Builder {
        words: &words,
        reading: &reading,
        pulse,
        times,
        meanings: HashMap::new(),
        numbered: Vec::new(),
        long: Long::default(),
    };
    builder.whole(reading.whole()).ok_or(Fault::Meaning)?;
    Ok(builder.long)
}

#[derive(Clone, Copy, PartialEq)]
enum Meaning {
    Word(u16),
    Array(u16),
    Constant(u16),
    Procedure(u16),
}

const RESERVED: [&str; 5] = ["start", "finish", "ground", "in_flight", "start_left"];

/// A node with its children.
struct Tree {
    node: [u8; 4],
    children: Vec<Tree>,
}

enum Delay {
    Least,
    More(u16),
    Given(u16),
}

struct Builder<'b> {
    words: &'b [Word],
    reading: &'b Reading,
    pulse: u8,
    times: &'b Times,
    meanings: HashMap<String, Meaning>,
    /// Words and arrays that were used by their numbers.
    numbered: Vec<Meaning>,
    long: Long,
}

impl Builder<'_> {
    /// The words of a phrase that are names or numbers, its parts, and its rule.
    fn phrase(&self, link: Link) -> (Vec<&Word>, Vec<Link>, &'static Rule) {
        let phrase = self.reading.phrase(link);
        let words = phrase.words.iter().map(|word| &self.words[*word]);
        let told = words.filter(|word| word.sign == NAME || word.number.is_some());
        (told.collect(), phrase.parts, phrase.rule)
    }

    /// The signs of a phrase.
    fn has(&self, link: Link, sign: &str) -> bool {
        let phrase = self.reading.phrase(link);
        phrase
            .words
            .iter()
            .any(|word| self.words[*word].sign == sign)
    }

    fn whole(&mut self, mut link: Link) -> Option<()> {
        // Procedures are known from the beginning.
        let named = self
            .words
            .windows(2)
            .filter(|pair| pair[0].sign == "procedure");
        let names: Vec<String> = named.map(|pair| pair[1].text.clone()).collect();
        for (number, name) in names.into_iter().enumerate() {
            let own = self.meanings.entry(name);
            own.or_insert(Meaning::Procedure(number as u16));
        }
        let mut declared = Vec::new();
        while let [declaration, rest] = self.phrase(link).1[..] {
            let inner = self.phrase(declaration).1[0];
            self.declaration(inner, &mut declared)?;
            link = rest;
        }
        let main = self.phrase(link).1[0];
        let main = self.statement(main)?;
        self.put(main);
        Some(())
    }

    fn declaration(&mut self, link: Link, declared: &mut Vec<String>) -> Option<()> {
        let (names, parts, _) = self.phrase(link);
        if self.has(link, "procedure") {
            let name = names[0].text.clone();
            self.name(
                &name,
                declared,
                Meaning::Procedure(self.long.procedures.len() as u16),
            )?;
            self.long.procedures.push(name);
            let body = self.statement(parts[0])?;
            self.put(body);
            return Some(());
        }
        let mut rest = Some(parts[0]);
        while let Some(list) = rest {
            let (names, parts, _) = self.phrase(list);
            let names: Vec<String> = names.iter().map(|name| name.text.clone()).collect();
            rest = parts.last().copied();
            if self.has(link, "constant") {
                // A constant is a phrase of its own, and the first of two parts.
                rest = parts.get(1).copied();
                let (own, value) = (
                    self.phrase(parts[0]).0[0].text.clone(),
                    self.phrase(parts[0]).1[0],
                );
                let number = self.number(self.phrase(value).1[0])?;
                let value = match self.has(value, "-") {
                    true if number > 32_768 => return None,
                    true => number.wrapping_neg(),
                    false => number,
                };
                self.name(&own, declared, Meaning::Constant(value))?;
            } else if self.has(link, "word") {
                let number = self.long.words.len() as u16;
                self.name(&names[0], declared, Meaning::Word(number))?;
                self.long.words.push(names[0].clone());
                (number < 16).then_some(())?;
            } else {
                let number = self.long.arrays.len() as u16;
                self.name(&names[0], declared, Meaning::Array(number))?;
                self.long.arrays.push(names[0].clone());
                (number < 4).then_some(())?;
            }
        }
        Some(())
    }

    fn name(&mut self, name: &str, declared: &mut Vec<String>, meaning: Meaning) -> Option<()> {
        let taken = by_number(name) || RESERVED.contains(&name);
        if taken || declared.iter().any(|other| other == name) || self.numbered.contains(&meaning) {
            return None;
        }
        declared.push(name.to_string());
        self.meanings.insert(name.to_string(), meaning);
        Some(())
    }

    fn meaning(&mut self, name: &str) -> Option<Meaning> {
        if let Some(meaning) = self.meanings.get(name) {
            return Some(*meaning);
        }
        if !by_number(name) || name.len() > 2 && name[1..].starts_with('0') {
            return None;
        }
        let number: u16 = name[1..].parse().ok()?;
        let (meaning, own, most) = match &name[..1] {
            "x" => (Meaning::Word(number), self.long.words.len(), 16),
            _ => (Meaning::Array(number), self.long.arrays.len(), 4),
        };
        let free = usize::from(number) >= own && number < most;
        self.numbered.push(meaning);
        free.then_some(meaning)
    }

    fn number(&mut self, link: Link) -> Option<u16> {
        let (words, _, _) = self.phrase(link);
        let (number, name) = (words[0].number, words[0].text.clone());
        match number {
            Some(number) => Some(number),
            None => match self.meaning(&name)? {
                Meaning::Constant(value) => Some(value),
                _ => None,
            },
        }
    }

    fn statement(&mut self, link: Link) -> Option<Tree> {
        let (names, mut parts, rule) = self.phrase(link);
        let name = names.first().map(|name| name.text.clone());
        let Some(kind) = rule.kind else {
            return self.statement(parts[0]);
        };
        let n = match (kind, name) {
            (18, Some(name)) => match self.meaning(&name)? {
                Meaning::Word(n) => n,
                _ => return None,
            },
            (24, Some(name)) => match self.meaning(&name)? {
                Meaning::Array(n) => n,
                _ => return None,
            },
            (27, Some(name)) => match self.meaning(&name)? {
                Meaning::Procedure(n) => n,
                _ => return None,
            },
            _ => 0,
        };
        let mut delay = Delay::Least;
        let mut children = Vec::new();
        // An expression comes first, wherever its text stands.
        parts.sort_by_key(|part| grammar().sort(self.reading.rule(*part).left) == Sort::Statement);
        for part in parts {
            let rule = self.reading.rule(part);
            if kind == 17 {
                delay = Delay::Given(self.number(part)?);
            } else if self.has(part, "@") {
                let number = self.phrase(part).1[0];
                delay = match self.has(part, "+") {
                    true => Delay::More(self.number(number)?),
                    false => Delay::Given(self.number(number)?),
                };
            } else if grammar().sort(rule.left) == Sort::Expression {
                children.push(self.expression(part)?);
            } else {
                children.push(self.statement(part)?);
            }
        }
        if kind == 21 && children.len() == 2 {
            children.push(leaf(16, 0));
        }
        let delay = match (delay, row(kind)?.uses_delay) {
            (_, false) => 0,
            (Delay::Given(delay), true) => delay.try_into().ok()?,
            (Delay::Least, true) => self.least(kind, &children).min(255) as u8,
            (Delay::More(more), true) => {
                let more: u8 = more.try_into().ok()?;
                let least: u8 = self.least(kind, &children).min(255) as u8;
                least.checked_add(more)?
            }
        };
        let [low, high] = n.to_le_bytes();
        Some(Tree {
            node: [kind, delay, low, high],
            children,
        })
    }

    fn expression(&mut self, link: Link) -> Option<Tree> {
        let (words, parts, rule) = self.phrase(link);
        let Some(kind) = rule.kind else {
            return self.expression(parts[0]);
        };
        let word = words.first().map(|word| (word.text.clone(), word.number));
        let mut children = Vec::new();
        let own = match (kind, word) {
            (10, Some((name, _))) => Some(self.meaning(&name)?),
            (NAMED, Some((name, _))) => Some(self.meaning(&name)?),
            (NEGATIVE, Some((name, None))) => Some(self.meaning(&name)?),
            (1 | NEGATIVE, Some((_, Some(number)))) => Some(Meaning::Constant(number)),
            _ => None,
        };
        for part in parts {
            children.push(self.expression(part)?);
        }
        Some(match (kind, own) {
            (10, Some(Meaning::Array(n))) => Tree {
                children,
                ..leaf(10, n)
            },
            (1 | NAMED, Some(Meaning::Constant(value))) => leaf(1, value),
            (NAMED, Some(Meaning::Word(n))) => leaf(2, n),
            (NEGATIVE, Some(Meaning::Constant(value))) if value <= 32_768 => {
                leaf(1, value.wrapping_neg())
            }
            (_, Some(_)) => return None,
            (NOT, None) => zero(children.pop()?),
            (GREATER, None) => swapped(children),
            (AT_MOST, None) => zero(swapped(children)),
            (UNEQUAL, None) => zero(Tree {
                children,
                ..leaf(8, 0)
            }),
            (AT_LEAST, None) => zero(Tree {
                children,
                ..leaf(9, 0)
            }),
            (kind, None) => Tree {
                children,
                ..leaf(kind, 0)
            },
        })
    }

    /// The least delay of a statement of this kind.
    fn least(&self, kind: u8, children: &[Tree]) -> u32 {
        let least = match (kind, self.pulse) {
            (21, _) => 0,
            (22 | 23 | 25 | 27, 2..) => u32::from(self.pulse) + 1,
            _ => 1,
        };
        let expressions = children.iter().filter(|tree| tree.node[0] < 16);
        expressions.fold(least, |least, e| least.max(self.time(e)))
    }

    fn time(&self, tree: &Tree) -> u32 {
        let own = u32::from(self.times.0[usize::from(tree.node[0]) - 1]);
        own + tree
            .children
            .iter()
            .map(|part| self.time(part))
            .max()
            .unwrap_or(0)
    }

    fn put(&mut self, tree: Tree) {
        self.long.bytes.extend(tree.node);
        for child in tree.children {
            self.put(child);
        }
    }
}

fn leaf(kind: u8, n: u16) -> Tree {
    let [low, high] = n.to_le_bytes();
    Tree {
        node: [kind, 0, low, high],
        children: Vec::new(),
    }
}

/// e = 0
fn zero(tree: Tree) -> Tree {
    Tree {
        children: vec![tree, leaf(1, 0)],
        ..leaf(8, 0)
    }
}

/// b < a
fn swapped(mut children: Vec<Tree>) -> Tree {
    children.reverse();
    Tree {
        children,
        ..leaf(9, 0)
    }
}

/// Whether a name is x or a with a number, whichever.
fn by_number(name: &str) -> bool {
    let digits = name.strip_prefix(['x', 'a']);
    digits.is_some_and(|digits| {
        !digits.is_empty() && digits.bytes().all(|byte| byte.is_ascii_digit())
    })
}
