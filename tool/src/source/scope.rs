//! What a name stands for in a text: those that are declared, and `x0` to `x15` and
//! `a0` to `a3`, which are always there.

use super::broken::{Broken, Read};
use super::nearest::nearest;
use super::rules::{self, told};
use super::words::{Word, KEYWORDS};
use crate::names::Names;
use crate::store::{ARRAYS, VARIABLES};
use crate::types::Span;
use std::collections::HashMap;

/// What a name stands for.
#[derive(Clone, Copy, Debug, PartialEq, Eq, Hash)]
pub enum Meaning {
    Word(u16),
    Array(u16),
    Constant(u16),
    Procedure(u16),
}

/// What a declaration gives names to.
#[derive(Clone, Copy, Debug, PartialEq, Eq)]
pub enum Sort {
    Word,
    Array,
    Constant(u16),
    Procedure,
}

/// Names that waves and lists have for wires of their own.
const WIRES: [&str; 5] = ["start", "finish", "ground", "in_flight", "start_left"];

/// Of what is known before its place is come to.
const NOWHERE: Span = Span { start: 0, end: 0 };

#[derive(Default)]
pub struct Scope {
    pub names: Names,
    meanings: HashMap<String, (Meaning, Span)>,
    /// The words and arrays that were used by their numbers, and where first.
    numbered: HashMap<Meaning, Span>,
    /// The names that are declared anywhere in the text, and where.
    all: Vec<(String, Span)>,
}

impl Scope {
    /// Of a text with these words: the procedures are known from the beginning, so
    /// that a call of a later one is the product's to refuse.
    pub fn of(words: &[Word]) -> Scope {
        let all = declared(words);
        let mut scope = Scope::default();
        let mut procedures = 0..;
        for (keyword, name) in all {
            let (text, span) = (name.shown(), name.span);
            if keyword == b"procedure" {
                let number = Meaning::Procedure(procedures.next().unwrap_or_default());
                let own = scope.meanings.entry(text.clone());
                own.or_insert((number, NOWHERE));
            }
            scope.all.push((text, span));
        }
        scope
    }

    /// Gives a name to the next word, array or procedure, or to a constant.
    pub fn declare(&mut self, word: Word, sort: Sort) -> Read<()> {
        let Some(name) = word.name() else {
            let rule = told(rules::NO_NAME, &[&word.shown()]);
            let remedy = "a name has small letters, digits and _, begins with no digit, and is \
                no word of the language";
            return Err(Broken::order(word.span, rule, Some(remedy.into())));
        };
        let broken = |rule: String, remedy: &str| Broken::word(word.span, rule, remedy);
        if by_number(name).is_some() || WIRES.contains(&name) {
            let rule = match WIRES.contains(&name) {
                true => told(rules::WIRE, &[name]),
                false => told(rules::NUMBERED, &[name]),
            };
            return Err(broken(rule, "take another name"));
        }
        if let Some((_, first)) = self.declared(name) {
            let rule = told(rules::TWICE, &[name]);
            return Err(broken(rule, "take another name").with(first, "it is declared here"));
        }
        let meaning = match sort {
            Sort::Word => Meaning::Word(push(&mut self.names.words, name)),
            Sort::Array => Meaning::Array(push(&mut self.names.arrays, name)),
            Sort::Procedure => Meaning::Procedure(push(&mut self.names.procedures, name)),
            Sort::Constant(value) => Meaning::Constant(value),
        };
        if let Some((rule, remedy)) = too_many(meaning) {
            return Err(broken(rule.into(), remedy));
        }
        if let Some(used) = self.numbered.get(&meaning) {
            let number = numbered(meaning);
            let rule = told(rules::USED_BEFORE, &[name, &number]);
            let remedy = "declare names before all else, and then use them";
            let caption = format!("{number} is used here");
            return Err(broken(rule, remedy).with(*used, caption));
        }
        self.meanings.insert(name.into(), (meaning, word.span));
        Ok(())
    }

    /// A name that is declared already, and where. Procedures are known before, and
    /// stand at no place until then.
    fn declared(&self, name: &str) -> Option<(Meaning, Span)> {
        let found = self.meanings.get(name).copied();
        found.filter(|(_, span)| *span != NOWHERE)
    }

    /// What a name stands for. One that is used by its number must not have another
    /// name in this text.
    pub fn meaning(&mut self, word: Word) -> Read<Option<Meaning>> {
        let Some(name) = word.name() else {
            return Ok(None);
        };
        if let Some((meaning, _)) = self.meanings.get(name) {
            return Ok(Some(*meaning));
        }
        let Some(meaning) = by_number(name) else {
            return Ok(None);
        };
        let (limit, own) = match meaning {
            Meaning::Word(number) => (VARIABLES, named(&self.names.words, number)),
            Meaning::Array(number) => (ARRAYS, named(&self.names.arrays, number)),
            _ => return Ok(Some(meaning)),
        };
        let number = number_of(meaning);
        if usize::from(number) >= limit {
            let letter = &name[..1];
            let last = limit - 1;
            let rule = told(rules::NOT_THERE, &[name]);
            let remedy = format!("use {letter}0 to {letter}{last}");
            return Err(Broken::word(word.span, rule, remedy));
        }
        if let Some(own) = own {
            let rule = told(rules::HAS_A_NAME, &[name, own]);
            return Err(Broken::word(word.span, rule, format!("write {own}")));
        }
        self.numbered.entry(meaning).or_insert(word.span);
        Ok(Some(meaning))
    }

    /// A name that nothing is called by, where one of these sorts belongs.
    pub fn unknown(&self, word: Word, what: &str, fits: fn(Meaning) -> bool) -> Box<Broken> {
        let name = word.shown();
        let rule = told(rules::UNKNOWN, &[what, &name]);
        let later = |(other, span): &&(String, Span)| *other == name && span.start > word.span.end;
        if let Some((_, span)) = self.all.iter().find(later) {
            let remedy = "move the declaration up, before its first use";
            return Broken::word(word.span, rule, remedy).with(*span, "it is declared here");
        }
        let declared = self.meanings.iter().filter(|(_, (own, _))| fits(*own));
        let mut names: Vec<&str> = declared.map(|(name, _)| name.as_str()).collect();
        names.sort_unstable();
        let remedy = match nearest(&name, names.into_iter().chain(KEYWORDS)) {
            _ if name == "true" => "write 1; a condition holds if it isn't 0".to_string(),
            _ if name == "false" => "write 0".to_string(),
            Some(near) => format!("did you mean {near}?"),
            None if what == "procedure" => {
                format!("declare it before the program: procedure {name} do .. end")
            }
            None if what == "constant" => {
                format!("declare it before the program: constant {name} = ..")
            }
            None => format!("declare it before the program: word {name}"),
        };
        Broken::word(word.span, rule, remedy)
    }
}

/// The names that a text declares, each with the word that declares it.
fn declared<'t>(words: &[Word<'t>]) -> Vec<(&'t [u8], Word<'t>)> {
    let mut all = Vec::new();
    // Of a list of names the word before the first, as long as it may go on.
    let mut listed: Option<&[u8]> = None;
    for pair in words.windows(2) {
        let (before, word) = (pair[0], pair[1]);
        let opens = matches!(before.text, b"word" | b"array" | b"constant" | b"procedure");
        let goes_on = matches!(before.text, b"," | b"=" | b"-");
        let value = before.name().is_some() || before.number().is_some();
        listed = match opens {
            true => Some(before.text),
            false => listed.filter(|_| goes_on || value),
        };
        let keyword = listed.filter(|_| opens || before.text == b",");
        if let (Some(keyword), Some(_)) = (keyword, word.name()) {
            all.push((keyword, word));
        }
    }
    all
}

/// The names of the words and arrays that a text declares.
pub fn names_in(words: &[Word]) -> Names {
    let mut names = Names::default();
    for (keyword, word) in declared(words) {
        match keyword {
            b"word" => names.words.push(word.shown()),
            b"array" => names.arrays.push(word.shown()),
            b"procedure" => names.procedures.push(word.shown()),
            _ => {}
        }
    }
    names
}

/// What is told where a word or an array is more than there are.
fn too_many(meaning: Meaning) -> Option<(&'static str, &'static str)> {
    match meaning {
        Meaning::Word(number) if usize::from(number) >= VARIABLES => {
            let remedy = "keep what belongs together in an array, or use a word again";
            Some((rules::SIXTEEN_WORDS, remedy))
        }
        Meaning::Array(number) if usize::from(number) >= ARRAYS => {
            let remedy = "put what is short into one array, at other indices";
            Some((rules::FOUR_ARRAYS, remedy))
        }
        _ => None,
    }
}

fn push(names: &mut Vec<String>, name: &str) -> u16 {
    names.push(name.into());
    (names.len() - 1) as u16
}

fn named(names: &[String], number: u16) -> Option<&String> {
    names.get(usize::from(number))
}

fn number_of(meaning: Meaning) -> u16 {
    match meaning {
        Meaning::Word(n) | Meaning::Array(n) | Meaning::Constant(n) | Meaning::Procedure(n) => n,
    }
}

/// A word or an array by its number.
fn numbered(meaning: Meaning) -> String {
    match meaning {
        Meaning::Word(number) => format!("x{number}"),
        _ => format!("a{}", number_of(meaning)),
    }
}

/// What a name of a letter and a number stands for, which need not be there: one
/// with leading zeros is none.
fn by_number(name: &str) -> Option<Meaning> {
    let (letter, digits) = name.split_at_checked(1)?;
    if digits.is_empty() || !digits.bytes().all(|byte| byte.is_ascii_digit()) {
        return None;
    }
    let plain = digits == "0" || !digits.starts_with('0');
    let number = digits.parse().ok().filter(|_| plain).unwrap_or(u16::MAX);
    match letter {
        "x" => Some(Meaning::Word(number)),
        "a" => Some(Meaning::Array(number)),
        _ => None,
    }
}
