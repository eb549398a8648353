//! The reader of texts, word by word: what both its parts, statements and
//! expressions, need.

use super::broken::{Broken, Read};
use super::habits;
use super::rules::{self, told};
use super::scope::{Meaning, Scope};
use super::words::Word;
use crate::types::Span;

/// How deep brackets and statements may stand in each other, so that no text, however
/// made, uses up the stack: as deep as in the longest text that the product takes.
const DEEPEST: usize = 4_096;

pub struct Reader<'t> {
    pub words: Vec<Word<'t>>,
    pub at: usize,
    /// The text's length.
    pub length: usize,
    pub scope: Scope,
    pub depth: usize,
    /// The words and signs that opened what isn't closed yet.
    pub open: Vec<Span>,
}

impl<'t> Reader<'t> {
    pub fn peek(&self) -> Option<Word<'t>> {
        self.words.get(self.at).copied()
    }

    /// The next word, of which something must be left.
    pub fn next(&mut self) -> Read<Word<'t>> {
        let word = self.peek().ok_or_else(|| self.broken())?;
        self.at += 1;
        Ok(word)
    }

    pub fn is_next(&self, text: &str) -> bool {
        self.peek().is_some_and(|word| word.text == text.as_bytes())
    }

    /// Passes this word, if it is next.
    pub fn skip(&mut self, text: &str) -> Option<Span> {
        let word = self.peek().filter(|word| word.text == text.as_bytes())?;
        self.at += 1;
        Some(word.span)
    }

    /// Passes this word, which must be next.
    pub fn expect(&mut self, text: &str) -> Read<Span> {
        self.skip(text).ok_or_else(|| self.broken())
    }

    /// The text can't go on with the next word, or can't end here.
    pub fn broken(&self) -> Box<Broken> {
        let Some(word) = self.peek() else {
            let end = self.length;
            let span = Span { start: end, end };
            let broken = Broken::order(span, rules::TOO_EARLY, None);
            return match self.open.last() {
                Some(open) => broken.with(*open, "this isn't closed yet"),
                None => broken,
            };
        };
        let near = |at: Option<usize>| {
            let word = at.and_then(|at| self.words.get(at));
            word.map_or(&b""[..], |word| word.text)
        };
        let around = [
            near(self.at.checked_sub(1)),
            word.text,
            near(Some(self.at + 1)),
        ];
        match habits::wrong_order(around) {
            Some((rule, remedy)) => Broken::order(word.span, rule, Some(remedy.into())),
            None => Broken::order(word.span, rules::NO_WAY_ON, None),
        }
    }

    /// Reads what stands in something else.
    pub fn deeper<T>(&mut self, read: fn(&mut Self) -> Read<T>) -> Read<T> {
        if self.depth == DEEPEST {
            let span = self.peek().map_or(self.end(), |word| word.span);
            let rule = rules::TOO_DEEP;
            let remedy = "make the program shorter: it has at most 200 nodes";
            return Err(Broken::word(span, rule, remedy));
        }
        self.depth += 1;
        let found = read(self)?;
        self.depth -= 1;
        Ok(found)
    }

    /// Reads what this word opens and something else closes.
    pub fn within<T>(
        &mut self,
        first: Word<'t>,
        read: fn(&mut Self, Word<'t>) -> Read<T>,
    ) -> Read<T> {
        self.open.push(first.span);
        let found = read(self, first)?;
        self.open.pop();
        Ok(found)
    }

    fn end(&self) -> Span {
        let (start, end) = (self.length, self.length);
        Span { start, end }
    }

    /// A number, or a constant by its name; with the word that it is.
    pub fn number(&mut self) -> Read<(u16, Word<'t>)> {
        let Some(word) = self.peek() else {
            return Err(self.broken());
        };
        let value = match (word.number(), self.scope.meaning(word)?) {
            (Some(number), _) => number,
            (None, Some(Meaning::Constant(value))) => value,
            (None, Some(_)) => {
                let rule = told(rules::NOT_KNOWN_BEFORE, &[&word.shown()]);
                let remedy = "a number or a constant belongs here";
                return Err(Broken::word(word.span, rule, remedy));
            }
            (None, None) if word.name().is_some() => {
                let is_constant = |meaning| matches!(meaning, Meaning::Constant(_));
                return Err(self.scope.unknown(word, "constant", is_constant));
            }
            _ => return Err(self.broken()),
        };
        self.at += 1;
        Ok((value, word))
    }

    /// A number below zero, behind its sign: as the word that it is kept as.
    pub fn below_zero(&mut self) -> Read<(u16, Word<'t>)> {
        let (value, word) = self.number()?;
        if value > 32_768 {
            let rule = rules::BELOW;
            return Err(Broken::word(
                word.span,
                rule,
                "write a number from -32768 on",
            ));
        }
        Ok((value.wrapping_neg(), word))
    }
}
