//! What stands before the statement of a text: constants, the names of words and
//! arrays, and procedures.

use super::broken::{Broken, Read};
use super::habits;
use super::reader::Reader;
use super::scope::Sort;
use super::tree::Tree;
use super::words::Word;
use super::Declared;
use crate::types::Span;

/// A declaration, where it begins, and the body of a procedure.
pub struct Declaration {
    pub declared: Declared,
    pub span: Span,
    pub body: Option<Tree>,
}

impl<'t> Reader<'t> {
    /// The next declaration, if one is next.
    pub fn declaration(&mut self) -> Read<Option<Declaration>> {
        let Some(first) = self.peek() else {
            return Ok(None);
        };
        let mut body = None;
        self.at += 1;
        let declared = match first.text {
            b"constant" => Declared::Constants(self.listed(|reader| reader.constant())?),
            b"word" => Declared::Words(self.listed(|reader| reader.declared(Sort::Word))?),
            b"array" => Declared::Arrays(self.listed(|reader| reader.declared(Sort::Array))?),
            b"procedure" => {
                let (name, tree) = self.within(first, Self::procedure)?;
                body = Some(tree);
                Declared::Procedure(name)
            }
            _ => {
                self.at -= 1;
                return Ok(None);
            }
        };
        self.ends(first)?;
        self.skip(";");
        Ok(Some(Declaration {
            declared,
            span: first.span,
            body,
        }))
    }

    fn procedure(&mut self, _: Word<'t>) -> Read<(String, Tree)> {
        let name = self.declared(Sort::Procedure)?;
        self.expect("do")?;
        let body = self.parallel()?;
        self.expect("end")?;
        Ok((name, body))
    }

    /// Nothing stands behind a declaration that people add to one elsewhere.
    fn ends(&self, first: Word) -> Read<()> {
        let Some(next) = self.peek() else {
            return Ok(());
        };
        match habits::behind_names(first.text, next.text) {
            Some((rule, remedy)) => Err(Broken::order(next.span, rule, Some(remedy.into()))),
            None => Ok(()),
        }
    }

    /// Some of these, with commas between them.
    fn listed<T>(&mut self, one: impl Fn(&mut Self) -> Read<T>) -> Read<Vec<T>> {
        let mut all = vec![one(self)?];
        while self.skip(",").is_some() {
            all.push(one(self)?);
        }
        Ok(all)
    }

    fn declared(&mut self, sort: Sort) -> Read<String> {
        let Some(word) = self.peek() else {
            return Err(self.broken());
        };
        self.scope.declare(word, sort)?;
        self.at += 1;
        Ok(word.shown())
    }

    /// A constant's name and its value as it is written.
    fn constant(&mut self) -> Read<(String, String)> {
        let Some(name) = self.peek() else {
            return Err(self.broken());
        };
        if name.name().is_none() {
            self.scope.declare(name, Sort::Constant(0))?;
        }
        self.at += 1;
        self.expect("=")?;
        let (sign, (value, word)) = match self.skip("-") {
            Some(_) => ("-", self.below_zero()?),
            None => ("", self.number()?),
        };
        self.scope.declare(name, Sort::Constant(value))?;
        Ok((name.shown(), format!("{sign}{}", word.shown())))
    }
}
