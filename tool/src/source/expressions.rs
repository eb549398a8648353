//! Expressions. What the product has no kind for is read as kinds that it has:
//! `a > b` as `b < a`, and `not e` as `e = 0`.

use super::broken::{Broken, Read};
use super::reader::Reader;
use super::rules::{self, told};
use super::scope::Meaning;
use super::tree::Tree;
use super::words::Word;
use super::Said;
use crate::types::Span;

/// An operator of two operands: how tightly it binds, and whether another of its
/// level may follow.
#[derive(Clone, Copy)]
struct Operator {
    binds: u8,
    chains: bool,
    read: fn(Span, Tree, Tree) -> Tree,
}

const OR: u8 = 0;
const AND: u8 = 1;
const COMPARISON: u8 = 2;
const SUM: u8 = 3;

impl<'t> Reader<'t> {
    /// An expression.
    pub fn expression(&mut self) -> Read<Tree> {
        self.level(OR)
    }

    /// An expression whose operators bind at least so tightly.
    fn level(&mut self, level: u8) -> Read<Tree> {
        let negated = (level <= COMPARISON).then(|| self.skip("not")).flatten();
        let mut most = u8::MAX;
        let mut left = match negated {
            // It is about a whole comparison, so that only & and | may follow.
            Some(sign) => {
                most = AND;
                let part = self.deeper(|reader| reader.level(COMPARISON))?;
                Tree {
                    said: Said::Not,
                    ..negation(sign, part)
                }
            }
            None => self.operand()?,
        };
        while let Some(operator) = self.peek().and_then(operator) {
            let Operator { binds, chains, .. } = operator;
            if binds < level || binds > most {
                break;
            }
            let sign = self.next()?.span;
            let right = self.level(binds + 1)?;
            left = (operator.read)(sign, left, right);
            // After a comparison only what binds less tightly may follow.
            most = if chains { binds } else { binds - 1 };
        }
        Ok(left)
    }

    fn operand(&mut self) -> Read<Tree> {
        let Some(first) = self.peek() else {
            return Err(self.broken());
        };
        match first.text {
            b"!" => {
                self.at += 1;
                let part = self.deeper(|reader| reader.operand())?;
                Ok(Tree::before(3, first.span, part))
            }
            b"(" => {
                self.at += 1;
                self.within(first, Self::bracketed)
            }
            b"-" => {
                self.at += 1;
                let (value, word) = self.below_zero()?;
                let said = format!("-{}", word.shown());
                let whole = first.span.to(word.span);
                Ok(constant(value, whole, said))
            }
            _ => self.named(first),
        }
    }

    fn bracketed(&mut self, first: Word<'t>) -> Read<Tree> {
        let inner = self.deeper(|reader| reader.expression())?;
        let whole = first.span.to(self.expect(")")?);
        Ok(inner.over(whole))
    }

    /// A number, a word, an element or a constant.
    fn named(&mut self, first: Word<'t>) -> Read<Tree> {
        if let Some(number) = first.number() {
            self.at += 1;
            return Ok(constant(number, first.span, first.shown()));
        }
        let meaning = self.scope.meaning(first)?;
        let broken = |rule: &str, remedy: String| {
            let rule = told(rule, &[&first.shown()]);
            Err(Broken::word(first.span, rule, remedy))
        };
        let name = first.shown();
        match meaning {
            None if first.name().is_none() => Err(self.broken()),
            None => {
                let fits = |meaning| !matches!(meaning, Meaning::Procedure(_));
                let what = "word, array or constant";
                Err(self.scope.unknown(first, what, fits))
            }
            Some(Meaning::Procedure(_)) => broken(
                rules::NO_VALUE,
                format!("write call {name} before, and read the word that it writes"),
            ),
            Some(Meaning::Constant(value)) => {
                self.at += 1;
                Ok(constant(value, first.span, name))
            }
            Some(Meaning::Word(number)) => {
                self.at += 1;
                if self.is_next("[") {
                    return broken(rules::NO_ARRAY, "leave the index out".into());
                }
                Ok(Tree::leaf(2, number, first.span))
            }
            Some(Meaning::Array(number)) => {
                self.at += 1;
                if !self.is_next("[") {
                    return broken(rules::AN_ARRAY, format!("write {name}[..], with an index"));
                }
                let (index, close) = self.index()?;
                let mut tree = Tree::leaf(10, number, first.span);
                tree.children = vec![index];
                Ok(tree.over(first.span.to(close)))
            }
        }
    }

    /// An index in its brackets, and the closing one.
    pub fn index(&mut self) -> Read<(Tree, Span)> {
        self.expect("[")?;
        let index = self.deeper(|reader| reader.expression())?;
        Ok((index, self.expect("]")?))
    }
}

/// A constant, with how it was written if that isn't in decimal.
fn constant(value: u16, span: Span, said: String) -> Tree {
    let mut tree = Tree::leaf(1, value, span);
    if said != value.to_string() {
        tree.said = Said::Written(said);
    }
    tree
}

/// `e = 0`, for what is written in another way at this place.
fn negation(sign: Span, part: Tree) -> Tree {
    let whole = match part.place.whole.start < sign.start {
        true => part.place.whole,
        false => sign.to(part.place.whole),
    };
    let zero = Tree::leaf(1, 0, sign);
    Tree::joined(8, sign, part, zero).over(whole)
}

fn operator(word: Word) -> Option<Operator> {
    let plain = |binds, chains, read| Operator {
        binds,
        chains,
        read,
    };
    Some(match word.text {
        b"|" => plain(OR, true, |sign, a, b| Tree::joined(7, sign, a, b)),
        b"&" => plain(AND, true, |sign, a, b| Tree::joined(6, sign, a, b)),
        b"=" => plain(COMPARISON, false, |sign, a, b| Tree::joined(8, sign, a, b)),
        b"<" => plain(COMPARISON, false, |sign, a, b| Tree::joined(9, sign, a, b)),
        b">" => plain(COMPARISON, false, greater),
        b"!=" => plain(COMPARISON, false, |sign, a, b| {
            negation(sign, Tree::joined(8, sign, a, b))
        }),
        b">=" => plain(COMPARISON, false, |sign, a, b| {
            negation(sign, Tree::joined(9, sign, a, b))
        }),
        b"<=" => plain(COMPARISON, false, |sign, a, b| {
            negation(sign, greater(sign, a, b))
        }),
        b"+" => plain(SUM, true, |sign, a, b| Tree::joined(4, sign, a, b)),
        b"-" => plain(SUM, true, |sign, a, b| Tree::joined(5, sign, a, b)),
        _ => return None,
    })
}

/// `b < a`, written as `a > b`.
fn greater(sign: Span, a: Tree, b: Tree) -> Tree {
    let whole = a.place.whole.to(b.place.whole);
    Tree {
        said: Said::Changed,
        ..Tree::joined(9, sign, b, a).over(whole)
    }
}
