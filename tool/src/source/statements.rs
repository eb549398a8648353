//! Statements.

use super::broken::{Broken, Read};
use super::reader::Reader;
use super::rules::{self, told};
use super::scope::Meaning;
use super::tree::Tree;
use super::words::Word;
use super::Said;
use crate::types::Span;

/// The words behind which a last `;` may stand.
const ENDS: [&str; 5] = ["end", "else", "until", "}", "||"];

impl<'t> Reader<'t> {
    /// Statements joined by `||`, which groups to the right.
    pub fn parallel(&mut self) -> Read<Tree> {
        let left = self.sequence()?;
        let Some(sign) = self.skip("||") else {
            return Ok(left);
        };
        let right = self.deeper(|reader| reader.parallel())?;
        Ok(Tree::joined(20, sign, left, right))
    }

    /// Statements joined by `;`, which groups to the right, and may stand behind the
    /// last.
    fn sequence(&mut self) -> Read<Tree> {
        let left = self.statement()?;
        let Some(sign) = self.skip(";") else {
            return Ok(left);
        };
        let last = |word: Word| ENDS.iter().any(|end| end.as_bytes() == word.text);
        if self.peek().is_none_or(last) {
            return Ok(left);
        }
        let right = self.deeper(|reader| reader.sequence())?;
        Ok(Tree::joined(19, sign, left, right))
    }

    fn statement(&mut self) -> Read<Tree> {
        let Some(first) = self.peek() else {
            return Err(self.broken());
        };
        self.at += 1;
        match first.text {
            b"ok" => Ok(Tree::leaf(16, 0, first.span)),
            b"exit" => Ok(Tree::leaf(26, 0, first.span)),
            b"tick" => self.tick(first),
            b"call" => self.call(first),
            b"if" => self.within(first, Self::choice),
            b"while" => self.within(first, Self::while_loop),
            b"repeat" => self.within(first, Self::repeat_loop),
            b"loop" => self.within(first, Self::exit_loop),
            b"{" => self.within(first, Self::braces),
            _ => {
                self.at -= 1;
                self.assignment(first)
            }
        }
    }

    fn braces(&mut self, first: Word<'t>) -> Read<Tree> {
        let inner = self.deeper(|reader| reader.parallel())?;
        let whole = first.span.to(self.expect("}")?);
        Ok(inner.over(whole))
    }

    fn tick(&mut self, first: Word) -> Read<Tree> {
        let mut tree = Tree::leaf(17, 0, first.span);
        let number = self.delay_number(&mut tree)?.span;
        tree.place.delay = Some(number);
        Ok(tree.over(first.span.to(number)))
    }

    fn assignment(&mut self, first: Word<'t>) -> Read<Tree> {
        let meaning = self.scope.meaning(first)?;
        let name = first.shown();
        let broken = |rule: &str, remedy: String| {
            Err(Broken::word(first.span, told(rule, &[&name]), remedy))
        };
        let (kind, number) = match meaning {
            Some(Meaning::Word(number)) => (18, number),
            Some(Meaning::Array(number)) => (24, number),
            Some(Meaning::Constant(value)) => {
                let rule = told(rules::A_CONSTANT, &[&name, &value.to_string()]);
                return Err(Broken::word(first.span, rule, "assign to a word"));
            }
            Some(Meaning::Procedure(_)) => {
                return broken(rules::A_PROCEDURE, format!("write call {name}"))
            }
            None if first.name().is_none() => return Err(self.broken()),
            None => return Err(self.no_statement(first)),
        };
        self.at += 1;
        let mut tree = Tree::leaf(kind, number, first.span);
        match (kind, self.is_next("[")) {
            (24, true) => tree.children.push(self.index()?.0),
            (18, true) => return broken(rules::NO_ARRAY, "leave the index out".into()),
            (24, false) if self.is_next(":=") => {
                return broken(rules::AN_ARRAY, format!("write {name}[..], with an index"))
            }
            _ => {}
        }
        if self.is_next("=") {
            let span = self.next()?.span;
            let rule = rules::ASSIGNMENT;
            return Err(Broken::order(span, rule, Some("write :=".into())));
        }
        self.expect(":=")?;
        let value = self.expression()?;
        let last = value.place.whole;
        tree.children.push(value);
        let last = self.delay(&mut tree, last)?;
        Ok(tree.over(first.span.to(last)))
    }

    /// A name that is unknown where a statement begins: a word that is assigned to, or
    /// a statement that there isn't.
    fn no_statement(&mut self, first: Word) -> Box<Broken> {
        self.at += 1;
        let assigned = [":=", "=", "["].iter().any(|sign| self.is_next(sign));
        let fits = |meaning| matches!(meaning, Meaning::Word(_) | Meaning::Array(_));
        let mut broken = self.scope.unknown(first, "word or array", fits);
        if !assigned && broken.other.is_none() {
            broken.rule = told(rules::NO_STATEMENT, &[&first.shown()]);
            let meant = broken.remedy.filter(|remedy| remedy.starts_with("did you"));
            let statements = "there are ok, tick, if, while, repeat, loop, exit, call and \
                assignments with :=";
            broken.remedy = meant.or(Some(statements.into()));
        }
        broken
    }

    fn choice(&mut self, first: Word<'t>) -> Read<Tree> {
        let mut tree = self.tested(21, first)?;
        self.expect("then")?;
        tree.children.push(self.deeper(|reader| reader.parallel())?);
        let other = match self.skip("else") {
            Some(_) => Some(self.deeper(|reader| reader.parallel())?),
            None => None,
        };
        let end = self.expect("end")?;
        tree.children
            .push(other.unwrap_or_else(|| Tree::leaf(16, 0, end)));
        Ok(tree.over(first.span.to(end)))
    }

    fn while_loop(&mut self, first: Word<'t>) -> Read<Tree> {
        let mut tree = self.tested(22, first)?;
        self.expect("do")?;
        tree.children.push(self.deeper(|reader| reader.parallel())?);
        self.ended(tree, first)
    }

    fn repeat_loop(&mut self, first: Word<'t>) -> Read<Tree> {
        let body = self.deeper(|reader| reader.parallel())?;
        self.expect("until")?;
        let mut tree = self.tested(23, first)?;
        tree.children.push(body);
        self.ended(tree, first)
    }

    fn exit_loop(&mut self, first: Word<'t>) -> Read<Tree> {
        let mut tree = Tree::leaf(25, 0, first.span);
        self.delay(&mut tree, first.span)?;
        self.expect("do")?;
        tree.children.push(self.deeper(|reader| reader.parallel())?);
        self.ended(tree, first)
    }

    fn call(&mut self, first: Word) -> Read<Tree> {
        let Some(name) = self.peek() else {
            return Err(self.broken());
        };
        let meaning = self.scope.meaning(name)?;
        let Some(Meaning::Procedure(number)) = meaning else {
            if name.name().is_none() {
                let rule = rules::PROCEDURE_BELONGS;
                let remedy = "declare it before the program: procedure read_board do .. end, \
                    and write call read_board";
                return Err(Broken::order(name.span, rule, Some(remedy.into())));
            }
            let fits = |meaning| matches!(meaning, Meaning::Procedure(_));
            return Err(self.scope.unknown(name, "procedure", fits));
        };
        self.at += 1;
        if let Some(bracket) = self.skip("(") {
            let remedy = "leave the brackets out: what goes in and comes out stands in words";
            return Err(Broken::order(
                bracket,
                rules::NO_ARGUMENTS,
                Some(remedy.into()),
            ));
        }
        let mut tree = Tree::leaf(27, number, first.span);
        let last = self.delay(&mut tree, name.span)?;
        Ok(tree.over(first.span.to(last)))
    }

    /// A node with its condition and its delay.
    fn tested(&mut self, kind: u8, first: Word) -> Read<Tree> {
        let condition = self.expression()?;
        let mut tree = Tree::leaf(kind, 0, first.span);
        self.delay(&mut tree, condition.place.whole)?;
        tree.children = vec![condition];
        Ok(tree)
    }

    /// The `end` of a statement that began with this word.
    fn ended(&mut self, tree: Tree, first: Word) -> Read<Tree> {
        let whole = first.span.to(self.expect("end")?);
        Ok(tree.over(whole))
    }

    /// The `@n` or `@+n` of a node, or nothing; tells what is its last, behind which
    /// the delay may be left out.
    fn delay(&mut self, tree: &mut Tree, before: Span) -> Read<Span> {
        let Some(sign) = self.skip("@") else {
            tree.said = Said::Least;
            let start = before.end;
            tree.place.delay = Some(Span { start, end: start });
            return Ok(before);
        };
        let more = self.skip("+").is_some();
        let number = self.delay_number(tree)?;
        let place = sign.to(number.span);
        if more {
            tree.said = Said::More(std::mem::take(&mut tree.node.delay), number.shown());
        }
        tree.place.delay = Some(place);
        Ok(place)
    }

    /// The number of a delay.
    fn delay_number(&mut self, tree: &mut Tree) -> Read<Word<'t>> {
        let (value, word) = self.number()?;
        let Ok(delay) = value.try_into() else {
            let rule = rules::DELAY;
            let remedy = "write a number up to 255; several ticks wait longer";
            return Err(Broken::word(word.span, rule, remedy));
        };
        tree.node.delay = delay;
        if word.shown() != value.to_string() {
            tree.said = Said::Written(word.shown());
        }
        Ok(word)
    }
}
