//! A program typed as text: with the brackets and blanks that its reading
//! needs and no more, or with others added freely.

use crate::xorshift::Random;
use second::kinds::{row, ExpressionKind, Kind, StatementKind};
use second::operator::Operator;
use std::slice::ChunksExact;

/// The ranks of statements; a higher one binds tighter.
const PARALLEL: u8 = 0;
const SEQUENCE: u8 = 1;
const STATEMENT: u8 = 2;

/// The ranks of expressions.
const OR: u8 = 0;
const AND: u8 = 1;
const COMPARISON: u8 = 2;
const SUM: u8 = 3;
const COMPLEMENT: u8 = 4;
const OPERAND: u8 = 5;

/// The words of a program's text with the fewest brackets. Every node has
/// its children there; delays, clashes and length may be such as are refused.
pub fn with_fewest_brackets(program: &[u8]) -> Vec<String> {
    typed(program, None)
}

/// The same with more brackets here and there.
pub fn with_more_brackets(program: &[u8], random: &mut Random) -> Vec<String> {
    typed(program, Some(random))
}

/// The text of these words with the fewest blanks.
pub fn with_fewest_blanks(words: &[String]) -> Vec<u8> {
    joined(words, String::new)
}

/// The text of these words with blanks and line feeds here and there.
pub fn with_more_blanks(words: &[String], random: &mut Random) -> Vec<u8> {
    let usual = random.between(1, 3);
    joined(words, || {
        let count = random.below(usual + 1);
        (0..count).map(|_| random.pick(&[' ', ' ', '\n'])).collect()
    })
}

/// The words with something between them, and with a blank where two runs of
/// letters and digits would otherwise be one.
fn joined(words: &[String], mut between: impl FnMut() -> String) -> Vec<u8> {
    let is_run = |character: char| character.is_ascii_alphanumeric();
    let mut text = between();
    for word in words {
        if text.ends_with(is_run) && word.starts_with(is_run) {
            text.push(' ');
        }
        text += word;
        text += &between();
    }
    text.into_bytes()
}

fn typed(program: &[u8], more: Option<&mut Random>) -> Vec<String> {
    let mut typist = Typist {
        more,
        words: vec![],
    };
    let tree = Tree::next(&mut program.chunks_exact(4));
    typist.statement(&tree, PARALLEL);
    typist.words
}

/// A node with its children.
struct Tree {
    kind: Kind,
    delay: u8,
    n: u16,
    children: Vec<Tree>,
}

impl Tree {
    fn next(nodes: &mut ChunksExact<u8>) -> Tree {
        let node = nodes.next().expect("a node for each child");
        let row = row(node[0]).expect("a known kind");
        let children = row.children.iter();
        Tree {
            kind: row.kind,
            delay: node[1],
            n: u16::from_le_bytes([node[2], node[3]]),
            children: children.map(|_| Tree::next(nodes)).collect(),
        }
    }

    fn rank(&self) -> u8 {
        match self.kind {
            Kind::Statement(StatementKind::Parallel) => PARALLEL,
            Kind::Statement(StatementKind::Sequence) => SEQUENCE,
            Kind::Statement(_) => STATEMENT,
            Kind::Expression(ExpressionKind::Operation(operator)) => operation(operator).1,
            Kind::Expression(_) => OPERAND,
        }
    }
}

/// The sign and the rank of an operator.
fn operation(operator: Operator) -> (&'static str, u8) {
    match operator {
        Operator::Complement => ("!", COMPLEMENT),
        Operator::Sum => ("+", SUM),
        Operator::Difference => ("-", SUM),
        Operator::Equal => ("=", COMPARISON),
        Operator::Less => ("<", COMPARISON),
        Operator::And => ("&", AND),
        Operator::Or => ("|", OR),
    }
}

struct Typist<'a> {
    /// Where brackets that aren't needed come from.
    more: Option<&'a mut Random>,
    words: Vec<String>,
}

impl Typist<'_> {
    fn word(&mut self, word: &str) {
        self.words.push(word.to_string());
    }

    /// A statement where one of this rank or a higher one may stand.
    fn statement(&mut self, tree: &Tree, rank: u8) {
        self.bracketed(["{", "}"], tree, rank, Typist::bare_statement);
    }

    fn bare_statement(&mut self, tree: &Tree) {
        let Kind::Statement(kind) = tree.kind else {
            panic!("an expression where a statement stands");
        };
        match (kind, &tree.children[..]) {
            (StatementKind::Ok, _) => self.word("ok"),
            (StatementKind::Tick, _) => {
                self.word("tick");
                self.word(&tree.delay.to_string());
            }
            (StatementKind::Assign, [e]) => {
                self.word(&format!("x{}", tree.n));
                self.word(":=");
                self.timed(e, tree.delay);
            }
            (StatementKind::Sequence, [p, q]) => {
                self.statement(p, STATEMENT);
                self.word(";");
                self.statement(q, SEQUENCE);
            }
            (StatementKind::Parallel, [p, q]) => {
                self.statement(p, SEQUENCE);
                self.word("||");
                self.statement(q, PARALLEL);
            }
            (StatementKind::If, [e, p, q]) => {
                self.word("if");
                self.timed(e, tree.delay);
                self.word("then");
                self.statement(p, PARALLEL);
                self.word("else");
                self.statement(q, PARALLEL);
                self.word("end");
            }
            (StatementKind::While, [e, p]) => {
                self.word("while");
                self.timed(e, tree.delay);
                self.word("do");
                self.statement(p, PARALLEL);
                self.word("end");
            }
            (StatementKind::Repeat, [e, p]) => {
                self.word("repeat");
                self.statement(p, PARALLEL);
                self.word("until");
                self.timed(e, tree.delay);
                self.word("end");
            }
            (kind, _) => panic!("{kind:?} with other children than the table's"),
        }
    }

    /// e @n
    fn timed(&mut self, e: &Tree, delay: u8) {
        self.expression(e, OR);
        self.word("@");
        self.word(&delay.to_string());
    }

    fn expression(&mut self, tree: &Tree, rank: u8) {
        self.bracketed(["(", ")"], tree, rank, Typist::bare_expression);
    }

    fn bare_expression(&mut self, tree: &Tree) {
        match tree.kind {
            Kind::Expression(ExpressionKind::Constant) => self.word(&tree.n.to_string()),
            Kind::Expression(ExpressionKind::Variable) => self.word(&format!("x{}", tree.n)),
            Kind::Expression(ExpressionKind::Operation(operator)) => self.operation(operator, tree),
            Kind::Expression(ExpressionKind::Element) => panic!("an element has no text"),
            Kind::Statement(_) => panic!("a statement where an expression stands"),
        }
    }

    /// An operation: on its left may stand another of its rank, which a
    /// comparison alone doesn't allow.
    fn operation(&mut self, operator: Operator, tree: &Tree) {
        let (sign, rank) = operation(operator);
        match &tree.children[..] {
            [e] => {
                self.word(sign);
                self.expression(e, rank);
            }
            [e, f] => {
                self.expression(e, rank + u8::from(rank == COMPARISON));
                self.word(sign);
                self.expression(f, rank + 1);
            }
            _ => panic!("{operator:?} with other children than the table's"),
        }
    }

    /// Types a tree, in brackets where its rank needs them.
    fn bracketed(
        &mut self,
        [open, close]: [&str; 2],
        tree: &Tree,
        rank: u8,
        bare: fn(&mut Self, &Tree),
    ) {
        let pairs = usize::from(tree.rank() < rank) + self.more_pairs();
        for _ in 0..pairs {
            self.word(open);
        }
        bare(self, tree);
        for _ in 0..pairs {
            self.word(close);
        }
    }

    fn more_pairs(&mut self) -> usize {
        let more = |random: &mut Random| usize::from(random.once_in(5)) * random.between(1, 3);
        self.more.as_deref_mut().map_or(0, more)
    }
}

#[cfg(test)]
mod tests {
    use super::*;

    fn fewest(program: &[[u8; 4]]) -> String {
        let words = with_fewest_brackets(&program.concat());
        String::from_utf8(with_fewest_blanks(&words)).expect("text")
    }

    const OK: [u8; 4] = [16, 0, 0, 0];
    const TICK: [u8; 4] = [17, 9, 0, 0];
    const SEQUENCE: [u8; 4] = [19, 0, 0, 0];
    const PARALLEL: [u8; 4] = [20, 0, 0, 0];
    const ASSIGN: [u8; 4] = [18, 7, 3, 0];

    #[test]
    fn braces_stand_where_statements_need_them() {
        let table = [
            (vec![SEQUENCE, OK, SEQUENCE, TICK, OK], "ok;tick 9;ok"),
            (vec![SEQUENCE, SEQUENCE, OK, TICK, OK], "{ok;tick 9};ok"),
            (vec![PARALLEL, SEQUENCE, OK, TICK, OK], "ok;tick 9||ok"),
            (vec![PARALLEL, PARALLEL, OK, TICK, OK], "{ok||tick 9}||ok"),
            (vec![SEQUENCE, OK, PARALLEL, TICK, OK], "ok;{tick 9||ok}"),
            (
                vec![[23, 6, 0, 0], [2, 0, 15, 0], PARALLEL, TICK, OK],
                "repeat tick 9||ok until x15@6 end",
            ),
        ];
        for (program, text) in table {
            assert_eq!(fewest(&program), text);
        }
    }

    #[test]
    fn parentheses_stand_where_expressions_need_them() {
        let [one, two, three] = [1, 2, 3].map(|n| [1, 0, n, 0]);
        let [not, sum, difference, and, or, equal] = [3, 4, 5, 6, 7, 8].map(|kind| [kind, 0, 0, 0]);
        let table = [
            (vec![difference, difference, one, two, three], "1-2-3"),
            (vec![difference, one, sum, two, three], "1-(2+3)"),
            (vec![equal, equal, one, two, three], "(1=2)=3"),
            (vec![equal, one, equal, two, three], "1=(2=3)"),
            (vec![and, or, one, two, three], "(1|2)&3"),
            (vec![or, one, and, two, three], "1|2&3"),
            (vec![not, not, sum, one, two], "!!(1+2)"),
            (vec![sum, not, one, two], "!1+2"),
        ];
        for (expression, text) in table {
            let program = [&[ASSIGN], &expression[..]].concat();
            assert_eq!(fewest(&program), format!("x3:={text}@7"));
        }
    }
}
