//! Long texts that are typed by chance: of all that the language has, with blanks,
//! comments and brackets here and there, and now and then with a word too many, too
//! few or another.

use crate::programs::Chance;
use hub::source::{KEYWORDS, SIGNS};

/// Names to declare, in no order.
const NAMES: [&str; 14] = [
    "left", "board", "fallen", "clock", "n", "_", "flag_1", "x_", "ab", "read", "xs", "a_0", "tim",
    "okay",
];

/// Words that a text may have by mistake, beside those of the language.
const STRAY: [&str; 4] = ["left", "x3", "300", "start"];

pub struct Typist {
    chance: Chance,
    words: Vec<String>,
    constants: Vec<String>,
    named: Vec<String>,
    arrays: Vec<String>,
    procedures: Vec<String>,
}

/// The text that a number stands for.
pub fn typed(seed: u64) -> String {
    let mut typist = Typist {
        chance: Chance(seed.wrapping_mul(2) + 1),
        words: Vec::new(),
        constants: Vec::new(),
        named: Vec::new(),
        arrays: Vec::new(),
        procedures: Vec::new(),
    };
    typist.declarations();
    let size = typist.chance.below(5);
    typist.parallel(size);
    if typist.chance.below(3) == 0 {
        typist.mistake();
    }
    typist.spaced()
}

impl Typist {
    fn one_in(&mut self, count: usize) -> bool {
        self.chance.below(count) == 0
    }

    fn put(&mut self, word: impl Into<String>) {
        self.words.push(word.into());
    }

    fn all(&mut self, words: &str) {
        self.words.extend(words.split(' ').map(String::from));
    }

    fn one_of(&mut self, names: &[String]) -> Option<String> {
        let at = self.chance.below(names.len().max(1));
        names.get(at).cloned()
    }

    /// A name that isn't declared yet; seldom one that is.
    fn fresh(&mut self) -> String {
        let declared = [
            &self.constants[..],
            &self.named,
            &self.arrays,
            &self.procedures,
        ];
        let declared = declared.concat();
        loop {
            let name = NAMES[self.chance.below(NAMES.len())].to_string();
            if self.one_in(200) || !declared.contains(&name) {
                return name;
            }
        }
    }

    fn declarations(&mut self) {
        for _ in 0..self.chance.below(5) {
            match self.chance.below(6) {
                0 | 1 => self.constant(),
                2 => self.list("word"),
                3 => self.list("array"),
                _ if self.procedures.len() < 3 => {
                    let name = self.fresh();
                    self.all(&format!("procedure {name} do"));
                    self.procedures.push(name);
                    let size = self.chance.below(3);
                    self.parallel(size);
                    self.put("end");
                }
                _ => continue,
            }
            if self.one_in(4) {
                self.put(";");
            }
        }
    }

    fn constant(&mut self) {
        let name = self.fresh();
        self.all(&format!("constant {name} ="));
        if self.one_in(4) {
            self.put("-");
        }
        self.number(65_536);
        self.constants.push(name);
    }

    fn list(&mut self, word: &str) {
        self.put(word);
        loop {
            let name = self.fresh();
            self.put(&name);
            match word {
                "word" => self.named.push(name),
                _ if self.arrays.len() < 4 => self.arrays.push(name),
                _ => {}
            }
            let taken = self.named.len() + self.arrays.len() + self.constants.len();
            if taken > 9 || self.one_in(2) {
                return;
            }
            self.put(",");
        }
    }

    fn parallel(&mut self, size: usize) {
        self.sequence(size);
        while size > 0 && self.one_in(5) {
            self.put("||");
            self.sequence(size - 1);
        }
    }

    fn sequence(&mut self, size: usize) {
        self.statement(size);
        while size > 0 && self.one_in(2) {
            self.put(";");
            self.statement(size - 1);
        }
        if self.one_in(8) {
            self.put(";");
        }
    }

    fn statement(&mut self, size: usize) {
        let less = size.saturating_sub(1);
        match self.chance.below(if size == 0 { 7 } else { 14 }) {
            0 => self.put("ok"),
            1 => self.put("exit"),
            2 => {
                self.put("tick");
                self.number(256);
            }
            3 => self.call(),
            4 => {
                let array = self.array();
                self.put(array);
                self.put("[");
                self.expression(1, 0);
                self.all("] :=");
                self.expression(2, 0);
                self.delay();
            }
            5 | 6 => {
                let word = self.word();
                self.put(word);
                self.put(":=");
                self.expression(3, 0);
                self.delay();
            }
            7 | 8 => {
                self.tested("if", 2);
                self.put("then");
                self.parallel(less);
                if self.one_in(2) {
                    self.put("else");
                    self.parallel(less);
                }
                self.put("end");
            }
            9 | 10 => {
                self.tested("while", 2);
                self.body(less);
            }
            11 => {
                self.put("repeat");
                self.parallel(less);
                self.tested("until", 2);
                self.put("end");
            }
            12 => {
                self.put("loop");
                self.delay();
                self.body(less);
            }
            _ => {
                self.put("{");
                self.parallel(less);
                self.put("}");
            }
        }
    }

    fn body(&mut self, size: usize) {
        self.put("do");
        self.parallel(size);
        self.put("end");
    }

    fn call(&mut self) {
        let procedures = self.procedures.clone();
        let Some(name) = self.one_of(&procedures) else {
            return self.put("ok");
        };
        self.put("call");
        self.put(name);
        self.delay();
    }

    fn tested(&mut self, word: &str, depth: usize) {
        self.put(word);
        self.expression(depth, 0);
        self.delay();
    }

    fn delay(&mut self) {
        match self.chance.below(6) {
            0 => {
                self.put("@");
                self.number(256);
            }
            1 => {
                self.all("@ +");
                self.number(40);
            }
            _ => {}
        }
    }

    /// A number below a limit, or a constant's name.
    fn number(&mut self, limit: usize) {
        let constants = self.constants.clone();
        let number = match self.chance.below(3) {
            0 => self.chance.below(4),
            _ => self.chance.below(limit),
        };
        let hexadecimal = self.one_in(6);
        match self.one_of(&constants) {
            Some(name) if self.one_in(8) => self.put(name),
            _ if hexadecimal => self.put(format!("0x{number:x}")),
            _ => self.put(number.to_string()),
        }
    }

    fn word(&mut self) -> String {
        let named = self.named.clone();
        match self.one_of(&named) {
            Some(name) if !self.one_in(4) => name,
            // One that has a name is seldom right.
            _ => {
                let first = if self.one_in(30) { 0 } else { named.len() };
                format!("x{}", first + self.chance.below(16 - first.min(14)))
            }
        }
    }

    fn array(&mut self) -> String {
        let arrays = self.arrays.clone();
        match self.one_of(&arrays) {
            Some(name) => name,
            None => format!("a{}", self.chance.below(4)),
        }
    }

    /// An expression that may stand where one of this level may: 0 for all, 1 below
    /// `|`, 2 below `&`, 3 below a comparison, 4 below a sum.
    fn expression(&mut self, depth: usize, level: usize) {
        let own = if depth == 0 { 5 } else { self.chance.below(8) };
        if own < level && own < 5 || self.one_in(12) && depth > 0 {
            self.put("(");
            self.expression(depth.saturating_sub(1), 0);
            return self.put(")");
        }
        let less = depth.saturating_sub(1);
        match own {
            0 => self.operation(less, ["|", "|"], [0, 1]),
            1 => self.operation(less, ["&", "&"], [1, 2]),
            2 if self.one_in(3) => {
                self.put("not");
                self.expression(less, 2);
            }
            2 => {
                let signs = ["=", "<", ">", "!=", "<=", ">="];
                let sign = signs[self.chance.below(6)];
                self.operation(less, [sign, sign], [3, 3]);
            }
            3 => self.operation(less, ["+", "-"], [3, 4]),
            4 => {
                self.put("!");
                self.expression(less, 4);
            }
            _ => self.operand(less),
        }
    }

    fn operation(&mut self, depth: usize, signs: [&str; 2], levels: [usize; 2]) {
        self.expression(depth, levels[0]);
        let sign = signs[self.chance.below(2)];
        self.put(sign);
        self.expression(depth, levels[1]);
    }

    fn operand(&mut self, depth: usize) {
        match self.chance.below(6) {
            0 | 1 => self.number(65_536),
            2 => {
                self.put("-");
                self.number(32_769);
            }
            3 => {
                let array = self.array();
                self.put(array);
                self.put("[");
                self.expression(depth, 0);
                self.put("]");
            }
            _ => {
                let word = self.word();
                self.put(word);
            }
        }
    }

    /// A word too many, too few, another, or two in another order.
    fn mistake(&mut self) {
        let at = self.chance.below(self.words.len());
        let all: Vec<&str> = KEYWORDS.into_iter().chain(SIGNS).chain(STRAY).collect();
        let stray = all[self.chance.below(all.len())].to_string();
        match self.chance.below(4) {
            0 => self.words.insert(at, stray),
            1 => self.words[at] = stray,
            2 if at > 0 => self.words.swap(at - 1, at),
            _ => drop(self.words.remove(at)),
        }
    }

    /// The words with what may stand between them.
    fn spaced(&mut self) -> String {
        let run = |letter: char| letter.is_ascii_alphanumeric() || letter == '_';
        let mut text = String::new();
        for word in std::mem::take(&mut self.words) {
            let between = match self.chance.below(12) {
                0 => "\n",
                1 => "\t",
                2 => "\r\n",
                3 => " # while x0 do\n",
                4 => "   ",
                5 | 6 if !text.ends_with(run) || !word.starts_with(run) => "",
                _ => " ",
            };
            // Signs that would be another together are kept apart.
            let joins = [":", "|", "!", "<", ">", "&"]
                .iter()
                .any(|sign| text.ends_with(sign));
            text += if between.is_empty() && joins {
                " "
            } else {
                between
            };
            text += &word;
        }
        text + "\n"
    }
}
