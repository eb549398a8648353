//! Programs to try the tool on: the examples, and accepted ones that are
//! generated from a number, so that a failure can be tried again.

use hub::types::{Beside, Node, Refusal};
use hub::{assemble, product, source};
use std::fs;
use std::path::{Path, PathBuf};

/// A program's bytes, how many procedures they begin with, and the pulse length
/// that it is compiled for.
#[derive(Clone, Debug, PartialEq, Eq)]
pub struct Program {
    pub procedures: usize,
    pub pulse: u8,
    pub bytes: Vec<u8>,
}

impl Program {
    pub fn beside(&self) -> Beside<'static> {
        Beside {
            procedures: self.procedures,
            ..Beside::pulse(self.pulse)
        }
    }
}

/// How many programs are generated for a test.
const COUNT: u64 = 300;
/// The most nodes of a program.
const MOST: usize = 200;

pub fn top() -> PathBuf {
    Path::new(env!("CARGO_MANIFEST_DIR")).join("..")
}

/// The examples: name and text, in order.
pub fn examples() -> Vec<(String, String)> {
    examples_with("hub")
}

/// The examples that are outlines.
pub fn outlines() -> Vec<(String, String)> {
    examples_with("outline")
}

fn examples_with(end: &str) -> Vec<(String, String)> {
    let entries = fs::read_dir(top().join("examples")).expect("the examples");
    let mut files: Vec<_> = entries
        .map(|entry| entry.expect("an entry").path())
        .collect();
    files.retain(|file| file.extension().is_some_and(|ending| ending == end));
    files.sort();
    let name = |file: &PathBuf| {
        file.file_stem()
            .expect("a name")
            .to_string_lossy()
            .into_owned()
    };
    let text = |file: &PathBuf| fs::read_to_string(file).expect("a text");
    files.iter().map(|file| (name(file), text(file))).collect()
}

/// The programs that can be texts: those without arrays, exits and procedures.
pub fn texts() -> Vec<Vec<u8>> {
    let has_text = |program: &Program| {
        hub::format::has_text(program.procedures, &product::nodes(&program.bytes))
    };
    let texts = programs().into_iter().filter(has_text);
    let texts: Vec<Vec<u8>> = texts.map(|program| program.bytes).collect();
    assert!(texts.len() > 100);
    texts
}

/// The programs of the examples, and generated ones, accepted by the product.
pub fn programs() -> Vec<Program> {
    let examples = examples().into_iter().map(|(name, text)| {
        let long = || {
            let mut source = source::read(text.as_bytes()).expect(&name);
            source.settle(Beside::NOTHING).expect(&name);
            (source.procedures, product::program_bytes(&source.nodes))
        };
        let read = product::read_text(Beside::NOTHING, text.as_bytes());
        let (procedures, bytes) = read.map_or_else(|_| long(), |bytes| (0, bytes));
        Program {
            procedures,
            pulse: 1,
            bytes,
        }
    });
    let outlines = outlines().into_iter().map(|(name, text)| {
        let source = assemble::assemble(&text).unwrap_or_else(|wrong| panic!("{name}: {wrong:?}"));
        Program {
            procedures: source.procedures,
            pulse: 1,
            bytes: product::program_bytes(&source.nodes),
        }
    });
    let generated = (0..COUNT).map(generated);
    examples.chain(outlines).chain(generated).collect()
}

/// The pulse lengths of the programs, one after another.
const PULSES: [u8; 16] = [1, 1, 2, 1, 3, 1, 1, 4, 1, 5, 1, 6, 7, 1, 8, 1];

/// A program that a number stands for; of two numbers one has arrays, loops that
/// exits end, and perhaps procedures.
fn generated(seed: u64) -> Program {
    let pulse = PULSES[seed as usize / 2 % PULSES.len()];
    let mut source = Source {
        chance: Chance(seed * 2 + 1),
        pulse,
        bodies: 0,
        nodes: Vec::new(),
    };
    let size = 1 + source.chance.below(40);
    let variables: Vec<u16> = (0..16).collect();
    let arrays: Vec<u16> = (0..4 * (seed as u16 % 2)).collect();
    let scope = Scope {
        variables: &variables,
        arrays: &arrays,
        loops: seed % 2 == 1,
        inside: false,
    };
    for _ in 0..source.chance.below(4) * (seed as usize % 2) {
        let size = 1 + source.chance.below(4);
        source.statement(size, scope);
        source.bodies += 1;
    }
    source.statement(size, scope);
    source.nodes.truncate(MOST);
    let program = Program {
        procedures: source.bodies,
        pulse,
        bytes: product::program_bytes(&source.nodes),
    };
    let checked = product::check(program.beside(), &program.bytes);
    checked.unwrap_or_else(|met| panic!("program {seed}: {met}"));
    program
}

/// Numbers that look as if by chance (Knuth's linear congruential generator).
pub struct Chance(pub u64);

impl Chance {
    pub fn below(&mut self, limit: usize) -> usize {
        self.0 = self
            .0
            .wrapping_mul(6_364_136_223_846_793_005)
            .wrapping_add(1_442_695_040_888_963_407);
        (self.0 >> 33) as usize % limit
    }
}

struct Source {
    chance: Chance,
    pulse: u8,
    /// The procedures so far.
    bodies: usize,
    nodes: Vec<Node>,
}

/// The variables and the arrays that a part may use, whether it may have loops
/// that exits end, and whether it stands in one.
#[derive(Clone, Copy)]
struct Scope<'s> {
    variables: &'s [u16],
    arrays: &'s [u16],
    loops: bool,
    inside: bool,
}

impl<'s> Scope<'s> {
    /// A half for each of two sides, which share nothing and have no exit of a
    /// loop around both.
    fn sides(&self) -> (Scope<'s>, Scope<'s>) {
        let variables = self.variables.split_at(self.variables.len() / 2);
        let arrays = self.arrays.split_at(self.arrays.len() / 2);
        let side = |variables, arrays| Scope {
            variables,
            arrays,
            inside: false,
            ..*self
        };
        (side(variables.0, arrays.0), side(variables.1, arrays.1))
    }
}

impl Source {
    fn put(&mut self, kind: u8, delay: u8, n: u16) {
        self.nodes.push(Node { kind, delay, n });
    }

    fn one_of(&mut self, numbers: &[u16]) -> u16 {
        numbers[self.chance.below(numbers.len())]
    }

    /// A statement of about so many statements, in these variables and arrays.
    fn statement(&mut self, size: usize, scope: Scope) {
        if size <= 1 || scope.variables.len() < 2 || self.nodes.len() > MOST / 2 {
            return self.single(scope);
        }
        let part = 1 + self.chance.below(size - 1);
        match self.chance.below(if scope.loops { 8 } else { 6 }) {
            0 | 1 => {
                self.put(19, 0, 0);
                self.statement(part, scope);
                self.statement(size - part, scope);
            }
            2 => {
                self.put(20, 0, 0);
                let (left, right) = scope.sides();
                self.statement(part, left);
                self.statement(size - part, right);
            }
            3 => {
                self.delayed(21, 0, 1, scope);
                self.statement(part, scope);
                self.statement(size - part, scope);
            }
            kind @ (4 | 5) => {
                self.delayed(18 + kind as u8, 0, 1, scope);
                self.statement(size - 1, scope);
            }
            _ => {
                self.delayed(25, 0, 0, scope);
                let inside = true;
                self.statement(size - 1, Scope { inside, ..scope });
            }
        }
    }

    /// A call stands in no side of a parallel node, for bodies use all variables.
    fn single(&mut self, scope: Scope) {
        let may_call = self.bodies > 0 && scope.variables.len() == 16;
        if may_call && self.chance.below(3) == 0 {
            let procedure = self.chance.below(self.bodies) as u16;
            return self.delayed(27, procedure, 0, scope);
        }
        match self.chance.below(if scope.inside { 8 } else { 5 }) {
            5.. => self.put(26, 0, 0),
            0 => self.put(16, 0, 0),
            1 => {
                let delay = 1 + self.chance.below(255);
                self.put(17, delay as u8, 0);
            }
            2 if !scope.arrays.is_empty() => {
                let array = self.one_of(scope.arrays);
                self.delayed(24, array, 2, scope);
            }
            _ => {
                let variable = self.one_of(scope.variables);
                self.delayed(18, variable, 1, scope);
            }
        }
    }

    /// A node with a delay and its expressions.
    fn delayed(&mut self, kind: u8, n: u16, expressions: usize, scope: Scope) {
        let at = self.nodes.len();
        self.put(kind, 255, n);
        let times = (0..expressions).map(|_| self.expression(3, scope));
        let time = times.max().unwrap_or(0);
        let more = self.chance.below(4);
        let least = match (kind, self.pulse) {
            (21, _) => 0,
            (22 | 23 | 25 | 27, 2..) => usize::from(self.pulse) + 1,
            _ => 1,
        };
        self.nodes[at].delay = (least.max(time) + more) as u8;
    }

    /// An expression of at most this depth, and its time.
    fn expression(&mut self, depth: usize, scope: Scope) -> usize {
        let kind = if depth == 0 { 0 } else { self.chance.below(10) };
        match kind {
            0 => {
                let constant = [0, 1, 7, 255, 32_768, 65_535][self.chance.below(6)];
                self.put(1, 0, constant);
                0
            }
            1 => {
                let variable = self.one_of(scope.variables);
                self.put(2, 0, variable);
                0
            }
            2 => {
                self.put(3, 0, 0);
                1 + self.expression(depth - 1, scope)
            }
            9 if scope.arrays.is_empty() => self.expression(depth - 1, scope),
            9 => {
                let array = self.one_of(scope.arrays);
                self.put(10, 0, array);
                4 + self.expression(depth - 1, scope)
            }
            operator => {
                let times = [16, 17, 1, 1, 6, 17];
                self.put(1 + operator as u8, 0, 0);
                let left = self.expression(depth - 1, scope);
                let right = self.expression(depth - 1, scope);
                times[operator - 3] + left.max(right)
            }
        }
    }
}

/// The programs are of every kind, and some are large.
#[test]
fn every_kind_is_among_the_programs() {
    let programs = programs();
    for kind in (1..=10).chain(16..=27) {
        let has = |program: &&Program| {
            let nodes = product::nodes(&program.bytes);
            nodes.iter().any(|node| node.kind == kind)
        };
        assert!(programs.iter().filter(has).count() > 20, "kind {kind}");
    }
    assert!(programs.iter().any(|program| program.bytes.len() > 4 * 100));
    for pulse in 1..=8 {
        let long = programs.iter().filter(|program| program.pulse == pulse);
        assert!(long.count() > 10, "pulse {pulse}");
    }
}

/// The delays of generated loops and calls are not all longer than they need be:
/// one less is refused.
#[test]
fn some_delays_are_the_least() {
    let mut least = 0;
    for program in programs().iter().filter(|program| program.pulse > 1) {
        for (at, node) in product::nodes(&program.bytes).iter().enumerate() {
            let mut bytes = program.bytes.clone();
            if matches!(node.kind, 22 | 23 | 25 | 27) && node.delay == program.pulse + 1 {
                bytes[4 * at + 1] -= 1;
                let met = product::check(program.beside(), &bytes);
                assert_eq!(met, Err(Refusal::new(7, at)));
                least += 1;
            }
        }
    }
    assert!(least > 20, "{least}");
}
