//! What random programs are like: accepted, and of every kind and make.

use super::*;
use second::program::{Form, Program as Tree, Statement};
use second::table::BUILT_IN;
use second::{calls, check, kinds};
use values::Given;

#[test]
fn every_program_is_accepted_and_every_kind_occurs() {
    let least = Times([0, 0, 1, 1, 1, 1, 1, 1, 1, 1]);
    let most = Times([0, 0, 200, 200, 200, 200, 200, 200, 200, 200]);
    for (times, pulse) in [
        (BUILT_IN, 1),
        (least, 1),
        (most, 1),
        (BUILT_IN, 2),
        (least, 8),
    ] {
        accepted_and_every_kind_occurs(&times, pulse);
    }
}

fn accepted_and_every_kind_occurs(times: &Times, pulse: u8) {
    let mut seen = [0; 256];
    let mut largest = 0;
    for seed in 0..2_500 {
        let program = program(&mut Random::new(seed), times, pulse);
        let given = Given {
            table: Some(&times.file()),
            procedures: program.procedures,
            pulse,
        };
        let checked = calls::check(given, &program.bytes);
        assert_eq!(checked, Ok(()), "seed {seed}: {program:?}");
        largest = largest.max(program.bytes.len() / 4);
        for node in program.bytes.chunks_exact(4) {
            seen[usize::from(node[0])] += 1;
        }
    }
    for row in &kinds::TABLE {
        let count = seen[usize::from(row.number)];
        assert!(count > 400, "{} occurs {count} times", row.name);
    }
    assert!((190..=MOST_NODES).contains(&largest), "{largest}");
}

type Asked = fn(&Statement) -> bool;

/// What loops may be like, and what is asked of a statement.
const LOOPS: [(&str, Asked); 6] = [
    ("a loop in a loop", |statement| {
        body(statement).is_some_and(|body| body.in_node_order().into_iter().any(is_loop))
    }),
    ("an exit in a branch", |statement| match &statement.form {
        Form::If(_, p, q) => is_exit(p) != is_exit(q),
        _ => false,
    }),
    ("a statement after an exit", |statement| {
        match &statement.form {
            Form::Sequence(p, _) => is_exit(p),
            _ => false,
        }
    }),
    ("a loop without exits", |statement| {
        body(statement).is_some_and(|body| body.exits().is_empty())
    }),
    ("a loop with several exits", |statement| {
        body(statement).is_some_and(|body| body.exits().len() > 1)
    }),
    ("a loop in a side", |statement| match &statement.form {
        Form::Parallel(p, q) => [p, q].into_iter().any(|side| is_loop(side)),
        _ => false,
    }),
];

fn body(statement: &Statement) -> Option<&Statement> {
    match &statement.form {
        Form::Loop(body) => Some(body),
        _ => None,
    }
}

fn is_loop(statement: &Statement) -> bool {
    body(statement).is_some()
}

fn is_exit(statement: &Statement) -> bool {
    matches!(statement.form, Form::Exit)
}

/// The trees of so many accepted programs.
fn trees(count: u64) -> Vec<Tree> {
    let tree = |seed: u64| {
        let Program { procedures, bytes } = program(&mut Random::new(seed), &BUILT_IN, 1);
        check::check(&bytes, procedures, 1, &BUILT_IN).expect("it is accepted")
    };
    (0..count).map(tree).collect()
}

#[test]
fn loops_of_every_make_occur() {
    let programs = trees(2_000);
    for (what, is_so) in LOOPS {
        let has = |program: &&Tree| program.in_node_order().into_iter().any(is_so);
        let count = programs.iter().filter(has).count();
        assert!(count > 60, "{what} occurs in {count} programs");
    }
}

type AskedOfCalls = fn(&Tree, &Statement) -> bool;

/// What calls may be like, and what is asked of a statement.
const CALLS: [(&str, AskedOfCalls); 7] = [
    ("a call in a body", |program, statement| {
        is_call(statement) && statement.node < program.main.node
    }),
    ("a call of a body of time 0", |program, statement| {
        called(program, statement).is_some_and(is_timeless)
    }),
    ("two calls one after the other", |_, statement| {
        calls_in(statement).is_some_and(|[p, q]| p & q != 0)
    }),
    ("procedures on one side alone", |program, statement| {
        sides(program, statement).is_some_and(|[p, q]| (p == 0) != (q == 0))
    }),
    ("procedures on both sides", |program, statement| {
        sides(program, statement).is_some_and(|[p, q]| p != 0 && q != 0)
    }),
    ("a loop within a called body", |program, statement| {
        called(program, statement).is_some_and(|body| body.in_node_order().into_iter().any(is_loop))
    }),
    ("a call in a loop", |program, statement| {
        body(statement).is_some_and(|body| program.reached(body) != 0)
    }),
];

fn is_call(statement: &Statement) -> bool {
    matches!(statement.form, Form::Call(_))
}

fn called<'a>(program: &'a Tree, statement: &Statement) -> Option<&'a Statement> {
    match statement.form {
        Form::Call(procedure) => Some(&program.bodies[procedure]),
        _ => None,
    }
}

fn is_timeless(body: &Statement) -> bool {
    let all = body.in_node_order().into_iter();
    all.map(|statement| statement.delay).all(|delay| delay == 0)
}

/// The procedures that the parts of a sequence call themselves.
fn calls_in(statement: &Statement) -> Option<[u32; 2]> {
    let own = |part: &Statement| {
        let all = part.in_node_order().into_iter();
        all.fold(0, |called, statement| match statement.form {
            Form::Call(procedure) => called | 1 << procedure,
            _ => called,
        })
    };
    match &statement.form {
        Form::Sequence(p, q) => Some([own(p), own(q)]),
        _ => None,
    }
}

/// The procedures that the sides of a parallel node reach.
fn sides(program: &Tree, statement: &Statement) -> Option<[u8; 2]> {
    match &statement.form {
        Form::Parallel(p, q) => Some([program.reached(p), program.reached(q)]),
        _ => None,
    }
}

#[test]
fn calls_of_every_make_occur() {
    let programs = trees(2_000);
    for (what, is_so) in CALLS {
        let has = |program: &&Tree| {
            let mut all = program.in_node_order().into_iter();
            all.any(|statement| is_so(program, statement))
        };
        let count = programs.iter().filter(has).count();
        assert!(count > 40, "{what} occurs in {count} programs");
    }
}
