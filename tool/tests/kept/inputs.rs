//! The files that the kept command lines find in their folder: for every
//! refusal a text, a program, a netlist, a state or a table that meets it.

use crate::{help_inputs, long_inputs};
use hub::product;
use hub::trailer::Trailer;
use hub::types::{Beside, Format};
use std::fs;
use std::path::Path;

/// Texts, by name.
const TEXTS: &[(&str, &str)] = &[
    ("ok.hub", "ok\n"),
    ("tick.hub", "tick 0\n"),
    ("small.hub", "ok;\n  x2 := x1 + 3 @15\n"),
    ("never.hub", "x0 := x1 + x1 + x1 + x1 + x1 + x1 + x1 + x1 + x1 + x1 + x1 + x1 + x1 + x1 + x1 + x1 + x1 @255\n"),
    ("sides.hub", "tick 3;\n{ x1 := 1 @1; ok\n|| x2 := 7 @1; if x2 @0\n  then x3 := x1 + 1 @16 else ok end }\n"),
    ("both.hub", "x5 := 1 @1 || x4 := 1 @1 || x5 := 2 @1\n"),
    ("variable.hub", "x0 := 1 @1;\nx16 := 2 @1\n"),
    ("number.hub", "x0 := 65536 @1\n"),
    ("zeros.hub", "tick 007\n"),
    ("late.hub", "tick 256\n"),
    ("word.hub", "x0 := 1 @1;\nwait 3\n"),
    ("tab.hub", "while x0 @1\tdo ok end\n"),
    ("sign.hub", "x0 := 3 * x1 @99\n"),
    ("accent.hub", "x0 := é @1\n"),
    ("chain.hub", "x0 := x1 = 2 < 3 @23\n"),
    ("early.hub", "while x0 @1 do\n  x0 := x0 - 1 @17\n"),
    ("twice.hub", "if x0 @1 then ok else ok end\nok\n"),
    ("empty.hub", ""),
    ("open.hub", "while 1 @1 do ok end\n"),
    ("count.hub", "x0 := x0 + 1 @16\n"),
    ("edited.hub", "x0 := x0 + 2 @16\n"),
    ("down.hub", "while x0 @4 do x0 := x0 - 1 @17 end\n"),
    ("down_3.hub", "while x0 @3 do x0 := x0 - 1 @17 end\n"),
    ("settle.hub", "repeat ok until x0 = 3 @2 end\n"),
    ("ticks.hub", "tick 3 || tick 5\n"),
    ("crlf.hub", "ok ;\r\nok\r\n"),
    ("mark.hub", "\u{feff}ok\n"),
    ("capitals.hub", "While x0 @1 do ok end\n"),
    ("clock.hub", "Clock := 1 @1\n"),
    ("comment.hub", "ok # nothing to do\n"),
    ("greater.hub", "x0 := x1 > 3 @17\n"),
    ("at_least.hub", "x0 := x1 >= 3 @17\n"),
    ("array.hub", "x0 := a0[3] @4\n"),
    ("call.hub", "call 0 @1\n"),
    ("loop.hub", "loop @1 do exit end\n"),
    ("exit.hub", "while 1 @1 do exit end\n"),
    ("chosen.hub", "if x0 < 3 @17 then x1 := 1 @1 ; x2 := 2 @1 else x1 := x0 - 3 @17 end ;\nx3 := x1 + 1 @16\n"),
    ("handed_on.hub", "word left, flag\nwhile left do left := left - 1 end ; flag := 1\n"),
    ("functional.cases", "program down.hub\nx0=3 -> end 71 x0=0\nx0=0 -> end 5\n"),
];

/// Lists of cells and outlines, by name.
const LINES: &[(&str, &str)] = &[
    (
        "nested.outline",
        "procedure 0\n  tick @1\nprocedure 1\n  sequence\n    call 0 @2\n    call 0 @3\nmain\n  sequence\n    \
         call 1 @4\n    call 0 @5\n",
    ),
    ("uncalled.outline", "procedure 0\n  tick @5\nmain\n  ok\n"),
    ("itself.outline", "procedure 0\n  call 0 @1\nmain\n  ok\n"),
    (
        "later.outline",
        "procedure 0\n  call 1 @1\nprocedure 1\n  ok\nmain\n  ok\n",
    ),
    ("absent.outline", "procedure 0\n  ok\nmain\n  call 1 @1\n"),
    (
        "absent_of_two.outline",
        "procedure 0\n  ok\nprocedure 1\n  ok\nmain\n  call 700 @1\n",
    ),
    ("alone.outline", "call 0 @1\n"),
    (
        "shared.outline",
        "procedure 0\n  tick @3\nmain\n  parallel\n    call 0 @1\n    sequence\n      ok\n      call 0 @2\n",
    ),
    (
        "shared_through.outline",
        "procedure 0\n  tick @3\nprocedure 1\n  call 0 @1\nmain\n  parallel\n    call 0 @1\n    call 1 @1\n",
    ),
    (
        "clash_through.outline",
        "procedure 0\n  assign x0 @1\n    constant 1\nmain\n  parallel\n    call 0 @1\n    assign x1 @1\n      \
         variable x0\n",
    ),
    (
        "clash_of_bodies.outline",
        "procedure 0\n  assign a2 @1\n    constant 1\n    constant 2\nprocedure 1\n  assign x0 @4\n    \
         element a2\n      constant 0\nmain\n  parallel\n    call 1 @1\n    call 0 @1\n",
    ),
    (
        "exit_of_caller.outline",
        "procedure 0\n  exit\nmain\n  loop @1\n    call 0 @1\n",
    ),
    ("call_at_once.outline", "procedure 0\n  ok\nmain\n  call 0 @0\n"),
    (
        "nine.outline",
        "procedure 0\nok\nprocedure 1\nok\nprocedure 2\nok\nprocedure 3\nok\nprocedure 4\nok\nprocedure 5\nok\n\
         procedure 6\nok\nprocedure 7\nok\nprocedure 8\nok\nmain\nok\n",
    ),
    (
        "headings.outline",
        "procedure 0\n  ok\n  tick @3\nmain\n  call 0 @1\n",
    ),
    ("order.outline", "procedure 1\n  ok\nmain\n  ok\n"),
    ("empty.outline", "# nothing yet\n"),
    (
        "long.list",
        "finish line, pulse 3\nstart\nground\nconstant 0\nidle memories\nline: delay 2 of start\n",
    ),
    (
        "too_long.list",
        "finish line, pulse 9\nstart\nground\nconstant 0\nidle memories\nline: delay 2 of start\n",
    ),
    (
        "else.outline",
        "sequence\n  if @0\n    variable x0\n    ok\n  tick @3\n  tick @4\n",
    ),
    ("deep.outline", "sequence\n  ok\n    tick @3\n"),
    ("ragged.outline", "sequence\n    ok\n  tick @3\n"),
    ("outdent.outline", "sequence\n  ok\ntick @3\n"),
    ("tabs.outline", "sequence\n  ok\n\ttick @3\n"),
    ("tabbed.outline", "sequence\n\tok\n\ttick @3\n"),
    ("flat.outline", "sequence\nok\ntick @3\n"),
    ("below.outline", "ok\n  tick @3\n"),
    ("left.outline", "ok\ntick @3\n"),
    ("no_heading.outline", "procedure 0\n  ok\n  call 0 @1\n"),
    ("no_main.outline", "procedure 0\n  tick @1\n"),
    (
        "cut_body.outline",
        "procedure 0\n  sequence\n    ok\nmain\n  tick @3\n",
    ),
    (
        "missing.outline",
        "sequence\n  ok\n  if @0\n    variable x0\n    tick @1\n",
    ),
    (
        "memories.list",
        "finish start\nstart\nground\nconstant 0\n18 delay 1 of start\nconstant 1\nconstant 1\n\
         constant 1\nconstant 1\nconstant 1\nconstant 1\nconstant 1\nconstant 1\n",
    ),
    (
        "crowded.list",
        "finish line\nstart\nground\nconstant 0\nidle memories\nidle arrays\ntwo: delay 2 of start\n\
         four: delay 4 of start\nboth: either two four\nline: delay 5 of both\n",
    ),
    (
        "cut.list",
        "27 cells, finish start\nstart\nground\nconstant 0\ndelay 1 of start\ndelay 2 of start\n\
         delay 3 of start\ndelay 4 of start\n",
    ),
    (
        "block.list",
        "finish start\nstart\nground\nconstant 0\n19 constant 1\nidle arrays\n",
    ),
    (
        "array.list",
        "finish start\nstart\nground\nconstant 0\nidle memories\narray a0 clock start data 2\naddress 2\n\
         idle arrays\nsum a0 2\n",
    ),
    (
        "stray.list",
        "finish start\nstart\nground\nconstant 0\naddress 2\nidle memories\n",
    ),
    (
        "sort.list",
        "finish start\nstart\nground\nconstant 0\nwrong: either start 2\nidle memories\n",
    ),
    (
        "finish.list",
        "finish x3\nstart\nground\nconstant 0\nidle memories\n",
    ),
    (
        "name.list",
        "finish start\nstart\nground\nconstant 0\ndelay 3 of begin\nidle memories\n",
    ),
    (
        "sides.outline",
        "parallel\n  assign x1 @1\n    constant 1\n  assign x2 @1\n    variable x1\n",
    ),
    (
        "arrays.outline",
        "parallel\n  assign a1 @4\n    constant 5\n    element a0\n      constant 5\n  \
         assign a0 @1\n    constant 6\n    constant 1\n",
    ),
    (
        "settle.outline",
        "assign a0 @7\n  element a1\n    element a2\n      variable x0\n  variable x1\n",
    ),
    (
        "four.outline",
        "sequence\n  ok\n  assign a4 @1\n    constant 0\n    constant 0\n",
    ),
    (
        "timed.outline",
        "assign x0 @9\n  kind 10 delay 1 n 0\n    constant 0\n",
    ),
    (
        "loose.outline",
        "sequence\n  loop @1\n    exit\n  while @1\n    variable x0\n    exit\n",
    ),
    (
        "between.outline",
        "loop @1\n  loop @2\n    parallel\n      loop @3\n        exit\n      \
         parallel\n        tick @1\n        sequence\n          exit\n          ok\n",
    ),
    ("round.outline", "loop @0\n  exit\n"),
    ("dead.outline", "loop @2\n  sequence\n    exit\n    tick @0\n"),
    ("late.outline", "loop @2\n  kind 26 delay 1 n 0\n"),
    ("endless.outline", "loop @3\n  loop @1\n    sequence\n      tick @2\n      exit\n"),
    (
        "three.outline",
        "loop @2\n  if @0\n    variable x0\n    exit\n    if @0\n      variable x1\n      exit\n      \
         if @0\n        variable x2\n        exit\n        assign x2 @1\n          constant 1\n",
    ),
    (
        "word.outline",
        "sequence\n  ok\n  assign x1\n    constant 1\n",
    ),
];

/// Programs, node by node: kind, delay, n.
const PROGRAMS: &[(&str, &[[u8; 3]])] = &[
    ("none.prog", &[]),
    ("kind.prog", &[[99, 0, 0]]),
    ("field.prog", &[[16, 1, 0]]),
    ("variable.prog", &[[18, 1, 16], [1, 0, 0]]),
    ("array.prog", &[[24, 1, 4], [1, 0, 0], [1, 0, 0]]),
    ("sort.prog", &[[19, 0, 0], [16, 0, 0], [1, 0, 5]]),
    ("short.prog", &[[19, 0, 0], [16, 0, 0]]),
    ("left.prog", &[[16, 0, 0], [16, 0, 0]]),
    ("small.prog", &[[22, 0, 0], [1, 0, 1], [16, 0, 0]]),
    ("round.prog", &[[25, 0, 0], [26, 0, 0]]),
    ("loose.prog", &[[26, 0, 0]]),
    ("call.prog", &[[27, 1, 0], [27, 1, 0]]),
    ("number.prog", &[[25, 1, 0], [26, 0, 1]]),
    (
        "between.prog",
        &[[25, 1, 0], [20, 0, 0], [16, 0, 0], [26, 0, 0]],
    ),
    (
        "sides.prog",
        &[[20, 0, 0], [18, 1, 1], [1, 0, 1], [18, 1, 2], [2, 0, 1]],
    ),
    (
        "arrays.prog",
        &[
            [20, 0, 0],
            [24, 1, 1],
            [1, 0, 1],
            [2, 0, 3],
            [24, 4, 2],
            [10, 0, 1],
            [2, 0, 3],
            [1, 0, 7],
        ],
    ),
];

pub fn make(folder: &Path) {
    let put = |name: &str, bytes: &[u8]| {
        fs::write(folder.join(name), bytes).expect("a file in the folder");
    };
    let texts = [TEXTS, LINES, long_inputs::TEXTS, help_inputs::TEXTS];
    for (name, text) in texts.into_iter().flatten() {
        put(name, text.as_bytes());
    }
    for (name, text) in long_inputs::made() {
        put(name, text.as_bytes());
    }
    put("long.hub", &[b"ok", b" ".repeat(4_095).as_slice()].concat());
    put(
        "many.hub",
        "ok;"
            .repeat(100)
            .as_bytes()
            .strip_suffix(b";")
            .expect("it ends so"),
    );
    put("all.hub", ["ok"; 101].join(";").as_bytes());
    put(
        "folded.hub",
        format!("x0 := {} @1\n", "x0 & ".repeat(40) + "x17").as_bytes(),
    );
    for (name, nodes) in PROGRAMS.iter().chain(help_inputs::PROGRAMS) {
        let bytes: Vec<u8> = nodes
            .iter()
            .flat_map(|[kind, delay, n]| [*kind, *delay, *n, 0])
            .collect();
        put(name, &bytes);
    }
    put("part.prog", &[16, 0, 0, 0, 16]);
    netlists(&put);
    put("length.times", &[0; 10]);
    put("sum.times", &damaged(&[0; 512], 100, 1));
    put("byte.times", &[0; 512]);
}

/// Netlists and states of the program `tick 2`.
fn netlists(put: &impl Fn(&str, &[u8])) {
    let file = product::compile(Beside::NOTHING, &[17, 2, 0, 0]).expect("an accepted program");
    let (state, _) =
        product::begin(Format::Full, &file, &[0; hub::store::LENGTH]).expect("an accepted netlist");
    put("tick.net", &file);
    put("length.net", &file[..100]);
    put("sum.net", &damaged(&file, 30, 77));
    put("header.net", &summed(&damaged(&file, 0, 1)));
    put("pulse.net", &summed(&damaged(&file, 1, 8)));
    put("cell.net", &summed(&damaged(&file, 8 + 6 * 3 + 1, 0)));
    put("input.net", &summed(&damaged(&file, 8 + 6 * 3 + 2, 2)));
    put("kind.net", &summed(&damaged(&file, 8 + 6 * 3, 99)));
    put("memories.net", &summed(&damaged(&file, 8 + 6 * 4, 41)));
    put("finish.net", &summed(&damaged(&file, 4, 2)));
    let trailer = Trailer::new(Format::Full, &file).bytes();
    let keep = |name: &str, state: &[u8]| put(name, &[state, &trailer].concat());
    put("bare.state", &state);
    put("cut.state", &state[..100]);
    keep("tick.state", &state);
    keep("short.state", &state[..100]);
    keep("held.state", &damaged(&state, 8 + 4, 1));
    keep("number.state", &damaged(&state, 4, 2));
    let mut idle = state;
    product::go(Format::Full, &file, &mut idle, 2).expect("it ends");
    idle[..4].copy_from_slice(&1_000_000_u32.to_le_bytes());
    keep("last.state", &idle);
}

fn damaged(bytes: &[u8], at: usize, byte: u8) -> Vec<u8> {
    let mut bytes = bytes.to_vec();
    bytes[at] = byte;
    bytes
}

/// A block with the check that makes its words sum to 0.
fn summed(block: &[u8]) -> Vec<u8> {
    let mut block = block.to_vec();
    block[6..8].fill(0);
    let words = block
        .chunks(2)
        .map(|pair| u16::from_le_bytes([pair[0], pair[1]]));
    let sum = words.fold(0, u16::wrapping_add);
    block[6..8].copy_from_slice(&0_u16.wrapping_sub(sum).to_le_bytes());
    block
}
