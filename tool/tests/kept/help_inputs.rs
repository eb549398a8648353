//! What the kept command lines about help before a run find in their folder.

pub const TEXTS: &[(&str, &str)] = &[
    ("always.hub", "while !(x0 < 5) @18 do\n  x0 := x0 + 1 @16\nend\n"),
    ("never_true.hub", "if x0 < 5 & 2 @18 then tick 5 else tick 9 end\n"),
    ("constant.hub", "constant debug = 0\nif debug then tick 5 end ;\nrepeat tick 1 until debug end ;\ntick 2\n"),
    ("stuck.hub", "word left, board\nwhile left do board := board + 1 end ;\nrepeat board := 0 until left = 3 end\n"),
    ("extra.hub", "word left\nwhile left @3 do left := left - 1 @20 end ;\nleft := 1 @+3\n"),
    ("behind.hub", "loop do\n  exit ;\n  tick 3\nend ;\nloop do tick 1 end ;\ntick 4\n"),
    ("uncalled.hub", "procedure read do tick 1 end\nprocedure show do call read end\ncall read\n"),
    ("result.hub", "x1 := x0\n"),
    ("smalls.hub", "x0 := x1 + 3 @15 ;  # the sum\nwhile x0 @0 do\n  x0 := x0 - 1 @9 end\n"),
    ("small_tick.hub", "x0 := x1 + 3 @15 ;\ntick 0\n"),
    ("smalls.outline", "while @0\n  variable x0\n  assign x0 @3  # too soon\n    difference\n      variable x0\n      constant 1\n"),
    ("small_sides.hub", "x0 := 1 @0 || x1 := x0 @0\n"),
    ("ways.hub", "word a, b\n\ntick 2 ;\nloop @3 do\n  if a = 0 then exit end ;\n  a := a - 1 ;\n  while b do b := b - 1 end ;\n  if b then tick 9 ; exit end\nend\n"),
    ("good.cases", "# the program stands beside this file\nprogram down.hub\nx0=3 -> end 70 x0=0\n-> end 4\nx0=-1 -> open 1,000\n"),
    ("wrong.cases", "program down.hub\nx0=3 -> end 71 x0=0\nx0=3 -> x0=1 x1=7\nx0=1 -> open 100\nx0=-1 -> end 5\nx0=2 -> end 48\n"),
    ("no_arrow.cases", "program down.hub\nx0=3 end 71\n"),
    ("no_case.cases", "program down.hub\n"),
    ("no_word.cases", "program down.hub\nx0=3 -> end 70 y=0\n"),
    ("two_programs.cases", "program down.hub\nprogram ok.hub\n"),
    ("no_program.cases", "x0=3 -> end 71\n"),
    ("late.cases", "program down.hub\nx0=3 -> open 1000001\n"),
    ("refused.cases", "program small.hub\nx0=3 -> end 71\n"),
    ("bytes.cases", "program extra.prog\n-> end 4\n"),
];

/// Programs, node by node: kind, delay, n.
pub const PROGRAMS: &[(&str, &[[u8; 3]])] = &[
    (
        "extra.prog",
        &[
            [17, 2, 0],
            [19, 0, 0],
            [27, 2, 0],
            [21, 3, 0],
            [1, 0, 1],
            [16, 0, 0],
            [17, 9, 0],
        ],
    ),
    (
        "smalls.prog",
        &[
            [22, 0, 0],
            [2, 0, 0],
            [18, 3, 0],
            [5, 0, 0],
            [2, 0, 0],
            [1, 0, 1],
        ],
    ),
];
