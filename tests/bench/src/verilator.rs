//! Verilator on the rendered netlist.

use crate::engine::{Engine, Measured, Row};
use crate::tool::{folder, measured, output};
use crate::workload::Workload;
use std::fs;
use std::path::{Path, PathBuf};
use std::process::Command;

const INSTANTS: u32 = 1_000_000;

/// Everything for speed; left alone, Verilator's makefile compiles with -Os.
const OPTIONS: &str = "--cc --exe --build -O3 --x-assign fast --x-initial fast --noassert \
                       -MAKEFLAGS OPT_FAST=-O3 -MAKEFLAGS OPT_GLOBAL=-O3 -Wno-fatal \
                       --top-module hub -o hub";

/// Turns the clock over once for each instant, until the finish is high, and
/// prints the nanoseconds that took and the memories.
const MAIN: &str = r#"
#include "Vhub.h"
#include <chrono>
#include <cstdio>
#include <cstdlib>

int main(int, char **arguments) {
    long instants = atol(arguments[1]);
    Vhub hub;
    hub.clk = 0;
    hub.eval();
    auto begin = std::chrono::steady_clock::now();
    for (long instant = 0; instant < instants && !hub.finish; instant++) {
        hub.clk = !hub.clk;
        hub.eval();
    }
    auto taken = std::chrono::steady_clock::now() - begin;
    printf("%lld ", (long long)std::chrono::nanoseconds(taken).count());
    for (int word = 7; word >= 0; word--) printf("%08x", hub.words[word]);
}
"#;

pub fn row(workload: &Workload) -> Row {
    Row::with_tools("verilator", &["verilator"], || engine(workload))
}

fn engine(workload: &Workload) -> Engine {
    let program = build(workload);
    Engine::new(INSTANTS, move || measure(&program))
}

fn build(workload: &Workload) -> PathBuf {
    let folder = folder("verilator", &workload.name);
    let text = workload.verilog();
    fs::write(folder.join("hub.v"), text).expect("the folder can be written");
    fs::write(folder.join("main.cpp"), MAIN).expect("the folder can be written");
    let mut verilator = Command::new("verilator");
    verilator.args(OPTIONS.split_whitespace());
    verilator.arg("--Mdir").arg(&folder);
    verilator.args([folder.join("hub.v"), folder.join("main.cpp")]);
    output(&mut verilator);
    folder.join("hub")
}

fn measure(program: &Path) -> Measured {
    measured(Command::new(program).arg(INSTANTS.to_string()))
}
