//! Icarus Verilog on the rendered netlist.

use crate::engine::{Engine, Measured, Row};
use crate::tool::{folder, output, words_of_hex};
use crate::workload::Workload;
use std::fs;
use std::path::{Path, PathBuf};
use std::process::Command;
use std::time::Instant;

/// Icarus takes tens of microseconds for an instant.
const INSTANTS: u32 = 10_000;

/// Turns the clock over once for each instant, until the finish is high. The
/// clock has no value before the first edge, since getting one is an edge.
const BENCH: &str = "
module bench;
  reg clk;
  wire finish;
  wire [255:0] words;
  integer instants, instant;
  hub hub(clk, finish, words);
  initial begin
    if (!$value$plusargs(\"instants=%d\", instants)) instants = 0;
    instant = 0;
    #1;
    while (instant < instants && !finish) begin
      clk = clk !== 1'b1;
      #1;
      instant = instant + 1;
    end
    $display(\"%h\", words);
    $finish(0);
  end
endmodule
";

pub fn row(workload: &Workload) -> Row {
    Row::with_tools("icarus", &["iverilog", "vvp"], || engine(workload))
}

fn engine(workload: &Workload) -> Engine {
    let program = build(workload, BENCH);
    Engine::new(INSTANTS, move || measure(&program))
}

/// Builds the module of a workload with a bench around it.
pub fn build(workload: &Workload, bench: &str) -> PathBuf {
    let folder = folder("icarus", &workload.name);
    let (source, program) = (folder.join("hub.v"), folder.join("hub.vvp"));
    let text = workload.verilog() + bench;
    fs::write(&source, text).expect("the folder can be written");
    output(
        Command::new("iverilog")
            .arg("-o")
            .arg(&program)
            .arg(&source),
    );
    program
}

/// The time of a run, less that of a run of no instants: starting vvp is no
/// part of simulating.
fn measure(program: &Path) -> Measured {
    let (starting, _) = timed(program, 0);
    let (whole, printed) = timed(program, INSTANTS);
    Measured {
        nanoseconds: whole.saturating_sub(starting),
        words: words_of_hex(printed.trim()),
    }
}

fn timed(program: &Path, instants: u32) -> (u64, String) {
    let begin = Instant::now();
    let printed = run(program, instants);
    (begin.elapsed().as_nanos() as u64, printed)
}

/// What a run prints.
pub fn run(program: &Path, instants: u32) -> String {
    output(
        Command::new("vvp")
            .arg(program)
            .arg(format!("+instants={instants}")),
    )
}
