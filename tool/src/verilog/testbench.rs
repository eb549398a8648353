//! A testbench that holds the module to a run of the proved simulator.

use super::{elements, Writer};
use crate::store::{Store, VARIABLES};
use crate::types::Netlist;

/// How a run stands at its last instant.
#[derive(Clone, Copy, Debug)]
pub struct Expected<'a> {
    /// Whether the finish wire is high at the instant, for the first time; else it has
    /// stayed low.
    pub ended: bool,
    pub instant: u32,
    pub last: &'a Store,
}

/// The module `hub_test`: a run from the words that are the module's own. It prints
/// PASS, or FAIL and what differs.
pub fn testbench(netlist: &Netlist, expected: Expected) -> String {
    let Expected {
        ended,
        instant,
        last,
    } = expected;
    let (high, how) = match ended {
        true => (1, "ended"),
        false => (0, "open"),
    };
    let digits: String = (0..VARIABLES)
        .rev()
        .map(|variable| format!("{:04x}", last[variable]))
        .collect();
    let arrays: String = Writer { netlist }
        .arrays()
        .into_iter()
        .map(|(array, cell)| array_check(array, cell, last))
        .collect();
    let kept = match arrays.as_str() {
        "" => "",
        _ => "  reg [1023:0] last;\n",
    };
    format!(
        "\n// A run from the words above, held against what the proved simulator says of it.\n\
         module hub_test;\n  reg clk = 0;\n  wire finish;\n  wire [255:0] words;\n  \
         localparam [255:0] LAST = 256'h{digits};\n  integer instant = 0;\n  integer wrong = 0;\n  integer at;\n{kept}  \
         hub hub(clk, finish, words);\n  initial begin\n    #1;\n    \
         while (!finish && instant < {instant}) begin\n      clk = 1;\n      #1;\n      clk = 0;\n      #1;\n      \
         instant = instant + 1;\n    end\n    \
         if (finish !== 1'b{high} || instant !== {instant}) begin\n      wrong = wrong + 1;\n      \
         $display(\"FAIL: finish is %b at %0d, and not {high} at {instant}\", finish, instant);\n    end\n    \
         for (at = 0; at < {VARIABLES}; at = at + 1)\n      \
         if (words[16 * at +: 16] !== LAST[16 * at +: 16]) begin\n        wrong = wrong + 1;\n        \
         $display(\"FAIL: x%0d is %0d, and not %0d\", at, words[16 * at +: 16], LAST[16 * at +: 16]);\n      end\n\
         {arrays}    if (wrong == 0) $display(\"PASS: {how} at {instant}, with the same words\");\n    \
         $finish(0);\n  end\nendmodule\n"
    )
}

/// Holds the words of an array against the last ones; a write of the last instant is
/// among them.
fn array_check(array: usize, cell: usize, last: &Store) -> String {
    let value = elements(last, array);
    let address = cell + 1;
    let shown = format!(
        "((hub.falls{cell} && hub.index{address} === at) ? hub.data{cell} : hub.kept{cell}[at])"
    );
    format!(
        "    last = {value};\n    for (at = 0; at < 64; at = at + 1)\n      \
         if ({shown} !== last[16 * at +: 16]) begin\n        wrong = wrong + 1;\n        \
         $display(\"FAIL: a{array}[%0d] is %0d, and not %0d\", at, {shown}, last[16 * at +: 16]);\n      end\n"
    )
}
