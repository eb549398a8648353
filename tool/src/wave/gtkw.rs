//! What GTKWave shows of a dump when it is opened: every wire, words in decimal, a
//! group for each statement that folds, and the whole run in view.

use super::scopes::{scopes, Scope};
use super::vcd::WHOLE;
use super::{Shows, Waveforms, Wire};
use std::fmt::Write;

/// How a file that the tool has written begins; GTKWave begins its own otherwise.
pub const OURS: &str = "[*] hub wave:";

/// How a row is shown: a bit, a number in decimal, the begin and end of a group.
const BIT: &str = "@28";
const DECIMAL: &str = "@24";
const GROUP: &str = "@800200";
const GROUP_END: &str = "@1000200";

/// The file that stands beside a dump of this name.
pub fn gtkw(dump: &str, waves: &Waveforms) -> String {
    let mut text = format!(
        "{OURS} gtkwave {dump} and this file\n[dumpfile] \"{dump}\"\n[timestart] {}\n\
         [size] 1400 800\n[pos] -1 -1\n*{:.1} {} -1 -1 -1 -1 -1 -1 -1 -1 -1 -1\n",
        waves.from,
        zoom(waves),
        waves.from
    );
    let whole = scopes(WHOLE, &waves.wires);
    put_opened(&mut text, &whole, "");
    text += "[sst_width] 240\n[signals_width] 260\n[sst_expanded] 1\n";
    put_rows(&mut text, &whole, "", &waves.wires);
    text
}

/// How far it is zoomed: at 0 an instant is so many pixels wide, at -1 half as many.
fn zoom(waves: &Waveforms) -> f64 {
    const PIXELS: f64 = 184.0;
    const VIEW: f64 = 700.0;
    let instants = f64::from(waves.to - waves.from + 1);
    (VIEW / (PIXELS * instants)).log2().min(-1.0)
}

/// The scopes, all of them opened.
fn put_opened(text: &mut String, scope: &Scope, around: &str) {
    let own = format!("{around}{}.", scope.name);
    let _ = writeln!(text, "[treeopen] {own}");
    for inner in &scope.inner {
        put_opened(text, inner, &own);
    }
}

fn put_rows(text: &mut String, scope: &Scope, around: &str, wires: &[Wire]) {
    let own = format!("{around}{}.", scope.name);
    for (number, name) in &scope.wires {
        let wire = &wires[*number];
        let _ = match (wire.control, wire.shows) {
            (true, _) => writeln!(text, "{BIT}\n{own}{name}"),
            (false, Shows::InFlight) => writeln!(text, "{DECIMAL}\n{own}{name}[31:0]"),
            (false, _) => writeln!(text, "{DECIMAL}\n{own}{name}[15:0]"),
        };
    }
    for inner in &scope.inner {
        let _ = writeln!(text, "{GROUP}\n-{}", inner.name);
        put_rows(text, inner, &own, wires);
        let _ = writeln!(text, "{GROUP_END}\n-{}", inner.name);
    }
}
