//! Waveforms as a value change dump, which GTKWave and other viewers open. An
//! instant is a nanosecond; scopes lie in each other as statements do.

use super::scopes::{scopes, Scope};
use super::{Shows, Waveforms, Wire};
use std::fmt::Write;

/// The scope around all wires.
pub const WHOLE: &str = "hub";

/// The file.
pub fn vcd(waves: &Waveforms) -> String {
    let mut text = String::from("$timescale 1 ns $end\n");
    put_scope(&mut text, &scopes(WHOLE, &waves.wires), &waves.wires);
    text += "$enddefinitions $end\n";
    let count = waves.values.first().map_or(0, Vec::len);
    for at in 0..count {
        changes(&mut text, waves, at);
    }
    // The last instant has a length too.
    let _ = writeln!(text, "#{}", waves.to + 1);
    text
}

fn put_scope(text: &mut String, scope: &Scope, wires: &[Wire]) {
    let _ = writeln!(text, "$scope module {} $end", scope.name);
    for (number, name) in &scope.wires {
        declare(text, &wires[*number], *number, name);
    }
    for inner in &scope.inner {
        put_scope(text, inner, wires);
    }
    *text += "$upscope $end\n";
}

fn declare(text: &mut String, wire: &Wire, number: usize, name: &str) {
    let code = code(number);
    let _ = match (wire.control, wire.shows) {
        (true, _) => writeln!(text, "$var wire 1 {code} {name} $end"),
        (false, Shows::InFlight) => writeln!(text, "$var wire 32 {code} {name} [31:0] $end"),
        (false, _) => writeln!(text, "$var wire 16 {code} {name} [15:0] $end"),
    };
}

/// What changes at an instant; at the first, everything.
fn changes(text: &mut String, waves: &Waveforms, at: usize) {
    let mut changed = String::new();
    for (number, (wire, values)) in waves.wires.iter().zip(&waves.values).enumerate() {
        if at > 0 && values[at] == values[at - 1] {
            continue;
        }
        let _ = match wire.control {
            true => writeln!(changed, "{}{}", values[at], code(number)),
            false => writeln!(changed, "b{:b} {}", values[at], code(number)),
        };
    }
    let instant = u64::from(waves.from) + at as u64;
    if at == 0 {
        let _ = write!(text, "#{instant}\n$dumpvars\n{changed}$end\n");
    } else if !changed.is_empty() {
        let _ = write!(text, "#{instant}\n{changed}");
    }
}

/// A wire's short code: printable characters, as the format has them.
fn code(number: usize) -> String {
    let digit = |k: usize| char::from(b'!' + (k % 94) as u8);
    match number / 94 {
        0 => digit(number).to_string(),
        high => format!("{}{}", digit(number), digit(high - 1)),
    }
}
