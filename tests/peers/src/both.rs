//! Both implementations as one peer: it replies what each of them does, down
//! to every lent byte, or panics where their replies differ. A test that calls
//! it holds for each.

use crate::peer::{Functional, Peer, Reply};
use crate::{PROVED, SECOND};
use std::fmt::Debug;
use values::{Answer, Refusal, Shape};

macro_rules! both {
    (
        {$($call:ident($($given:ident),*);)*}
        functional {$($functional:ident($($in_functional:ident),*): $agree:ident;)*}
    ) => {
        Peer {
            name: "both",
            $($call: |$($given),*| {
                let proved = (PROVED.$call)($($given),*);
                alike(stringify!($call), proved, (SECOND.$call)($($given),*))
            },)*
            functional: Functional {
                $($functional: |$($in_functional),*| {
                    let proved = (PROVED.functional.$functional)($($in_functional),*);
                    let second = (SECOND.functional.$functional)($($in_functional),*);
                    $agree(concat!("functional ", stringify!($functional)), proved, second)
                },)*
            },
        }
    };
}

/// The wiring of a functional circuit is free: where it is compiled, the reply is
/// the proved one's, and they agree in what doesn't depend on the wiring.
pub const BOTH: Peer = both! {
    {
        check(given, program);
        compile(given, program, file);
        join(table, parts, file);
        read_text(given, text, program);
        compile_text(given, text, file);
        write_netlist(pulse, cells, finish, file);
        read_netlist(file, cells);
        check_cells(cells, finish);
        write_cells(pulse, cells, finish, file);
        read_cells(file, at, cells);
        renumber(from, end, by, cells);
        begin(format, file, words, state);
        continue_by(format, file, n, state);
        start(format, file, state);
        run_program(given, program, words, budget, file, state);
        slow_run(table, procedures, program, words, budget, values, work);
        run_text(given, text, words, budget, file, state);
        run_netlist(file, words, budget, state);
        reference_run(given, program, words, budget);
        hubrun_text(input);
        hubtext_bytes(input);
    }
    functional {
        check(table, program): alike;
        compile(table, program, file): alike_but_wired;
        begin(format, file, words, state): alike;
        continue_by(format, file, n, state): alike;
        start(format, file, state): alike;
        run_program(table, program, words, budget, file, state): alike_but_wired;
        run_netlist(file, words, budget, state): alike;
        reference_run(table, program, words, budget): alike;
    }
};

fn alike<T: PartialEq + Debug>(call: &str, proved: T, second: T) -> T {
    assert_eq!(
        proved, second,
        "{call}: proved and second reply differently"
    );
    proved
}

/// What is told by a reply whatever the wiring.
trait Wired: Copy {
    type Told: PartialEq + Debug;
    fn told(self) -> Self::Told;
}

/// Of a compiled netlist nothing: neither its size nor its finish.
impl Wired for Shape {
    type Told = ();
    fn told(self) {}
}

/// Of a run all but the words before its end.
impl Wired for Answer {
    type Told = (bool, u32, u32, Option<[u16; 16]>);
    fn told(self) -> Self::Told {
        let words = self.ended.then_some(self.words);
        (self.ended, self.instant, self.count, words)
    }
}

/// Of two wirings one may be refused for a want of room that the other has.
fn alike_but_wired<T: Wired + PartialEq + Debug>(
    call: &str,
    proved: Reply<T>,
    second: Reply<T>,
) -> Reply<T> {
    const NO_ROOM: Refusal = Refusal::new(14, 0);
    let replies = [&proved, &second];
    if replies.iter().all(|reply| reply.result != Err(NO_ROOM)) {
        let [proved, second] = replies.map(|reply| reply.result.map(Wired::told));
        assert_eq!(proved, second, "{call}: proved and second part");
    }
    if replies.iter().all(|reply| reply.result.is_err()) {
        assert_eq!(proved.lent, second.lent, "{call}: refused, other bytes");
    }
    proved
}
