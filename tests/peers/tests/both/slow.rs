//! Full runs in which operators take their time: every vector, beside the ideal run and
//! without; what is lent; the order of refusals.

use crate::expect::{start_with, START};
use crate::nodes::*;
use crate::vector::*;
use peers::{Reply, BOTH};
use values::{Answer, Given, Refusal, Table};

/// The bytes that so many cells are lent to work in.
const fn work_length(cells: usize) -> usize {
    512 * (2 * cells + 1)
}

/// Longer than any program's cells need, and filled so that a stray write shows.
const WORK: usize = work_length(627) + 9;

fn slow_run(table: Table, procedures: usize, program: &[u8], words: &[u8], budget: u32) -> Ran {
    let (values, work) = (&LENT[..2_000], vec![0xa5; WORK]);
    let reply = (BOTH.slow_run)(table, procedures, program, words, budget, values, &work);
    Ran { reply }
}

struct Ran {
    reply: Reply<Answer>,
}

impl Ran {
    /// Asserts that the lent buffers begin with these values, and with zeros where the
    /// run has worked, and are otherwise as lent.
    fn assert_lent(&self, values: &[u8], name: &str) {
        assert_result(&self.lent_values(), values, name);
        let worked = match values.len() {
            0 => 0,
            length => work_length(length / 2),
        };
        let (zeros, past) = self.reply.lent[1].split_at(worked);
        assert!(zeros.iter().all(|&byte| byte == 0), "{name}: work");
        assert!(past.iter().all(|&byte| byte == 0xa5), "{name}: past work");
    }

    fn lent_values(&self) -> Reply<Answer> {
        let mut values = LENT.to_vec();
        values[..2_000].copy_from_slice(&self.reply.lent[0]);
        let lent = vec![values];
        Reply {
            lent,
            ..self.reply.clone()
        }
    }

    /// What a cell shows at the last instant.
    fn value(&self, cell: usize) -> u16 {
        let values = &self.reply.lent[0];
        u16::from_le_bytes([values[2 * cell], values[2 * cell + 1]])
    }
}

#[test]
fn runs_answer_and_show_as_told() {
    for_each(&["s12/slow"], "prog", |vector, name| {
        let (program, table) = (vector.bytes("prog"), vector.may_have("table"));
        let procedures = vector.given(&table).procedures;
        let (words, budget) = (vector.bytes("words"), vector.number("budget"));
        let ran = slow_run(table.as_deref(), procedures, &program, &words, budget);
        assert_eq!(
            answer_text(ran.reply.result),
            vector.text("expect"),
            "{name}"
        );
        ran.assert_lent(&vector.may_have("values").unwrap_or_default(), name);
    });
}

/// The answer is that of a full run, and so is every control wire and every memory.
#[test]
fn runs_agree_with_ideal_ones() {
    for_each(&["s12/slow"], "net", |vector, name| {
        let (program, table) = (vector.bytes("prog"), vector.may_have("table"));
        let given = vector.given(&table);
        let (words, budget) = (vector.bytes("words"), vector.number("budget"));
        let slow = slow_run(given.table, given.procedures, &program, &words, budget);
        let ideal = (BOTH.run_program)(given, &program, &words, budget, &LENT, &LENT);
        assert_eq!(slow.reply.result, ideal.result, "{name}");
        let (file, state) = (&ideal.lent[0], &ideal.lent[1]);
        assert!(file.starts_with(&vector.bytes("net")), "{name}");
        let cells = (BOTH.read_netlist)(file_of(file), &LENT).lent.remove(0);
        let count = usize::from(u16::from_le_bytes([file[2], file[3]]));
        for cell in 0..count {
            if matches!(cells[6 * cell], 32..=40) {
                let now = &state[8 + 40 * cell..];
                let shown = u16::from_le_bytes([now[0], now[1]]);
                assert_eq!(slow.value(cell), shown, "{name}: cell {cell}");
            }
        }
    });
}

/// The blocks of a file at the beginning of a buffer.
fn file_of(buffer: &[u8]) -> &[u8] {
    let cells = usize::from(u16::from_le_bytes([buffer[2], buffer[3]]));
    &buffer[..512 * cells.div_ceil(84)]
}

/// x0 := not x0, d 1: 31 cells, of which 29 is the complement.
fn complement() -> Vec<u8> {
    assign(0, [node(3, 0, 0), variable(0)].concat(), 1)
}

#[test]
fn inputs_are_late_and_not_results() {
    let start = start_with([5]);
    for (budget, shown) in [(0, !0), (1, !5), (2, !5)] {
        let ran = slow_run(None, 0, &complement(), &start, budget);
        assert_eq!(ran.value(29), shown, "{budget}");
    }
}

/// Of what is given no pulse length is looked at: there is none.
#[test]
fn a_longer_pulse_is_of_no_concern() {
    let ran = slow_run(None, 0, &complement(), &START, 10);
    let full = (BOTH.run_program)(Given::NOTHING, &complement(), &START, 10, &LENT, &LENT);
    assert_eq!(ran.reply.result, full.result);
    assert!(ran.reply.result.is_ok());
}

/// What a slow run with so much room is refused for; nothing that was lent is changed.
fn refusal(given: Given, program: &[u8], words: &[u8], budget: u32, room: [usize; 2]) -> Refusal {
    let [values, work] = room.map(|length| vec![0xa5; length]);
    let (table, procedures) = (given.table, given.procedures);
    let reply = (BOTH.slow_run)(table, procedures, program, words, budget, &values, &work);
    assert_eq!(reply.lent, [values, work]);
    reply.result.expect_err("a refusal")
}

#[test]
fn refusals_come_in_their_order() {
    let (nothing, long, none) = (Given::NOTHING, 1_000_001, [0, 0]);
    let nine = Given {
        procedures: 9,
        ..nothing
    };
    let short_table = Given {
        table: Some(&[0; 511]),
        ..nine
    };
    let program = complement();
    let told = [
        (refusal(short_table, &[], &[], long, none), 19),
        (refusal(nine, &program, &[], long, none), 1),
        (refusal(nothing, &exit(), &[], long, none), 22),
        (refusal(nothing, &one_short(), &[], long, none), 7),
        (refusal(nothing, &program, &[], long, none), 13),
    ];
    for (refusal, number) in told {
        assert_eq!(refusal, Refusal::new(number, 0));
    }
    let [values, work] = [2 * 31, work_length(31)];
    let no_room = Refusal::new(14, 0);
    let of = |words: &[u8], room| refusal(nothing, &program, words, 1, room);
    assert_eq!(of(&START[..543], [values, work]), no_room);
    assert_eq!(of(&START, [values - 1, work]), no_room);
    assert_eq!(of(&START, [values, work - 1]), no_room);
    let exact = (BOTH.slow_run)(
        None,
        0,
        &program,
        &START,
        1,
        &LENT[..values],
        &vec![7; work],
    );
    assert!(exact.result.is_ok());
}

/// A delay one short of its expression's time.
fn one_short() -> Vec<u8> {
    assign(0, sum(variable(0), constant(1)), 15)
}
