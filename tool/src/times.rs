//! Tables of operator times. The tool knows where a table's bytes stand; what
//! the times are, and which check is right, it asks the product.

use crate::product;
use crate::types::{Beside, Fault, Node, Refusal, Table};
use values::layout::TABLE;

/// The operators that have a time of their own, by the names of their nodes.
pub const OPERATORS: [(u8, &str); 8] = [
    (3, "complement"),
    (4, "sum"),
    (5, "difference"),
    (6, "and"),
    (7, "or"),
    (8, "equal"),
    (9, "less"),
    (10, "element"),
];

/// Where the number of kinds, the check and the time of kind 1 stand.
const COUNT: usize = 2;
const CHECK: usize = 6;
const TIMES: usize = 8;
const KINDS: u8 = 10;
/// The product's number for a wrong check, and for a delay that is too small.
const WRONG_CHECK: u8 = 20;
const DELAY_TOO_SMALL: u8 = 7;

/// The time of each operator under a table: the least delay with which the
/// product takes an assignment of that operator on variables.
pub fn times(table: Table) -> Result<Vec<u8>, Refusal> {
    let time = |(kind, _): &(u8, &str)| least_delay(table, *kind);
    OPERATORS.iter().map(time).collect()
}

fn least_delay(table: Table, kind: u8) -> Result<u8, Refusal> {
    let mut met = Refusal::new(DELAY_TOO_SMALL, 0);
    for delay in 1..=u8::MAX {
        match product::check(Beside::table(table), &assignment(kind, delay)) {
            Ok(()) => return Ok(delay),
            Err(refusal) if refusal.number != DELAY_TOO_SMALL => return Err(refusal),
            Err(refusal) => met = refusal,
        }
    }
    Err(met)
}

/// `x0 := x0 op x0`, or with one operand, which for an element is its index.
fn assignment(kind: u8, delay: u8) -> Vec<u8> {
    let node = |kind, delay| Node { kind, delay, n: 0 };
    let mut nodes = vec![node(18, delay), node(kind, 0)];
    nodes.extend(vec![node(2, 0); crate::preorder::children(kind)]);
    product::program_bytes(&nodes)
}

/// The operator whose time stands at a byte of a table's file.
pub fn operator_at(byte: usize) -> Option<&'static str> {
    let at = |(kind, _): &&(u8, &str)| TIMES + usize::from(*kind) - 1 == byte;
    OPERATORS.iter().find(at).map(|(_, name)| *name)
}

/// The file of a table with these times, in the order of the operators.
pub fn file(times: &[u8]) -> Result<Vec<u8>, Fault> {
    let mut bytes = vec![0; TABLE];
    bytes[COUNT] = KINDS;
    for ((kind, _), time) in OPERATORS.iter().zip(times) {
        bytes[TIMES + usize::from(*kind) - 1] = *time;
    }
    for check in 0..=u16::MAX {
        bytes[CHECK..TIMES].copy_from_slice(&check.to_le_bytes());
        let met = product::check(Beside::table(Some(&bytes)), &[]);
        if !matches!(met, Err(Refusal { number, .. }) if number == WRONG_CHECK) {
            return Ok(bytes);
        }
    }
    Err(Fault::internal("the product takes no check for a table"))
}
