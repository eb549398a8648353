//! A program's bytes as indented text, whether or not it is accepted; a
//! netlist's cells as lines; and a table's bytes.

use second::cells::Netlist;
use second::kinds::row;

/// One line for each node: number, kind, delay and n where they aren't zero.
pub fn program(bytes: &[u8]) -> String {
    // The children still owed to each open ancestor.
    let mut owed: Vec<usize> = vec![];
    let mut text = String::new();
    for (number, node) in bytes.chunks(4).enumerate() {
        text += &format!("{number:4} {}{}\n", "  ".repeat(owed.len()), line(node));
        let children = row(node[0]).map_or(0, |row| row.children.len());
        if let Some(last) = owed.last_mut() {
            *last -= 1;
        }
        owed.push(children);
        while owed.last() == Some(&0) {
            owed.pop();
        }
    }
    text
}

/// The text of one node; bytes that are no whole known node are shown raw.
fn line(node: &[u8]) -> String {
    let (&[_, delay, low, high], Some(row)) = (node, row(node[0])) else {
        return format!("{node:?}");
    };
    let n = u16::from_le_bytes([low, high]);
    let mut text = row.name.to_string();
    if row.uses_n || n != 0 {
        text += &format!(" {n}");
    }
    if row.uses_delay || delay != 0 {
        text += &format!(" (d {delay})");
    }
    text
}

/// The length of a table, and its bytes that aren't zero, each after its place.
pub fn table(bytes: &[u8]) -> String {
    let mut text = format!("table of {} bytes:", bytes.len());
    for (place, byte) in bytes.iter().enumerate().filter(|(_, &byte)| byte != 0) {
        text += &format!(" {place}: {byte}");
    }
    text + "\n"
}

/// One line for each cell: number, kind, delay, a and b.
pub fn netlist(netlist: &Netlist) -> String {
    let mut text = format!("finish {}\n", netlist.finish);
    for (number, cell) in netlist.cells.iter().enumerate() {
        let (kind, delay) = (cell.kind, cell.delay);
        text += &format!("{number:4} {kind:2} {delay:3} {:4} {:4}\n", cell.a, cell.b);
    }
    text
}

#[cfg(test)]
mod tests {
    use super::*;

    #[test]
    fn children_stand_below_their_node() {
        let nodes = [
            [19, 0, 0, 0],
            [18, 1, 3, 0],
            [1, 0, 0, 1],
            [22, 2, 0, 0],
            [2, 0, 3, 0],
            [16, 0, 0, 0],
        ];
        let expected = "   0 sequence
   1   assign 3 (d 1)
   2     constant 256
   3   while (d 2)
   4     variable 3
   5     ok
";
        assert_eq!(program(&nodes.concat()), expected);
    }

    #[test]
    fn a_table_is_shown_without_its_zeros() {
        assert_eq!(table(&[0, 0, 9, 0, 7, 0]), "table of 6 bytes: 2: 9 4: 7\n");
    }

    #[test]
    fn bytes_that_are_no_node_are_shown() {
        assert_eq!(program(&[16, 0, 0, 0, 99]), "   0 ok\n   1 [99]\n");
    }
}
