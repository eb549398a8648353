//! The refusals that the product has: the rule that is broken, in plain words,
//! what to do, and what the place counts.

/// What a refusal's place counts.
#[derive(Clone, Copy, Debug, PartialEq, Eq)]
pub enum Counts {
    Nothing,
    Nodes,
    Blocks,
    Cells,
    Bytes,
    Parts,
}

impl Counts {
    pub fn name(self) -> Option<&'static str> {
        match self {
            Counts::Nothing => None,
            Counts::Nodes => Some("nodes"),
            Counts::Blocks => Some("blocks"),
            Counts::Cells => Some("cells"),
            Counts::Bytes => Some("bytes"),
            Counts::Parts => Some("parts"),
        }
    }
}

#[derive(Clone, Copy, Debug, PartialEq, Eq)]
pub struct Rule {
    pub number: u8,
    pub broken: &'static str,
    pub remedy: &'static str,
    pub counts: Counts,
}

/// The rule of a refusal.
pub fn rule(number: u8) -> Option<&'static Rule> {
    RULES.iter().find(|rule| rule.number == number)
}

const fn rule_of(number: u8, counts: Counts, broken: &'static str, remedy: &'static str) -> Rule {
    Rule {
        number,
        broken,
        remedy,
        counts,
    }
}

pub const RULES: &[Rule] = &[
    rule_of(
        1,
        Counts::Nothing,
        "a program has 1 to 200 nodes of four bytes each",
        "make the program shorter, or give the file of whole nodes that it is",
    ),
    rule_of(
        2,
        Counts::Nodes,
        "this node has a kind that no node has",
        "use a kind from 1 to 10 or from 16 to 27",
    ),
    rule_of(
        3,
        Counts::Nodes,
        "this node has a delay or a number that its kind has no use for",
        "set that field to 0",
    ),
    rule_of(
        4,
        Counts::Nodes,
        "this node names a variable above x15, or an array above a3",
        "use x0 to x15, and a0 to a3",
    ),
    rule_of(
        5,
        Counts::Nodes,
        "a statement stands here where an expression belongs, or the reverse",
        "put each node's children after it, in their order",
    ),
    rule_of(
        6,
        Counts::Nodes,
        "the nodes run out before the program is whole, or some are left after it",
        "put each node's children after it, and nothing after the program",
    ),
    rule_of(
        7,
        Counts::Nodes,
        "this delay is too small for what has to settle in it",
        "give a bigger delay",
    ),
    rule_of(
        8,
        Counts::Nodes,
        "the two sides of a parallel statement share a variable or an array that one of them writes",
        "use another one on one side, or put the sides one after the other",
    ),
    rule_of(
        9,
        Counts::Nothing,
        "a netlist file has 1 to 196 blocks of 512 bytes each",
        "give a netlist file as 'hub compile' or 'hub wire' writes it",
    ),
    rule_of(
        10,
        Counts::Blocks,
        "this block's check is wrong: its words don't sum to 0, so that its bytes have changed",
        "make the file again, from the program or the list",
    ),
    rule_of(
        11,
        Counts::Blocks,
        "this block's header is wrong, or a byte without a use isn't zero; \
         a netlist has 27 to 16,384 cells, the finish is one of them, and its pulses are \
         1 to 8 instants long, by every block",
        "make the file again, from the program or the list",
    ),
    rule_of(
        12,
        Counts::Cells,
        "this cell breaks a rule of netlists",
        "rewire it",
    ),
    rule_of(
        13,
        Counts::Nothing,
        "the budget of a run is at most 1,000,000 instants",
        "give a smaller --budget",
    ),
    rule_of(
        14,
        Counts::Nothing,
        "this state is shorter than a state of the netlist is",
        "give the state that 'hub begin', 'hub go' or 'hub start' wrote for this netlist; \
         with --bare, give --compact if it was begun so",
    ),
    rule_of(
        15,
        Counts::Nothing,
        "no run of the netlist could leave this state: a control wire is neither 0 nor 1, \
         bits are set where the cell holds none, or the number in flight isn't that of its cells",
        "give the state that 'hub begin', 'hub go' or 'hub start' wrote for this netlist; \
         with --bare, give --compact if it was begun so",
    ),
    rule_of(
        16,
        Counts::Nothing,
        "the run would come to an instant above 1,000,000",
        "go on by fewer instants, or begin again from the present words",
    ),
    rule_of(
        17,
        Counts::Bytes,
        "this is no word of the language",
        "use the words and signs of the language",
    ),
    rule_of(
        18,
        Counts::Bytes,
        "the text can't go on like this",
        "change this word, or what stands before it",
    ),
    rule_of(
        19,
        Counts::Nothing,
        "a table of operator times has 512 bytes",
        "give a table as 'hub times' writes it",
    ),
    rule_of(
        20,
        Counts::Nothing,
        "the table's check is wrong: its words don't sum to 0, so that its bytes have changed",
        "make the table again with 'hub times'",
    ),
    rule_of(
        21,
        Counts::Bytes,
        "this byte of the table is wrong: constants and variables take 0, operators and elements \
         1 to 200, and all other bytes are fixed",
        "make the table again with 'hub times'",
    ),
    rule_of(
        22,
        Counts::Nodes,
        "this exit has no loop around it, or a parallel statement stands between it and that loop",
        "put the exit into the loop that it is to end",
    ),
    rule_of(
        23,
        Counts::Nothing,
        "a hub is started again only when it is idle, and here pulses are still in flight",
        "go on with 'hub go' until it is idle, and start it then",
    ),
    rule_of(
        24,
        Counts::Nodes,
        "a procedure calls only procedures that stand before it",
        "call an earlier procedure",
    ),
    rule_of(
        25,
        Counts::Nodes,
        "both sides of a parallel statement reach one procedure",
        "put the sides one after the other, or give each a procedure of its own",
    ),
    rule_of(
        26,
        Counts::Cells,
        "a pulse enters this delay while another is on its way there, \
         and a compact state has room for one",
        "begin the run without --compact, or wire the delay so that its pulses are further apart",
    ),
    rule_of(
        27,
        Counts::Nothing,
        "a pulse is 1 to 8 instants long",
        "give --pulse a number from 1 to 8",
    ),
    rule_of(
        28,
        Counts::Nodes,
        "a functional circuit has no arrays, no loops that exits end, and no calls",
        "take the imperative circuit, without --functional",
    ),
    rule_of(
        29,
        Counts::Parts,
        "two to eight parts are joined, of 200 nodes in all, with a sequence between each two",
        "give two to eight programs",
    ),
    rule_of(
        30,
        Counts::Parts,
        "the pulses of this part are not as long as those of the first",
        "compile all parts with one pulse length",
    ),
    rule_of(
        31,
        Counts::Parts,
        "this netlist isn't that of its program",
        "compile the program again",
    ),
];
