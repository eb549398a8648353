//! What the tool writes behind a state in its file: in which mode its run is made, and
//! of which netlist it is. The product never looks there: lent bytes past a result
//! keep their values.

use crate::types::{Format, Mode, Wiring};

const MAGIC: &[u8] = b"hubstate";
/// The bytes of a sum, and of the number of bytes that the names have.
const SUM: usize = 8;
const NAMES: usize = 4;

/// The modes, by the byte that stands for each.
const MODES: [Mode; 4] = [
    mode(Format::Full, Wiring::Imperative),
    mode(Format::Compact, Wiring::Imperative),
    mode(Format::Full, Wiring::Functional),
    mode(Format::Compact, Wiring::Functional),
];

const fn mode(format: Format, wiring: Wiring) -> Mode {
    Mode { format, wiring }
}

#[derive(Clone, Debug, PartialEq, Eq)]
pub struct Trailer {
    pub mode: Mode,
    /// The sum of the netlist file.
    pub sum: u64,
    /// The names that its program has for words; a program without any has none.
    pub names: String,
}

impl Trailer {
    pub fn new(mode: impl Into<Mode>, netlist: &[u8]) -> Trailer {
        Trailer {
            mode: mode.into(),
            sum: sum(netlist),
            names: String::new(),
        }
    }

    /// Whether a state is one of this netlist file.
    pub fn is_of(&self, netlist: &[u8]) -> bool {
        self.sum == sum(netlist)
    }

    /// The magic, the mode, the sum, the names and how long they are, which is
    /// last, so that the trailer is found from the end of a file.
    pub fn bytes(&self) -> Vec<u8> {
        let mode = MODES.iter().position(|mode| *mode == self.mode);
        let mut bytes = MAGIC.to_vec();
        bytes.extend(mode.map(|mode| mode as u8));
        bytes.extend(self.sum.to_le_bytes());
        bytes.extend(self.names.as_bytes());
        bytes.extend((self.names.len() as u32).to_le_bytes());
        bytes
    }

    /// The state in a file, and the trailer behind it.
    pub fn split(file: &[u8]) -> Option<(&[u8], Trailer)> {
        let (rest, length) = file.split_last_chunk::<NAMES>()?;
        let names = u32::from_le_bytes(*length) as usize;
        let (rest, names) = rest.split_at_checked(rest.len().checked_sub(names)?)?;
        let (rest, sum) = rest.split_last_chunk::<SUM>()?;
        let (mode, rest) = rest.split_last()?;
        let trailer = Trailer {
            mode: *MODES.get(usize::from(*mode))?,
            sum: u64::from_le_bytes(*sum),
            names: String::from_utf8(names.to_vec()).ok()?,
        };
        Some((rest.strip_suffix(MAGIC)?, trailer))
    }
}

/// The sum of a file's bytes, so that an edited program is told from the one that a
/// state was begun with (FNV-1a of 64 bits).
fn sum(bytes: &[u8]) -> u64 {
    let add = |sum: u64, byte: &u8| (sum ^ u64::from(*byte)).wrapping_mul(0x100_0000_01b3);
    bytes.iter().fold(0xcbf2_9ce4_8422_2325, add)
}
