//! What `hubtext` prints for its input.

use crate::calls;
use values::Given;

/// A buffer that no accepted program outgrows.
const PROGRAM_ROOM: usize = 800;

/// The bytes of the program that the input is as text, or a refusal's line.
pub fn output(input: &[u8]) -> Vec<u8> {
    let mut program = vec![0; PROGRAM_ROOM];
    match calls::read_text(Given::NOTHING, input, &mut program) {
        Ok(length) => program[..length].to_vec(),
        Err(refusal) => format!("{refusal}\n").into_bytes(),
    }
}
