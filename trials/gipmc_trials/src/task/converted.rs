//! A circuit in either form, written in the ascii form.

use gipmc_aiger::{AigerError, read_circuit, write_aag};
use std::alloc::Global;

// The text of the circuit that a text writes, in the ascii form.
pub(crate) fn as_ascii(alloc: Global, text: &[u8]) -> Result<Vec<u8>, AigerError> {
    let netlist = read_circuit(alloc, text)?;
    write_aag(alloc, &netlist.circuit).map_err(|_| AigerError::Memory)
}
