//! What buffers stand for, by the model's decoder.

use domain_model::{Buffers, Bytes, State};
use std::collections::BTreeMap;

/// The state of a table that opening accepted.
pub fn state(buffers: &Buffers) -> Result<State, String> {
    let decoded = buffers
        .decode(None)
        .map_err(|broken| format!("the buffers are no store: {broken:?}"))?;
    if !decoded.pairs.is_empty() {
        return Err(format!("{} pairs are pending", decoded.pairs.len()));
    }
    Ok(decoded.state)
}

/// The cells that a restore of this domain puts back, each with its value.
pub fn put_back(state: &State, handle: u32) -> BTreeMap<u32, Bytes> {
    let mut cells = BTreeMap::new();
    if let Some(named) = state.find(handle) {
        for domain in named..state.domains.len() {
            for &cell in state.domains[domain].cells.keys() {
                let value = || state.value(domain, cell).expect("a copy further out");
                cells.entry(cell).or_insert_with(value);
            }
        }
    }
    cells
}

/// A byte that neither a program write of the tests nor a rule has anywhere, so that a store over it shows.
pub const NO_BYTE: u8 = 253;

/// The free bodies and the spare pairs of a store with nothing pending mean nothing; filled with what no call stores there, every later
/// store into them shows.
pub fn fill_what_means_nothing(buffers: &mut Buffers) {
    let Ok(decoded) = buffers.decode(None) else {
        return;
    };
    if !decoded.pairs.is_empty() {
        return;
    }
    for body in decoded.free_bodies() {
        buffers.bodies[64 * body as usize..64 * body as usize + 64].fill(NO_BYTE);
    }
    buffers.table[decoded.sizes.pairs_at()..].fill(u32::MAX);
}
