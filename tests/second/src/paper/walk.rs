//! The walk over a table's records.

use super::table::{Record, State, Table};
use super::Refusal;

/// A record, none where there is no more, or the refusal.
pub type Handed = Result<Option<Record>, Refusal>;

/// Hands out record after record in order, then no more; refusal 11 alone.
pub fn begin(memory: &[u8], state: State) -> Result<impl Iterator<Item = Record>, Refusal> {
    Ok(Table::held(memory, state)?.records.into_iter())
}

/// What a walk hands out after so many others.
pub fn record_at(memory: &[u8], state: State, i: u32) -> Handed {
    Ok(begin(memory, state)?.nth(i as usize))
}
