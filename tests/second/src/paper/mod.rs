//! Our own reading of the paper, in the paper's terms. Clear before fast: this
//! is the yardstick. It answers for any octets and any state.

pub mod codec;
pub mod distance;
pub mod log;
pub mod map;
pub mod search;
pub mod slots;
pub mod table;
pub mod tally;
pub mod walk;

/// A number of the paper's table of refusals.
pub type Refusal = u32;

/// The number reported, or the first refusal that applies.
pub type Answer = Result<u32, Refusal>;

/// Addresses lie below it.
pub const STATIONS: u32 = 1 << 27;

/// No clock stands later, and no later slot is asked about.
pub const LATEST: u32 = 1_000_000_000;

/// What an answer is over C.
pub fn over_c(answer: Answer) -> u32 {
    match answer {
        Ok(number) => number,
        Err(refusal) => 2_000_000_000 + refusal,
    }
}
