//! The tally of accepted and refused calls.

use super::Refusal;

/// Each count stops there.
const MOST: u32 = 4_294_967_295;

#[derive(Clone, Copy, Debug, Default, PartialEq, Eq)]
pub struct Tally {
    pub accepted: u32,
    pub refused: u32,
}

impl Tally {
    /// Takes a call's refusal number, 0 being accepted.
    pub fn count(&mut self, refusal: Refusal) {
        let count = match refusal {
            0 => &mut self.accepted,
            _ => &mut self.refused,
        };
        if *count < MOST {
            *count += 1;
        }
    }
}
