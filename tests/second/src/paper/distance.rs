//! Distances and the reuse limit.

/// The farthest that a distance, and the highest that a limit can be.
const FARTHEST: f64 = 4096.0;

/// A distance as it comes over C.
#[derive(Clone, Copy, Debug)]
pub struct Distance {
    pub kind: u32,
    pub a: f64,
    pub b: f64,
}

pub const UNKNOWN: Distance = Distance {
    kind: 0,
    a: 0.0,
    b: 0.0,
};

/// Whether refusal 18 applies; NaN lies in no range.
pub fn limit_refused(limit: f64) -> bool {
    !(0.0..=FARTHEST).contains(&limit)
}

fn within(part: f64) -> bool {
    (-FARTHEST..=FARTHEST).contains(&part)
}

/// No comparison holds for NaN, so it is never far.
pub fn far(distance: Distance, limit: f64) -> bool {
    match distance {
        Distance { kind: 1, a: r, .. } => limit <= r && r <= FARTHEST,
        Distance {
            kind: 2,
            a: east,
            b: north,
        } => {
            let (squares, square) = (east * east + north * north, limit * limit);
            within(east) && within(north) && squares >= square
        }
        _ => false,
    }
}
