//! Which distances are far, seen by the far octet after reserve and distance.

use super::expect;
use super::pair::{Channel, Pair};
use crate::draw::Draw;
use crate::paper::distance::{self, Distance};
use crate::paper::table::{Measure, Record, Reservation, State, RECORD};
use crate::report::Verdict;

/// Where the octet lies in the first record.
const FAR: usize = 11;

/// A table of two records, the first with this far octet, and room for one.
fn table(far: u8) -> Channel {
    let record = |station, far| Record {
        station,
        first: 100,
        rate: 1,
        superframes: 1,
        length: 1,
        far,
        bo: 0,
        zeros: [0; 3],
    };
    let mut octets = [record(7, far).octets(), record(8, 1).octets()].concat();
    octets.resize(3 * RECORD, 0);
    let state = State {
        m1: 60,
        now: 50,
        count: 2,
    };
    Channel::holding(&octets, state)
}

/// Tells both calls of it; the far octet that both gave, none where the limit
/// was refused.
fn tell(pair: &mut Pair, distance: Distance, limit: f64) -> Result<Option<u8>, String> {
    let mut fars = Vec::new();
    for far in [0, 1] {
        let told = Measure {
            station: 7,
            distance,
            limit,
        };
        let mut channel = table(far);
        let answer = pair.distance(&mut channel, &told)?;
        fars.push(answer.ok().map(|_| channel.memory.octets()[FAR]));
    }
    let asked = Reservation {
        station: 9,
        rate: 1,
        superframes: 1,
        bs: 2,
        length: 1,
        bo: 0,
        distance,
        limit,
    };
    let mut channel = table(0);
    let answer = pair.reserve(&mut channel, &asked)?;
    fars.push(
        answer
            .ok()
            .map(|_| channel.memory.octets()[2 * RECORD + FAR]),
    );
    if fars.iter().any(|&far| far != fars[0]) {
        return Err(format!("{distance:?}, limit {limit:?}: {fars:?}"));
    }
    Ok(fars[0])
}

fn range(r: f64) -> Distance {
    Distance {
        kind: 1,
        a: r,
        b: f64::NAN,
    }
}

fn offset(east: f64, north: f64) -> Distance {
    Distance {
        kind: 2,
        a: east,
        b: north,
    }
}

/// Cases whose answer the paper's text gives at once.
fn worked(pair: &mut Pair) -> Result<usize, String> {
    let tiny = f64::from_bits(1);
    let (far, near, refused) = (Some(1), Some(0), None);
    let cases = [
        (range(150.0), 150.0, far),
        (range(150.0_f64.next_down()), 150.0, near),
        (range(150.0_f64.next_up()), 150.0, far),
        (range(4096.0), 150.0, far),
        (range(4096.0_f64.next_up()), 150.0, near),
        (range(4096.0), 4096.0, far),
        (range(4096.0_f64.next_down()), 4096.0, near),
        (range(0.0), 0.0, far),
        (range(-0.0), 0.0, far),
        (range(0.0), -0.0, far),
        (range(-0.0), -0.0, far),
        (range(-tiny), 0.0, near),
        (range(0.0), tiny, near),
        (range(tiny), tiny, far),
        (range(-150.0), 0.0, near),
        (range(f64::INFINITY), 0.0, near),
        (range(-f64::INFINITY), 0.0, near),
        (range(f64::NAN), 0.0, near),
        // Which numbers are looked at.
        (
            Distance {
                b: 0.0,
                ..range(150.0)
            },
            150.0,
            far,
        ),
        (
            Distance {
                kind: 1,
                a: 0.0,
                b: 200.0,
            },
            150.0,
            near,
        ),
        (
            Distance {
                kind: 0,
                a: 200.0,
                b: 200.0,
            },
            150.0,
            near,
        ),
        (
            Distance {
                kind: 0,
                a: f64::NAN,
                b: f64::NAN,
            },
            0.0,
            near,
        ),
        (
            Distance {
                kind: 3,
                a: 200.0,
                b: 200.0,
            },
            0.0,
            near,
        ),
        (
            Distance {
                kind: u32::MAX,
                a: 200.0,
                b: 200.0,
            },
            0.0,
            near,
        ),
        (
            Distance {
                kind: 257,
                a: 200.0,
                b: 200.0,
            },
            0.0,
            near,
        ),
        (offset(90.0, 120.0), 150.0, far),
        (offset(90.0, 119.0), 150.0, near),
        (offset(-90.0, -120.0), 150.0, far),
        (offset(0.0, -150.0), 150.0, far),
        (offset(150.0, 0.0), 150.0, far),
        (offset(4096.0, -4096.0), 4096.0, far),
        (offset(4096.0_f64.next_up(), 0.0), 0.0, near),
        (offset(0.0, -4096.0_f64.next_up()), 0.0, near),
        (offset(0.0, f64::NAN), 0.0, near),
        (offset(f64::NAN, 4000.0), 0.0, near),
        (offset(f64::INFINITY, 0.0), 0.0, near),
        (offset(0.0, -f64::INFINITY), 0.0, near),
        (offset(0.0, 0.0), 0.0, far),
        (offset(-0.0, 0.0), -0.0, far),
        // The limit's square is 0, so nothing is nearer, but a range is.
        (offset(0.0, 0.0), 1e-170, far),
        (range(0.0), 1e-170, near),
        (offset(0.0, 0.0), 1e-150, near),
        (offset(tiny, tiny), tiny, far),
        // With one of the products left unrounded the last would be far.
        (offset(0.3, 0.4), 0.5, far),
        (
            offset(135.955_312_911_232_6, 89.930_099_059_104_7),
            163.006_962_506_426_56,
            near,
        ),
        (range(200.0), 4096.0_f64.next_up(), refused),
        (range(200.0), -tiny, refused),
        (range(200.0), f64::NAN, refused),
        (range(200.0), f64::INFINITY, refused),
        (range(200.0), -f64::INFINITY, refused),
        (
            Distance {
                kind: 0,
                a: 0.0,
                b: 0.0,
            },
            5000.0,
            refused,
        ),
    ];
    for (distance, limit, far) in cases {
        let what = format!("{distance:?}, limit {limit:?}");
        expect(&what, far, tell(pair, distance, limit)?)?;
    }
    Ok(cases.len())
}

pub fn check(pair: &mut Pair) -> Verdict {
    let worked = worked(pair)?;
    let mut draw = Draw::from_seed(201);
    let special = [
        0.0,
        -0.0,
        1.0,
        150.0,
        -150.0,
        4095.999,
        4096.0,
        4096.0_f64.next_up(),
        -4096.0,
        f64::MIN_POSITIVE,
        f64::from_bits(1),
        1e-170,
        1e-150,
        f64::MAX,
        f64::INFINITY,
        -f64::INFINITY,
        f64::NAN,
        // A signalling NaN, and one below zero with every bit set.
        f64::from_bits(0x7FF0_0000_0000_0001),
        f64::from_bits(u64::MAX),
    ];
    let number = |draw: &mut Draw| match draw.below(4) {
        0 => f64::from_bits(draw.number()),
        1 => (draw.number() as f64 / u64::MAX as f64) * 4100.0,
        _ => draw.one_of(&special),
    };
    let mut seen = [0; 3];
    for _ in 0..60_000 {
        let distance = Distance {
            kind: draw.one_of(&[0, 1, 1, 1, 2, 2, 2, 2, 3, u32::MAX]),
            a: number(&mut draw),
            b: number(&mut draw),
        };
        let limit = number(&mut draw);
        match tell(pair, distance, limit)? {
            Some(far) => seen[far as usize] += 1,
            None => seen[2] += 1,
        }
    }
    if seen.iter().any(|&times| times < 1_000) {
        return Err(format!("too few of some answer: {seen:?}"));
    }
    let [near, far, refused] = seen;
    Ok(format!(
        "{worked} worked cases; at random {near} near, {far} far, {refused} limits refused"
    ))
}

/// What an offset would be with a product that isn't rounded by itself.
fn far_if_fused(east: f64, north: f64, limit: f64) -> bool {
    east.mul_add(east, north * north) >= limit * limit
}

/// Offsets whose length is the limit, but for the last bits: there one
/// rounding more or less decides.
pub fn near_limit(pair: &mut Pair) -> Verdict {
    let mut draw = Draw::from_seed(202);
    let mut seen = [0; 2];
    let mut telling = 0;
    for _ in 0..60_000 {
        let mut part = || (draw.number() >> 11) as f64 / (1_u64 << 53) as f64 * 2048.0;
        let (east, north) = (part(), part());
        let mut limit = (east * east + north * north).sqrt();
        limit = match draw.below(4) {
            0 => limit.next_up(),
            1 => limit.next_down(),
            _ => limit,
        };
        let distance = offset(draw.one_of(&[east, -east]), draw.one_of(&[north, -north]));
        let far = tell(pair, distance, limit)?.unwrap_or(0);
        seen[far as usize] += 1;
        let plainly = distance::far(distance, limit);
        telling += usize::from(far_if_fused(east, north, limit) != plainly);
        // A range just there too.
        let r = draw.one_of(&[limit, limit.next_up(), limit.next_down()]);
        tell(pair, range(r), limit)?;
    }
    let [near, far] = seen;
    if near < 1_000 || far < 1_000 || telling < 100 {
        return Err(format!(
            "too few: {near} near, {far} far, {telling} by rounding"
        ));
    }
    Ok(format!(
        "offsets {near} near, {far} far, {telling} of them otherwise if fused"
    ))
}
