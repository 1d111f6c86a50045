//! Both sides of each edge of each number of each call. The answers stand here
//! as the paper has them; our own reading has to give them as well.

use super::expect;
use super::near::FAR;
use super::pair::{Channel, Pair};
use crate::archive::Lent;
use crate::groups::{P1, P1_FIELDS};
use crate::paper::codec::{Destination, Fields, TABLE_1_33};
use crate::paper::distance::UNKNOWN;
use crate::paper::search::Wish;
use crate::paper::table::{Measure, Record, Reservation, State, RECORD};
use crate::paper::{Answer, LATEST, STATIONS};
use crate::report::Verdict;

/// The greatest number that a call takes.
const MAX: u32 = u32::MAX;

/// A refusal, 0 for none, and numbers that have to give it, for both sides of
/// each edge.
pub type Sides<'a> = &'a [(u32, &'a [u32])];

pub const STATION: Sides = &[
    (0, &[0, 1, STATIONS - 1]),
    (8, &[STATIONS, STATIONS + 1, MAX]),
];

/// As the parameter check and open have it.
pub const M1: Sides = &[
    (0, &[60, 120, 4_500, 15_300, 15_360]),
    (10, &[0, 1, 59, 61, 119, 121, 15_359, 15_361, 15_420]),
    (10, &[256 + 60, 65_536 + 60, 1 << 31, MAX]),
];

/// In octets.
pub const MEMORY: Sides = &[
    (0, &[16, 32, 32_752, 32_768]),
    (1, &[0, 1, 15, 17, 31, 33, 32_767, 32_769, 32_784, 65_536]),
    // Of records of 12 octets.
    (1, &[12, 24, 24_564]),
];

/// The limit's, among them the number below 0 that lies nearest to it.
const LIMITS: [(u32, &[f64]); 2] = [
    (0, &[0.0, -0.0, 150.0, 4096.0, 4096.0_f64.next_down()]),
    (
        18,
        &[
            -f64::from_bits(1),
            -1.0,
            4096.0_f64.next_up(),
            f64::INFINITY,
            f64::NEG_INFINITY,
            f64::NAN,
        ],
    ),
];

/// A bo's.
const OFFSETS: [(u32, &[i32]); 2] = [
    (0, &[-127, -126, -1, 0, 1, 126, 127]),
    (
        6,
        &[
            -129,
            -128,
            128,
            129,
            254,
            255,
            256,
            i32::MIN,
            i32::MIN + 1,
            i32::MAX,
        ],
    ),
];

/// Tries each number of one kind and counts it.
fn each<T: Copy + std::fmt::Debug>(
    tried: &mut usize,
    what: &str,
    sides: &[(u32, &[T])],
    mut call: impl FnMut(T) -> Result<Answer, String>,
) -> Result<(), String> {
    for &(refusal, numbers) in sides {
        for &number in numbers {
            let given = call(number)?.err().unwrap_or(0);
            expect(&format!("{what} {number:?}"), refusal, given)?;
            *tried += 1;
        }
    }
    Ok(())
}

/// One record, at clock 100: slots 105 to 109 and so on are reserved.
pub const T: Record = Record {
    station: 1,
    first: 105,
    rate: 3,
    superframes: 2,
    length: 5,
    far: 0,
    bo: 0,
    zeros: [0; 3],
};

pub const STATE: State = State {
    m1: 4500,
    now: 100,
    count: 1,
};

/// A table of one record, with room for more or not.
pub fn table(record: Record, state: State, capacity: usize) -> Channel {
    let mut octets = record.octets();
    octets.resize(capacity * RECORD, 0);
    Channel::holding(&octets, state)
}

fn codec(pair: &mut Pair, tried: &mut usize) -> Result<(), String> {
    let base = P1_FIELDS;
    let mut write = |fields: Fields| pair.write(&fields).map(|answer| answer.map(|_| 0));
    each(tried, "write, d", STATION, |d| {
        let d = Destination::Address(d);
        write(Fields { d, ..base })
    })?;
    let sides: Sides = &[(0, &[0, 31]), (9, &[32, 256, MAX])];
    each(tried, "write, blg", sides, |blg| {
        write(Fields { blg, ..base })
    })?;
    let sides: Sides = &[(0, &[0, 3]), (9, &[4, 256, MAX])];
    each(tried, "write, bt", sides, |bt| write(Fields { bt, ..base }))?;
    let codes: Sides = &[(0, &[0, 6, 8, 13]), (3, &[7, 14, 15, 16, 17, 256, MAX])];
    each(tried, "write, br", codes, |br| write(Fields { br, ..base }))?;
    // An address with roff 2 and bs 5.
    let roffs: Sides = &[
        (0, &[2, 3, 4, 6, 254, 255]),
        (4, &[0, 1, 256, 258, 256 + 5, MAX]),
        (34, &[5]),
    ];
    each(tried, "write, roff", roffs, |roff| {
        write(Fields { roff, ..base })
    })?;
    let starts: Sides = &[(0, &[3, 254, 255]), (5, &[0, 1, 256, 258, MAX]), (34, &[2])];
    each(tried, "write, bs", starts, |bs| {
        write(Fields { bs, ..base })
    })?;
    // Three octets with the same.
    let d = Destination::NoRebroadcast([0xFF; 3]);
    let roffs: Sides = &[
        (34, &[2, 3, 4, 6, 254, 255]),
        (4, &[0, 1, 256, 258, 256 + 5, MAX]),
        (0, &[5]),
    ];
    each(tried, "write, roff, octets", roffs, |roff| {
        write(Fields { d, roff, ..base })
    })?;
    let starts: Sides = &[(34, &[3, 254, 255]), (5, &[0, 1, 256, 258, MAX]), (0, &[2])];
    each(tried, "write, bs, octets", starts, |bs| {
        write(Fields { d, bs, ..base })
    })?;
    each(tried, "write, bo", &OFFSETS, |bo| {
        write(Fields { bo, ..base })
    })?;
    let sides: Sides = &[(0, &[9]), (1, &[0, 1, 8, 10, 18])];
    each(tried, "read, octets", sides, |length| {
        let group = [P1, P1].concat();
        let reading = pair.read(&group[..length as usize])?;
        Ok(reading.map(|_| 0))
    })?;
    let sides: Sides = &[(0, &[16]), (7, &[0, 1, 15, 17, 32])];
    each(tried, "rate, entries", sides, |length| {
        let list = [TABLE_1_33, [0; 16]].concat();
        pair.rate(&list[..length as usize], 0)
    })?;
    each(tried, "rate, code", codes, |code| {
        pair.rate(&TABLE_1_33, code)
    })?;
    let sides: Sides = &[(0, &[1, 2, 3]), (22, &[0, 4, 256 + 1, MAX])];
    each(tried, "parameter, number", sides, |number| {
        pair.parameter(number, 60)
    })?;
    each(tried, "M1", M1, |figure| pair.parameter(1, figure))?;
    let sides: Sides = &[(0, &[1, 2, 255, 256]), (10, &[0, 257, MAX])];
    each(tried, "M2inc", sides, |figure| pair.parameter(2, figure))?;
    let sides: Sides = &[(0, &[1, 2, 65_535, 65_536]), (10, &[0, 65_537, MAX])];
    each(tried, "M2limit", sides, |figure| pair.parameter(3, figure))?;
    let sides: Sides = &[(0, &[1, 2, 15, 16]), (20, &[0, 17, 256 + 1, MAX])];
    each(tried, "pick, n", sides, |n| pair.pick(n, 5))
}

/// What most of the reserves below ask for.
const ASKED: Reservation = Reservation {
    station: 2,
    rate: 3,
    superframes: 2,
    bs: 5,
    length: 5,
    bo: 0,
    distance: UNKNOWN,
    limit: 150.0,
};

fn reserve(pair: &mut Pair, tried: &mut usize) -> Result<(), String> {
    let mut ask =
        |asked: Reservation, capacity: usize| pair.reserve(&mut table(T, STATE, capacity), &asked);
    each(tried, "reserve, station", STATION, |station| {
        // Station 1 holds T itself.
        let elsewhere = Reservation { bs: 6, ..ASKED };
        ask(
            Reservation {
                station,
                ..elsewhere
            },
            3,
        )
    })?;
    let sides: Sides = &[(0, &[1, 59, 60]), (14, &[0, 61, 256 + 3, MAX])];
    each(tried, "reserve, rate", sides, |rate| {
        ask(Reservation { rate, ..ASKED }, 3)
    })?;
    let sides: Sides = &[(0, &[1, 2, 3]), (15, &[0]), (9, &[4, 256 + 2, MAX])];
    each(tried, "reserve, superframes", sides, |superframes| {
        let asked = Reservation {
            superframes,
            ..ASKED
        };
        ask(asked, 3)
    })?;
    let sides: Sides = &[(0, &[1, 31, 32]), (9, &[0, 33, 256 + 5, MAX])];
    each(tried, "reserve, length", sides, |length| {
        ask(Reservation { length, ..ASKED }, 3)
    })?;
    let sides: Sides = &[(0, &[2, 3, 254, 255]), (5, &[0, 1, 256, 256 + 5, MAX])];
    each(tried, "reserve, bs", sides, |bs| {
        ask(Reservation { bs, ..ASKED }, 3)
    })?;
    each(tried, "reserve, bo", &OFFSETS, |bo| {
        ask(Reservation { bo, ..ASKED }, 3)
    })?;
    each(tried, "reserve, limit", &LIMITS, |limit| {
        ask(Reservation { limit, ..ASKED }, 3)
    })?;
    let sides: Sides = &[(0, &[2, 3, 2_048]), (17, &[1])];
    each(tried, "reserve, capacity", sides, |capacity| {
        ask(ASKED, capacity as usize)
    })?;
    // T again, which is held, and T with one number changed.
    let again = Reservation {
        station: 1,
        ..ASKED
    };
    let held = [
        again,
        Reservation {
            distance: FAR,
            ..again
        },
    ];
    let not_held = [
        Reservation {
            station: 0,
            ..again
        },
        Reservation { bs: 4, ..again },
        Reservation { rate: 2, ..again },
        Reservation {
            superframes: 1,
            ..again
        },
        Reservation { length: 4, ..again },
        Reservation { bo: 1, ..again },
    ];
    let sides: [(u32, &[Reservation]); 2] = [(16, &held), (0, &not_held)];
    each(tried, "reserve", &sides, |asked| ask(asked, 2))?;
    // And with a bo.
    let moved = || table(Record { bo: 10, ..T }, STATE, 2);
    let sides: [(u32, &[i32]); 3] = [
        (16, &[10]),
        (0, &[-127, -10, -1, 0, 9, 11, 127]),
        (6, &[10 - 256, 10 + 256]),
    ];
    each(tried, "reserve beside bo 10", &sides, |bo| {
        pair.reserve(&mut moved(), &Reservation { bo, ..again })
    })
}

/// Where the further series would begin, against now: an M1, the superframes,
/// bs, and the lowest bo with which it doesn't begin before now. Where that is
/// below the range, every bo will do.
const BEGINNINGS: [(u32, u32, u32, i32); 14] = [
    (60, 1, 2, -62),
    (60, 1, 3, -63),
    (60, 1, 65, -125),
    (60, 1, 66, -126),
    (60, 1, 67, -127),
    (60, 1, 68, -128),
    (60, 1, 255, -315),
    (60, 2, 2, -122),
    (60, 2, 6, -126),
    (60, 2, 7, -127),
    (60, 3, 2, -182),
    (120, 1, 2, -122),
    (120, 2, 2, -242),
    (180, 1, 2, -182),
];

fn beginnings(pair: &mut Pair, tried: &mut usize) -> Result<(), String> {
    for (m1, superframes, bs, lowest) in BEGINNINGS {
        for now in [0, 1, 100, 126, 127, 128, LATEST - 1, LATEST] {
            let state = State { m1, now, count: 0 };
            for bo in -130..=130 {
                let refusal = match bo {
                    ..=-128 | 128.. => 6,
                    0 => 0,
                    bo if bo < lowest => 24,
                    _ => 0,
                };
                let asked = Reservation {
                    superframes,
                    bs,
                    bo,
                    ..ASKED
                };
                let mut channel = Channel::holding(&[0; RECORD], state);
                let given = pair.reserve(&mut channel, &asked)?;
                let what = format!("reserve at {state:?}, {asked:?}");
                expect(&what, refusal, given.err().unwrap_or(0))?;
                *tried += 1;
            }
        }
    }
    Ok(())
}

/// Clock, distance, wipe and slot state.
fn changes(pair: &mut Pair, tried: &mut usize) -> Result<(), String> {
    let alone = || table(T, STATE, 1);
    let measure = |station, limit| Measure {
        station,
        distance: UNKNOWN,
        limit,
    };
    each(tried, "distance, station", STATION, |station| {
        pair.distance(&mut alone(), &measure(station, 150.0))
    })?;
    each(tried, "distance, limit", &LIMITS, |limit| {
        pair.distance(&mut alone(), &measure(1, limit))
    })?;
    each(tried, "wipe, station", STATION, |station| {
        pair.wipe(&mut alone(), station)
    })?;
    let sides: Sides = &[
        (12, &[0, 1, 99]),
        (0, &[100, 101, LATEST - 1, LATEST]),
        (13, &[LATEST + 1, MAX]),
    ];
    each(tried, "clock", sides, |slot| pair.clock(&mut alone(), slot))?;
    each(tried, "slot state", sides, |slot| {
        pair.slot_state(&mut alone(), slot)
    })?;
    // Now at the latest slot: the same again, and no other.
    let end = State {
        now: LATEST,
        ..STATE
    };
    let late = || table(Record { first: LATEST, ..T }, end, 1);
    let sides: Sides = &[
        (12, &[0, LATEST - 1]),
        (0, &[LATEST]),
        (13, &[LATEST + 1, MAX]),
    ];
    each(tried, "clock at the end", sides, |slot| {
        pair.clock(&mut late(), slot)
    })?;
    each(tried, "slot state at the end", sides, |slot| {
        pair.slot_state(&mut late(), slot)
    })
}

fn search(pair: &mut Pair, tried: &mut usize) -> Result<(), String> {
    let base = Wish {
        lo: 200,
        hi: 210,
        length: 2,
        wanted: 3,
    };
    let mut ask = |wish: Wish, octets: u32| {
        let mut list = Lent::holding(&vec![0xEE; octets as usize]);
        pair.search(&mut table(T, STATE, 1), &wish, &mut list)
    };
    let sides: Sides = &[(0, &[100, 101, 209, 210]), (19, &[0, 99, 211, MAX])];
    each(tried, "search, lo", sides, |lo| {
        ask(Wish { lo, ..base }, 12)
    })?;
    // At most M1 - 1 later than lo.
    let sides: Sides = &[(0, &[200, 201, 4698, 4699]), (19, &[0, 199, 4700, MAX])];
    each(tried, "search, hi", sides, |hi| {
        ask(Wish { hi, ..base }, 12)
    })?;
    let sides: Sides = &[(0, &[LATEST - 1, LATEST]), (19, &[LATEST + 1, MAX])];
    each(tried, "search to the end", sides, |hi| {
        let lo = LATEST - 1;
        ask(Wish { lo, hi, ..base }, 12)
    })?;
    each(tried, "search past the end", sides, |hi| {
        ask(Wish { lo: hi, hi, ..base }, 12)
    })?;
    let sides: Sides = &[(0, &[1, 31, 32]), (9, &[0, 33, 256 + 2, MAX])];
    each(tried, "search, length", sides, |length| {
        ask(Wish { length, ..base }, 12)
    })?;
    let sides: Sides = &[(0, &[1, 2, 15, 16]), (20, &[0, 17, 256 + 3, MAX])];
    each(tried, "search, wanted", sides, |wanted| {
        ask(Wish { wanted, ..base }, 1_200)
    })?;
    // Lists of whole entries, and with one to three octets left over.
    let sides: Sides = &[(1, &[0, 1, 3, 4, 8, 9, 10, 11]), (0, &[12, 13, 14, 15, 16])];
    each(tried, "search, list for 3", sides, |octets| {
        ask(base, octets)
    })?;
    let sides: Sides = &[(1, &[0, 60, 63]), (0, &[64, 65, 67, 68, 1_000, 70_001])];
    each(tried, "search, list for 16", sides, |octets| {
        ask(Wish { wanted: 16, ..base }, octets)
    })?;
    // T's first block lies between.
    let sides: Sides = &[(0, &[103, 110]), (21, &[104, 105, 109])];
    each(tried, "search beside a block", sides, |lo| {
        ask(Wish { lo, hi: lo, ..base }, 12)
    })
}

fn open(pair: &mut Pair, tried: &mut usize) -> Result<(), String> {
    let mut ask = |octets, m1| pair.open(&mut Channel::unopened(&vec![0xEE; octets], m1), m1);
    each(tried, "open, octets", MEMORY, |octets| {
        ask(octets as usize, 4500)
    })?;
    each(tried, "open, M1", M1, |m1| ask(3 * RECORD, m1))
}

pub fn check(pair: &mut Pair) -> Verdict {
    let mut tried = 0;
    codec(pair, &mut tried)?;
    open(pair, &mut tried)?;
    reserve(pair, &mut tried)?;
    beginnings(pair, &mut tried)?;
    changes(pair, &mut tried)?;
    search(pair, &mut tried)?;
    Ok(format!(
        "{tried} sides of edges, answered as the paper has them"
    ))
}
