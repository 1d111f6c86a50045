//! How many channels one core serves under a stated load, archive beside peer.
//! Unlike in the table of calls, what is lent isn't near: the channels are
//! served in turn, and there are more of them than a core's own cache holds.

use super::figures::{shown, three_digits, time};
use super::median;
use super::sides::{Calls, Lent, ARCHIVE, PEER};
use super::tables::{any_bo, Kind, Setting, Table};
use crate::draw::Draw;
use crate::gemthatch::REFUSED;
use crate::paper::distance::{Distance, UNKNOWN};
use crate::paper::search::Wish;
use crate::paper::table::{Measure, Reservation, MOST_RECORDS};
use crate::plain::State;

const M1: u32 = 4500;

/// What a channel gets in a second, spread over it: a clock in each slot, and
/// these calls.
const SLOTS: u32 = 75;
const RESERVES: u32 = 2;
const DISTANCES: u32 = 2;
const SEARCHES: u32 = 5;

/// A search's starts; all their blocks lie in the map.
const STARTS: u32 = 100;
const LENGTH: u32 = 3;
const WANTED: u32 = 3;

const LIMIT: f64 = 150.0;

/// Records and channels: 2.5 to 5 million octets of memory and maps.
const SIZES: [(usize, usize); 3] = [(20, 512), (200, 512), (MOST_RECORDS, 128)];

/// Seconds of load that are timed.
const SECONDS: usize = 7;

enum Asked {
    Reserve(Reservation),
    Distance(Measure),
    /// From so many slots after now on.
    Search(u32),
}

/// Whose calls come in a second, and at which slots.
#[derive(Clone, Copy)]
enum Turn {
    Reserve,
    Distance,
    Search,
}

fn turns() -> Vec<(u32, Turn)> {
    let spread = |many: u32, turn| (0..many).map(move |j| ((2 * j + 1) * SLOTS / (2 * many), turn));
    let mut turns: Vec<(u32, Turn)> = spread(RESERVES, Turn::Reserve)
        .chain(spread(DISTANCES, Turn::Distance))
        .chain(spread(SEARCHES, Turn::Search))
        .collect();
    turns.sort_by_key(|&(slot, _)| slot);
    turns
}

fn near_or_far(draw: &mut Draw) -> Distance {
    let far = Distance {
        kind: 1,
        a: 200.0,
        b: 0.0,
    };
    draw.one_of(&[UNKNOWN, far])
}

fn reservation(station: u32, draw: &mut Draw) -> Reservation {
    Reservation {
        station,
        rate: 1 + draw.below(60),
        superframes: 1 + draw.below(3),
        bs: 2 + draw.below(254),
        length: 1 + draw.below(32),
        bo: any_bo(draw),
        distance: near_or_far(draw),
        limit: LIMIT,
    }
}

/// A channel that one of the sides serves.
#[derive(Clone, PartialEq)]
struct Channel {
    lent: Lent,
    state: State,
    /// How many records it holds when a second begins, and their stations.
    records: u32,
    stations: [u32; Table::STATIONS],
    /// All answers to the load, folded.
    answers: u64,
}

impl Channel {
    fn new(records: usize, draw: &mut Draw) -> Self {
        let room = RESERVES as usize;
        let setting = Setting {
            kind: Kind::Mixed,
            capacity: (records + room).min(MOST_RECORDS),
            m1: M1,
        };
        let mut table = Table::full(setting, draw);
        table.records.truncate(setting.capacity - room);
        Channel {
            lent: Lent {
                memory: table.memory(),
                map: table.map(),
                list: vec![0; 4 * WANTED as usize],
            },
            state: table.state(),
            records: table.records.len() as u32,
            stations: table.stations,
            answers: 0,
        }
    }

    /// The station of a second's reserves, which is none of the others.
    fn guest(&self) -> u32 {
        let mut free = (0..).filter(|station| !self.stations.contains(station));
        free.next().expect("there are few stations")
    }

    /// What is asked at a turn.
    fn asked(&self, turn: Turn, draw: &mut Draw) -> Asked {
        match turn {
            Turn::Reserve => Asked::Reserve(reservation(self.guest(), draw)),
            Turn::Distance => Asked::Distance(Measure {
                station: draw.one_of(&self.stations),
                distance: near_or_far(draw),
                limit: LIMIT,
            }),
            Turn::Search => Asked::Search(draw.below(M1 - (STARTS + LENGTH - 2))),
        }
    }

    fn note(&mut self, answer: u32) {
        self.answers = self.answers.wrapping_mul(31).wrapping_add(answer.into());
    }

    #[inline(always)]
    fn clock(&mut self, calls: &Calls) {
        let slot = self.state.now + 1;
        let answer = calls.clock(&mut self.lent, self.state, slot);
        if answer < REFUSED {
            self.state.now = slot;
            self.state.count -= answer;
        }
        self.note(answer);
    }

    #[inline(always)]
    fn call(&mut self, calls: &Calls, asked: &Asked) {
        let Channel { lent, state, .. } = self;
        let answer = match asked {
            Asked::Reserve(asked) => {
                let answer = calls.reserve(lent, *state, asked);
                state.count += u32::from(answer < REFUSED);
                answer
            }
            Asked::Distance(told) => calls.distance(lent, *state, told),
            Asked::Search(ahead) => {
                let lo = state.now + ahead;
                let wish = Wish {
                    lo,
                    hi: lo + STARTS - 1,
                    length: LENGTH,
                    wanted: WANTED,
                };
                calls.search(lent, *state, &wish)
            }
        };
        self.note(answer);
    }

    /// Between two seconds: the guest leaves, and for records that have gone over
    /// others are made, so that there are as many as before.
    fn keep_up(&mut self, calls: &Calls, draw: &mut Draw) -> Result<(), String> {
        let guest = self.guest();
        let gone = calls.wipe(&mut self.lent, self.state, guest);
        // Some may be over already.
        if gone > RESERVES {
            return Err(format!("the guest's wipe gave {gone}"));
        }
        self.state.count -= gone;
        while self.state.count < self.records {
            let station = draw.one_of(&self.stations);
            let asked = reservation(station, draw);
            match calls.reserve(&mut self.lent, self.state, &asked) {
                0 => self.state.count += 1,
                // By chance it is held.
                answer if answer == REFUSED + 16 => {}
                answer => return Err(format!("a record made again gave {answer}")),
            }
        }
        Ok(())
    }
}

/// Nanoseconds that a side takes for a second of load of all channels.
fn second(
    calls: &Calls,
    channels: &mut [Channel],
    turns: &[(u32, Turn)],
    asked: &[Vec<Asked>],
) -> f64 {
    time(|| {
        let mut next = 0;
        for slot in 0..SLOTS {
            let due = turns[next..].iter().take_while(|turn| turn.0 == slot);
            let due = next..next + due.count();
            for (channel, asked) in channels.iter_mut().zip(asked) {
                channel.clock(calls);
                for asked in &asked[due.clone()] {
                    channel.call(calls, asked);
                }
            }
            next = due.end;
        }
    })
}

/// Both sides' nanoseconds for a second of load of one channel, and the ratio.
fn measure(records: usize, many: usize) -> Result<[f64; 3], String> {
    let mut draw = Draw::from_seed(records as u64);
    let made: Vec<Channel> = (0..many)
        .map(|_| Channel::new(records, &mut draw))
        .collect();
    let mut sides = [(ARCHIVE, made.clone()), (PEER, made)];
    let turns = turns();
    let mut rounds = Vec::new();
    for number in 0..=SECONDS {
        let asked: Vec<Vec<Asked>> = (sides[0].1.iter())
            .map(|channel| {
                let asked = turns
                    .iter()
                    .map(|&(_, turn)| channel.asked(turn, &mut draw));
                asked.collect()
            })
            .collect();
        let mut times = [0.0; 2];
        for turn in 0..2 {
            let which = (number + turn) % 2;
            let (calls, channels) = &mut sides[which];
            times[which] = second(calls, channels, &turns, &asked) / many as f64;
        }
        let seed = draw.number();
        for (calls, channels) in &mut sides {
            let mut draw = Draw::from_seed(seed);
            for channel in channels {
                channel.keep_up(calls, &mut draw)?;
            }
        }
        // The first second warms up.
        if number > 0 {
            rounds.push([times[0], times[1], times[0] / times[1]]);
        }
    }
    let [(_, one), (_, other)] = &sides;
    if one != other {
        return Err(format!("{records} records: the sides left something else"));
    }
    Ok([0, 1, 2].map(|part| median(rounds.iter().map(|round| round[part]).collect())))
}

pub fn table() -> Result<(), String> {
    println!(
        "A second of load of a channel: {SLOTS} clocks, {RESERVES} reserves, {DISTANCES} \
         distances, {SEARCHES} searches of {STARTS} starts; M1 {M1}\n"
    );
    println!("| records | channels | archive | peer | ratio | a core serves | with the peer |");
    println!("|---:|---:|---:|---:|---:|---:|---:|");
    for (records, many) in SIZES {
        let [archive, peer, ratio] = measure(records, many)?;
        let [serves, with_peer] = [archive, peer].map(|time| (1e9 / time) as u64);
        println!(
            "| {records} | {many} | {} | {} | {} | {serves} | {with_peer} |",
            shown(archive),
            shown(peer),
            three_digits(ratio)
        );
    }
    Ok(())
}
