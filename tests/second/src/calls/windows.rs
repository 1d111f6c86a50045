//! Searches where one that marks a window of slots record by record, and then
//! goes along it by leaps, could slip.

use std::ops::Range;

use super::near;
use super::pair::{Channel, Pair};
use crate::archive::Lent;
use crate::draw::Draw;
use crate::paper::search::Wish;
use crate::paper::slots::{self, Slot};
use crate::paper::table::{Record, State, Table, LATEST_FIRST};
use crate::paper::LATEST;
use crate::report::Verdict;

/// The most that can be wanted.
const MOST: u32 = 16;

/// The longest block and the longest superframe.
const LONGEST: u32 = 32;
const LONGEST_M1: u32 = 15_360;

/// Lengths at the edges of what can be marked in a stroke.
const LENGTHS: [u32; 7] = [1, 2, 15, 16, 17, 31, 32];

const NEAR: u8 = 0;
const FAR: u8 = 1;

/// What the searches of a check have given.
#[derive(Default)]
struct Seen {
    searches: u64,
    /// Searches without a start, with starts of both levels, with a full list.
    none: u64,
    both: u64,
    full: u64,
    /// Starts by their level.
    levels: [u64; 2],
    /// Searches in which reserved slots past the latest were judged.
    past: u64,
}

impl Seen {
    fn told(&self) -> String {
        let [level_0, level_1] = self.levels;
        format!(
            "{} searches, {} gave none, {} both levels, {} as many as wanted; starts {level_0} of \
             level 0, {level_1} of level 1; {} judged reserved slots past 1000000000",
            self.searches, self.none, self.both, self.full, self.past
        )
    }

    /// Fails where something came up too seldom.
    fn enough(&self, least: u64) -> Verdict {
        let [level_0, level_1] = self.levels;
        self.at_least(least, &[self.none, self.both, self.full, level_0, level_1])
    }

    fn at_least(&self, least: u64, counts: &[u64]) -> Verdict {
        if counts.iter().any(|&times| times < least) {
            Err(format!("too little of something: {}", self.told()))
        } else {
            Ok(self.told())
        }
    }
}

fn reserved(first: u32, rate: u32, superframes: u32, length: u32, far: u8) -> Record {
    Record {
        station: first % 1_000,
        first,
        rate: rate as u8,
        superframes: superframes as u8,
        length: length as u8,
        far,
        bo: 0,
        zeros: [0; 3],
    }
}

/// The same with an offset, and its further series from a slot on.
fn moved_to(start: u32, m1: u32, bo: i8, record: Record) -> Record {
    let first = i64::from(start) - i64::from(record.superframes) * i64::from(m1) - i64::from(bo);
    Record {
        first: first as u32,
        bo,
        ..record
    }
}

/// Records of a block each that hold all slots of a range and no others.
fn cover(slots: Range<u32>, far: u8) -> impl Iterator<Item = Record> {
    let end = slots.end;
    slots
        .step_by(LONGEST as usize)
        .map(move |first| reserved(first, 1, 1, LONGEST.min(end - first), far))
}

/// Few near records that hold a superframe up to a slot.
fn close(m1: u32, slot: u32) -> impl Iterator<Item = Record> {
    let spacing = m1 / 60;
    let length = spacing.div_ceil(spacing.div_ceil(LONGEST));
    (0..spacing)
        .step_by(length as usize)
        .map(move |at| reserved(slot - m1 + at, 60, 1, length.min(spacing - at), NEAR))
}

/// The end of the slots that a search judges.
fn end(wish: &Wish) -> u32 {
    wish.hi + wish.length
}

/// All that can be wanted of the starts from a slot on.
fn range(lo: u32, starts: u32, length: u32) -> Wish {
    Wish {
        lo,
        hi: lo + starts - 1,
        length,
        wanted: MOST,
    }
}

/// A sound table of just these records, its clock as late as they and the
/// search allow.
fn table(m1: u32, records: Vec<Record>, wish: &Wish) -> Table {
    let last_slots = records.iter().map(|record| record.last_slot(m1) as u32);
    Table {
        now: last_slots.fold(wish.lo, u32::min),
        capacity: records.len().max(1),
        records,
        m1,
    }
}

/// The searches of a check.
struct Searches<'a> {
    pair: &'a mut Pair,
    seen: Seen,
}

impl Searches<'_> {
    fn of(pair: &mut Pair) -> Searches<'_> {
        Searches {
            pair,
            seen: Seen::default(),
        }
    }

    /// Compares one that is not refused, unless there is no start.
    fn compare(&mut self, m1: u32, records: Vec<Record>, wish: Wish) -> Result<(), String> {
        let table = table(m1, records, &wish);
        let state = State {
            m1,
            now: table.now,
            count: table.records.len() as u32,
        };
        let mut channel = Channel::holding(&table.octets(), state);
        // With room for one more than is wanted.
        let mut list = Lent::holding(&vec![0xA5; 4 * (wish.wanted as usize + 1)]);
        let found = match self.pair.search(&mut channel, &wish, &mut list)? {
            Ok(found) => found,
            Err(21) => 0,
            Err(refusal) => return Err(format!("{wish:?} refused {refusal}")),
        };
        self.count(&table, &wish, &list.octets()[..4 * found as usize]);
        Ok(())
    }

    fn count(&mut self, table: &Table, wish: &Wish, found: &[u8]) {
        let mut levels = [0; 2];
        for entry in found.chunks_exact(4) {
            let start = i64::from(u32::from_le_bytes([entry[0], entry[1], entry[2], entry[3]]));
            let block = slots::judge_all(table, start..start + i64::from(wish.length));
            levels[usize::from(block.contains(&Slot::Reusable))] += 1;
        }
        let past = i64::from(LATEST) + 1;
        let past = slots::judge_all(table, past..past.max(end(wish).into()));
        let seen = &mut self.seen;
        seen.searches += 1;
        seen.none += u64::from(found.is_empty());
        seen.both += u64::from(levels[0] > 0 && levels[1] > 0);
        seen.full += u64::from(levels[0] + levels[1] == u64::from(wish.wanted));
        seen.levels[0] += levels[0];
        seen.levels[1] += levels[1];
        seen.past += u64::from(past.iter().any(|&slot| slot != Slot::Free));
    }
}

/// A record that begins about a slot, or whose further series does.
fn about(draw: &mut Draw, m1: u32, slot: u32) -> Record {
    loop {
        let start = (slot + draw.below(64)).saturating_sub(draw.below(64));
        let record = reserved(
            start.min(LATEST_FIRST),
            draw.one_of(&[1, 2, 7, 60]),
            1 + draw.below(3),
            draw.one_of(&LENGTHS),
            draw.one_of(&[NEAR, FAR, FAR]),
        );
        let bo = near::bo(draw) as i8;
        let record = match draw.below(2) {
            0 => Record { bo, ..record },
            _ => moved_to(start, m1, bo, record),
        };
        if record.is_sound(m1, 0) {
            return record;
        }
    }
}

/// Windows from slot 0 on, and to 1,000,000,000 and past it.
pub fn at_the_ends_of_time(pair: &mut Pair) -> Verdict {
    let mut draw = Draw::from_seed(404);
    let mut searches = Searches::of(pair);
    for m1 in [60, 4_500, LONGEST_M1] {
        for length in LENGTHS {
            for starts in [1, 16, 60, m1] {
                for lo in [0, LATEST + 1 - starts] {
                    let wish = range(lo, starts, length);
                    for count in 0..12 {
                        let records = (0..count).map(|_| {
                            let edge = draw.one_of(&[lo, wish.hi, end(&wish)]);
                            about(&mut draw, m1, edge)
                        });
                        let records = records.collect();
                        searches.compare(m1, records, wish)?;
                    }
                }
            }
        }
    }
    let seen = searches.seen;
    seen.enough(100)?;
    seen.at_least(100, &[seen.past])
}

/// Windows of so many slots as a search may change its ways at, and one fewer or
/// more, to the largest: all held but for one start, the first, some, or the last.
pub fn of_each_size(pair: &mut Pair) -> Verdict {
    let mut draw = Draw::from_seed(405);
    let mut searches = Searches::of(pair);
    let edges = [32, 160, 1_120, 4_576];
    let sizes = edges
        .into_iter()
        .flat_map(|edge| [edge - 1, edge, edge + 1])
        .chain([1, 2, 16, 17, LONGEST_M1, LONGEST_M1 + 31]);
    for slots in sizes {
        for length in [1, 17, 32] {
            let starts = (slots + 1).saturating_sub(length);
            if !(1..=LONGEST_M1).contains(&starts) {
                continue;
            }
            let lo = draw.below(LATEST - 2 * LONGEST_M1);
            let wish = range(lo, starts, length);
            let mut compare = |records| searches.compare(LONGEST_M1, records, wish);
            compare(Vec::new())?;
            let some = lo + draw.below(starts);
            for start in [lo, some, wish.hi] {
                // In a hole that is too short there is no start.
                for hole in [start..start + length, start + 1..start + length] {
                    let around = |far| {
                        let after = cover(hole.end..end(&wish), far);
                        cover(lo..hole.start, far).chain(after)
                    };
                    compare(around(NEAR).collect())?;
                    compare(around(NEAR).chain(cover(hole.clone(), FAR)).collect())?;
                    compare(around(FAR).collect())?;
                }
            }
        }
    }
    searches.seen.enough(50)
}

/// A window that is held but for one start, by the same few records over and
/// over, and one record in that gap at any place among them: a search that looks
/// now and then whether further records can change anything must see it.
pub fn with_one_record_that_matters(pair: &mut Pair) -> Verdict {
    let mut searches = Searches::of(pair);
    let (m1, lo) = (180, 1_000_000);
    for count in [15, 16, 17, 31, 32, 33, 47, 48, 49] {
        for (length, starts) in [(1, 12), (1, 100), (2, 31), (17, 129), (32, 10)] {
            let wish = range(lo, starts, length);
            for start in [lo, lo + 1, lo + starts / 2, wish.hi - 1, wish.hi] {
                let gap = start..start + length;
                for held in [NEAR, FAR] {
                    let around = cover(lo..gap.start, held).chain(cover(gap.end..end(&wish), held));
                    let around: Vec<Record> = around.collect();
                    let around = around.into_iter().cycle().take(count);
                    searches.compare(m1, around.clone().collect(), wish)?;
                    for place in [0, 14, 15, 16, 17, count - 1, count] {
                        for slot in [gap.start, gap.end - 1] {
                            for matters in [NEAR, FAR] {
                                let one = reserved(slot, 1, 1, 1, matters);
                                // By its first block, or by its further one.
                                for one in [one, moved_to(slot, m1, 127, one)] {
                                    let mut records: Vec<Record> = around.clone().collect();
                                    records.insert(place.min(count), one);
                                    searches.compare(m1, records, wish)?;
                                }
                            }
                        }
                    }
                }
            }
        }
    }
    searches.seen.enough(200)
}

/// A window that far records hold, over and over, and one near record at each
/// place; or all of it held by near ones.
pub fn all_far_but_one(pair: &mut Pair) -> Verdict {
    let mut searches = Searches::of(pair);
    let (m1, lo) = (4_500, 5_000);
    for count in [16, 17, 18, 33, 48, 49] {
        for (length, starts) in [(1, 12), (3, 100), (32, 200)] {
            let wish = range(lo, starts, length);
            let far: Vec<Record> = cover(lo..end(&wish), FAR).collect();
            let far: Vec<Record> = far.into_iter().cycle().take(count).collect();
            searches.compare(m1, far.clone(), wish)?;
            for place in 0..=count {
                for slot in [lo, lo + starts / 2, end(&wish) - 1] {
                    for near in [1, 2, LONGEST] {
                        let mut records = far.clone();
                        records.insert(place, reserved(slot, 1, 1, near, NEAR));
                        searches.compare(m1, records, wish)?;
                    }
                }
                let mut records = far.clone();
                records.splice(place..place, cover(lo..end(&wish), NEAR));
                searches.compare(m1, records, wish)?;
            }
        }
    }
    let seen = searches.seen;
    let [0, level_1] = seen.levels else {
        return Err(format!("something was free: {}", seen.told()));
    };
    seen.at_least(500, &[seen.none, seen.full, level_1])
}

/// The blocks of a record that tell: the first ones, those where a superframe
/// ends and begins, and the last; of a further series the first and the last.
/// How far each begins from the first slot, which a further one may precede.
fn telling_blocks(m1: u32, record: &Record) -> Vec<i64> {
    let rate = usize::from(record.rate);
    let blocks: Vec<i64> = slots::blocks(record, m1)
        .map(|block| block.start - i64::from(record.first))
        .collect();
    let mut telling = match record.bo {
        0 => vec![0, 1, rate - 1, rate, blocks.len() - 1],
        _ => vec![blocks.len() - rate, blocks.len() - 1],
    };
    telling.retain(|&block| block < blocks.len());
    telling.sort_unstable();
    telling.dedup();
    telling.into_iter().map(|block| blocks[block]).collect()
}

/// A block of a record, which begins so far from the first slot, laid about
/// either end of windows: it begins before, ends before, overhangs, or misses
/// it by a slot.
fn lay(
    searches: &mut Searches,
    m1: u32,
    record: &Record,
    ahead: i64,
    far: u8,
) -> Result<(), String> {
    let (lo, length) = (500_000, u32::from(record.length));
    let sizes = [(1, 1), (16, 1), (48, 1), (48, 16), (20, 32), (140, 17)];
    let sizes = sizes.into_iter().chain([(m1, 1)]);
    for (starts, asked) in sizes.filter(|&(starts, _)| starts <= m1) {
        let wish = range(lo, starts, asked);
        for before in [0, 1, length - 1, length, length + 1] {
            let at = |edge: u32| Record {
                first: (i64::from(edge - before) - ahead) as u32,
                far,
                ..*record
            };
            searches.compare(m1, vec![at(lo)], wish)?;
            // No more starts are left than are listed.
            let closed = close(m1, lo + starts.saturating_sub(MOST));
            let records = closed.chain([at(end(&wish))]).collect();
            searches.compare(m1, records, wish)?;
        }
    }
    Ok(())
}

pub fn at_the_ends_of_blocks(pair: &mut Pair) -> Verdict {
    let mut draw = Draw::from_seed(407);
    let mut searches = Searches::of(pair);
    for (m1, rates) in [
        (60, &[1, 2, 7, 59, 60][..]),
        (4_500, &[1, 7, 60]),
        (LONGEST_M1, &[1, 59]),
    ] {
        for &rate in rates {
            for superframes in 1..=3 {
                for length in LENGTHS {
                    let any = near::bo(&mut draw) as i8;
                    for bo in [0, draw.one_of(&[-127, 1, 127, any])] {
                        let record = Record {
                            bo,
                            ..reserved(0, rate, superframes, length, NEAR)
                        };
                        for ahead in telling_blocks(m1, &record) {
                            lay(&mut searches, m1, &record, ahead, NEAR)?;
                            lay(&mut searches, m1, &record, ahead, FAR)?;
                        }
                    }
                }
            }
        }
    }
    searches.seen.enough(1_000)
}

/// A record seen where each of its superframes begins and where the last ends,
/// the further one too.
fn follow(searches: &mut Searches, m1: u32, record: Record) -> Result<(), String> {
    let superframes = (0..=u32::from(record.superframes)).map(|k| record.first + k * m1);
    let further = record.further(m1).map(|start| start as u32);
    let further = further.into_iter().flat_map(|start| [start, start + m1]);
    for slot in superframes.chain(further) {
        for (starts, length) in [(48, 1), (40, 2), (60, 32)] {
            for before in [0, 1, 34] {
                let wish = range(slot - before, starts, length);
                searches.compare(m1, vec![record], wish)?;
            }
        }
    }
    Ok(())
}

/// Series whose blocks leave a slot between them, touch or overlap, and further
/// ones that come as close to the first.
pub fn where_blocks_touch(pair: &mut Pair) -> Verdict {
    let mut draw = Draw::from_seed(408);
    let mut searches = Searches::of(pair);
    for m1 in (60..=1_980).step_by(60) {
        for rate in [1, 7, 30, 59, 60] {
            let spacing = m1 / rate;
            let mut lengths = vec![spacing - 1, spacing, spacing + 1, LONGEST];
            lengths.retain(|length| (1..=LONGEST).contains(length));
            for length in lengths {
                for superframes in 1..=3 {
                    for far in [NEAR, FAR] {
                        let record = reserved(5_000, rate, superframes, length, far);
                        follow(&mut searches, m1, record)?;
                        // As far back, or short of it, as blocks lie apart.
                        let back = -(draw.one_of(&[1, spacing - 1, spacing, spacing + 1]) as i64);
                        let any = near::bo(&mut draw) as i8;
                        let bo = draw.one_of(&[any, back.max(-127) as i8]);
                        follow(&mut searches, m1, Record { bo, ..record })?;
                    }
                }
            }
        }
    }
    searches.seen.enough(1_000)
}

/// Held slots at distances about the length that is asked for, from every slot
/// on: what lies between two has room for no block, for one start, or for two.
pub fn between_held_slots(pair: &mut Pair) -> Verdict {
    let mut searches = Searches::of(pair);
    let lo = 1_000;
    for length in [1, 2, 3, 15, 16, 17, 31, 32] {
        for distance in [length - 1, length, length + 1, length + 2] {
            let distance = distance.max(1);
            let wish = range(lo, 4 * distance, length);
            for offset in 0..=length + 1 {
                // One of the distances is larger by a slot.
                for larger in [0, 1, 3] {
                    for fars in [0, 0b10101, 0b01000, 0b11111] {
                        let held = (0..6).map(|k| {
                            let place = offset + k * distance + u32::from(k > larger);
                            reserved(lo + place, 1, 1, 1, (fars >> k & 1) as u8)
                        });
                        searches.compare(LONGEST_M1, held.collect(), wish)?;
                    }
                }
            }
        }
    }
    searches.seen.enough(100)
}

/// Few records in small superframes, where lists have something of everything.
pub fn in_small_superframes(pair: &mut Pair) -> Verdict {
    let mut draw = Draw::from_seed(406);
    let mut searches = Searches::of(pair);
    for _ in 0..30_000 {
        let m1 = draw.one_of(&[60, 120, 180, 1_920]);
        let lo = draw.one_of(&[0, 10_000, LATEST - 60]) + draw.below(61);
        let starts = 1 + draw.below(m1);
        let wish = Wish {
            lo,
            hi: (lo + starts - 1).min(LATEST),
            length: draw.one_of(&LENGTHS).min(1 + draw.below(8)),
            wanted: 1 + draw.below(MOST),
        };
        let records = (0..draw.below(8)).map(|_| {
            let first = (lo + draw.below(m1)).saturating_sub(draw.below(4 * m1));
            let record = Record {
                bo: near::bo(&mut draw) as i8,
                ..reserved(
                    first.min(LATEST_FIRST),
                    1 + draw.below(60),
                    1 + draw.below(3),
                    1 + draw.below(4),
                    draw.one_of(&[NEAR, FAR, FAR, FAR]),
                )
            };
            // From slot 0 on some further series would begin below it.
            match record.is_sound(m1, 0) {
                true => record,
                false => Record { bo: 0, ..record },
            }
        });
        let records = records.collect();
        searches.compare(m1, records, wish)?;
    }
    searches.seen.enough(1_000)
}
