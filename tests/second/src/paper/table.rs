//! The table: records in lent octets, the state beside them, and the calls
//! that change them.

use super::codec;
use super::distance::{self, Distance};
use super::{Answer, Refusal, LATEST, STATIONS};

/// Octets in a record.
pub const RECORD: usize = 16;

/// The most records of a table.
pub const MOST_RECORDS: usize = 2_048;

/// No record begins later.
pub const LATEST_FIRST: u32 = LATEST + 255;

#[derive(Clone, Copy, Debug, Default, PartialEq, Eq)]
pub struct State {
    pub m1: u32,
    pub now: u32,
    pub count: u32,
}

#[derive(Clone, Copy, Debug, Default, PartialEq, Eq)]
pub struct Record {
    pub station: u32,
    pub first: u32,
    pub rate: u8,
    pub superframes: u8,
    pub length: u8,
    pub far: u8,
    /// The block offset; an octet of 128 is -128.
    pub bo: i8,
    pub zeros: [u8; 3],
}

impl Record {
    pub fn of_octets(octets: &[u8]) -> Record {
        let number = |place: usize| {
            (place..place + 4)
                .rev()
                .fold(0, |number, place| number * 256 + u32::from(octets[place]))
        };
        Record {
            station: number(0),
            first: number(4),
            rate: octets[8],
            superframes: octets[9],
            length: octets[10],
            far: octets[11],
            bo: octets[12] as i8,
            zeros: [octets[13], octets[14], octets[15]],
        }
    }

    pub fn octets(&self) -> Vec<u8> {
        let mut octets = Vec::with_capacity(RECORD);
        for number in [self.station, self.first] {
            octets.extend((0..4).map(|place| (number >> (8 * place)) as u8));
        }
        octets.extend([self.rate, self.superframes, self.length, self.far]);
        octets.push(self.bo as u8);
        octets.extend(self.zeros);
        octets
    }

    /// Where the further superframe of blocks begins, which there is when bo
    /// isn't 0: before the first slot perhaps, and before slot 0.
    pub fn further(&self, m1: u32) -> Option<i64> {
        let [first, m1] = [self.first, m1].map(i64::from);
        let start = first + i64::from(self.superframes) * m1 + i64::from(self.bo);
        (self.bo != 0).then_some(start)
    }

    /// The last slot of a series of so many superframes, from its first on; of
    /// a record whose rate is in its range.
    fn end(&self, first: i64, superframes: u8, m1: u32) -> i64 {
        let [rate, superframes, length] = [self.rate, superframes, self.length].map(i64::from);
        let m1 = i64::from(m1);
        first + (superframes - 1) * m1 + (rate - 1) * (m1 / rate) + length - 1
    }

    /// The later of the two series' ends.
    pub fn last_slot(&self, m1: u32) -> i64 {
        let end = self.end(self.first.into(), self.superframes, m1);
        match self.further(m1) {
            Some(start) => end.max(self.end(start, 1, m1)),
            None => end,
        }
    }

    fn in_ranges(&self) -> bool {
        self.station < STATIONS
            && self.first <= LATEST_FIRST
            && (1..=60).contains(&self.rate)
            && (1..=3).contains(&self.superframes)
            && (1..=32).contains(&self.length)
            && self.far <= 1
            && self.bo != -128
            && self.zeros == [0; 3]
    }

    /// Whether a sound table can hold it. Of the further series nothing is
    /// asked against now, but that the later end isn't before it.
    pub fn is_sound(&self, m1: u32, now: u32) -> bool {
        self.in_ranges()
            && self.further(m1).is_none_or(|start| start >= 0)
            && self.last_slot(m1) >= i64::from(now)
    }

    /// Whether refusal 16 takes them for the same; far doesn't matter.
    fn same_as(&self, other: &Record) -> bool {
        let told = |record: &Record| Record { far: 0, ..*record };
        told(self) == told(other)
    }
}

/// A sound table.
pub struct Table {
    pub records: Vec<Record>,
    pub m1: u32,
    pub now: u32,
    pub capacity: usize,
}

/// How many records a memory of so many octets holds, if it is of a right size.
fn capacity(octets: usize) -> Option<usize> {
    let capacity = octets / RECORD;
    ((1..=MOST_RECORDS).contains(&capacity) && octets.is_multiple_of(RECORD)).then_some(capacity)
}

impl Table {
    /// The table that octets and state hold; refusal 11 where it isn't sound.
    pub fn held(memory: &[u8], state: State) -> Result<Table, Refusal> {
        let State { m1, now, count } = state;
        let capacity = capacity(memory.len()).ok_or(11_u32)?;
        if codec::parameter(1, m1).is_err() || now > LATEST || count as usize > capacity {
            return Err(11);
        }
        let (records, tail) = memory.split_at(count as usize * RECORD);
        let records: Vec<Record> = records.chunks(RECORD).map(Record::of_octets).collect();
        let sound = |record: &Record| record.is_sound(m1, now);
        if !records.iter().all(sound) || tail.iter().any(|&octet| octet != 0) {
            return Err(11);
        }
        Ok(Table {
            records,
            m1,
            now,
            capacity,
        })
    }

    pub fn octets(&self) -> Vec<u8> {
        let mut octets = Vec::with_capacity(self.capacity * RECORD);
        for record in &self.records {
            octets.extend(record.octets());
        }
        octets.resize(self.capacity * RECORD, 0);
        octets
    }

    pub fn state(&self) -> State {
        State {
            m1: self.m1,
            now: self.now,
            count: self.records.len() as u32,
        }
    }

    /// Keeps some of the records in their order; how many went.
    fn keep(&mut self, kept: impl FnMut(&Record) -> bool) -> u32 {
        let before = self.records.len();
        self.records.retain(kept);
        (before - self.records.len()) as u32
    }
}

/// The calls on a table that is sound, and stays so. One that is refused
/// changes nothing.
impl Table {
    /// Refusals in the order 12, 13.
    pub fn clock(&mut self, slot: u32) -> Answer {
        if slot < self.now {
            return Err(12);
        }
        if slot > LATEST {
            return Err(13);
        }
        self.now = slot;
        let m1 = self.m1;
        Ok(self.keep(|record| record.last_slot(m1) >= i64::from(slot)))
    }

    /// Refusals in the order 8, 14, 15, 9, 5, 6, 24, 18, 16, 17.
    pub fn reserve(&mut self, asked: &Reservation) -> Answer {
        if asked.station >= STATIONS {
            return Err(8);
        }
        if asked.rate == 0 || asked.rate > 60 {
            return Err(14);
        }
        if asked.superframes == 0 {
            return Err(15);
        }
        if asked.superframes > 3 || asked.length == 0 || asked.length > 32 {
            return Err(9);
        }
        if asked.bs < 2 || asked.bs > 255 {
            return Err(5);
        }
        if asked.bo < -127 || asked.bo > 127 {
            return Err(6);
        }
        let record = Record {
            station: asked.station,
            first: self.now + asked.bs,
            rate: asked.rate as u8,
            superframes: asked.superframes as u8,
            length: asked.length as u8,
            far: distance::far(asked.distance, asked.limit).into(),
            bo: asked.bo as i8,
            zeros: [0; 3],
        };
        let further = record.further(self.m1);
        if further.is_some_and(|start| start < i64::from(self.now)) {
            return Err(24);
        }
        if distance::limit_refused(asked.limit) {
            return Err(18);
        }
        if self.records.iter().any(|held| held.same_as(&record)) {
            return Err(16);
        }
        if self.records.len() == self.capacity {
            return Err(17);
        }
        self.records.push(record);
        Ok(0)
    }

    /// Refusals in the order 8, 18.
    pub fn distance(&mut self, told: &Measure) -> Answer {
        if told.station >= STATIONS {
            return Err(8);
        }
        if distance::limit_refused(told.limit) {
            return Err(18);
        }
        let mut held = 0;
        for record in &mut self.records {
            if record.station == told.station {
                record.far = distance::far(told.distance, told.limit).into();
                held += 1;
            }
        }
        Ok(held)
    }

    /// Refusal 8 alone.
    pub fn wipe(&mut self, station: u32) -> Answer {
        if station >= STATIONS {
            return Err(8);
        }
        Ok(self.keep(|record| record.station != station))
    }
}

/// An empty table in a memory of so many octets. Refusals in the order 10, 1.
pub fn open(octets: usize, m1: u32) -> Result<Table, Refusal> {
    if codec::parameter(1, m1).is_err() {
        return Err(10);
    }
    Ok(Table {
        records: Vec::new(),
        m1,
        now: 0,
        capacity: capacity(octets).ok_or(1_u32)?,
    })
}

/// What a reserve asks for.
#[derive(Clone, Copy, Debug)]
pub struct Reservation {
    pub station: u32,
    pub rate: u32,
    pub superframes: u32,
    pub bs: u32,
    pub length: u32,
    pub bo: i32,
    pub distance: Distance,
    pub limit: f64,
}

/// What a distance call tells of a station.
#[derive(Clone, Copy, Debug)]
pub struct Measure {
    pub station: u32,
    pub distance: Distance,
    pub limit: f64,
}
