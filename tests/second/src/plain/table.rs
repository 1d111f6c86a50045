//! A table by hand: its records, and whether it is sound. The peers that replay
//! a log use these too.

pub const RECORD: usize = 16;
pub const LAST_SLOT: u32 = 1_000_000_000;
pub const ADDRESSES: u32 = 1 << 27;
const MOST_RECORDS: usize = 2048;
pub const MOST_BS: u32 = 255;

/// The number reported, or the refusal.
pub type Answer = Result<u32, u32>;

pub fn is_superframe(m1: u32) -> bool {
    (60..=15360).contains(&m1) && m1.is_multiple_of(60)
}

/// A channel's state beside its memory.
#[derive(Clone, Copy, Debug, PartialEq)]
pub struct State {
    pub m1: u32,
    pub now: u32,
    pub count: u32,
}

#[derive(Clone, Copy, PartialEq)]
pub struct Record {
    pub station: u32,
    pub first: u32,
    pub rate: u32,
    pub superframes: u32,
    pub length: u32,
    pub far: u8,
    pub bo: i32,
}

impl Record {
    /// As a call it would go over the stack, field by field.
    #[inline(always)]
    pub fn read(octets: &[u8]) -> Self {
        Record {
            station: u32::from_le_bytes(octets[0..4].try_into().unwrap()),
            first: u32::from_le_bytes(octets[4..8].try_into().unwrap()),
            rate: octets[8].into(),
            superframes: octets[9].into(),
            length: octets[10].into(),
            far: octets[11],
            bo: (octets[12] as i8).into(),
        }
    }

    pub fn write(&self, octets: &mut [u8]) {
        octets[0..4].copy_from_slice(&self.station.to_le_bytes());
        octets[4..8].copy_from_slice(&self.first.to_le_bytes());
        octets[8] = self.rate as u8;
        octets[9] = self.superframes as u8;
        octets[10] = self.length as u8;
        octets[11] = self.far;
        octets[12..16].copy_from_slice(&u32::from(self.bo as u8).to_le_bytes());
    }

    /// Where the further series starts, which there is unless bo is 0.
    pub fn further(&self, m1: u32) -> u32 {
        self.first
            .wrapping_add_signed((self.superframes * m1) as i32 + self.bo)
    }

    pub fn last(&self, m1: u32) -> u32 {
        let last = self.first
            + (self.superframes - 1) * m1
            + (self.rate - 1) * (m1 / self.rate)
            + self.length
            - 1;
        // So much later does the further series end, if it does.
        let later = (m1 as i32 + self.bo).max(0) as u32;
        last + if self.bo == 0 { 0 } else { later }
    }

    fn is_sound(&self, m1: u32, now: u32) -> bool {
        self.station < ADDRESSES
            && self.first <= LAST_SLOT + MOST_BS
            && (1..=60).contains(&self.rate)
            && (1..=3).contains(&self.superframes)
            && (1..=32).contains(&self.length)
            && self.far <= 1
            && self.further(m1) as i32 >= 0
            && self.last(m1) >= now
    }
}

fn octets_of(memory: &[u8], state: State) -> impl Iterator<Item = &[u8]> {
    memory[..state.count as usize * RECORD].chunks_exact(RECORD)
}

pub fn records(memory: &[u8], state: State) -> impl Iterator<Item = Record> + '_ {
    octets_of(memory, state).map(Record::read)
}

/// Whether octets are those of a sound record.
fn is_sound_record(octets: &[u8], m1: u32, now: u32) -> bool {
    // A bo, and the three zeros behind it.
    let tail = u32::from_le_bytes(octets[12..16].try_into().unwrap());
    tail <= 255 && tail != 128 && Record::read(octets).is_sound(m1, now)
}

pub fn size_is_right(memory: &[u8]) -> bool {
    !memory.is_empty()
        && memory.len().is_multiple_of(RECORD)
        && memory.len() <= MOST_RECORDS * RECORD
}

pub fn is_sound(memory: &[u8], state: State) -> bool {
    size_is_right(memory)
        && is_superframe(state.m1)
        && state.now <= LAST_SLOT
        && state.count as usize <= memory.len() / RECORD
        && octets_of(memory, state).all(|octets| is_sound_record(octets, state.m1, state.now))
        // Without an early exit, so that whole vectors are tested.
        && memory[state.count as usize * RECORD..]
            .iter()
            .fold(0, |seen, octet| seen | octet)
            == 0
}

/// What clock and slot state refuse.
pub fn check_slot(state: State, slot: u32) -> Result<(), u32> {
    if slot < state.now {
        return Err(12);
    }
    if slot > LAST_SLOT {
        return Err(13);
    }
    Ok(())
}
