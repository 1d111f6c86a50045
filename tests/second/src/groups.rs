//! Groups of nine octets to feed to a program.

use crate::draw::Draw;
use crate::paper::codec::{self, Destination, Fields, GROUP};

/// 00 00 01 20 02 03 05 FE 12
pub const P1: [u8; GROUP] = [0x00, 0x00, 0x01, 0x20, 0x02, 0x03, 0x05, 0xFE, 0x12];

/// FF FF FF FF FF 0D FF 7F 13
pub const P2: [u8; GROUP] = [0xFF, 0xFF, 0xFF, 0xFF, 0xFF, 0x0D, 0xFF, 0x7F, 0x13];

/// What P1 carries.
pub const P1_FIELDS: Fields = Fields {
    d: Destination::Address(1),
    blg: 4,
    roff: 2,
    br: 3,
    bs: 5,
    bo: -2,
    bt: 2,
};

/// Codes that have a meaning.
const CODES: [u32; 13] = [0, 1, 2, 3, 4, 5, 6, 8, 9, 10, 11, 12, 13];

/// Fields in their ranges that have an address, every value alike but that roff
/// isn't bs.
pub fn addressed(draw: &mut Draw) -> Fields {
    let bs = 2 + draw.below(254);
    let roff = 2 + draw.below(253);
    Fields {
        d: Destination::Address(draw.below(1 << 27)),
        blg: draw.below(32),
        roff: roff + u32::from(roff >= bs),
        br: draw.one_of(&CODES),
        bs,
        bo: draw.below(255) as i32 - 127,
        bt: draw.below(4),
    }
}

/// The same that nobody is to re-broadcast: roff is bs.
pub fn not_rebroadcast(draw: &mut Draw) -> Fields {
    let fields = addressed(draw);
    Fields {
        d: Destination::NoRebroadcast(std::array::from_fn(|_| draw.octet())),
        roff: fields.bs,
        ..fields
    }
}

/// Fields in their ranges, one in four without a re-broadcast.
pub fn fields(draw: &mut Draw) -> Fields {
    match draw.below(4) {
        0 => not_rebroadcast(draw),
        _ => addressed(draw),
    }
}

/// The octets of fields, their reserved bits at random.
pub fn octets(fields: &Fields, draw: &mut Draw) -> [u8; GROUP] {
    codec::octets(fields, std::array::from_fn(|_| draw.octet()))
}

/// A group that is accepted, its reserved bits at random.
pub fn accepted(draw: &mut Draw) -> [u8; GROUP] {
    let fields = fields(draw);
    octets(&fields, draw)
}

/// The same with an address of any width, so that short lines come up too.
fn accepted_of_any_width(draw: &mut Draw) -> [u8; GROUP] {
    let mut fields = fields(draw);
    if let Destination::Address(d) = &mut fields.d {
        *d >>= draw.below(28);
    }
    octets(&fields, draw)
}

/// Gives one of octets 5 to 9 a value at either side of an edge.
fn set_edge(group: &mut [u8; GROUP], octet: u32, draw: &mut Draw) {
    match octet {
        5 => group[4] = draw.one_of(&[0, 1, 2, 3, 254, 255]),
        6 => group[5] = (draw.octet() & 0xF0) | draw.one_of(&[6, 7, 8, 13, 14, 15]),
        7 => group[6] = draw.one_of(&[0, 1, 2, 3, 254, 255]),
        8 => group[7] = draw.one_of(&[0x7F, 0x80, 0x81, 0xFF, 0x00]),
        // The neighbours of 00010 in value and in each single bit, and the
        // 00110 of the manual's running text.
        9 => {
            let id = draw.one_of(&[
                0b00010, 0b00001, 0b00010, 0b00011, 0b00010, 0b00000, 0b00010, 0b00110, 0b00010,
                0b01010, 0b00010, 0b10010,
            ]);
            group[8] = id << 3 | (draw.octet() & 7);
        }
        _ => unreachable!("no edges in octet {octet}"),
    }
}

/// One group of the mixture: of any octets, accepted, and near the edges.
pub fn mixed(draw: &mut Draw) -> [u8; GROUP] {
    let mut group = if draw.below(2) == 0 {
        accepted(draw)
    } else {
        accepted_of_any_width(draw)
    };
    match draw.below(16) {
        0 => group = std::array::from_fn(|_| draw.octet()),
        1 => {
            let last = group[8];
            group = std::array::from_fn(|_| draw.octet());
            group[8] = last;
        }
        2..=4 => group[draw.below(9) as usize] = draw.octet(),
        5..=8 => {
            let octet = 5 + draw.below(5);
            set_edge(&mut group, octet, draw);
        }
        9..=11 => (5..=9).for_each(|octet| set_edge(&mut group, octet, draw)),
        _ => {}
    }
    group
}

/// Spoils a group so that the given refusal, one of 2 to 6, applies to it.
/// Each spoils a place of its own, so several can be put together.
pub fn spoil(group: &mut [u8; GROUP], refusal: u32, draw: &mut Draw) {
    match refusal {
        2 => group[8] ^= (1 + draw.below(31) as u8) << 3,
        3 => group[5] = (group[5] & 0xF0) | draw.one_of(&[7, 14, 15]),
        4 => group[4] = draw.one_of(&[0, 1]),
        5 => group[6] = draw.one_of(&[0, 1]),
        6 => group[7] = 0x80,
        _ => unreachable!("reading never gives refusal {refusal}"),
    }
}

/// `count` groups, one after another.
pub fn many(count: usize, mut next: impl FnMut() -> [u8; GROUP]) -> Vec<u8> {
    let mut octets = Vec::with_capacity(count * GROUP);
    for _ in 0..count {
        octets.extend_from_slice(&next());
    }
    octets
}
