//! Reading, writing, the rate lookup, the parameter check and the pick.

use super::pair::{Call, Pair};
use super::{expect, often};
use crate::archive;
use crate::draw::Draw;
use crate::gemthatch::Block;
use crate::groups::{self, P1};
use crate::paper::codec::{self, Destination, Fields, GROUP, TABLE_1_33};
use crate::report::Verdict;

/// What was read is written again: the same octets, the reserved bits cleared.
fn read_and_write(pair: &mut Pair, group: &[u8; GROUP]) -> Result<(), String> {
    if let Ok(fields) = pair.read(group)? {
        let written = pair.write(&fields)?;
        if written != Ok(codec::cleared(*group)) {
            return Err(format!("{group:02X?} read, then written: {written:02X?}"));
        }
    }
    Ok(())
}

/// What was written is read again: the same fields.
fn write_and_read(pair: &mut Pair, fields: &Fields) -> Result<(), String> {
    if let Ok(octets) = pair.write(fields)? {
        let read = pair.read(&octets)?;
        if read != Ok(*fields) {
            return Err(format!("{fields:?} written, then read: {read:?}"));
        }
    }
    Ok(())
}

pub fn reading(pair: &mut Pair) -> Verdict {
    let before = pair.counts.clone();
    for place in 0..GROUP {
        for octet in 0..=255 {
            let mut group = P1;
            group[place] = octet;
            read_and_write(pair, &group)?;
        }
    }
    let mut draw = Draw::from_seed(101);
    for length in 0..=20 {
        for _ in 0..100 {
            let group: Vec<u8> = (0..length).map(|_| draw.octet()).collect();
            let _ = pair.read(&group)?;
            // One whose first nine octets are accepted.
            let mut group = groups::accepted(&mut draw).to_vec();
            group.resize(length, 0);
            let _ = pair.read(&group)?;
        }
    }
    for _ in 0..300_000 {
        read_and_write(pair, &groups::mixed(&mut draw))?;
    }
    let seen = often(pair, &before, Call::Read, 1_000)?;
    Ok(format!(
        "answers {seen}; written again, only reserved bits cleared"
    ))
}

/// Gives one or more fields a value at either side of an edge.
fn spoil(draw: &mut Draw, fields: &mut Fields) {
    const TWO: [u32; 8] = [0, 1, 2, 3, 254, 255, 256, u32::MAX];
    for _ in 0..=draw.below(3) {
        match draw.below(7) {
            0 => {
                let d = draw.one_of(&[0, (1 << 27) - 1, 1 << 27, (1 << 27) + 1, u32::MAX]);
                fields.d = Destination::Address(d);
            }
            1 => fields.blg = draw.one_of(&[0, 31, 32, 33, 255, 256, u32::MAX]),
            2 => fields.roff = draw.one_of(&TWO),
            3 => fields.br = draw.one_of(&[6, 7, 8, 13, 14, 15, 16, 17, 23, 256, u32::MAX]),
            4 => fields.bs = draw.one_of(&TWO),
            5 => {
                let edges = [-128, -127, 127, 128, -129, 255, 256, i32::MIN, i32::MAX];
                fields.bo = draw.one_of(&edges);
            }
            _ => fields.bt = draw.one_of(&[0, 3, 4, 5, 256, u32::MAX]),
        }
    }
}

pub fn writing(pair: &mut Pair) -> Verdict {
    let before = pair.counts.clone();
    let mut draw = Draw::from_seed(102);
    for round in 0..200_000 {
        let mut fields = groups::fields(&mut draw);
        match round % 8 {
            0..=2 => {}
            3 => {
                fields = Fields {
                    d: match draw.below(2) {
                        0 => Destination::Address(draw.number() as u32),
                        _ => Destination::NoRebroadcast(std::array::from_fn(|_| draw.octet())),
                    },
                    blg: draw.number() as u32,
                    roff: draw.number() as u32,
                    br: draw.number() as u32,
                    bs: draw.number() as u32,
                    bo: draw.number() as i32,
                    bt: draw.number() as u32,
                }
            }
            _ => spoil(&mut draw, &mut fields),
        }
        write_and_read(pair, &fields)?;
    }
    for bo in -200..=200 {
        write_and_read(
            pair,
            &Fields {
                bo,
                ..groups::fields(&mut draw)
            },
        )?;
    }
    let seen = often(pair, &before, Call::Write, 1_000)?;
    Ok(format!("answers {seen}; read again, the same fields"))
}

/// A group that is not refused, as it has to be read; its first four octets, as
/// they have to be written; and another destination, which has to be refused.
fn destination(
    pair: &mut Pair,
    group: &[u8; GROUP],
    d: Destination,
    written: [u8; 4],
    misplaced: Destination,
) -> Result<(), String> {
    let fields = pair.read(group)?;
    let fields = fields.map_err(|refusal| format!("{group:02X?} refused {refusal}"))?;
    expect("destination", d, fields.d)?;
    expect("blg", u32::from(group[3] >> 3), fields.blg)?;
    let octets = pair.write(&fields)?.map(|octets| octets[..4].to_vec());
    expect("octets 1 to 4", Ok(written.to_vec()), octets)?;
    let refused = pair.write(&Fields {
        d: misplaced,
        ..fields
    })?;
    expect("misplaced", Err(34), refused)
}

/// Each roff with bs equal to it and with a neighbour, and each octet 4: what
/// octets 1 to 4 are stands here as the paper has it, whatever our reading says.
pub fn destinations(pair: &mut Pair) -> Verdict {
    let mut draw = Draw::from_seed(106);
    let mut groups_read = 0;
    for (roff, octet_4) in (0..=255).flat_map(|roff| (0..=255).map(move |octet| (roff, octet))) {
        let mut group = groups::accepted(&mut draw);
        (group[3], group[4], group[6]) = (octet_4, roff, roff);
        if roff < 2 {
            expect("roff and bs too low", Err(4), pair.read(&group)?)?;
            continue;
        }
        let [o1, o2, o3, ..] = group;
        let octets = Destination::NoRebroadcast([o1, o2, o3]);
        let address = Destination::Address(u32::from_be_bytes([octet_4 & 7, o1, o2, o3]));
        let cleared = [o1, o2, o3, octet_4 & 0xF8];
        destination(pair, &group, octets, cleared, address)?;
        group[6] = if roff == 255 { 254 } else { roff + 1 };
        destination(pair, &group, address, [o1, o2, o3, octet_4], octets)?;
        groups_read += 1;
    }
    // Any kind but 1 is an address, and what isn't used may be anything.
    for _ in 0..20_000 {
        let noise = Block {
            destination: draw.one_of(&[0, 1, 1, 1, 2, 3, 255, 256, 257, 1 << 31, u32::MAX]),
            d: draw.number() as u32 >> draw.below(32),
            information: std::array::from_fn(|_| draw.octet()),
            ..archive::block_of(&groups::fields(&mut draw))
        };
        let _ = pair.write_block(noise)?;
    }
    Ok(format!(
        "each roff with each octet 4, bs equal to it and not: {groups_read} groups of either kind; \
         kinds above 1"
    ))
}

pub fn rates(pair: &mut Pair) -> Verdict {
    let before = pair.counts.clone();
    let mut draw = Draw::from_seed(103);
    let codes: Vec<u32> = (0..=20)
        .chain([255, 256, 263, 1 << 16, 1 << 31, u32::MAX - 1, u32::MAX])
        .collect();
    let all_codes = |pair: &mut Pair, list: &[u8]| {
        codes
            .iter()
            .try_for_each(|&code| pair.rate(list, code).map(drop))
    };
    all_codes(pair, &TABLE_1_33)?;
    all_codes(pair, &[0; 16])?;
    let counts = pair.counts.since(&before);
    if (counts.of(Call::Rate, 0), counts.of(Call::Rate, 7)) != (13, 0) {
        return Err("thirteen codes of Table 1-33 have a rate".to_string());
    }
    // Each entry at either side of each edge, all others good.
    for place in 0..16 {
        for rate in [0, 1, 59, 60, 61, 62, 127, 128, 255] {
            let mut list = TABLE_1_33;
            list[place] = rate;
            all_codes(pair, &list)?;
        }
    }
    for length in 0..=20 {
        let list: Vec<u8> = TABLE_1_33.into_iter().chain([0; 4]).take(length).collect();
        all_codes(pair, &list)?;
    }
    for _ in 0..4_000 {
        let mut list: Vec<u8> = (0..16).map(|_| draw.below(61) as u8).collect();
        for place in [7, 14, 15] {
            list[place] = 0;
        }
        if draw.below(3) == 0 {
            list[draw.below(16) as usize] = draw.octet();
        }
        if draw.below(8) == 0 {
            list.resize(draw.below(21) as usize, 0);
        }
        all_codes(pair, &list)?;
    }
    let seen = often(pair, &before, Call::Rate, 1_000)?;
    Ok(format!(
        "Table 1-33, lists of 0 to 20 entries, bad lists of each kind; answers {seen}"
    ))
}

pub fn parameters(pair: &mut Pair) -> Verdict {
    let before = pair.counts.clone();
    let mut fitting = [0; 6];
    for number in 0..=5 {
        for figure in 0..=70_000 {
            let fits = pair.parameter(number, figure)?.is_ok();
            fitting[number as usize] += u32::from(fits);
        }
    }
    // Counted by hand from the paper.
    if fitting != [0, 256, 256, 65_536, 0, 0] {
        return Err(format!("so many figures fit: {fitting:?}"));
    }
    let mut draw = Draw::from_seed(104);
    for _ in 0..20_000 {
        let number = draw.one_of(&[0, 1, 2, 3, 4, 1 << 31, u32::MAX]);
        let figure = draw.number() as u32 >> draw.below(32);
        let _ = pair.parameter(number, figure)?;
        let _ = pair.parameter(number, u32::MAX - draw.below(100))?;
        let _ = pair.parameter(draw.number() as u32, figure)?;
    }
    let seen = often(pair, &before, Call::Parameter, 1_000)?;
    Ok(format!("256, 256 and 65536 figures fit; answers {seen}"))
}

pub fn picks(pair: &mut Pair) -> Verdict {
    let before = pair.counts.clone();
    let mut draw = Draw::from_seed(105);
    for n in (0..=20).chain([255, 256, 257, 1 << 31, u32::MAX]) {
        for _ in 0..200 {
            for r in [
                draw.number() as u32,
                draw.below(40),
                u32::MAX - draw.below(40),
            ] {
                if let Ok(place) = pair.pick(n, r)? {
                    if place >= n {
                        return Err(format!("place {place} of {n}"));
                    }
                }
            }
        }
    }
    let seen = often(pair, &before, Call::Pick, 1_000)?;
    Ok(format!("always below n; answers {seen}"))
}
