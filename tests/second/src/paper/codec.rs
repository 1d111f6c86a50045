//! The nine octets, the rate list, the parameters and the listing. Octets are
//! numbered from 1, bit 8 is the highest.

use super::{Answer, Refusal, STATIONS};

/// Octets in a group.
pub const GROUP: usize = 9;

/// The first line of every listing.
pub const HEADER: &str = "d blg roff br bs bo bt\n";

/// Codes without a rate, whatever the list says.
const INVALID_CODES: [u32; 3] = [7, 14, 15];

/// Table 1-33 of the manual: a rate for each code, 0 means no rate.
pub const TABLE_1_33: [u8; 16] = [1, 2, 3, 4, 5, 6, 8, 0, 10, 12, 15, 20, 30, 60, 0, 0];

/// A row of Table 1-3 of the manual; the default plays no part here.
struct Parameter {
    minimum: u32,
    maximum: u32,
    step: u32,
}

/// M1, M2inc and M2limit, numbered from 1.
const PARAMETERS: [Parameter; 3] = [
    Parameter {
        minimum: 60,
        maximum: 15_360,
        step: 60,
    },
    Parameter {
        minimum: 1,
        maximum: 256,
        step: 1,
    },
    Parameter {
        minimum: 1,
        maximum: 65_536,
        step: 1,
    },
];

/// Who is to re-broadcast a group: a station, or nobody. Then the first three
/// octets belong to the information field.
#[derive(Clone, Copy, Debug, PartialEq, Eq)]
pub enum Destination {
    Address(u32),
    NoRebroadcast([u8; 3]),
}

impl Destination {
    /// As it comes over C: a kind above 1 is an address too, and what the kind
    /// doesn't use is ignored.
    pub fn over_c(kind: u32, d: u32, information: [u8; 3]) -> Destination {
        match kind {
            1 => Destination::NoRebroadcast(information),
            _ => Destination::Address(d),
        }
    }
}

/// A refused reading's.
impl Default for Destination {
    fn default() -> Destination {
        Destination::Address(0)
    }
}

/// What an accepted group carries, in the listing's order.
#[derive(Clone, Copy, Debug, Default, PartialEq, Eq)]
pub struct Fields {
    pub d: Destination,
    pub blg: u32,
    pub roff: u32,
    pub br: u32,
    pub bs: u32,
    pub bo: i32,
    pub bt: u32,
}

/// The number formed by bits `high` down to `low` of an octet.
fn bits(octet: u8, high: u32, low: u32) -> u32 {
    (low..=high).rev().fold(0, |number, bit| {
        number * 2 + u32::from(octet >> (bit - 1) & 1)
    })
}

/// Reads a group of any length: its fields, or the number of the first
/// refusal that applies, in the order 1, 2, 3, 4, 5, 6.
pub fn read(group: &[u8]) -> Result<Fields, Refusal> {
    let &[o1, o2, o3, o4, o5, o6, o7, o8, o9] = group else {
        return Err(1);
    };
    let address = [bits(o4, 3, 1), o1.into(), o2.into(), o3.into()]
        .iter()
        .fold(0, |d, part| d * 256 + part);
    let fields = Fields {
        d: if o5 == o7 {
            Destination::NoRebroadcast([o1, o2, o3])
        } else {
            Destination::Address(address)
        },
        blg: bits(o4, 8, 4),
        roff: o5.into(),
        br: bits(o6, 4, 1),
        bs: o7.into(),
        bo: i32::from(o8) - if o8 >= 128 { 256 } else { 0 },
        bt: bits(o9, 2, 1),
    };
    if bits(o9, 8, 4) != 0b00010 {
        return Err(2);
    }
    judge(&fields)?;
    Ok(fields)
}

/// The refusals that reading and writing share, in the order 3, 4, 5, 6.
fn judge(fields: &Fields) -> Result<(), Refusal> {
    if fields.br > 15 || INVALID_CODES.contains(&fields.br) {
        Err(3)
    } else if !(2..=255).contains(&fields.roff) {
        Err(4)
    } else if !(2..=255).contains(&fields.bs) {
        Err(5)
    } else if !(-127..=127).contains(&fields.bo) {
        Err(6)
    } else {
        Ok(())
    }
}

/// Writes fields of any value: nine octets with the reserved bits 0, or the
/// first refusal that applies, in the order 8, 9, 3, 4, 5, 6, 34.
pub fn write(fields: &Fields) -> Result<[u8; GROUP], Refusal> {
    if matches!(fields.d, Destination::Address(STATIONS..)) {
        return Err(8);
    }
    if fields.blg > 31 || fields.bt > 3 {
        return Err(9);
    }
    judge(fields)?;
    match fields.d {
        Destination::Address(_) if fields.roff == fields.bs => Err(34),
        Destination::NoRebroadcast(_) if fields.roff != fields.bs => Err(34),
        _ => Ok(octets(fields, [0; GROUP])),
    }
}

/// The nine octets of fields that are within their ranges, the reserved bits
/// those of `reserved`.
pub fn octets(fields: &Fields, reserved: [u8; GROUP]) -> [u8; GROUP] {
    let [low_3, o1, o2, o3] = match fields.d {
        Destination::Address(d) => d.to_be_bytes(),
        Destination::NoRebroadcast([o1, o2, o3]) => [reserved[3] & 0b111, o1, o2, o3],
    };
    [
        o1,
        o2,
        o3,
        fields.blg as u8 * 8 + low_3,
        fields.roff as u8,
        fields.br as u8 + (reserved[5] & 0b1111_0000),
        fields.bs as u8,
        fields.bo as u8,
        0b00010 * 8 + (reserved[8] & 0b100) + fields.bt as u8,
    ]
}

/// A group with its reserved bits cleared, octet 4's where roff equals bs.
pub fn cleared(mut group: [u8; GROUP]) -> [u8; GROUP] {
    group[5] &= 0b0000_1111;
    group[8] &= 0b1111_1011;
    if group[4] == group[6] {
        group[3] &= 0b1111_1000;
    }
    group
}

/// The rate that a list has for a code; refusals in the order 7, 3.
pub fn rate(list: &[u8], code: u32) -> Answer {
    let sixteen = list.len() == 16;
    if !sixteen || list.iter().any(|&rate| rate > 60) {
        return Err(7);
    }
    if INVALID_CODES.iter().any(|&code| list[code as usize] != 0) {
        return Err(7);
    }
    match list.get(code as usize) {
        None | Some(0) => Err(3),
        Some(&rate) => Ok(rate.into()),
    }
}

/// Whether a figure fits the row of that number; refusals in the order 22, 10.
pub fn parameter(number: u32, figure: u32) -> Answer {
    if !(1..=3).contains(&number) {
        return Err(22);
    }
    let row = &PARAMETERS[number as usize - 1];
    let in_range = (row.minimum..=row.maximum).contains(&figure);
    if in_range && (figure - row.minimum).is_multiple_of(row.step) {
        Ok(0)
    } else {
        Err(10)
    }
}

/// The line of the listing for what reading a group gave.
pub fn line(reading: Result<Fields, Refusal>) -> String {
    match reading {
        Ok(Fields {
            d,
            blg,
            roff,
            br,
            bs,
            bo,
            bt,
        }) => {
            let d = match d {
                Destination::Address(d) => d.to_string(),
                Destination::NoRebroadcast(_) => "-".to_string(),
            };
            format!("{d} {blg} {roff} {br} {bs} {bo} {bt}\n")
        }
        Err(number) => format!("refused {number}\n"),
    }
}

/// The whole listing of an input that ends after these octets.
pub fn listing(input: &[u8]) -> Vec<u8> {
    let mut text = HEADER.as_bytes().to_vec();
    for group in input.chunks(GROUP) {
        text.extend_from_slice(line(read(group)).as_bytes());
    }
    text
}
