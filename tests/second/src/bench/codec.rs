//! The calls without a table.

use std::hint::black_box;

use super::archive::{self, number};
use super::figures::{time, Figures, Side};
use crate::archive::block_of;
use crate::draw::Draw;
use crate::gemthatch::Tally;
use crate::groups;
use crate::plain;

/// Different inputs of a call.
const INPUTS: usize = 65536;

/// Few enough to stay within the nearest cache.
const BATCH: usize = 1024;

/// One input in sixteen is spoilt.
fn spoilt(draw: &mut Draw) -> bool {
    draw.below(16) == 0
}

/// Times two functions over the same inputs, once all their answers agree and
/// what they leave: each gets a copy of an input, made outside the time taken. A
/// slice goes to them through a black box, or the peer would be compiled for the
/// one length it meets.
fn measure<I: Copy + PartialEq, A: PartialEq>(
    input: impl Fn(&mut Draw) -> I,
    archive: impl Fn(&mut I) -> A,
    plain: impl Fn(&mut I) -> A,
) -> Result<Figures, String> {
    let mut draw = Draw::from_seed(11);
    let inputs: Vec<I> = (0..INPUTS).map(|_| input(&mut draw)).collect();
    for (place, &input) in inputs.iter().enumerate() {
        let (mut one, mut other) = (input, input);
        if archive(&mut one) != plain(&mut other) {
            return Err(format!("input {place}: the answers differ"));
        }
        if one != other {
            return Err(format!("input {place}: what is left differs"));
        }
    }
    let mut lent = inputs[..BATCH].to_vec();
    Ok(Figures::by_turns(BATCH, |side, number| {
        let start = number * BATCH % INPUTS;
        lent.copy_from_slice(&inputs[start..start + BATCH]);
        time(|| match side {
            Side::Archive => lent.iter_mut().for_each(|input| {
                black_box(&archive(black_box(input)));
            }),
            Side::Peer => lent.iter_mut().for_each(|input| {
                black_box(&plain(black_box(input)));
            }),
        })
    }))
}

fn read() -> Result<Figures, String> {
    measure(
        |draw| {
            let mut group = groups::accepted(draw);
            if spoilt(draw) {
                let refusal = 2 + draw.below(5);
                groups::spoil(&mut group, refusal, draw);
            }
            group
        },
        |group| archive::read(black_box(group)),
        |group| plain::read(black_box(group)),
    )
}

fn write() -> Result<Figures, String> {
    measure(
        |draw| {
            let mut block = block_of(&groups::fields(draw));
            if spoilt(draw) {
                match draw.below(8) {
                    0 => block.d += 1 << 27,
                    1 => block.destination ^= 1,
                    2 => block.blg += 32,
                    3 => block.bt += 4,
                    4 => block.br = draw.one_of(&[7, 14, 15, 16]),
                    5 => block.roff = draw.one_of(&[0, 1, 256]),
                    6 => block.bs = draw.one_of(&[0, 1, 256]),
                    _ => block.bo = draw.one_of(&[-128, 128]),
                }
            }
            block
        },
        |&mut block| archive::write(block),
        |&mut block| plain::write(block),
    )
}

/// 004's Table 1-33.
const RATES: [u8; 16] = [1, 2, 3, 4, 5, 6, 8, 0, 10, 12, 15, 20, 30, 60, 0, 0];

fn rate() -> Result<Figures, String> {
    measure(
        |draw| {
            let mut rates = RATES;
            if spoilt(draw) {
                rates[draw.below(16) as usize] = draw.octet();
            }
            (rates, draw.below(16))
        },
        |&mut (ref rates, code)| archive::rate(black_box(rates), code),
        |&mut (ref rates, code)| number(plain::rate(black_box(rates), code)),
    )
}

fn parameter() -> Result<Figures, String> {
    measure(
        |draw| {
            let (row, figure) = match draw.below(3) {
                0 => (1, 60 * (1 + draw.below(256))),
                1 => (2, 1 + draw.below(256)),
                _ => (3, 1 + draw.below(65536)),
            };
            match spoilt(draw) {
                true => (draw.below(5), figure + draw.below(60)),
                false => (row, figure),
            }
        },
        |&mut (row, figure)| archive::parameter(row, figure),
        |&mut (row, figure)| number(plain::parameter(row, figure)),
    )
}

fn pick() -> Result<Figures, String> {
    measure(
        |draw| {
            let n = match spoilt(draw) {
                true => draw.one_of(&[0, 17]),
                false => 1 + draw.below(16),
            };
            (n, draw.number() as u32)
        },
        |&mut (n, r)| archive::pick(n, r),
        |&mut (n, r)| number(plain::pick(n, r)),
    )
}

/// Half of what is counted is refused. A spoilt tally has one of its counts at
/// the end or just before it.
fn count() -> Result<Figures, String> {
    measure(
        |draw| {
            let mut tally = Tally {
                accepted: draw.below(1 << 31),
                refused: draw.below(1 << 31),
            };
            if spoilt(draw) {
                let end = u32::MAX - draw.below(2);
                match draw.below(2) {
                    0 => tally.accepted = end,
                    _ => tally.refused = end,
                }
            }
            let refusal = match draw.below(2) {
                0 => 0,
                _ => 1 + draw.below(22),
            };
            (tally, refusal)
        },
        |(tally, refusal)| archive::count(tally, *refusal),
        |(tally, refusal)| plain::count(tally, *refusal),
    )
}

type Bench = fn() -> Result<Figures, String>;

const CALLS: [(&str, Bench); 6] = [
    ("read", read),
    ("write", write),
    ("rate", rate),
    ("parameter", parameter),
    ("pick", pick),
    ("count", count),
];

/// The calls whose name has a word in it.
pub fn table(word: &str) -> Result<(), String> {
    println!("Calls without a table, most of them accepted:\n");
    println!(
        "| {:<21} | {:>8} | {:>8} | {:>5} |",
        "call", "archive", "plain", "ratio"
    );
    println!("|---|---:|---:|---:|");
    for (name, bench) in CALLS.into_iter().filter(|(name, _)| name.contains(word)) {
        let figures = bench().map_err(|error| format!("{name}: {error}"))?;
        println!("| {name:<21} | {figures} |");
    }
    println!();
    Ok(())
}
