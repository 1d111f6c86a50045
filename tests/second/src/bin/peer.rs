//! The peers for the benchmark: the programs as one would write them by hand.
//! Of the listing `peer plain`, digit by digit as usual, and `peer tuned`, for
//! speed alone, from tables of whole numbers. Of the replay `peer replay`, which
//! tests the whole table at each log record as the calls do, and
//! `peer replay-trusting`, which doesn't. All meet the same checks as what they
//! stand beside and use the same words.

#[path = "../plain/changes.rs"]
mod changes;
#[path = "../plain/log.rs"]
mod log;
#[path = "../plain/table.rs"]
mod table;

use std::fs::File;
use std::io::{self, ErrorKind, Read, Write};
use std::os::fd::AsFd;
use std::process::ExitCode;

use log::ENTRY;
use table::State;

const GROUP: usize = 9;
const READ: usize = 32768;

/// The most octets at hand: one read and those kept from the read before.
const HELD: usize = GROUP - 1 + READ;

const HEADER: &[u8] = b"d blg roff br bs bo bt\n";

/// No line is longer than "134217727 31 255 13 254 -127 3\n".
const LONGEST_LINE: usize = 31;

/// What a line could touch if every piece were seven octets long, which is all
/// that the compiler knows of them.
const LINE_ROOM: usize = 64;

/// Room for the lines of all octets at hand, and more than enough for those of
/// log records.
const ROOM: usize = HELD / GROUP * LONGEST_LINE + LINE_ROOM;

/// Text of at most seven octets, for one store of eight: the text first, its
/// length in the last octet.
type Piece = u64;

const fn piece(number: i32, after: &[u8]) -> Piece {
    let mut text = [0; 8];
    let mut length = 0;
    let size = number.unsigned_abs();
    if number < 0 {
        text[length] = b'-';
        length += 1;
    }
    if size >= 100 {
        text[length] = b'0' + (size / 100) as u8;
        length += 1;
    }
    if size >= 10 {
        text[length] = b'0' + (size / 10 % 10) as u8;
        length += 1;
    }
    text[length] = b'0' + (size % 10) as u8;
    length += 1;
    let mut next = 0;
    while next < after.len() {
        text[length] = after[next];
        length += 1;
        next += 1;
    }
    text[7] = length as u8;
    u64::from_le_bytes(text)
}

/// Each number below 1000 and a space.
static NUMBERS: [Piece; 1000] = {
    let mut table = [0; 1000];
    let mut number = 0;
    while number < 1000 {
        table[number] = piece(number as i32, b" ");
        number += 1;
    }
    table
};

/// Each number below 1000 in three digits and a space.
static THREE_DIGITS: [[u8; 4]; 1000] = {
    let mut table = [*b"000 "; 1000];
    let mut number = 0;
    while number < 1000 {
        table[number][0] += (number / 100) as u8;
        table[number][1] += (number / 10 % 10) as u8;
        table[number][2] += (number % 10) as u8;
        number += 1;
    }
    table
};

/// The end of the line for each octet 8 and each bt.
static ENDS: [[Piece; 4]; 256] = {
    let mut table = [[0; 4]; 256];
    let mut octet = 0;
    while octet < 256 {
        let mut bt = 0;
        while bt < 4 {
            let after = [b' ', b'0' + bt as u8, b'\n'];
            table[octet][bt] = piece(octet as u8 as i8 as i32, &after);
            bt += 1;
        }
        octet += 1;
    }
    table
};

/// Lines waiting to be written.
type Lines = [u8; ROOM];

/// Puts a piece at a place and returns the place after it.
#[inline(always)]
fn put(lines: &mut Lines, at: usize, piece: Piece) -> usize {
    lines[at..at + 8].copy_from_slice(&piece.to_le_bytes());
    at + (piece >> 56 & 7) as usize
}

/// Puts three digits and a space.
#[inline(always)]
fn put_three(lines: &mut Lines, at: usize, number: u32) -> usize {
    lines[at..at + 4].copy_from_slice(&THREE_DIGITS[number as usize]);
    at + 4
}

#[inline(always)]
fn put_refusal(lines: &mut Lines, at: usize, number: u8) -> usize {
    lines[at..at + 8].copy_from_slice(b"refused ");
    lines[at + 8] = b'0' + number;
    lines[at + 9] = b'\n';
    at + 10
}

/// The refusal that a group calls for, 0 for none.
#[inline(always)]
fn refusal(group: &[u8; GROUP]) -> u8 {
    let &[_, _, _, _, roff, o6, bs, bo, o9] = group;
    if o9 >> 3 != 0b00010 {
        2
    } else if matches!(o6 & 15, 7 | 14 | 15) {
        3
    } else if roff < 2 {
        4
    } else if bs < 2 {
        5
    } else if bo == 0x80 {
        6
    } else {
        0
    }
}

/// In an address's place where nobody is to re-broadcast.
#[inline(always)]
fn put_dash(lines: &mut Lines, at: usize) -> usize {
    lines[at..at + 2].copy_from_slice(b"- ");
    at + 2
}

#[inline(always)]
fn address(group: &[u8; GROUP]) -> u32 {
    u32::from_be_bytes([group[3] & 7, group[0], group[1], group[2]])
}

/// A number's digits, found from the last one on, and then an octet.
#[inline(always)]
fn put_number(lines: &mut Lines, at: usize, number: u32, after: u8) -> usize {
    let mut digits = [0; 10];
    let mut first = digits.len();
    let mut rest = number;
    loop {
        first -= 1;
        digits[first] = b'0' + (rest % 10) as u8;
        rest /= 10;
        if rest == 0 {
            break;
        }
    }
    let end = at + digits.len() - first;
    lines[at..end].copy_from_slice(&digits[first..]);
    lines[end] = after;
    end + 1
}

/// Puts a group's line at a place and returns the place after it.
#[inline(always)]
fn put_plain(lines: &mut Lines, at: usize, group: &[u8; GROUP]) -> usize {
    let number = refusal(group);
    if number != 0 {
        return put_refusal(lines, at, number);
    }
    let &[_, _, _, o4, roff, o6, bs, bo, o9] = group;
    let mut at = if roff == bs {
        put_dash(lines, at)
    } else {
        put_number(lines, at, address(group), b' ')
    };
    for field in [o4 >> 3, roff, o6 & 15, bs] {
        at = put_number(lines, at, field.into(), b' ');
    }
    let bo = bo as i8;
    if bo < 0 {
        lines[at] = b'-';
        at += 1;
    }
    at = put_number(lines, at, bo.unsigned_abs().into(), b' ');
    put_number(lines, at, (o9 & 3).into(), b'\n')
}

/// The same line from the tables.
#[inline(always)]
fn put_tuned(lines: &mut Lines, at: usize, group: &[u8; GROUP]) -> usize {
    // Never fails. With it the compiler drops the checks of the stores.
    assert!(at <= ROOM - LINE_ROOM);
    let number = refusal(group);
    if number != 0 {
        return put_refusal(lines, at, number);
    }
    let &[_, _, _, o4, roff, o6, bs, bo, o9] = group;
    let d = address(group);
    // Three digits at a time; a step back takes the space off again.
    let mut at = at;
    if roff == bs {
        at = put_dash(lines, at);
    } else if d >= 1_000_000 {
        at = put(lines, at, NUMBERS[(d / 1_000_000) as usize]) - 1;
        at = put_three(lines, at, d / 1000 % 1000) - 1;
        at = put_three(lines, at, d % 1000);
    } else if d >= 1000 {
        at = put(lines, at, NUMBERS[(d / 1000) as usize]) - 1;
        at = put_three(lines, at, d % 1000);
    } else {
        at = put(lines, at, NUMBERS[d as usize]);
    }
    at = put(lines, at, NUMBERS[(o4 >> 3) as usize]);
    at = put(lines, at, NUMBERS[roff as usize]);
    at = put(lines, at, NUMBERS[(o6 & 15) as usize]);
    at = put(lines, at, NUMBERS[bs as usize]);
    put(lines, at, ENDS[bo as usize][(o9 & 3) as usize])
}

/// A table and how far its log is replayed.
struct Replay {
    memory: Vec<u8>,
    state: State,
    /// Wide enough for logs of some 100,000,000,000 octets.
    place: u32,
    trusting: bool,
}

impl Replay {
    fn open(trusting: bool) -> Replay {
        let mut memory = vec![0; 2048 * table::RECORD];
        let m1 = 4500;
        changes::open(&mut memory, m1).expect("both figures are right");
        Replay {
            memory,
            state: State {
                m1,
                now: 0,
                count: 0,
            },
            place: 0,
            trusting,
        }
    }

    /// Puts the line of a log record, whole or not, as the group's is put.
    fn put(&mut self, lines: &mut Lines, at: usize, entry: &[u8]) -> usize {
        self.place += 1;
        let at = put_number(lines, at, self.place, b' ');
        match log::step(&mut self.memory, self.state, entry, self.trusting) {
            Ok(number) => {
                self.go_on(entry, number);
                lines[at..at + 3].copy_from_slice(b"ok ");
                put_number(lines, at + 3, number, b'\n')
            }
            Err(refusal) => {
                lines[at..at + 8].copy_from_slice(b"refused ");
                put_number(lines, at + 8, refusal, b'\n')
            }
        }
    }

    /// Forms the next state from what an accepted log record reported.
    fn go_on(&mut self, entry: &[u8], number: u32) {
        match entry[0] {
            1 => {
                self.state.now = u32::from_le_bytes(entry[8..12].try_into().unwrap());
                self.state.count -= number;
            }
            2 => self.state.count += 1,
            4 => self.state.count -= number,
            _ => {}
        }
    }
}

/// What went wrong, and on which stream.
enum Failure {
    Input(io::Error),
    Output(io::Error),
}

/// Writes a header, and a line for each unit of so many octets, all those of a
/// read at once. `put` puts a line at a place and returns the place after it;
/// the last unit can be short.
fn list<const UNIT: usize>(
    header: &[u8],
    input: &mut File,
    output: &mut File,
    mut put: impl FnMut(&mut Lines, usize, &[u8]) -> usize,
) -> Result<(), Failure> {
    let mut octets = vec![0; UNIT - 1 + READ];
    let mut kept = 0;
    let mut lines = Box::new([0; ROOM]);
    output.write_all(header).map_err(Failure::Output)?;
    loop {
        let read = match input.read(&mut octets[kept..kept + READ]) {
            Ok(0) => break,
            Ok(read) => read,
            Err(error) if error.kind() == ErrorKind::Interrupted => continue,
            Err(error) => {
                output
                    .write_all(b"read failed\n")
                    .map_err(Failure::Output)?;
                return Err(Failure::Input(error));
            }
        };
        let held = kept + read;
        let mut units = octets[..held].chunks_exact(UNIT);
        let mut end = 0;
        for unit in &mut units {
            end = put(&mut lines, end, unit);
        }
        kept = units.remainder().len();
        octets.copy_within(held - kept..held, 0);
        output.write_all(&lines[..end]).map_err(Failure::Output)?;
    }
    if kept > 0 {
        let end = put(&mut lines, 0, &octets[..kept]);
        output.write_all(&lines[..end]).map_err(Failure::Output)?;
    }
    Ok(())
}

/// Lists groups, the short last one too.
#[inline(always)]
fn list_groups(
    input: &mut File,
    output: &mut File,
    put: impl Fn(&mut Lines, usize, &[u8; GROUP]) -> usize,
) -> Result<(), Failure> {
    list::<GROUP>(HEADER, input, output, |lines, at, group| {
        match group.try_into() {
            Ok(group) => put(lines, at, group),
            Err(_) => put_refusal(lines, at, 1),
        }
    })
}

fn replay(input: &mut File, output: &mut File, trusting: bool) -> Result<(), Failure> {
    let mut replay = Replay::open(trusting);
    list::<ENTRY>(b"", input, output, |lines, at, entry| {
        replay.put(lines, at, entry)
    })
}

/// A stream without the standard library's buffer and its forgiveness of bad
/// descriptors.
fn raw(stream: impl AsFd) -> io::Result<File> {
    Ok(File::from(stream.as_fd().try_clone_to_owned()?))
}

fn main() -> ExitCode {
    let word = std::env::args().nth(1).unwrap_or_default();
    let done = raw(io::stdin())
        .map_err(Failure::Input)
        .and_then(|mut input| {
            let mut output = raw(io::stdout()).map_err(Failure::Output)?;
            match &word[..] {
                "replay" => replay(&mut input, &mut output, false),
                "replay-trusting" => replay(&mut input, &mut output, true),
                "tuned" => list_groups(&mut input, &mut output, put_tuned),
                _ => list_groups(&mut input, &mut output, put_plain),
            }
        });
    let name = match &word[..] {
        "replay" | "replay-trusting" => "replay",
        _ => "listing",
    };
    match done {
        Ok(()) => return ExitCode::SUCCESS,
        Err(Failure::Input(error)) => eprintln!("{name}: standard input: {error}"),
        Err(Failure::Output(error)) => eprintln!("{name}: standard output: {error}"),
    }
    ExitCode::FAILURE
}
