//! The checks of the programs that replay a log: replay, which writes a line
//! for each record, and moment, which shows the table at the end.

use std::path::Path;
use std::time::Duration;

use crate::calls::near::{self, once_in};
use crate::draw::Draw;
use crate::logs::{self, octets, BUSY, FILLING, IDLE};
use crate::paper::log::{self, Day, Entry, ENTRY};
use crate::paper::table::{Table, MOST_RECORDS};
use crate::paper::Answer;
use crate::report::{hex, Report, Verdict};
use crate::subject::Subject;

/// How often, at least, each answer has to come up among the random logs.
const OFTEN: u64 = 20;

/// A million records take a while where every octet of a table is tested at
/// each of them, and longer under an emulator.
const LONG: Duration = Duration::from_secs(600);

/// A log and its lines, as the paper's text has them.
const WORKED: [(&str, &str); 50] = [
    // Clock to 100, T, T again at another distance, and a far record.
    (
        "01 00 00 00  00 00 00 00  64 00 00 00  00 00 00 00  00 00 00 00  00 00 00 00",
        "1 ok 0\n",
    ),
    (
        "02 03 02 05  01 00 00 00  05 00 00 00  FF FF FF FF  96 00 00 00  00 00 00 00",
        "2 ok 0\n",
    ),
    (
        "02 03 02 05  01 00 00 00  05 00 00 00  C8 00 00 00  96 00 00 00  00 00 00 00",
        "3 refused 16\n",
    ),
    (
        "02 3C 03 20  FF FF FF 07  FF 00 00 00  96 00 00 00  96 00 00 00  00 00 00 00",
        "4 ok 0\n",
    ),
    // Reserves with one thing wrong each: station 2^27, rate 0 and 61,
    // superframes 0 and 4, length 0 and 33, bs 1 and 256, limit 4097.
    (
        "02 03 02 05  00 00 00 08  05 00 00 00  FF FF FF FF  96 00 00 00  00 00 00 00",
        "5 refused 8\n",
    ),
    (
        "02 00 02 05  02 00 00 00  05 00 00 00  FF FF FF FF  96 00 00 00  00 00 00 00",
        "6 refused 14\n",
    ),
    (
        "02 3D 02 05  02 00 00 00  05 00 00 00  FF FF FF FF  96 00 00 00  00 00 00 00",
        "7 refused 14\n",
    ),
    (
        "02 03 00 05  02 00 00 00  05 00 00 00  FF FF FF FF  96 00 00 00  00 00 00 00",
        "8 refused 15\n",
    ),
    (
        "02 03 04 05  02 00 00 00  05 00 00 00  FF FF FF FF  96 00 00 00  00 00 00 00",
        "9 refused 9\n",
    ),
    (
        "02 03 02 00  02 00 00 00  05 00 00 00  FF FF FF FF  96 00 00 00  00 00 00 00",
        "10 refused 9\n",
    ),
    (
        "02 03 02 21  02 00 00 00  05 00 00 00  FF FF FF FF  96 00 00 00  00 00 00 00",
        "11 refused 9\n",
    ),
    (
        "02 03 02 05  02 00 00 00  01 00 00 00  FF FF FF FF  96 00 00 00  00 00 00 00",
        "12 refused 5\n",
    ),
    (
        "02 03 02 05  02 00 00 00  00 01 00 00  FF FF FF FF  96 00 00 00  00 00 00 00",
        "13 refused 5\n",
    ),
    (
        "02 03 02 05  02 00 00 00  05 00 00 00  FF FF FF FF  01 10 00 00  00 00 00 00",
        "14 refused 18\n",
    ),
    // T is far; a station without records; limit 4097; station 2^27, by a
    // distance and by a wipe.
    (
        "03 00 00 00  01 00 00 00  00 00 00 00  96 00 00 00  96 00 00 00  00 00 00 00",
        "15 ok 1\n",
    ),
    (
        "03 00 00 00  05 00 00 00  00 00 00 00  96 00 00 00  96 00 00 00  00 00 00 00",
        "16 ok 0\n",
    ),
    (
        "03 00 00 00  01 00 00 00  00 00 00 00  96 00 00 00  01 10 00 00  00 00 00 00",
        "17 refused 18\n",
    ),
    (
        "03 00 00 00  00 00 00 08  00 00 00 00  96 00 00 00  96 00 00 00  00 00 00 00",
        "18 refused 8\n",
    ),
    (
        "04 00 00 00  00 00 00 08  00 00 00 00  00 00 00 00  00 00 00 00  00 00 00 00",
        "19 refused 8\n",
    ),
    // Operations 0 and 5; all ones in a clock's distance; a reserve's last
    // closing octet; a distance's slot; a wipe's rate.
    (
        "00 00 00 00  00 00 00 00  00 00 00 00  00 00 00 00  00 00 00 00  00 00 00 00",
        "20 refused 23\n",
    ),
    (
        "05 00 00 00  01 00 00 00  00 00 00 00  00 00 00 00  00 00 00 00  00 00 00 00",
        "21 refused 23\n",
    ),
    (
        "01 00 00 00  00 00 00 00  64 00 00 00  FF FF FF FF  00 00 00 00  00 00 00 00",
        "22 refused 23\n",
    ),
    (
        "02 03 02 05  02 00 00 00  05 00 00 00  FF FF FF FF  96 00 00 00  00 00 00 01",
        "23 refused 23\n",
    ),
    (
        "03 00 00 00  01 00 00 00  01 00 00 00  95 00 00 00  96 00 00 00  00 00 00 00",
        "24 refused 23\n",
    ),
    (
        "04 01 00 00  01 00 00 00  00 00 00 00  00 00 00 00  00 00 00 00  00 00 00 00",
        "25 refused 23\n",
    ),
    // Clocks behind now and above the last slot; T kept at 7609, gone at 7610.
    (
        "01 00 00 00  00 00 00 00  63 00 00 00  00 00 00 00  00 00 00 00  00 00 00 00",
        "26 refused 12\n",
    ),
    (
        "01 00 00 00  00 00 00 00  01 CA 9A 3B  00 00 00 00  00 00 00 00  00 00 00 00",
        "27 refused 13\n",
    ),
    (
        "01 00 00 00  00 00 00 00  B9 1D 00 00  00 00 00 00  00 00 00 00  00 00 00 00",
        "28 ok 0\n",
    ),
    (
        "01 00 00 00  00 00 00 00  BA 1D 00 00  00 00 00 00  00 00 00 00  00 00 00 00",
        "29 ok 1\n",
    ),
    (
        "04 00 00 00  FF FF FF 07  00 00 00 00  00 00 00 00  00 00 00 00  00 00 00 00",
        "30 ok 1\n",
    ),
    // T with bo 10, again, and with bo -127; with bo 128, beside bs 1 and beside
    // limit 4097 too.
    (
        "02 03 02 05  01 00 00 00  05 00 00 00  FF FF FF FF  96 00 00 00  0A 00 00 00",
        "31 ok 0\n",
    ),
    (
        "02 03 02 05  01 00 00 00  05 00 00 00  C8 00 00 00  96 00 00 00  0A 00 00 00",
        "32 refused 16\n",
    ),
    (
        "02 03 02 05  01 00 00 00  05 00 00 00  FF FF FF FF  96 00 00 00  81 00 00 00",
        "33 ok 0\n",
    ),
    (
        "02 03 02 05  01 00 00 00  05 00 00 00  FF FF FF FF  96 00 00 00  80 00 00 00",
        "34 refused 6\n",
    ),
    (
        "02 03 02 05  01 00 00 00  01 00 00 00  FF FF FF FF  96 00 00 00  80 00 00 00",
        "35 refused 5\n",
    ),
    (
        "02 03 02 05  01 00 00 00  05 00 00 00  FF FF FF FF  01 10 00 00  80 00 00 00",
        "36 refused 6\n",
    ),
    // The two octets behind a bo; a bo of a clock, a distance and a wipe.
    (
        "02 03 02 05  01 00 00 00  05 00 00 00  FF FF FF FF  96 00 00 00  0A 01 00 00",
        "37 refused 23\n",
    ),
    (
        "02 03 02 05  01 00 00 00  05 00 00 00  FF FF FF FF  96 00 00 00  0A 00 80 00",
        "38 refused 23\n",
    ),
    (
        "01 00 00 00  00 00 00 00  BB 1D 00 00  00 00 00 00  00 00 00 00  01 00 00 00",
        "39 refused 23\n",
    ),
    (
        "03 00 00 00  01 00 00 00  00 00 00 00  96 00 00 00  96 00 00 00  FF 00 00 00",
        "40 refused 23\n",
    ),
    (
        "04 00 00 00  01 00 00 00  00 00 00 00  00 00 00 00  00 00 00 00  80 00 00 00",
        "41 refused 23\n",
    ),
    // The last slots are 19492 and 19629.
    (
        "01 00 00 00  00 00 00 00  24 4C 00 00  00 00 00 00  00 00 00 00  00 00 00 00",
        "42 ok 0\n",
    ),
    (
        "01 00 00 00  00 00 00 00  25 4C 00 00  00 00 00 00  00 00 00 00  00 00 00 00",
        "43 ok 1\n",
    ),
    (
        "01 00 00 00  00 00 00 00  AD 4C 00 00  00 00 00 00  00 00 00 00  00 00 00 00",
        "44 ok 0\n",
    ),
    (
        "01 00 00 00  00 00 00 00  AE 4C 00 00  00 00 00 00  00 00 00 00  00 00 00 00",
        "45 ok 1\n",
    ),
    // 4097 miles at limit 0 are near, 0 miles are far; both go with the clock.
    (
        "02 01 01 01  00 00 00 00  02 00 00 00  01 10 00 00  00 00 00 00  00 00 00 00",
        "46 ok 0\n",
    ),
    (
        "02 01 01 01  00 00 00 00  03 00 00 00  00 00 00 00  00 00 00 00  00 00 00 00",
        "47 ok 0\n",
    ),
    (
        "01 00 00 00  00 00 00 00  00 CA 9A 3B  00 00 00 00  00 00 00 00  00 00 00 00",
        "48 ok 2\n",
    ),
    (
        "02 02 01 20  07 00 00 00  FF 00 00 00  00 10 00 00  00 10 00 00  7F 00 00 00",
        "49 ok 0\n",
    ),
    ("01 00 00 00  00", "50 refused 23\n"),
];

/// After how many of these records the table is, and what it then is.
const MOMENTS: [(usize, &str); 9] = [
    (0, "4500 0 0\n"),
    (1, "4500 100 0\n"),
    (3, "4500 100 1\n1 105 3 2 5 0 0\n"),
    (
        27,
        "4500 100 2\n1 105 3 2 5 1 0\n134217727 355 60 3 32 1 0\n",
    ),
    (29, "4500 7610 1\n134217727 355 60 3 32 1 0\n"),
    (41, "4500 7610 2\n1 7615 3 2 5 0 10\n1 7615 3 2 5 0 -127\n"),
    (44, "4500 19629 1\n1 7615 3 2 5 0 10\n"),
    (47, "4500 19630 2\n0 19632 1 1 1 0 0\n0 19633 1 1 1 1 0\n"),
    (50, "4500 1000000000 1\n7 1000000255 2 1 32 1 127\n"),
];

pub fn check(replay: &Path, moment: &Path, report: &mut Report) {
    let replay = &Subject {
        path: replay,
        name: "replay",
        unit: ENTRY,
        unit_name: "record",
        header: Some(0),
        text: log::replay,
    };
    let moment = &Subject {
        path: moment,
        name: "moment",
        header: None,
        text: log::moment,
        ..*replay
    };
    let mut add = |name: &str, verdict: Verdict| report.add("replay", name, verdict);
    add("worked cases", replay_worked(replay));
    add("random logs", random_logs(replay, moment));
    add("damaged logs", damaged_logs(replay, moment));
    add("a day cut short", cut_short(replay, moment));
    add("a tenant taken out", tenant_taken_out(replay, moment));
    add("a full table", full_table(replay));
    add("ends of input", ends_of_input(replay));
    for size in [1, 23, 24, 25, 4096, 32768, 65536] {
        let records = if size == 1 { 500 } else { 6_000 };
        add(
            &format!("pieces of {size}"),
            pieces(replay, records, || size),
        );
    }
    add("pieces of any size", any_pieces(replay));
    add("live feed", live_feed(replay));
    add("failing reads", replay.failing_reads());
    add("a later read fails", later_read_fails(replay));
    add("failing writes", replay_failing_writes(replay));
    add("a later write fails", later_write_fails(replay));
    add("a million records", million(replay));

    let mut add = |name: &str, verdict: Verdict| report.add("moment", name, verdict);
    add("worked cases", moment_worked(moment));
    add("a full table", full_moment(moment));
    add("ends of input", ends_of_input(moment));
    for size in [1, 25, 32768] {
        let records = if size == 1 { 500 } else { 6_000 };
        add(
            &format!("pieces of {size}"),
            pieces(moment, records, || size),
        );
    }
    add("pieces of any size", any_pieces(moment));
    add("only the end", only_the_end(moment));
    add("failing reads", moment.failing_reads());
    add("a later read fails", later_read_fails(moment));
    add("failing writes", moment_failing_writes(moment));
    add("a long log", long_log(moment));
}

fn worked() -> Vec<u8> {
    WORKED.iter().flat_map(|(entry, _)| octets(entry)).collect()
}

fn replay_worked(replay: &Subject) -> Verdict {
    let lines: String = WORKED.iter().map(|&(_, line)| line).collect();
    replay.check_worked(&worked(), lines.as_bytes())?;
    replay.check_worked(&[], b"")?;
    Ok(format!(
        "{} lines as the paper has them, the last of an incomplete record; nothing of nothing",
        WORKED.len()
    ))
}

fn moment_worked(moment: &Subject) -> Verdict {
    let log = worked();
    for (records, text) in MOMENTS {
        let end = log.len().min(records * ENTRY);
        moment
            .check_worked(&log[..end], text.as_bytes())
            .map_err(|difference| format!("after {records}: {difference}"))?;
    }
    Ok(format!(
        "{} moments of a day of {} records as the paper has them",
        MOMENTS.len(),
        WORKED.len()
    ))
}

/// How often each operation gave each answer; 0 is accepted.
struct Answers([[u64; 25]; 4]);

impl Answers {
    /// Each operation with the answers that it can get. A table that a log has
    /// made is never refused 11, 17 takes a full one, and 24 a shorter superframe.
    const ALL: [(&'static str, &'static [usize]); 4] = [
        ("clock", &[0, 23, 12, 13]),
        ("reserve", &[0, 23, 8, 14, 15, 9, 5, 6, 18, 16]),
        ("distance", &[0, 23, 8, 18]),
        ("wipe", &[0, 23, 8]),
    ];

    /// By our own reading.
    fn count(&mut self, log: &[u8]) {
        let mut day = Day::default();
        for entry in log.chunks(ENTRY) {
            let answer = day.step(entry).err().unwrap_or(0);
            if let operation @ 1..=4 = entry[0] {
                self.0[operation as usize - 1][answer as usize] += 1;
            }
        }
    }

    /// Fails where one came up too seldom, or another one at all.
    fn enough(&self) -> Verdict {
        let mut told = Vec::new();
        for ((name, answers), times) in Answers::ALL.iter().zip(&self.0) {
            let seen: Vec<String> = answers
                .iter()
                .map(|&answer| match answer {
                    0 => format!("accepted × {}", times[0]),
                    refusal => format!("{refusal} × {}", times[refusal]),
                })
                .collect();
            told.push(format!("{name} {}", seen.join(", ")));
            let all: u64 = answers.iter().map(|&answer| times[answer]).sum();
            let seldom = answers.iter().any(|&answer| times[answer] < OFTEN);
            if seldom || all != times.iter().sum() {
                return Err(format!("{name}: too few of some answer: {times:?}"));
            }
        }
        Ok(told.join("; "))
    }
}

/// Both programs on a log.
fn check_both(replay: &Subject, moment: &Subject, log: &[u8]) -> Result<(), String> {
    replay.check(log)?;
    moment
        .check(log)
        .map_err(|difference| format!("moment, {} octets: {difference}", log.len()))
}

fn random_logs(replay: &Subject, moment: &Subject) -> Verdict {
    let mut draw = Draw::from_seed(1101);
    let mut answers = Answers([[0; 25]; 4]);
    const LOGS: usize = 48;
    for round in 0..LOGS {
        let operations = [&BUSY[..], &FILLING, &IDLE][round % 3];
        let log = logs::day(&mut draw, 400, operations);
        answers.count(&log);
        check_both(replay, moment, &log)?;
    }
    let told = answers.enough()?;
    Ok(format!(
        "{LOGS} logs of 400 records, both programs: {told}: same"
    ))
}

/// Logs with octets lost, added or changed, with nothing right about them, and
/// with only the operations right.
fn damaged_logs(replay: &Subject, moment: &Subject) -> Verdict {
    let mut draw = Draw::from_seed(1102);
    const LOGS: u32 = 30;
    for round in 0..LOGS {
        let mut log = logs::day(&mut draw, 100, &BUSY);
        let octets = log.len() as u32;
        let place = draw.below(octets) as usize;
        match round % 6 {
            0 => drop(log.remove(place)),
            1 => log.insert(place, draw.octet()),
            2 => {
                for _ in 0..60 {
                    log[draw.below(octets) as usize] ^= 1 << draw.below(8);
                }
            }
            3 => log.iter_mut().for_each(|octet| *octet = draw.octet()),
            4 => {
                for entry in log.chunks_mut(ENTRY) {
                    let operation = entry[0];
                    for (place, octet) in entry.iter_mut().enumerate() {
                        if place > 0 && logs::uses(operation, place) && once_in(&mut draw, 4) {
                            *octet = draw.octet();
                        }
                    }
                }
            }
            _ => log.fill(draw.one_of(&[0, 1, 2, 3, 4, 0xFF])),
        }
        check_both(replay, moment, &log)
            .map_err(|difference| format!("log {round}: {difference}"))?;
    }
    Ok(format!(
        "{LOGS} logs with octets lost, added, changed or of any value, both programs: same"
    ))
}

/// A log cut after so many records shows the first lines of the whole one, and
/// the table then. That table is held against our own steps on octets too, each
/// of which tests the whole of it and of its map.
fn cut_short(replay: &Subject, moment: &Subject) -> Verdict {
    let mut draw = Draw::from_seed(1103);
    let mut records = 0;
    for log in [worked(), logs::day(&mut draw, 40, &FILLING)] {
        let text = log::replay(&log);
        let lines: Vec<&[u8]> = text.split_inclusive(|&octet| octet == b'\n').collect();
        let mut after = log::begin();
        for k in 0..=lines.len() {
            let cut = &log[..log.len().min(k * ENTRY)];
            if let Some(last) = cut.chunks(ENTRY).next_back() {
                after = log::step(&after.memory, &after.map, after.state, last);
            }
            let table = Table::held(&after.memory, after.state)
                .map_err(|refusal| format!("our own steps leave a table refused {refusal}"))?;
            replay
                .compare(cut, &lines[..k].concat(), &replay.output(cut)?)
                .and_then(|()| moment.check_worked(cut, log::shown(&table).as_bytes()))
                .map_err(|difference| format!("after {k}: {difference}"))?;
        }
        records += lines.len();
    }
    Ok(format!(
        "two days, {records} records, cut after each: the first lines, and the table then: same"
    ))
}

/// The lines of a log, without their places.
fn answers(replay: &Subject, log: &[u8]) -> Result<Vec<String>, String> {
    let text = String::from_utf8_lossy(&replay.output(log)?).into_owned();
    let without_place = |line: &str| line.split_once(' ').map(|(_, answer)| answer.to_string());
    text.lines()
        .map(|line| without_place(line).ok_or_else(|| format!("line {line}")))
        .collect()
}

/// A log with a wipe of A at its end shows the table of the log without A's
/// records, and the others' lines are the same but for their places. Of clocks
/// they need not be: a clock counts A's records too.
fn tenant_taken_out(replay: &Subject, moment: &Subject) -> Verdict {
    let mut draw = Draw::from_seed(1104);
    let (mut taken_out, mut left) = (0, 0);
    const LOGS: usize = 12;
    for _ in 0..LOGS {
        let a = near::station(&mut draw);
        let log = logs::day(&mut draw, 200, &FILLING);
        let of_a = |entry: &&[u8]| logs::station(entry) == Some(a);
        let kept: Vec<&[u8]> = log.chunks(ENTRY).filter(|entry| !of_a(entry)).collect();
        let without = kept.concat();
        let with = [&log[..], &logs::wipe(a).octets()].concat();
        moment.compare(&with, &moment.output(&without)?, &moment.output(&with)?)?;
        let lines = answers(replay, &with)?;
        let lines = log.chunks(ENTRY).zip(&lines);
        let lines = lines.filter(|(entry, _)| !of_a(entry));
        for ((entry, with), without) in lines.zip(answers(replay, &without)?) {
            if entry[0] != 1 && *with != without {
                let entry = hex(entry);
                return Err(format!(
                    "{entry}: {with} with station {a}, {without} without"
                ));
            }
        }
        left += kept.len();
        taken_out += log.len() / ENTRY - kept.len();
    }
    Ok(format!(
        "{LOGS} logs, {taken_out} records of A taken out, {left} left: same lines and tables"
    ))
}

/// As many near records of one slot as a table holds, each of a station of its
/// own.
fn filling() -> Vec<u8> {
    let stations = 0..MOST_RECORDS as u32;
    stations
        .flat_map(|station| logs::reserve(station, 2).octets())
        .collect()
}

/// The 2,049th reserve is refused 17; one that is held is 16 even then; a wipe
/// makes room for one.
fn full_table(replay: &Subject) -> Verdict {
    let mut log = filling();
    let mut answers: Vec<Answer> = vec![Ok(0); MOST_RECORDS];
    let more = [
        (logs::reserve(2_048, 2), Err(17)),
        (logs::reserve(7, 2), Err(16)),
        (logs::distance(7, 150, 150), Ok(1)),
        (logs::wipe(2_047), Ok(1)),
        (logs::reserve(2_048, 2), Ok(0)),
        (logs::reserve(2_049, 2), Err(17)),
        (logs::clock(2), Ok(0)),
        (logs::clock(3), Ok(2_048)),
    ];
    for (entry, answer) in more {
        log.extend(entry.octets());
        answers.push(answer);
    }
    let lines: Vec<String> = (1..)
        .zip(answers)
        .map(|(place, answer)| match answer {
            Ok(number) => format!("{place} ok {number}\n"),
            Err(refusal) => format!("{place} refused {refusal}\n"),
        })
        .collect();
    replay.check_worked(&log, lines.concat().as_bytes())?;
    Ok(
        "2048 reserves accepted, the 2049th refused 17; 16 before 17; room after a wipe"
            .to_string(),
    )
}

/// Shown as long as it can be, and one record less.
fn full_moment(moment: &Subject) -> Verdict {
    let full = filling();
    for records in [MOST_RECORDS - 1, MOST_RECORDS] {
        let lines: Vec<String> = (0..records)
            .map(|station| format!("{station} 2 1 1 1 0 0\n"))
            .collect();
        let text = format!("4500 0 {records}\n{}", lines.concat());
        moment.check_worked(&full[..records * ENTRY], text.as_bytes())?;
    }
    // One more is refused, and changes nothing.
    let more = [full, logs::reserve(2_048, 2).octets()].concat();
    moment.check(&more)?;
    // Every number as wide as it can be.
    let mut log = logs::clock(1_000_000_000).octets();
    for station in (1 << 27) - MOST_RECORDS as u32..1 << 27 {
        let wide = Entry {
            rate: 60,
            superframes: 3,
            length: 32,
            bo: -127,
            ..logs::reserve(station, 255)
        };
        log.extend(wide.octets());
    }
    moment.check(&log)?;
    Ok("2047 and 2048 records, a reserve too many, and the longest lines: same".to_string())
}

fn ends_of_input(program: &Subject) -> Verdict {
    // About as many as a program may ask for at once: the last whole one, or
    // what is left of one, may come by a read of its own.
    let all: Vec<usize> = (0..ENTRY).collect();
    let some = [0, 1, 7, 8, 9, 16, 23];
    let counts = [
        (0, &all[..]),
        (1, &all),
        (1365, &some),
        (1366, &some),
        (1367, &some),
    ];
    let mut draw = Draw::from_seed(1105);
    for (count, shorts) in counts {
        let log = logs::day(&mut draw, count, &IDLE);
        for &short in shorts {
            let mut input = log.clone();
            let mut expected = (program.text)(&input);
            // Some octets of a clock; zeros after them would make it whole.
            input.extend_from_slice(&logs::clock(1_000_000).octets()[..short]);
            if short > 0 && program.header.is_some() {
                expected.extend(format!("{} refused 23\n", count + 1).into_bytes());
            }
            program
                .compare(&input, &expected, &program.output(&input)?)
                .and_then(|()| program.compare(&input, &expected, &program.output_of_file(&input)?))
                .map_err(|difference| format!("{count} records, then {short}: {difference}"))?;
        }
    }
    Ok(format!(
        "0 to 23 octets after 0 and 1 records, {some:?} after 1365 to 1367, from a pipe and \
         from a file: same"
    ))
}

/// At the end the table holds some records, for moment to show.
fn pieces(program: &Subject, records: usize, size: impl FnMut() -> usize + Send) -> Verdict {
    let mut draw = Draw::from_seed(1106);
    let mut input = logs::day(&mut draw, records - 5, &IDLE);
    for bs in 2..7 {
        input.extend(logs::reserve(1, bs).octets());
    }
    input.extend_from_slice(&logs::wipe(1).octets()[..5]);
    program.pieces(&input, size)?;
    let how = match program.header {
        Some(_) => "freely and in step",
        None => "freely",
    };
    Ok(format!("{records} records and 5 octets, {how}: same"))
}

fn any_pieces(program: &Subject) -> Verdict {
    let mut draw = Draw::from_seed(1107);
    pieces(program, 6_000, || {
        let width = draw.below(17);
        1 + draw.below(1 << width) as usize
    })
}

/// A record; one refused; a part of the third; its rest; the fourth; and at
/// last a few octets more.
const FEED: [usize; 5] = [24, 48, 59, 72, 96];

fn feed() -> Vec<u8> {
    [
        logs::clock(100).octets(),
        logs::clock(99).octets(),
        logs::reserve(1, 5).octets(),
        logs::wipe(1).octets(),
        vec![1, 0, 0],
    ]
    .concat()
}

fn live_feed(replay: &Subject) -> Verdict {
    replay.live_feed(&feed(), &FEED)?;
    Ok("each line came while the input was open: same".to_string())
}

fn only_the_end(moment: &Subject) -> Verdict {
    moment.live_feed(&feed(), &FEED)?;
    Ok("nothing came while the input was open, then the table: same".to_string())
}

fn later_read_fails(program: &Subject) -> Verdict {
    let mut draw = Draw::from_seed(1108);
    let log = logs::day(&mut draw, 100, &BUSY);
    for octets in [log.len(), log.len() - ENTRY + 7, 7] {
        program.later_read_fails(&log[..octets])?;
    }
    Ok(
        "after 100 records from a socket, 99 and 7 octets, 7 octets: told on both outputs, \
         nothing of an incomplete record"
            .to_string(),
    )
}

/// Of an empty log nothing is written, so nothing can fail.
fn replay_failing_writes(replay: &Subject) -> Verdict {
    replay.failing_writes(&[&logs::clock(100).octets(), &[1, 0, 0]])?;
    Ok(
        "/dev/full and an output open for reading only, a record and a part of one: told"
            .to_string(),
    )
}

fn moment_failing_writes(moment: &Subject) -> Verdict {
    moment.failing_writes(&[&[], &logs::clock(100).octets(), &filling()])?;
    Ok(
        "/dev/full and an output open for reading only, nothing, a record, a full table: told"
            .to_string(),
    )
}

fn later_write_fails(replay: &Subject) -> Verdict {
    replay.later_write_fails(&logs::clock(100).octets())?;
    Ok("the socket's other end gone after a record: told".to_string())
}

/// How many write calls a log from a file takes, to a file.
fn write_calls(program: &Subject, log: &[u8]) -> Verdict {
    let calls = program.write_calls(log, LONG)?;
    let records = log.len() / ENTRY;
    if calls > records / 1_000 {
        return Err(format!("{calls} write calls for {records} records"));
    }
    Ok(format!(
        "{calls} write calls for {records} records from a file to a file, at most {}: same",
        records / 1_000
    ))
}

/// On a table that stays nearly empty. Two of three are no records of a log:
/// they are refused before the table is tested, which takes its time.
fn million(replay: &Subject) -> Verdict {
    let mut draw = Draw::from_seed(1109);
    let mut log = Vec::with_capacity(1_000_002 * ENTRY);
    for entry in logs::day(&mut draw, 333_334, &IDLE).chunks(ENTRY) {
        log.extend_from_slice(entry);
        log.extend(logs::damaged(&mut draw, &logs::wipe(1)));
        log.extend(logs::damaged(&mut draw, &logs::clock(1_000_000_000)));
    }
    log.truncate(1_000_000 * ENTRY);
    write_calls(replay, &log)
}

/// The same, but shorter; at last the table is filled, as it is all that is
/// shown.
fn long_log(moment: &Subject) -> Verdict {
    let mut draw = Draw::from_seed(1110);
    let idle = logs::day(&mut draw, 100_000, &IDLE);
    write_calls(moment, &[idle, filling()].concat())
}
