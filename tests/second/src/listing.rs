//! The checks of the listing program.

use std::path::Path;

use crate::draw::Draw;
use crate::groups::{self, P1, P2};
use crate::paper::codec::{self, Destination, Fields, GROUP, HEADER};
use crate::report::{Report, Verdict};
use crate::run::RUN_LIMIT;
use crate::subject::Subject;

const RANDOM_GROUPS: usize = 1_000_000;

/// How often, at least, each answer has to come up among the random groups.
const OFTEN: usize = 10_000;

pub fn check(path: &Path, report: &mut Report) {
    let program = &Subject {
        path,
        name: "listing",
        unit: GROUP,
        unit_name: "group",
        header: Some(1),
        text: codec::listing,
    };
    let mut add = |name: &str, verdict: Verdict| report.add("listing", name, verdict);
    add("worked cases", worked_cases(program));
    add("every octet", every_octet(program));
    add("order of refusals", order_of_refusals(program));
    add("addresses", addresses(program));
    add("random groups", random_groups(program));
    add("ends of input", ends_of_input(program));
    for size in [1, 8, 9, 10, 4095, 4096, 32768, 65536] {
        let name = format!("pieces of {size}");
        let groups = if size == 1 { 2_000 } else { 20_000 };
        add(&name, pieces(program, groups, || size));
    }
    let mut draw = Draw::from_seed(4);
    add(
        "pieces of any size",
        pieces(program, 20_000, || {
            let width = draw.below(17);
            1 + draw.below(1 << width) as usize
        }),
    );
    add("live feed", live_feed(program));
    add("failing reads", program.failing_reads());
    add("a later read fails", later_read_fails(program));
    add("failing writes", failing_writes(program));
    add("a later write fails", later_write_fails(program));
    add("write calls", write_calls(program));
}

/// How often reading an input gives acceptance (place 0) and each refusal.
fn answers(input: &[u8]) -> [usize; 7] {
    let mut answers = [0; 7];
    for group in input.chunks(GROUP) {
        answers[codec::read(group).err().unwrap_or(0) as usize] += 1;
    }
    answers
}

/// The paper's cases, expected as the paper's text has them. They hold our own
/// reading as well as the program's.
fn worked_cases(program: &Subject) -> Verdict {
    let octet_4 = |octet_4| {
        let mut group = P1;
        group[3] = octet_4;
        group
    };
    let mut p3 = P1;
    p3[7] = 0x80;
    let mut p4 = P1;
    p4[6] = 0x01;
    let mut p2_addressed = P2;
    p2_addressed[6] = 0xFE;
    let cases = [
        (P1, "1 4 2 3 5 -2 2\n"),
        (P2, "- 31 255 13 255 127 3\n"),
        (p2_addressed, "134217727 31 255 13 254 127 3\n"),
        (p3, "refused 6\n"),
        (p4, "refused 5\n"),
        // One bit of d's upper three at a time: only this shows their order.
        (octet_4(0x21), "16777217 4 2 3 5 -2 2\n"),
        (octet_4(0x22), "33554433 4 2 3 5 -2 2\n"),
        (octet_4(0x24), "67108865 4 2 3 5 -2 2\n"),
    ];
    let mut input = Vec::new();
    let mut expected = HEADER.as_bytes().to_vec();
    for (group, line) in cases {
        let alone = [HEADER.as_bytes(), line.as_bytes()].concat();
        program.check_worked(&group, &alone)?;
        input.extend_from_slice(&group);
        expected.extend_from_slice(line.as_bytes());
    }
    program.compare(&input, &expected, &program.output(&input)?)?;
    Ok(format!(
        "P1 to P4, P2 with bs 254, octet 4 = 21, 22, 24, each alone and all {} together: same",
        cases.len()
    ))
}

fn every_octet(program: &Subject) -> Verdict {
    let mut input = Vec::new();
    for place in 0..GROUP {
        for octet in 0..=255 {
            let mut group = P1;
            group[place] = octet;
            input.extend_from_slice(&group);
        }
    }
    // Counted by hand from the paper: 31 wrong IDs of 8 octets each, 3 wrong
    // codes of 16 octets each, 0 and 1 twice, and 80.
    let answers = answers(&input);
    if answers != [2304 - 301, 0, 31 * 8, 3 * 16, 2, 2, 1] {
        return Err(format!("our own reading answers {answers:?}"));
    }
    program.check(&input)?;
    Ok(format!(
        "0 to 255 in each octet of P1, {} groups: same",
        input.len() / GROUP
    ))
}

/// Groups that earn several refusals get the first, whatever our reading says.
fn order_of_refusals(program: &Subject) -> Verdict {
    const ROUNDS: usize = 100;
    let mut draw = Draw::from_seed(1);
    let mut input = Vec::new();
    let mut expected = HEADER.as_bytes().to_vec();
    for _ in 0..ROUNDS {
        for chosen in 1..32 {
            let mut group = groups::accepted(&mut draw);
            let earned: Vec<u32> = (2..=6).filter(|n| chosen >> (n - 2) & 1 == 1).collect();
            for &refusal in &earned {
                groups::spoil(&mut group, refusal, &mut draw);
            }
            input.extend_from_slice(&group);
            expected.extend_from_slice(format!("refused {}\n", earned[0]).as_bytes());
        }
    }
    program.compare(&input, &expected, &program.output(&input)?)?;
    Ok(format!(
        "all 31 sets of refusals 2 3 4 5 6, {ROUNDS} groups each: same"
    ))
}

/// Both sides of each power of ten and of two, as the longest number of a line
/// changes its width there. The line is told by the fields, not by reading.
fn addresses(program: &Subject) -> Verdict {
    let mut draw = Draw::from_seed(2);
    let powers_of_ten = (0..9).map(|power| 10_u32.pow(power));
    let powers_of_two = (0..=27).map(|power| 1 << power);
    let mut input = Vec::new();
    let mut expected = HEADER.as_bytes().to_vec();
    for edge in powers_of_ten.chain(powers_of_two) {
        for d in edge - 1..=edge + 1 {
            if d < 1 << 27 {
                let fields = Fields {
                    d: Destination::Address(d),
                    ..groups::addressed(&mut draw)
                };
                input.extend_from_slice(&groups::octets(&fields, &mut draw));
                expected.extend_from_slice(codec::line(Ok(fields)).as_bytes());
            }
        }
    }
    program.compare(&input, &expected, &program.output(&input)?)?;
    Ok(format!(
        "both sides of each power of 10 and of 2, {} groups: same",
        input.len() / GROUP
    ))
}

fn random_input() -> Vec<u8> {
    let mut draw = Draw::from_seed(3);
    groups::many(RANDOM_GROUPS, || groups::mixed(&mut draw))
}

fn random_groups(program: &Subject) -> Verdict {
    let input = random_input();
    let answers = answers(&input);
    let [accepted, _, refused @ ..] = answers;
    if accepted < OFTEN || refused.iter().any(|&times| times < OFTEN) {
        return Err(format!("too few of some answer: {answers:?}"));
    }
    let expected = codec::listing(&input);
    let dashes = expected.split(|&octet| octet == b'\n');
    let dashes = dashes.filter(|line| line.starts_with(b"- ")).count();
    if dashes < OFTEN {
        return Err(format!("too few without a re-broadcast: {dashes}"));
    }
    program.compare(&input, &expected, &program.output(&input)?)?;
    let seen: Vec<String> = (2..)
        .zip(refused)
        .map(|(refusal, times)| format!("{refusal} ({times})"))
        .collect();
    Ok(format!(
        "{} groups, accepted ({accepted}, {dashes} without a re-broadcast), refusals {} seen: same",
        input.len() / GROUP,
        seen.join(" ")
    ))
}

fn ends_of_input(program: &Subject) -> Verdict {
    // 3640 groups and 8 octets fill a read of 32768 octets; with 3641 groups
    // the last one lies across two reads.
    let counts = [0, 1, 2, 3640, 3641, 3642];
    let mut draw = Draw::from_seed(5);
    for count in counts {
        for short in 0..GROUP {
            let mut input = groups::many(count, || groups::mixed(&mut draw));
            let mut expected = codec::listing(&input);
            if short > 0 {
                input.extend_from_slice(&P1[..short]);
                expected.extend_from_slice(b"refused 1\n");
            }
            program
                .compare(&input, &expected, &program.output(&input)?)
                .and_then(|()| program.compare(&input, &expected, &program.output_of_file(&input)?))
                .map_err(|difference| format!("{count} groups, then {short}: {difference}"))?;
        }
    }
    Ok(format!(
        "empty gives the header only; 0 to 8 octets after {counts:?} groups, \
         from a pipe and from a file: same"
    ))
}

fn pieces(program: &Subject, groups: usize, size: impl FnMut() -> usize + Send) -> Verdict {
    let mut draw = Draw::from_seed(6);
    let mut input = groups::many(groups, || groups::mixed(&mut draw));
    input.extend_from_slice(&P1[..5]);
    program.pieces(&input, size)?;
    Ok(format!(
        "{groups} groups and 5 octets, freely and in step: same"
    ))
}

fn live_feed(program: &Subject) -> Verdict {
    let mut p4 = P1;
    p4[6] = 0x01;
    let input = [&[P1, p4, P1, P1].concat()[..], &P1[..3]].concat();
    // A group; one refused; a part of the third; its rest; the fourth.
    program.live_feed(&input, &[9, 18, 22, 27, 36])?;
    Ok("each line came while the input was open: same".to_string())
}

fn later_read_fails(program: &Subject) -> Verdict {
    let mut draw = Draw::from_seed(7);
    let input = groups::many(100, || groups::mixed(&mut draw));
    program.later_read_fails(&input)?;
    Ok("after 100 groups from a socket: all lines, then told on both outputs".to_string())
}

fn failing_writes(program: &Subject) -> Verdict {
    program.failing_writes(&[&[], &P1])?;
    Ok("/dev/full and an output open for reading only, without and with a group: told".to_string())
}

fn later_write_fails(program: &Subject) -> Verdict {
    program.later_write_fails(&P1)?;
    Ok("the socket's other end gone after a group: told".to_string())
}

fn write_calls(program: &Subject) -> Verdict {
    let input = random_input();
    let calls = program.write_calls(&input, RUN_LIMIT)?;
    let groups = input.len() / GROUP;
    if calls > groups / 1_000 {
        return Err(format!("{calls} for {groups} groups"));
    }
    Ok(format!(
        "{calls} for {groups} groups from a file to a file, at most {}: same",
        groups / 1_000
    ))
}
