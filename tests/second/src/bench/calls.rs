//! Each call of the archive beside a peer written by hand, in one run.

use std::fmt::Debug;
use std::hint::black_box;
use std::ops::Range;
use std::time::{Duration, Instant};

use super::archive::{self, number};
use super::figures::{three_digits, time, Figures, Side, ROUNDS};
use super::sides::{Calls, Lent, ARCHIVE, PEER};
use super::tables::{any_bo, Kind, Setting, Table};
use crate::draw::Draw;
use crate::gemthatch::REFUSED;
use crate::logs;
use crate::paper::distance::Distance;
use crate::paper::log::Entry;
use crate::paper::search::Wish;
use crate::paper::table::{Measure, Reservation};
use crate::plain::{self, Answer, State, RECORD};

const CAPACITIES: [usize; 3] = [2048, 64, 1];
const FULL: usize = CAPACITIES[0];
const M1S: [u32; 2] = [4500, 15360];

/// Calls to a batch where they are short: a batch is timed as a whole.
const BATCH: usize = 256;

/// What is lent to the calls of a batch stays within the nearest cache: a full
/// table with the longest map does, so no more than that.
const NEAREST: usize = FULL * RECORD + M1S[1] as usize;

/// A call that takes longer is a batch by itself.
const LONG: Duration = Duration::from_micros(100);

/// Where calls are so long that not all inputs are gone through in this time,
/// only those that were are timed.
const LONGEST: Duration = Duration::from_secs(1);

/// What a list holds before a search.
const RUBBISH: u8 = 0xA5;

/// One call with all that it is given.
struct Input<A> {
    memory: Vec<u8>,
    map: Vec<u8>,
    state: State,
    list: usize,
    asked: A,
}

impl<A> Input<A> {
    /// For a call that takes no map.
    fn bare(table: &Table, asked: A) -> Self {
        Input {
            memory: table.memory(),
            map: Vec::new(),
            state: table.state(),
            list: 0,
            asked,
        }
    }

    fn new(table: &Table, asked: A) -> Self {
        Input {
            map: table.map(),
            ..Input::bare(table, asked)
        }
    }

    fn lent(&self) -> Lent {
        Lent {
            memory: self.memory.clone(),
            map: self.map.clone(),
            list: vec![RUBBISH; self.list],
        }
    }

    fn restore(&self, lent: &mut Lent) {
        lent.memory.copy_from_slice(&self.memory);
        lent.map.copy_from_slice(&self.map);
        if !lent.list.is_empty() {
            lent.list.fill(RUBBISH);
        }
    }

    fn octets(&self) -> usize {
        self.memory.len() + self.map.len()
    }
}

/// One of the two programs: it gives its answer as the archive does.
trait Program<A, R>: Fn(&mut Lent, &Input<A>) -> R {}
impl<A, R, F: Fn(&mut Lent, &Input<A>) -> R> Program<A, R> for F {}

/// Nanoseconds for a batch of calls on memory and maps restored before.
fn time_batch<A, R>(inputs: &[Input<A>], lent: &mut [Lent], program: &impl Program<A, R>) -> f64 {
    for (lent, input) in lent.iter_mut().zip(inputs) {
        input.restore(lent);
    }
    time(|| {
        for (lent, input) in lent.iter_mut().zip(inputs) {
            black_box(&program(black_box(lent), black_box(input)));
        }
    })
}

/// Both must give the same answer, one that is `meant`, and leave the same
/// octets of memory, map and list. Gives the number of inputs compared: it stops
/// after a while.
fn compare<A, R: Copy + Debug + PartialEq>(
    inputs: &[Input<A>],
    archive: &impl Program<A, R>,
    peer: &impl Program<A, R>,
    meant: impl Fn(R) -> bool,
) -> Result<usize, String> {
    let start = Instant::now();
    for (place, input) in inputs.iter().enumerate() {
        if start.elapsed() > LONGEST {
            return Ok(place);
        }
        let (mut one, mut other) = (input.lent(), input.lent());
        let (given, expected) = (archive(&mut one, input), peer(&mut other, input));
        if given != expected {
            return Err(format!(
                "input {place}: archive {given:?}, peer {expected:?}"
            ));
        }
        if one != other {
            return Err(format!("input {place}: the octets left differ"));
        }
        if !meant(given) {
            return Err(format!("input {place}: an answer of {given:?} isn't meant"));
        }
    }
    Ok(inputs.len())
}

/// Times both on the inputs on which they were found to agree.
fn measure<A, R: Copy + Debug + PartialEq>(
    inputs: &[Input<A>],
    archive: impl Program<A, R>,
    peer: impl Program<A, R>,
    meant: impl Fn(R) -> bool,
) -> Result<Figures, String> {
    let start = Instant::now();
    let compared = compare(inputs, &archive, &peer, meant)?;
    let inputs = &inputs[..compared];
    let size = match start.elapsed() > LONG * compared as u32 {
        true => 1,
        false => (NEAREST / inputs[0].octets()).min(BATCH),
    };
    let mut lent: Vec<Lent> = inputs[..size].iter().map(Input::lent).collect();
    Ok(Figures::by_turns(size, |side, number| {
        let start = number % (inputs.len() / size) * size;
        let batch = &inputs[start..start + size];
        match side {
            Side::Archive => time_batch(batch, &mut lent, &archive),
            Side::Peer => time_batch(batch, &mut lent, &peer),
        }
    }))
}

fn accepted(answer: u32) -> bool {
    answer < REFUSED
}

/// Times a call that takes a map, of the archive and of its peer.
fn measure_both<A>(
    inputs: &[Input<A>],
    call: impl Fn(&Calls, &mut Lent, &Input<A>) -> u32,
    meant: impl Fn(u32) -> bool,
) -> Result<Figures, String> {
    measure(
        inputs,
        |lent, input| call(&ARCHIVE, lent, input),
        |lent, input| call(&PEER, lent, input),
        meant,
    )
}

fn any_distance(draw: &mut Draw) -> Distance {
    let mut part = || f64::from(draw.below(4000)) / 10.0;
    let (a, b) = (part(), part());
    Distance {
        kind: draw.below(3),
        a,
        b,
    }
}

const LIMIT: f64 = 150.0;

/// Full tables of each kind, and as many records in all of smaller ones, up to
/// a number of tables. With a quarter of them the processor learns the branches
/// that go by the records by heart, and the time is none that a host would see.
const TABLES: usize = 64;
const MOST_TABLES: usize = 4096;

/// Many inputs, each from a table of its own.
fn inputs<A>(setting: Setting, asked: impl Fn(Table, &mut Draw) -> Input<A>) -> Vec<Input<A>> {
    let mut draw = Draw::from_seed(u64::from(setting.m1));
    let tables = (TABLES * FULL / setting.capacity).min(MOST_TABLES);
    (0..tables)
        .map(|_| asked(Table::full(setting, &mut draw), &mut draw))
        .collect()
}

fn open(setting: Setting) -> Result<Figures, String> {
    let inputs = inputs(setting, |table, _| Input::new(&table, ()));
    measure_both(
        &inputs,
        |calls, lent, input| calls.open(lent, input.state.m1),
        accepted,
    )
}

fn reservation(table: &Table, draw: &mut Draw) -> Reservation {
    Reservation {
        station: draw.one_of(&table.stations),
        rate: 1 + draw.below(60),
        superframes: 1 + draw.below(3),
        bs: 2 + draw.below(254),
        length: 1 + draw.below(32),
        bo: any_bo(draw),
        distance: any_distance(draw),
        limit: LIMIT,
    }
}

fn time_reserve(
    inputs: &[Input<Reservation>],
    meant: impl Fn(u32) -> bool,
) -> Result<Figures, String> {
    measure_both(
        inputs,
        |calls, lent, input| calls.reserve(lent, input.state, &input.asked),
        meant,
    )
}

/// One more record where one place is free.
fn reserve_new(setting: Setting) -> Result<Figures, String> {
    let inputs = inputs(setting, |mut table, draw| {
        table.records.pop();
        // One that is held already would be refused.
        loop {
            let asked = reservation(&table, draw);
            let held = table.records.iter().any(|record| {
                record.station == asked.station && record.first == table.now + asked.bs
            });
            if !held {
                return Input::new(&table, asked);
            }
        }
    });
    time_reserve(&inputs, accepted)
}

/// The last record once more: refused 16.
fn reserve_held(setting: Setting) -> Result<Figures, String> {
    let inputs = inputs(setting, |mut table, draw| {
        let asked = reservation(&table, draw);
        let last = table.records.last_mut().unwrap();
        last.station = asked.station;
        last.first = table.now + asked.bs;
        last.rate = asked.rate;
        last.superframes = asked.superframes;
        last.length = asked.length;
        last.bo = asked.bo;
        Input::new(&table, asked)
    });
    time_reserve(&inputs, |answer| answer == REFUSED + 16)
}

fn distance(setting: Setting) -> Result<Figures, String> {
    let inputs = inputs(setting, |table, draw| {
        let told = Measure {
            station: draw.one_of(&table.stations),
            distance: any_distance(draw),
            limit: LIMIT,
        };
        Input::new(&table, told)
    });
    measure_both(
        &inputs,
        |calls, lent, input| calls.distance(lent, input.state, &input.asked),
        accepted,
    )
}

fn wipe(setting: Setting) -> Result<Figures, String> {
    let inputs = inputs(setting, |table, draw| {
        Input::new(&table, draw.one_of(&table.stations))
    });
    measure_both(
        &inputs,
        |calls, lent, input| calls.wipe(lent, input.state, input.asked),
        accepted,
    )
}

/// A clock to the slot that is picked for a table.
fn clock(
    setting: Setting,
    slot: impl Fn(&Table, &mut Draw) -> u32,
    meant: impl Fn(u32) -> bool,
) -> Result<Figures, String> {
    let inputs = inputs(setting, |table, draw| {
        let slot = slot(&table, draw);
        Input::new(&table, slot)
    });
    measure_both(
        &inputs,
        |calls, lent, input| calls.clock(lent, input.state, input.asked),
        meant,
    )
}

/// Of a single record, one in ten goes.
fn clock_tenth(setting: Setting) -> Result<Figures, String> {
    let tenth = |table: &Table, draw: &mut Draw| {
        let slots = table.last_slots();
        let gone = (slots.len() + draw.below(10) as usize) / 10;
        slots
            .get(gone)
            .copied()
            .unwrap_or_else(|| slots[gone - 1] + 1)
    };
    clock(setting, tenth, accepted)
}

fn clock_none(setting: Setting) -> Result<Figures, String> {
    let none = |table: &Table, _: &mut Draw| table.last_slots()[0];
    clock(setting, none, |answer| answer == 0)
}

/// The call that hosts make most.
fn clock_next(setting: Setting) -> Result<Figures, String> {
    clock(setting, |table, _| table.now + 1, accepted)
}

fn slot_state(setting: Setting, peer: fn(&[u8], State, u32) -> Answer) -> Result<Figures, String> {
    let inputs = inputs(setting, |table, draw| {
        Input::bare(&table, table.now + draw.below(setting.m1))
    });
    measure(
        &inputs,
        |lent, input| archive::slot_state(&lent.memory, input.state, input.asked),
        |lent, input| number(peer(&lent.memory, input.state, input.asked)),
        accepted,
    )
}

fn slot_state_in_turn(setting: Setting) -> Result<Figures, String> {
    slot_state(setting, plain::slot_state_in_turn)
}

fn slot_state_dividing(setting: Setting) -> Result<Figures, String> {
    slot_state(setting, plain::slot_state_dividing)
}

fn search(setting: Setting, wish: impl Fn(&Table, &mut Draw) -> Wish) -> Result<Figures, String> {
    let inputs = inputs(setting, |table, draw| {
        let wish = wish(&table, draw);
        Input {
            list: wish.wanted as usize * 4,
            ..Input::new(&table, wish)
        }
    });
    measure_both(
        &inputs,
        |calls, lent, input| calls.search(lent, input.state, &input.asked),
        |answer| accepted(answer) || answer == REFUSED + 21,
    )
}

/// Slots of the blocks that a search of some starts asks for.
const LENGTH: u32 = 3;

/// So many starts, from one of the slots that lie so far from now.
fn search_from(setting: Setting, from: Range<u32>, starts: u32) -> Result<Figures, String> {
    search(setting, |table, draw| {
        let lo = table.now + from.start + draw.below(from.end - from.start);
        Wish {
            lo,
            hi: lo + starts - 1,
            length: LENGTH,
            wanted: starts.min(3),
        }
    })
}

/// Anywhere in the map, blocks and all.
fn search_inside(setting: Setting, starts: u32) -> Result<Figures, String> {
    search_from(setting, 0..setting.m1 - (starts + LENGTH - 2), starts)
}

/// Starts on both sides of the map's end.
fn search_across(setting: Setting, starts: u32) -> Result<Figures, String> {
    search_from(setting, setting.m1 + 1 - starts..setting.m1, starts)
}

/// Wholly behind the map, in the superframe after it.
fn search_ahead(setting: Setting, starts: u32) -> Result<Figures, String> {
    search_from(setting, setting.m1..2 * setting.m1, starts)
}

/// As many of the longest blocks as a list can hold, of so many starts from now
/// on.
fn search_longest(setting: Setting, starts: u32) -> Result<Figures, String> {
    search(setting, |table, _| Wish {
        lo: table.now,
        hi: table.now + starts - 1,
        length: 32,
        wanted: 16,
    })
}

/// All blocks that lie in the map.
fn search_map(setting: Setting) -> Result<Figures, String> {
    search_longest(setting, setting.m1 - 31)
}

/// As many starts as there can be; the last blocks reach past the map.
fn search_whole(setting: Setting) -> Result<Figures, String> {
    search_longest(setting, setting.m1)
}

/// A log record of any operation where one place is free.
fn replay_step(setting: Setting) -> Result<Figures, String> {
    let inputs = inputs(setting, |mut table, draw| {
        table.records.pop();
        let station = draw.one_of(&table.stations);
        let entry = match draw.below(4) {
            0 => logs::clock(table.now + draw.below(4)),
            1 => Entry {
                bo: any_bo(draw) as i8,
                ..logs::reserve(station, 2 + draw.below(254))
            },
            2 => logs::distance(station, draw.below(400), 150),
            _ => logs::wipe(station),
        };
        Input::new(&table, entry.octets())
    });
    measure_both(
        &inputs,
        |calls, lent, input| calls.replay_step(lent, input.state, &input.asked),
        |answer| accepted(answer) || answer == REFUSED + 16,
    )
}

/// Any place, and the first one past the end.
fn record_at(setting: Setting) -> Result<Figures, String> {
    let inputs = inputs(setting, |table, draw| {
        Input::bare(&table, draw.below(table.state().count + 1))
    });
    measure(
        &inputs,
        |lent, input| archive::record_at(&lent.memory, input.state, input.asked),
        |lent, input| plain::record_at(&lent.memory, input.state, input.asked),
        |place| place.refusal == 0,
    )
}

type Bench = fn(Setting) -> Result<Figures, String>;

const CALLS: [(&str, Bench); 19] = [
    ("open", open),
    ("reserve, new", reserve_new),
    ("reserve, held", reserve_held),
    ("distance", distance),
    ("wipe", wipe),
    ("clock, a tenth goes", clock_tenth),
    ("clock, none goes", clock_none),
    ("clock, next slot", clock_next),
    ("slot state / in turn", slot_state_in_turn),
    ("slot state / dividing", slot_state_dividing),
    ("search 1", |s| search_inside(s, 1)),
    ("search 10", |s| search_inside(s, 10)),
    ("search 100", |s| search_inside(s, 100)),
    ("search map", search_map),
    ("search whole", search_whole),
    ("search across", |s| search_across(s, 100)),
    ("search ahead", |s| search_ahead(s, 100)),
    ("record at", record_at),
    ("replay step", replay_step),
];

/// Prints the ratios of a call, and gives the worst of them on tables of each
/// capacity. Adds a note on those that come from fewer rounds than the others.
fn rows(
    name: &str,
    bench: Bench,
    notes: &mut Vec<String>,
) -> Result<[f64; CAPACITIES.len()], String> {
    let mut worst = [0.0_f64; CAPACITIES.len()];
    for (capacity, worst) in CAPACITIES.into_iter().zip(&mut worst) {
        for kind in Kind::ALL {
            // What an opening finds makes no difference.
            if name == "open" && kind != Kind::ALL[0] {
                continue;
            }
            let kind_name = kind.name();
            let mut line = format!("| {name:<21} | {capacity:>7} | {kind_name:<9} |");
            for m1 in M1S {
                let figures = bench(Setting { kind, capacity, m1 })
                    .map_err(|error| format!("{line} M1 {m1}: {error}"))?;
                *worst = worst.max(figures.ratio);
                if figures.rounds < ROUNDS {
                    notes.push(format!(
                        "{name}, {capacity} records, {kind_name}, M1 {m1}: {} rounds",
                        figures.rounds
                    ));
                }
                line += &format!(" {figures} |");
            }
            println!("{line}");
        }
    }
    Ok(worst)
}

/// The maps that go with the inputs have to be those of the paper.
fn check_maps() -> Result<(), String> {
    for kind in Kind::ALL {
        for m1 in M1S {
            let setting = Setting {
                kind,
                capacity: FULL,
                m1,
            };
            let table = Table::full(setting, &mut Draw::from_seed(12));
            if table.map() != table.map_on_paper() {
                return Err(format!("{}, M1 {m1}: not the paper's map", kind.name()));
            }
        }
    }
    Ok(())
}

/// The calls whose name has a word in it.
pub fn table(word: &str) -> Result<(), String> {
    check_maps()?;
    println!("Calls on a table, at two lengths of the superframe:\n");
    println!(
        "| {:<21} | records | {:<9} | {:>8} | {:>8} | {:>5} | {:>8} | {:>8} | {:>5} |",
        "call", "table", "M1 4500", "peer", "ratio", "M1 15360", "peer", "ratio"
    );
    println!("|---|---:|---|---:|---:|---:|---:|---:|---:|");
    let (mut worst, mut notes) = (Vec::new(), Vec::new());
    for (name, bench) in CALLS.into_iter().filter(|(name, _)| name.contains(word)) {
        worst.push((name, rows(name, bench, &mut notes)?));
    }
    if !notes.is_empty() {
        println!("\nToo long for all {ROUNDS} rounds, and for all tables:\n");
        notes.iter().for_each(|note| println!("- {note}"));
    }
    println!("\nThe worst ratio of each call, by the records of the table:\n");
    let columns = CAPACITIES.map(|capacity| format!(" {capacity:>5} |"));
    println!("| {:<21} |{}", "call", columns.concat());
    println!("|---|{}", "---:|".repeat(CAPACITIES.len()));
    for (name, ratios) in worst {
        let ratios = ratios.map(|ratio| format!(" {:>5} |", three_digits(ratio)));
        println!("| {name:<21} |{}", ratios.concat());
    }
    Ok(())
}
