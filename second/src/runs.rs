//! The runs that the product is compared on, kind by kind, and the one that it is timed with.

use crate::fast;
use crate::inputs::{one_bad, several_bad};
use crate::random::{arrivals, small_table, some_length, Random};
use crate::raw::{self, RawTable};
use crate::run::Arrival;
use crate::run_call::RunCall;
use crate::table::{read, Table};
use crate::workloads::{busiest, is_planned, largest_within, under, FAILING};

const END_OF_TIME: u64 = 1_000_000;
const MOST_TICKS: u64 = 4_096;
const MOST_ARRIVALS: usize = 4_096;
/// The largest number that an arrival can hold.
const WIDEST: u64 = u32::MAX as u64;

pub struct Kind {
    pub name: &'static str,
    /// How many runs come from here.
    pub count: usize,
    pub make: fn(&mut Random) -> RunCall,
}

pub const KINDS: [Kind; 11] = [
    Kind {
        name: "small tables",
        count: 5_000,
        make: small,
    },
    Kind {
        name: "crowded sections",
        count: 5_000,
        make: crowded,
    },
    Kind {
        name: "lengths of 0",
        count: 3_000,
        make: hollow,
    },
    Kind {
        name: "late windows",
        count: 1_500,
        make: late,
    },
    Kind {
        name: "64 rows on 16 processors",
        count: 400,
        make: largest,
    },
    Kind {
        name: "thousands of arrivals",
        count: 120,
        make: thousands,
    },
    Kind {
        name: "long runs",
        count: 16,
        make: long,
    },
    Kind {
        name: "calls at their limits",
        count: 1_500,
        make: call_at_a_limit,
    },
    Kind {
        name: "arrivals at their limits",
        count: 4_000,
        make: arrival_at_a_limit,
    },
    Kind {
        name: "several bad things",
        count: 3_000,
        make: several_bad_things,
    },
    Kind {
        name: "tables that are refused",
        count: 1_500,
        make: refused_table,
    },
];

/// The same run under PCP and under NPP, as dense as it can be: a million ticks, 64 rows, 16
/// processors, and 4,096 arrivals, every row one period behind its last, with the table's lengths.
pub fn busiest_runs(random: &mut Random) -> [RunCall; 2] {
    loop {
        let raw = busiest(random);
        let runs = [0, 1].map(|protocol| {
            let bytes = under(protocol, &raw).bytes();
            let all = every_period(&good(&bytes), END_OF_TIME, |most| most);
            let f = END_OF_TIME - MOST_TICKS;
            call(random, bytes, all, f, MOST_TICKS)
        });
        // Some dozens too many are taken from the end.
        let count = runs[0].arrivals.len();
        if (MOST_ARRIVALS..MOST_ARRIVALS + 64).contains(&count) {
            return runs.map(|run| RunCall {
                arrivals: run.arrivals[..MOST_ARRIVALS].to_vec(),
                trace: 16 * run.ticks,
                ..run
            });
        }
    }
}

fn small(random: &mut Random) -> RunCall {
    let table = planned(random, |random| small_table(random).bytes());
    let f = random.pick(&[0, 0, 0, 1, 40, 200]);
    let longest = random.pick(&[0, 20, 300, 600]);
    let w = random.within(0, longest);
    good_call(random, table, f, w)
}

/// From tick 0 on, so that all of it is in the trace.
fn crowded(random: &mut Random) -> RunCall {
    let table = planned(random, |random| crowded_table(random).bytes());
    let w = random.within(100, 700);
    good_call(random, table, 0, w)
}

/// Several sections on few processors. The longer a period, the longer its section, and in most
/// rows the higher its resource, so that some rows are better than some ceilings.
pub fn crowded_table(random: &mut Random) -> RawTable {
    let resources = random.within(2, 5);
    let share = random.pick(&[4, 8, 14]);
    let mut rows = Vec::new();
    for _ in 0..random.within(3, 10) {
        let level = random.within(1, resources);
        let t = random.within(10, 20) << level;
        let resource = match random.once_in(4) {
            true => random.within(1, resources),
            false => level,
        };
        let [c1, c2] = [0, 0].map(|_| random.within(0, t / 16));
        let a = random.within(1, (t * share / 100).max(1));
        rows.push((t, c1, a, c2, resource));
    }
    raw::table(random.within(2, 4), random.within(0, 1), &rows)
}

fn hollow(random: &mut Random) -> RunCall {
    let bytes = match random.within(0, 2) {
        0 => planned(random, |random| small_table(random).bytes()),
        _ => planned(random, |random| hollow_table(random).bytes()),
    };
    let f = random.pick(&[0, 0, 0, 7]);
    let w = random.within(0, 120);
    let arrivals = every_period(&good(&bytes), f + w, |most| some_length(random, most));
    call(random, bytes, arrivals, f, w)
}

/// Rows that have no stage two and take all of their period, so that it is released when the next
/// job arrives; and rows of one part, with stages that are released in the tick of the arrival.
pub fn hollow_table(random: &mut Random) -> RawTable {
    let mut rows = Vec::new();
    for resource in 1..=random.within(1, 4) {
        let t = random.within(2, 12);
        let c1 = random.within(0, t - 1);
        rows.push(random.pick(&[
            (t, c1, t - c1, 0, resource),
            (t, c1, 1, 0, resource),
            (t, t, 0, 0, 0),
            (t, 0, 0, t - c1, 0),
        ]));
    }
    raw::table(random.within(2, 8), random.within(0, 1), &rows)
}

fn late(random: &mut Random) -> RunCall {
    let table = match random.once_in(2) {
        true => planned(random, |random| small_table(random).bytes()),
        false => planned(random, |random| crowded_table(random).bytes()),
    };
    let f = random.within(100, 2_500);
    let w = random.within(0, 300);
    good_call(random, table, f, w)
}

fn largest(random: &mut Random) -> RunCall {
    let table = planned(random, |random| largest_within(random, 20, 600).bytes());
    let f = random.pick(&[0, 0, 150]);
    let w = random.within(50, 400);
    good_call(random, table, f, w)
}

/// Just as many arrivals as are allowed, or one less or more.
fn thousands(random: &mut Random) -> RunCall {
    let table = planned(random, |random| largest_within(random, 8, 60).bytes());
    let count = MOST_ARRIVALS + random.pick(&[0, 0, 1]) - random.pick(&[0, 0, 0, 1]);
    let mut arrivals = every_period(&good(&table), 60 * MOST_TICKS, |most| most);
    arrivals.truncate(count);
    let f = random.pick(&[0, 100, 1_500]);
    let w = random.within(0, 1_000);
    call(random, table, arrivals, f, w)
}

/// As many ticks as are allowed, or a few less.
fn long(random: &mut Random) -> RunCall {
    let table = planned(random, |random| {
        let few = random.within(1, 6) as usize;
        let mut table = largest_within(random, 4_000, 400_000);
        table.rows.truncate(few);
        (table.n, table.m) = (few as u64, random.within(2, 4));
        table.bytes()
    });
    let w = random.pick(&[0, 1, 100, MOST_TICKS]);
    let f = END_OF_TIME - w - random.pick(&[0, 0, 0, 0, 1, 50]);
    good_call(random, table, f, w)
}

fn call_at_a_limit(random: &mut Random) -> RunCall {
    let mut call = small(random);
    move_to_a_limit(random, &mut call);
    call
}

/// One of f, w, the trace's length and the count of arrivals, just allowed or just too much, or
/// much too much.
fn move_to_a_limit(random: &mut Random, call: &mut RunCall) {
    let m = processors(&call.table);
    let most = MOST_TICKS as usize;
    let end = END_OF_TIME as usize;
    let some = random.within(1, MOST_TICKS) as usize;
    let high = 1 << random.pick(&[31, 32, 33, 52, 59, 60, 61, 62, 63]);
    let window = match random.within(0, 13) {
        0 => (random.within(0, 20) as usize, most),
        1 => (random.within(0, 20) as usize, most + 1),
        2 => (end - some + 1, some),
        3 => (end + 1, 0),
        // The sum, if it wraps, is a small number.
        4 => {
            let sum = random.within(0, some as u64 - 1) as usize;
            (sum.wrapping_sub(some), some)
        }
        5 => (random.pick(&[usize::MAX, high, high - 1]), some),
        6 => (random.pick(&[0, 1, some, high]), usize::MAX),
        7 => (random.pick(&[0, 1]), high + random.pick(&[0, 1, some])),
        8 => (high.wrapping_neg().wrapping_add(1), high),
        9 => {
            let count = most + random.pick(&[1, 1, 40]);
            call.arrivals = some_arrivals(random, count);
            (call.from, call.ticks)
        }
        _ => (call.from, call.ticks.max(random.pick(&[0, 1]))),
    };
    (call.from, call.ticks) = window;
    // No longer than what the longest run takes.
    let size = m.saturating_mul(call.ticks).min(16 * (most + 1));
    call.trace = random.pick(&[size, size, size + 1, size.saturating_sub(1), 0]);
}

fn arrival_at_a_limit(random: &mut Random) -> RunCall {
    let mut call = some_arrivals_call(random);
    let table = good(&call.table);
    spoil(random, &table, &mut call.arrivals);
    call
}

/// A good call with two arrivals or more.
fn some_arrivals_call(random: &mut Random) -> RunCall {
    loop {
        let call = small(random);
        if call.arrivals.len() >= 2 {
            return call;
        }
    }
}

/// Puts one arrival at a limit or just past it, or far past it.
fn spoil(random: &mut Random, table: &Table, arrivals: &mut Vec<Arrival>) {
    let place = random.within(0, arrivals.len() as u64 - 1) as usize;
    let this = arrivals[place];
    let n = table.tasks.len() as u64;
    let known = this.row.clamp(1, n);
    let stage = random.within(0, 2) as usize;
    let past = |random: &mut Random, most: u64| {
        let far = random.pick(&[WIDEST, 1 << 20, 1 << 31, most + 256]);
        random.pick(&[most, most + 1, most + 1, far])
    };
    match random.within(0, 9) {
        0 => arrivals[place].row = random.pick(&[0, 1, n, n + 1, n + 1, WIDEST, known + 256]),
        1 | 2 => arrivals.push(full(table, known, past(random, END_OF_TIME - 1))),
        3 => {
            let tick = this.tick.saturating_sub(1);
            arrivals.insert(place + 1, Arrival { tick, ..this });
        }
        4 => arrivals.insert(place, this),
        5 => {
            let row_before = full(table, (known - 1).max(1), this.tick);
            arrivals.insert(place + 1, row_before);
        }
        6 | 7 => {
            let most = table.task(known as usize).lengths()[stage];
            arrivals[place].lengths[stage] = past(random, most);
        }
        _ => {
            let period = table.task(known as usize).period;
            let tick = this.tick + period + random.pick(&[0, 1]) - random.pick(&[0, 1]);
            again(table, arrivals, place, tick.min(WIDEST));
        }
    }
}

/// An arrival with the table's lengths.
fn full(table: &Table, row: u64, tick: u64) -> Arrival {
    let lengths = table.task(row as usize).lengths();
    Arrival { tick, row, lengths }
}

/// The row of the arrival in this place arrives at this tick too, and not later.
fn again(table: &Table, arrivals: &mut Vec<Arrival>, place: usize, tick: u64) {
    let this = arrivals[place];
    let later = arrivals.split_off(place + 1);
    arrivals.extend(later.iter().filter(|other| other.row != this.row));
    let known = this.row.clamp(1, table.tasks.len() as u64);
    let next = Arrival {
        row: this.row,
        ..full(table, known, tick)
    };
    let before = |other: &Arrival| (other.tick, other.row) < (next.tick, next.row);
    let count = arrivals[place + 1..].iter().take_while(|o| before(o));
    let at = place + 1 + count.count();
    arrivals.insert(at, next);
}

/// Two bad arrivals, or one that is bad in two ways, or a bad call with bad arrivals.
fn several_bad_things(random: &mut Random) -> RunCall {
    let mut call = some_arrivals_call(random);
    let table = good(&call.table);
    match random.within(0, 4) {
        0 | 1 => {
            for _ in 0..random.within(2, 3) {
                spoil(random, &table, &mut call.arrivals);
            }
        }
        2 | 3 => spoil_in_two_ways(random, &table, &mut call.arrivals),
        _ => {
            spoil(random, &table, &mut call.arrivals);
            if random.once_in(3) {
                let more = some_arrivals(random, MOST_ARRIVALS);
                call.arrivals.extend(more);
            }
            let (from, ticks) = (call.from, call.ticks);
            move_to_a_limit(random, &mut call);
            if random.once_in(2) {
                (call.from, call.ticks) = (from, ticks);
            }
        }
    }
    call
}

/// One arrival behind another, with two things wrong, and sometimes three.
fn spoil_in_two_ways(random: &mut Random, table: &Table, arrivals: &mut Vec<Arrival>) {
    let place = random.within(0, arrivals.len() as u64 - 2) as usize;
    let this = arrivals[place];
    let period = table.task(this.row as usize).period;
    let early = random.within(this.tick + 1, this.tick + period) - 1;
    let stage = random.within(0, 2) as usize;
    let at = place + 1;
    match random.within(0, 3) {
        // The row does not exist, and the tick is too late or below the one before.
        0 => {
            arrivals[at].row = random.pick(&[0, table.tasks.len() as u64 + 1]);
            arrivals[at].tick = random.pick(&[END_OF_TIME, this.tick.saturating_sub(1)]);
        }
        // The tick is too late or below the one before, and a length is too much.
        1 => {
            arrivals[at].tick = random.pick(&[END_OF_TIME, this.tick.saturating_sub(1)]);
            arrivals[at].lengths[stage] += 1_000_001;
        }
        // The same row comes too early, with a length that is too much.
        2 => {
            again(table, arrivals, place, early);
            for other in arrivals[at..].iter_mut().filter(|o| o.row == this.row) {
                other.lengths[stage] += 1_000_001;
            }
        }
        // The same row comes too early, and below the tick before or in the same tick.
        _ => {
            let tick = this.tick.saturating_sub(random.within(0, 1));
            arrivals.insert(at, Arrival { tick, ..this });
        }
    }
}

/// Refusals 1 to 9 and 11, with calls and arrivals of all sorts.
fn refused_table(random: &mut Random) -> RunCall {
    let table = match random.within(0, 9) {
        0 => [0x06, 0x30][..random.within(0, 1) as usize].to_vec(),
        1..5 => one_bad(random),
        5 | 6 => several_bad(random),
        _ => {
            let mark = random.pick(&[1, 2]);
            unplanned(random, mark)
        }
    };
    let count = random.pick(&[0, 0, 1, 7, 60]);
    let arrivals = some_arrivals(random, count);
    let f = random.within(0, 50);
    let w = random.within(0, 50);
    let mut call = call(random, table, arrivals, f, w);
    if random.once_in(3) {
        move_to_a_limit(random, &mut call);
    }
    call
}

/// A table that is refused by 11 with this mark, of any kind of these.
fn unplanned(random: &mut Random, mark: u32) -> Vec<u8> {
    loop {
        let kind = random.within(1, FAILING.len() as u64) as usize;
        let table = (FAILING[kind - 1].make)(random);
        if fast::plan_into(&table, 0, &mut [0; 588]).mark == mark {
            return table;
        }
    }
}

/// Arrivals of small numbers, good or bad.
fn some_arrivals(random: &mut Random, count: usize) -> Vec<Arrival> {
    let mut tick = 0;
    let mut next = || {
        tick += random.within(0, 9);
        let row = random.within(0, 9);
        let lengths = [0; 3].map(|_| random.within(0, 3));
        Arrival { tick, row, lengths }
    };
    (0..count).map(|_| next()).collect()
}

/// The first of these tables that is planned.
fn planned(random: &mut Random, make: impl Fn(&mut Random) -> Vec<u8>) -> Vec<u8> {
    loop {
        let table = make(random);
        if is_planned(&table) {
            return table;
        }
    }
}

fn good(bytes: &[u8]) -> Table {
    read(bytes).expect("a good table")
}

/// A call that is not refused, if the table is planned.
fn good_call(random: &mut Random, table: Vec<u8>, f: u64, w: u64) -> RunCall {
    let arrivals = match random.once_in(25) {
        true => Vec::new(),
        false => arrivals(random, &good(&table), f + w + 50),
    };
    call(random, table, arrivals, f, w)
}

/// A call whose trace is long enough, often with nothing to spare.
fn call(
    random: &mut Random,
    table: Vec<u8>,
    mut arrivals: Vec<Arrival>,
    f: u64,
    w: u64,
) -> RunCall {
    arrivals.retain(|arrival| arrival.tick < END_OF_TIME);
    let behind = random.within(1, 40) as usize;
    let trace = processors(&table) * w as usize + random.pick(&[0, 0, behind]);
    RunCall {
        table,
        arrivals,
        from: f as usize,
        ticks: w as usize,
        trace,
        fill: random.number() as u8,
        nulls: random.once_in(2),
    }
}

/// m as the header has it, whatever it is; 16 if there is none.
fn processors(table: &[u8]) -> usize {
    match table {
        &[first, second, ..] => usize::from(first & 1) << 4 | usize::from(second >> 4),
        _ => 16,
    }
}

/// Every row at tick 0 and then one period behind its last arrival, with these parts of the
/// table's lengths.
fn every_period(table: &Table, end: u64, mut length: impl FnMut(u64) -> u64) -> Vec<Arrival> {
    let mut all = Vec::new();
    for task in &table.tasks {
        for tick in (0..end).step_by(task.period as usize) {
            let row = task.row as u64;
            let lengths = task.lengths().map(&mut length);
            all.push(Arrival { tick, row, lengths });
        }
    }
    all.sort_by_key(|arrival| (arrival.tick, arrival.row));
    all
}
