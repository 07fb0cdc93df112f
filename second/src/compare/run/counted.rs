//! What is counted of the runs that agree: the calls that end and those that are refused, arrivals
//! at their limits and past them, and what the machine did.

use super::watch::watch;
use crate::compare::tally::{Counted, Tally};
use crate::fast_run::Ran;
use crate::plan::{plan, Plan};
use crate::run::Arrival;
use crate::run_call::{Outcome, RunCall};
use crate::table::{read, Protocol, Table};

const END_OF_TIME: u64 = 1_000_000;

const ENDED: [Counted; 16] = [
    ("runs", 20_000),
    ("without refusal", 12_000),
    ("under PCP", 5_000),
    ("under NPP", 5_000),
    ("of 64 rows on 16 processors under PCP", 100),
    ("under NPP", 100),
    ("with no arrivals", 200),
    ("with 4,096", 20),
    ("with w = 0", 300),
    ("with w = 4,096", 20),
    ("with f + w = 1,000,000", 2),
    ("with a trace of m × w bytes", 3_000),
    ("with more", 3_000),
    ("busy in tick f above 0", 1_000),
    ("with null arrivals", 100),
    ("with a null trace", 100),
];

const REFUSED: [Counted; 21] = [
    ("by 1", 10),
    ("by 2", 10),
    ("by 3", 10),
    ("by 4", 10),
    ("by 5", 10),
    ("by 6", 10),
    ("by 7", 10),
    ("by 8", 10),
    ("by 9", 10),
    ("by 11 with mark 1", 100),
    ("by 11 with mark 2", 100),
    ("by 12 with w = 4,097", 40),
    ("by 12 with f + w = 1,000,001", 40),
    ("by 12 where f + w runs over", 40),
    ("by 13 for one byte", 50),
    ("by 14 with 4,097 arrivals", 40),
    ("by 1 to 11 where 12 would hold", 40),
    ("by 12 where 13 would", 40),
    ("by 13 where 14 would", 10),
    ("by 14 where 15 would", 40),
    ("with null tables", 10),
];

const ALLOWED: [Counted; 9] = [
    ("with row 1", 5_000),
    ("with row n above 1", 5_000),
    ("with tick 999,999", 30),
    ("with the next row in the same tick", 3_000),
    ("with all of C1", 3_000),
    ("with all of A", 3_000),
    ("with all of C2", 3_000),
    ("with a row T later", 3_000),
    ("with a row T + 1 later", 1_000),
];

const BAD: [Counted; 16] = [
    ("by 15 for row 0", 60),
    ("by 15 for row n + 1", 60),
    ("by 16 for tick 1,000,000", 60),
    ("by 16 for the tick before", 60),
    ("by 16 for the same row", 60),
    ("by 16 for the row before", 60),
    ("by 17 for one in stage one", 30),
    ("by 17 for one in the section", 30),
    ("by 17 for one in stage two", 30),
    ("by 18 for a row T - 1 later", 60),
    ("where a later one is bad too", 100),
    ("and has a lower number", 40),
    ("by 15 where 16 would hold", 60),
    ("by 16 where 17 would", 60),
    ("by 16 where 18 would", 60),
    ("by 17 where 18 would", 60),
];

const JOBS: [Counted; 9] = [
    ("with an empty stage one", 1_000),
    ("with an empty section", 1_000),
    ("with an empty stage two", 1_000),
    ("with all three empty", 300),
    (
        "with an empty stage two released as the next job arrives",
        500,
    ),
    ("with units owed", 3_000),
    ("with none owed", 1_000),
    ("with a response that is its bound", 3_000),
    ("with two processors for sections", 300),
];

const WAITS: [Counted; 7] = [
    ("for a better-ranked stage", 1_000),
    ("for a better-ranked section under PCP", 500),
    ("of two begun sections at once", 20),
    ("for the own resource", 300),
    ("for the ceiling of another", 150),
    ("for a resource or a ceiling under NPP", 300),
    ("for the end of a section that PCP would put aside", 300),
];

pub struct Counts {
    ended: Tally<{ ENDED.len() }>,
    refused: Tally<{ REFUSED.len() }>,
    allowed: Tally<{ ALLOWED.len() }>,
    bad: Tally<{ BAD.len() }>,
    jobs: Tally<{ JOBS.len() }>,
    waits: Tally<{ WAITS.len() }>,
}

impl Counts {
    pub fn new() -> Counts {
        Counts {
            ended: Tally::new(&ENDED),
            refused: Tally::new(&REFUSED),
            allowed: Tally::new(&ALLOWED),
            bad: Tally::new(&BAD),
            jobs: Tally::new(&JOBS),
            waits: Tally::new(&WAITS),
        }
    }

    pub fn count(&mut self, call: &RunCall, (ran, trace): &Outcome) {
        let table = read(&call.table).ok();
        self.ended.count(ended(call, ran, trace, table.as_ref()));
        self.refused.count(refused(call, ran));
        let Some(table) = table else {
            return;
        };
        let arrivals = &call.arrivals;
        match (ran.number, plan(&table)) {
            (0, Ok(plan)) => {
                self.allowed.count(allowed(&table, arrivals));
                self.jobs.count(jobs(&table, &plan, call, ran));
                // Only a trace that begins with tick 0 tells of all waits.
                if call.from == 0 {
                    self.waits.count(waits(&table, &plan, call, trace));
                }
            }
            (15..=18, _) => self.bad.count(bad(&table, arrivals, ran)),
            _ => {}
        }
    }

    /// How many runs have ended without refusal.
    pub fn without_refusal(&self) -> usize {
        self.ended.counts()[1]
    }

    pub fn lines(&self) -> [String; 6] {
        [
            format!("all: {}", self.ended.words()),
            format!("refused: {}", self.refused.words()),
            format!("allowed arrivals: {}", self.allowed.words()),
            format!("bad arrivals: {}", self.bad.words()),
            format!("jobs: {}", self.jobs.words()),
            format!("waits: {}", self.waits.words()),
        ]
    }

    /// Where one in so many of all runs was counted.
    pub fn enough_in_one_of(&self, part: usize) -> Result<(), String> {
        self.ended.enough_in_one_of(part)?;
        self.refused.enough_in_one_of(part)?;
        self.allowed.enough_in_one_of(part)?;
        self.bad.enough_in_one_of(part)?;
        self.jobs.enough_in_one_of(part)?;
        self.waits.enough_in_one_of(part)
    }
}

fn ended(call: &RunCall, ran: &Ran, trace: &[u8], table: Option<&Table>) -> [bool; ENDED.len()] {
    let Some(table) = table.filter(|_| ran.number == 0) else {
        let mut refused = [false; ENDED.len()];
        refused[0] = true;
        return refused;
    };
    let (m, count) = (table.processors, call.arrivals.len());
    let under = |protocol| table.protocol == protocol;
    let largest = table.tasks.len() == 64 && m == 16;
    let line = &trace[..m * call.ticks.min(1)];
    [
        true,
        true,
        under(Protocol::Pcp),
        under(Protocol::Npp),
        largest && under(Protocol::Pcp),
        largest && under(Protocol::Npp),
        count == 0,
        count == 4_096,
        call.ticks == 0,
        call.ticks == 4_096,
        call.from + call.ticks == 1_000_000,
        call.ticks > 0 && call.trace == m * call.ticks,
        call.trace > m * call.ticks,
        call.from > 0 && line.iter().any(|&byte| byte != 0),
        call.null_arrivals(),
        call.null_trace(),
    ]
}

fn refused(call: &RunCall, ran: &Ran) -> [bool; REFUSED.len()] {
    let is = |number| ran.number == number;
    let end = call.from.checked_add(call.ticks);
    let count = call.arrivals.len();
    // As the header has it.
    let m = |table: &[u8]| usize::from(table[0] & 1) << 4 | usize::from(table[1] >> 4);
    let size = || m(&call.table).saturating_mul(call.ticks);
    let too_long = call.ticks > 4_096 || end.is_none_or(|end| end > 1_000_000);
    [
        is(1),
        is(2),
        is(3),
        is(4),
        is(5),
        is(6),
        is(7),
        is(8),
        is(9),
        is(11) && ran.mark == 1,
        is(11) && ran.mark == 2,
        is(12) && call.ticks == 4_097 && end.is_some_and(|end| end <= 1_000_000),
        is(12) && call.ticks <= 4_096 && end == Some(1_000_001),
        is(12) && end.is_none(),
        is(13) && call.trace + 1 == size(),
        is(14) && count == 4_097,
        (1..12).contains(&ran.number) && too_long,
        is(12) && call.trace < size(),
        is(13) && count > 4_096,
        is(14) && call.arrivals.iter().any(|arrival| arrival.row == 0),
        call.null_table(),
    ]
}

/// Of arrivals of which none is bad.
fn allowed(table: &Table, arrivals: &[Arrival]) -> [bool; ALLOWED.len()] {
    let n = table.tasks.len() as u64;
    let any = |is: &dyn Fn(&Arrival) -> bool| arrivals.iter().any(is);
    let all_of = |stage: usize| {
        any(&|arrival| {
            let most = table.task(arrival.row as usize).lengths()[stage];
            most > 0 && arrival.lengths[stage] == most
        })
    };
    let together =
        |pair: &[Arrival]| pair[0].tick == pair[1].tick && pair[0].row + 1 == pair[1].row;
    let later = |more| {
        any(&|arrival| {
            let period = table.task(arrival.row as usize).period;
            next(arrivals, arrival).is_some_and(|next| next.tick == arrival.tick + period + more)
        })
    };
    [
        any(&|arrival| arrival.row == 1),
        n > 1 && any(&|arrival| arrival.row == n),
        any(&|arrival| arrival.tick == END_OF_TIME - 1),
        arrivals.windows(2).any(together),
        all_of(0),
        all_of(1),
        all_of(2),
        later(0),
        later(1),
    ]
}

/// The same row's next arrival, if there is one; arrivals are in the order of their ticks.
fn next<'a>(arrivals: &'a [Arrival], this: &Arrival) -> Option<&'a Arrival> {
    let behind = arrivals.partition_point(|other| other.tick <= this.tick);
    arrivals[behind..]
        .iter()
        .find(|other| other.row == this.row)
}

/// Of the arrival that is named, and those around it.
fn bad(table: &Table, arrivals: &[Arrival], ran: &Ran) -> [bool; BAD.len()] {
    let (number, position) = (ran.number, ran.names as usize);
    let (this, earlier) = (&arrivals[position - 1], &arrivals[..position - 1]);
    let n = table.tasks.len() as u64;
    let before = earlier.last();
    let ways = ways(table, earlier, this);
    let alone = |way| number == way && ways.iter().filter(|&&is| is).count() == 1;
    let behind = |tick, row| before.is_some_and(|o| (o.tick, o.row) == (tick, row));
    let most = |stage: usize| table.task(this.row as usize).lengths()[stage];
    let one_more = |stage| alone(17) && this.lengths[stage] == most(stage) + 1;
    let last = earlier.iter().rev().find(|other| other.row == this.row);
    let period = |arrival: &Arrival| table.task(arrival.row as usize).period;
    let other = without(table, arrivals, position);
    [
        number == 15 && this.row == 0,
        number == 15 && this.row == n + 1,
        alone(16) && this.tick == END_OF_TIME,
        number == 16 && before.is_some_and(|before| before.tick == this.tick + 1),
        number == 16 && behind(this.tick, this.row),
        number == 16 && behind(this.tick, this.row + 1),
        one_more(0),
        one_more(1),
        one_more(2),
        alone(18) && last.is_some_and(|last| this.tick + 1 == last.tick + period(this)),
        other.is_some(),
        other.is_some_and(|other| other < number),
        number == 15 && ways[1],
        number == 16 && ways[2],
        number == 16 && ways[3],
        number == 17 && ways[3],
    ]
}

/// Which of 15 to 18 hold for an arrival behind these.
fn ways(table: &Table, earlier: &[Arrival], this: &Arrival) -> [bool; 4] {
    let task = table.tasks.iter().find(|task| task.row as u64 == this.row);
    let last = earlier.iter().rev().find(|other| other.row == this.row);
    let not_behind = |before: &Arrival| (this.tick, this.row) <= (before.tick, before.row);
    let mut pairs = task
        .into_iter()
        .flat_map(|task| this.lengths.into_iter().zip(task.lengths()));
    let soon = |last: &Arrival| task.is_some_and(|task| this.tick < last.tick + task.period);
    [
        task.is_none(),
        this.tick >= END_OF_TIME || earlier.last().is_some_and(not_behind),
        pairs.any(|(actual, most)| actual > most),
        last.is_some_and(soon),
    ]
}

/// The number of the first bad arrival behind a bad one, as if that one were not there.
fn without(table: &Table, arrivals: &[Arrival], position: usize) -> Option<u32> {
    let mut others = arrivals.to_vec();
    others.remove(position - 1);
    let mut all = (position - 1..others.len()).map(|place| {
        let ways = ways(table, &others[..place], &others[place]);
        (15..)
            .zip(ways)
            .find(|&(_, is)| is)
            .map(|(number, _)| number)
    });
    all.find_map(|number| number)
}

/// Of a run without refusal: the lengths that its jobs bring, and what came of them.
fn jobs(table: &Table, plan: &Plan, call: &RunCall, ran: &Ran) -> [bool; JOBS.len()] {
    let end = (call.from + call.ticks) as u64;
    let count = call
        .arrivals
        .iter()
        .take_while(|arrival| arrival.tick < end);
    let stepped = &call.arrivals[..count.count()];
    // Just these parts of a job are empty, and they are not in the table.
    let empty = |wanted: [bool; 3]| {
        stepped.iter().any(|arrival| {
            let most = table.task(arrival.row as usize).lengths();
            let parts = [0, 1, 2].map(|part| arrival.lengths[part] == 0 && most[part] > 0);
            parts == wanted
        })
    };
    let at_the_last_moment = |arrival: &Arrival| {
        let place = &plan.places[arrival.row as usize - 1];
        let release = arrival.tick + place.d1 + place.s;
        let next = next(stepped, arrival);
        arrival.lengths[2] == 0 && next.is_some_and(|next| next.tick == release)
    };
    let places = plan.places.iter();
    let bounds = places.flat_map(|place| [place.d1, place.s, place.d2]);
    let met = |(bound, worst): (u64, &u32)| bound > 0 && bound == u64::from(*worst);
    [
        empty([true, false, false]),
        empty([false, true, false]),
        empty([false, false, true]),
        empty([true; 3]),
        stepped.iter().any(at_the_last_moment),
        ran.owed > 0,
        ran.owed == 0,
        bounds.zip(&ran.worst).any(met),
        plan.sync >= 2,
    ]
}

/// Of a run without refusal from tick 0 on.
fn waits(table: &Table, plan: &Plan, call: &RunCall, trace: &[u8]) -> [bool; WAITS.len()] {
    let written = &trace[..table.processors * call.ticks];
    let seen = watch(table, plan, &call.arrivals, written);
    let pcp = table.protocol == Protocol::Pcp;
    [
        seen.stage_aside,
        pcp && seen.deepest >= 2,
        pcp && seen.deepest >= 3,
        pcp && seen.waits_for_its_own,
        pcp && seen.waits_for_a_ceiling,
        !pcp && (seen.waits_for_its_own || seen.waits_for_a_ceiling),
        !pcp && seen.waits_for_the_end,
    ]
}
