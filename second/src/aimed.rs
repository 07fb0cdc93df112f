//! The runs that are held to the bounds: planned tables with short periods and shared resources,
//! and arrivals that are aimed at what the bounds allow for.

use crate::plan::{in_the_way, plan, Place, Plan};
use crate::random::{small_table, some_length, Random};
use crate::rank::Ranks;
use crate::run::Arrival;
use crate::run_call::RunCall;
use crate::runs::{crowded_table, hollow_table};
use crate::table::{read, Table, Task};
use crate::workloads::{fullest_within, largest_within, under};

const MOST_TICKS: u64 = 4_096;
const MOST_ARRIVALS: usize = 4_096;
const ONE: usize = 0;
const SECTION: usize = 1;
const TWO: usize = 2;

/// A table, as bytes and as it is read, and its plan.
pub struct Planned {
    pub bytes: Vec<u8>,
    pub table: Table,
    pub plan: Plan,
}

pub struct Kind {
    pub name: &'static str,
    /// How many runs come from here under each protocol.
    pub count: usize,
    /// The tick of each row's first arrival, in row order.
    aim: fn(&mut Random, &Planned) -> Vec<u64>,
}

pub const KINDS: [Kind; 4] = [
    Kind {
        name: "all rows at tick 0",
        count: 700,
        aim: together,
    },
    Kind {
        name: "rows at any tick",
        count: 500,
        aim: at_any_tick,
    },
    Kind {
        name: "a lower-ranked section just ahead",
        count: 1_100,
        aim: lower_section_ahead,
    },
    Kind {
        name: "better-ranked ones in the same tick",
        count: 700,
        aim: better_at_once,
    },
];

/// A table that is planned under this protocol; most have two sections or more.
pub fn planned(random: &mut Random, protocol: u64) -> Planned {
    loop {
        let raw = match random.within(0, 19) {
            0..5 => small_table(random),
            5..11 => crowded_table(random),
            11..13 => hollow_table(random),
            13..18 => fullest_within(random, protocol, 8, 150),
            _ => largest_within(random, 20, 300),
        };
        let bytes = under(protocol, &raw).bytes();
        let table = read(&bytes).expect("a good table");
        let sections = table.tasks.iter().filter(|task| task.has_section());
        if sections.count() < 2 && !random.once_in(8) {
            continue;
        }
        if let Ok(plan) = plan(&table) {
            return Planned { bytes, table, plan };
        }
    }
}

impl Kind {
    /// From tick 0 on, so that all of it is in the trace, to some tick behind the last of the first
    /// arrivals.
    pub fn call(&self, random: &mut Random, planned: &Planned) -> RunCall {
        let tasks = &planned.table.tasks;
        let mut first = (self.aim)(random, planned);
        let longest = tasks.iter().map(|task| task.period).max().unwrap_or(1);
        let last = first.iter().max().copied().unwrap_or(0);
        let ticks = (last + random.within(1, 3 * longest)).min(MOST_TICKS);
        // In some runs there are jobs before those that are aimed.
        if random.once_in(4) {
            for (task, tick) in tasks.iter().zip(&mut first) {
                *tick %= task.period;
            }
        }
        RunCall {
            table: planned.bytes.clone(),
            arrivals: arrivals(random, tasks, &first, ticks),
            from: 0,
            ticks: ticks as usize,
            trace: planned.table.processors * ticks as usize,
            fill: random.number() as u8,
            nulls: false,
        }
    }
}

/// In most runs exactly one period behind the other, and with the table's lengths; in some a little
/// later, and in some with shorter lengths here and there.
fn arrivals(random: &mut Random, tasks: &[Task], first: &[u64], end: u64) -> Vec<Arrival> {
    let late = random.once_in(4);
    let shorter = random.once_in(3);
    let mut all = Vec::new();
    for (task, &first) in tasks.iter().zip(first) {
        let row = task.row as u64;
        let mut tick = first;
        while tick < end {
            let lengths = task.lengths().map(|most| match random.once_in(3) {
                true if shorter => some_length(random, most),
                _ => most,
            });
            all.push(Arrival { tick, row, lengths });
            tick += task.period;
            if late {
                tick += random.pick(&[0, 0, 0, 1, task.period / 2]);
            }
        }
    }
    all.sort_by_key(|arrival| (arrival.tick, arrival.row));
    all.truncate(MOST_ARRIVALS);
    all
}

fn together(_: &mut Random, planned: &Planned) -> Vec<u64> {
    vec![0; planned.table.tasks.len()]
}

fn at_any_tick(random: &mut Random, planned: &Planned) -> Vec<u64> {
    let tasks = planned.table.tasks.iter();
    let any = |task: &Task| random.within(0, 2 * task.period);
    tasks.map(any).collect()
}

/// "Stage one is released at a, the section at a + D1, stage two at a + D1 + S"
pub fn offsets(place: &Place) -> [u64; 3] {
    [0, place.d1, place.d1 + place.s]
}

/// A section and all better-ranked ones on its processor are released in one tick, and in the tick
/// before the section whose length is B and one more.
fn lower_section_ahead(random: &mut Random, planned: &Planned) -> Vec<u64> {
    let pairs = longest_in_the_way(planned);
    if pairs.is_empty() {
        return at_any_tick(random, planned);
    }
    let (row, ahead) = random.pick(&pairs);
    let mut aims = better_sections(planned, row);
    aims[ahead - 1] = Some(planned.before(ahead, SECTION) + 1);
    released_at_once(random, planned, &aims)
}

/// Rows with a section, each with a row whose section can be in its way for the longest time.
fn longest_in_the_way(planned: &Planned) -> Vec<(usize, usize)> {
    let Planned { table, plan, .. } = planned;
    let ranks = Ranks::of(table);
    let mut pairs = Vec::new();
    for task in table.tasks.iter().filter(|task| task.has_section()) {
        let others = || in_the_way(table, &ranks, &plan.homes, task.row);
        let longest = others().map(|other| other.a).max();
        let longest = others().filter(|other| Some(other.a) == longest);
        pairs.extend(longest.map(|other| (task.row, other.row)));
    }
    pairs
}

/// Some stage of some row and those of better-ranked rows on its processor are released in one
/// tick: sections there, or of each row stage one or stage two.
fn better_at_once(random: &mut Random, planned: &Planned) -> Vec<u64> {
    let Planned { table, plan, .. } = planned;
    let ranks = Ranks::of(table);
    // Of two places in rank order the one behind: the lower its rank, the more it can wait for.
    let last = table.tasks.len() as u64 - 1;
    let place = random.within(0, last).max(random.within(0, last));
    let row = ranks.rows_in_order()[place as usize];
    let here = plan.places[row - 1].processor;
    if table.task(row).has_section() && random.once_in(2) {
        let aims = better_sections(planned, row);
        return released_at_once(random, planned, &aims);
    }
    let mut aims = vec![None; table.tasks.len()];
    for other in 1..=table.tasks.len() {
        let better = ranks.rank(other) <= ranks.rank(row);
        if better && plan.places[other - 1].processor == here {
            aims[other - 1] = Some(planned.before(other, random.pick(&[ONE, TWO])));
        }
    }
    released_at_once(random, planned, &aims)
}

/// The row's section, and all better-ranked ones on its processor.
fn better_sections(planned: &Planned, row: usize) -> Vec<Aim> {
    let ranks = Ranks::of(&planned.table);
    let mut aims = vec![None; planned.table.tasks.len()];
    for other in planned.sections_beside(row) {
        if ranks.rank(other.row) <= ranks.rank(row) {
            aims[other.row - 1] = Some(planned.before(other.row, SECTION));
        }
    }
    aims
}

/// How many ticks before the common one a row has to arrive, if it is one of those.
type Aim = Option<u64>;

/// The other rows begin behind the common tick, most of them, and some at any tick.
fn released_at_once(random: &mut Random, planned: &Planned, aims: &[Aim]) -> Vec<u64> {
    let longest = aims.iter().flatten().max().copied().unwrap_or(0);
    let tick = longest + random.within(0, 3);
    let any = random.once_in(4);
    let first = planned.table.tasks.iter().zip(aims).map(|(task, aim)| {
        let behind = tick + random.within(1, task.period);
        match aim {
            Some(before) => tick - before,
            None if any => random.within(0, behind),
            None => behind,
        }
    });
    first.collect()
}

impl Planned {
    /// How many ticks behind the arrival a stage of the row is released.
    fn before(&self, row: usize, stage: usize) -> u64 {
        offsets(&self.plan.places[row - 1])[stage]
    }

    /// The rows with a section on the processor where the row's section runs, and itself.
    fn sections_beside(&self, row: usize) -> impl Iterator<Item = &Task> {
        let home = |task: &Task| self.plan.homes[task.resource];
        let here = home(self.table.task(row));
        let tasks = self.table.tasks.iter();
        tasks.filter(move |task| task.has_section() && home(task) == here)
    }
}
