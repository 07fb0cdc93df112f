//! A run: refusals 1 to 9 and 11 to 19, the trace, and the answer.

use crate::answer::Refusal;
pub use crate::machine::Arrival;
use crate::machine::Machine;
use crate::plan::{plan, Plan};
use crate::rank::Ranks;
use crate::table::{read, Table};

const MOST_TICKS: u64 = 4_096;
const MOST_ARRIVALS: usize = 4_096;
const END_OF_TIME: u64 = 1_000_000;

/// What a run returns beside its trace.
#[derive(Clone, Debug, PartialEq, Eq)]
pub struct Done {
    /// Stage one, section, stage two of each row; zeros past row n.
    pub worst: [[u64; 3]; 64],
    pub jobs: u64,
    pub run: u64,
    pub owed: u64,
}

/// Runs the planned table from tick 0 on and writes the `w` ticks from `f` on into the trace.
/// "Nothing lent changes on refusal, except that 19 leaves the m × w trace bytes zero."
pub fn run(
    table: &[u8],
    arrivals: &[Arrival],
    f: u64,
    w: u64,
    trace: &mut [u8],
) -> Result<Done, Refusal> {
    let table = read(table)?;
    let plan = plan(&table)?;
    if let Some(refusal) = bad_call(&table, arrivals, f, w, trace.len()) {
        return Err(refusal);
    }
    let mine = &mut trace[..table.processors * w as usize];
    match steps(&table, &plan, arrivals, f, w) {
        Ok((bytes, done)) => {
            mine.copy_from_slice(&bytes);
            Ok(done)
        }
        Err(row) => {
            mine.fill(0);
            Err(Refusal::naming(19, row))
        }
    }
}

/// Refusals 12 to 18.
fn bad_call(
    table: &Table,
    arrivals: &[Arrival],
    f: u64,
    w: u64,
    trace_length: usize,
) -> Option<Refusal> {
    // 12: "w above 4,096 or f + w above 1,000,000"
    if w > MOST_TICKS || f.saturating_add(w) > END_OF_TIME {
        return Some(Refusal::plain(12));
    }
    // 13: "trace shorter than m × w"
    if trace_length < table.processors * w as usize {
        return Some(Refusal::plain(13));
    }
    // 14: "more than 4,096 arrivals"
    if arrivals.len() > MOST_ARRIVALS {
        return Some(Refusal::plain(14));
    }
    // "for arrivals the first bad one, and in it the lowest"; "Positions count from 1."
    for position in 1..=arrivals.len() {
        if let Some(number) = bad_arrival(table, &arrivals[..position]) {
            return Some(Refusal::naming(number, position));
        }
    }
    None
}

/// Refusals 15 to 18 for the last of these arrivals; none of those before it is bad.
fn bad_arrival(table: &Table, arrivals: &[Arrival]) -> Option<u32> {
    let (this, earlier) = arrivals.split_last()?;
    // 15: "row not in 1 to n"
    if this.row < 1 || this.row > table.tasks.len() as u64 {
        return Some(15);
    }
    // 16: "tick 1,000,000 or more, tick below the one before, or same tick and row not larger"
    if this.tick >= END_OF_TIME {
        return Some(16);
    }
    if let Some(before) = earlier.last() {
        if this.tick < before.tick || (this.tick == before.tick && this.row <= before.row) {
            return Some(16);
        }
    }
    // 17: "a length above the table's"
    let task = table.task(this.row as usize);
    let mut pairs = this.lengths.iter().zip(task.lengths());
    if pairs.any(|(&actual, most)| actual > most) {
        return Some(17);
    }
    // 18: "same row's last arrival less than T ago"
    let last = earlier.iter().rev().find(|o| o.row == this.row);
    match last {
        Some(last) if this.tick - last.tick < task.period => Some(18),
        _ => None,
    }
}

/// "It steps ticks 0 to f + w − 1 and writes ticks f on". Hands back the trace and the answer, or
/// the row of refusal 19: "the earliest such release".
pub fn steps(
    table: &Table,
    plan: &Plan,
    arrivals: &[Arrival],
    f: u64,
    w: u64,
) -> Result<(Vec<u8>, Done), usize> {
    let ranks = Ranks::of(table);
    steps_by(Machine::new(table, &ranks, plan), arrivals, f, w)
}

/// The same by this machine, which has not stepped any tick yet.
pub fn steps_by(
    mut machine: Machine,
    arrivals: &[Arrival],
    f: u64,
    w: u64,
) -> Result<(Vec<u8>, Done), usize> {
    let mut trace = Vec::new();
    let mut coming = arrivals;
    for now in 0..f + w {
        let count = coming.iter().take_while(|a| a.tick == now).count();
        let (arriving, later) = coming.split_at(count);
        coming = later;
        // "m bytes for each tick, processor 1 first"
        let bytes = machine.tick(now, arriving)?;
        if now >= f {
            trace.extend(bytes);
        }
    }
    let done = Done {
        worst: machine.worst,
        jobs: machine.jobs_ended,
        run: machine.units_run,
        owed: machine.units_owed(),
    };
    Ok((trace, done))
}
