//! What happens in a run from tick 0 on, read off its trace: who waits for whom.

use crate::plan::Plan;
use crate::rank::Ranks;
use crate::run::Arrival;
use crate::table::Table;

const SECTION: usize = 1;

#[derive(Default)]
pub struct Watched {
    /// A stage that has begun waits for another row's.
    pub stage_aside: bool,
    /// The most sections that are begun and unfinished on one processor.
    pub deepest: usize,
    /// A section waits for a worse-ranked one, and its own resource is held.
    pub waits_for_its_own: bool,
    /// Or it is not, and no held ceiling is worse than its rank.
    pub waits_for_a_ceiling: bool,
    /// Or its rank is strictly better than all ceilings held.
    pub waits_for_the_end: bool,
}

/// The last job of a row, and the units that its stages have run.
#[derive(Clone)]
struct Job<'a> {
    arrival: &'a Arrival,
    ran: [u64; 3],
}

struct Watcher<'a> {
    table: &'a Table,
    plan: &'a Plan,
    ranks: Ranks,
    /// By row; number 0 is no row.
    jobs: Vec<Option<Job<'a>>>,
    seen: Watched,
}

/// One stage of one row's last job.
#[derive(Clone, Copy, PartialEq)]
struct At {
    row: usize,
    stage: usize,
}

pub fn watch(table: &Table, plan: &Plan, arrivals: &[Arrival], trace: &[u8]) -> Watched {
    let mut watcher = Watcher {
        table,
        plan,
        ranks: Ranks::of(table),
        jobs: vec![None; table.tasks.len() + 1],
        seen: Watched::default(),
    };
    let mut coming = arrivals.iter().peekable();
    for (now, line) in (0..).zip(trace.chunks(table.processors)) {
        while let Some(arrival) = coming.next_if(|arrival| arrival.tick == now) {
            let ran = [0; 3];
            watcher.jobs[arrival.row as usize] = Some(Job { arrival, ran });
        }
        for (processor, &byte) in (1..).zip(line) {
            if byte != 0 {
                let row = usize::from(byte & 63) + 1;
                let stage = usize::from(byte >> 6) - 1;
                watcher.see(processor, At { row, stage }, now);
            }
        }
    }
    watcher.seen
}

impl Watcher<'_> {
    /// A stage runs a unit on a processor.
    fn see(&mut self, processor: usize, running: At, now: u64) {
        let mut others = self.open(processor, now);
        others.retain(|at| *at != running);
        let (begun, waiting) = others.into_iter().partition(|at| self.ran(*at) > 0);
        match processor <= self.plan.sync {
            true => self.see_section(running, begun, waiting),
            false => self.seen.stage_aside |= !begun.is_empty(),
        }
        if let Some(job) = &mut self.jobs[running.row] {
            job.ran[running.stage] += 1;
        }
    }

    fn see_section(&mut self, running: At, begun: Vec<At>, waiting: Vec<At>) {
        let held: Vec<At> = begun.into_iter().chain([running]).collect();
        self.seen.deepest = self.seen.deepest.max(held.len());
        let resource = |at: At| self.table.task(at.row).resource;
        for at in waiting {
            let rank = self.ranks.rank(at.row);
            let ceiling = |held: &At| self.ranks.ceiling(resource(*held));
            if rank > self.ranks.rank(running.row) {
                continue;
            }
            let seen = &mut self.seen;
            match () {
                _ if held.iter().any(|held| resource(*held) == resource(at)) => {
                    seen.waits_for_its_own = true
                }
                _ if held.iter().any(|held| ceiling(held) <= rank) => {
                    seen.waits_for_a_ceiling = true
                }
                _ => seen.waits_for_the_end = true,
            }
        }
    }

    /// The released, unfinished stages on a processor.
    fn open(&self, processor: usize, now: u64) -> Vec<At> {
        let mut open = Vec::new();
        for task in &self.table.tasks {
            let place = &self.plan.places[task.row - 1];
            let home = self.plan.homes[task.resource];
            let Some(job) = &self.jobs[task.row] else {
                continue;
            };
            let offsets = [0, place.d1, place.d1 + place.s];
            for (stage, offset) in offsets.into_iter().enumerate() {
                let here = match stage == SECTION {
                    true => home == processor,
                    false => place.processor == processor,
                };
                let released = job.arrival.tick + offset <= now;
                if here && released && job.ran[stage] < job.arrival.lengths[stage] {
                    let row = task.row;
                    open.push(At { row, stage });
                }
            }
        }
        open
    }

    fn ran(&self, at: At) -> u64 {
        self.jobs[at.row]
            .as_ref()
            .map_or(0, |job| job.ran[at.stage])
    }
}
