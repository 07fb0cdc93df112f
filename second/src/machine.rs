//! The machine, one tick at a time: jobs in a list, their stages released at fixed ticks, and one
//! unit run by each processor.

#[cfg(test)]
pub mod mistakes;

use crate::plan::Plan;
use crate::rank::Ranks;
use crate::table::{Protocol, Table};

/// What an arrival brings: its tick, its row, and the actual lengths of the three stages.
#[derive(Clone, Copy, Debug, PartialEq, Eq)]
pub struct Arrival {
    pub tick: u64,
    pub row: u64,
    pub lengths: [u64; 3],
}

/// The three stages of a job, in order.
const ONE: usize = 0;
const SECTION: usize = 1;
const TWO: usize = 2;

#[derive(Clone, Debug)]
struct Stage {
    /// The tick of its release, fixed by the arrival.
    release: u64,
    /// The units it has still to run.
    left: u64,
    released: bool,
    ended: bool,
    /// The tick of its first unit, once it has run one.
    begun: Option<u64>,
}

impl Stage {
    fn new(release: u64, length: u64) -> Stage {
        Stage {
            release,
            left: length,
            released: false,
            ended: false,
            begun: None,
        }
    }

    /// "released, unfinished"
    fn is_open(&self) -> bool {
        self.released && !self.ended
    }
}

#[derive(Clone, Debug)]
struct Job {
    row: usize,
    stages: [Stage; 3],
}

/// One stage of one job, by its places in the two lists.
#[derive(Clone, Copy, Debug)]
struct At {
    job: usize,
    stage: usize,
}

/// What a machine goes by: the paper's rules, or in tests some with a mistake.
#[derive(Clone, Copy)]
pub struct Rules {
    /// The stage that a processor runs a unit of, if there is one.
    choose: fn(&Machine, usize) -> Option<At>,
    /// What the end of a stage, at a tick, brings with it.
    end: fn(&mut Machine, At, u64),
}

impl Rules {
    pub const PAPER: Rules = Rules {
        choose: |machine, processor| machine.choose(processor),
        end: |machine, at, end| machine.end(at, end),
    };
}

pub struct Machine<'a> {
    pub rules: Rules,
    table: &'a Table,
    ranks: &'a Ranks,
    plan: &'a Plan,
    /// The jobs that have arrived and not ended, in the order of their arrivals.
    jobs: Vec<Job>,
    /// "the worst seen response of each of the three stages for each task"; 0 if none ended.
    pub worst: [[u64; 3]; 64],
    pub jobs_ended: u64,
    pub units_run: u64,
}

impl<'a> Machine<'a> {
    pub fn new(table: &'a Table, ranks: &'a Ranks, plan: &'a Plan) -> Machine<'a> {
        Machine {
            rules: Rules::PAPER,
            table,
            ranks,
            plan,
            jobs: Vec::new(),
            worst: [[0; 3]; 64],
            jobs_ended: 0,
            units_run: 0,
        }
    }

    /// Steps one tick. Hands back the trace's bytes for it, or for refusal 19 the row: "on one
    /// tick the lowest row".
    pub fn tick(&mut self, now: u64, arrivals: &[Arrival]) -> Result<Vec<u8>, usize> {
        // "due releases of jobs already there"
        let mut early = self.release_due(now);
        // "then arrivals"
        for arrival in arrivals {
            self.arrive(arrival);
        }
        // Stage one of each that arrived, and "releases that an arrival makes due at once"
        early.extend(self.release_due(now));
        if let Some(&row) = early.iter().min() {
            return Err(row);
        }
        // "then each processor runs one unit"
        let processors = 1..=self.table.processors;
        Ok(processors.map(|p| self.run_unit(p, now)).collect())
    }

    /// "the sum of what the machine holds at the end, stages not yet released included"
    pub fn units_owed(&self) -> u64 {
        let stages = self.jobs.iter().flat_map(|job| &job.stages);
        stages.map(|stage| stage.left).sum()
    }

    /// "Stage one is released at a, the section at a + D1, stage two at a + D1 + S, fixed, however
    /// early the one before ended."
    fn arrive(&mut self, arrival: &Arrival) {
        let row = arrival.row as usize;
        let place = &self.plan.places[row - 1];
        let a = arrival.tick;
        let [one, section, two] = arrival.lengths;
        self.jobs.push(Job {
            row,
            stages: [
                Stage::new(a, one),
                Stage::new(a + place.d1, section),
                Stage::new(a + place.d1 + place.s, two),
            ],
        });
    }

    /// Releases all that is due now, each job's stages in order, and hands back the rows that
    /// released "a stage .. while an earlier one of its task is unfinished".
    fn release_due(&mut self, now: u64) -> Vec<usize> {
        let mut early = Vec::new();
        for job in 0..self.jobs.len() {
            for stage in [ONE, SECTION, TWO] {
                let at = At { job, stage };
                if self.stage(at).released || self.stage(at).release != now {
                    continue;
                }
                if self.earlier_unfinished(at) {
                    early.push(self.jobs[job].row);
                }
                self.release(at, now);
            }
        }
        self.drop_ended();
        early
    }

    /// Is an earlier stage of this job, or any stage of an earlier job of its task, unfinished?
    fn earlier_unfinished(&self, at: At) -> bool {
        let own = &self.jobs[at.job];
        let others = self.jobs[..at.job].iter().filter(|o| o.row == own.row);
        others
            .flat_map(|o| &o.stages)
            .chain(&own.stages[..at.stage])
            .any(|stage| !stage.ended)
    }

    fn release(&mut self, at: At, now: u64) {
        self.stage_mut(at).released = true;
        // "A stage of actual length 0 ends at its release, in the tick that releases it."
        if self.stage(at).left == 0 {
            (self.rules.end)(self, at, now);
        }
    }

    /// Counts the end of a stage at tick `end`.
    fn end(&mut self, at: At, end: u64) {
        self.stage_mut(at).ended = true;
        let row = self.jobs[at.job].row;
        // "end minus release"
        let response = end - self.stage(at).release;
        let worst = &mut self.worst[row - 1][at.stage];
        *worst = response.max(*worst);
        // "A job ends with its stage two."
        if at.stage == TWO {
            self.jobs_ended += 1;
        }
    }

    fn drop_ended(&mut self) {
        let unfinished = |job: &Job| job.stages.iter().any(|stage| !stage.ended);
        self.jobs.retain(unfinished);
    }

    /// Runs one unit on a processor, if there is one to run, and hands back the trace's byte.
    fn run_unit(&mut self, processor: usize, now: u64) -> u8 {
        let Some(at) = (self.rules.choose)(self, processor) else {
            // "Idle is a zero byte."
            return 0;
        };
        let row = self.jobs[at.job].row;
        let stage = self.stage_mut(at);
        stage.begun = stage.begun.or(Some(now));
        stage.left -= 1;
        let last = stage.left == 0;
        self.units_run += 1;
        if last {
            // "One whose last unit runs in tick t ends at t + 1, and a run that steps tick t
            // counts that end."
            (self.rules.end)(self, at, now + 1);
            self.drop_ended();
        }
        trace_byte(at.stage, row)
    }

    fn choose(&self, processor: usize) -> Option<At> {
        if processor > self.plan.sync {
            return self.choose_stage(processor);
        }
        match self.table.protocol {
            Protocol::Pcp => self.choose_section_pcp(processor),
            Protocol::Npp => self.choose_section_npp(processor),
        }
    }

    /// "Application processor: the best-ranked released, unfinished stage."
    fn choose_stage(&self, processor: usize) -> Option<At> {
        let open = self.open(|row, stage| {
            stage != SECTION && self.plan.places[row - 1].processor == processor
        });
        self.best_ranked(open)
    }

    /// "PCP: the best-ranked released section not yet begun starts if nothing begun is unfinished
    /// there, or if its rank is strictly better than the ceilings of all resources held there;
    /// otherwise the section begun last among the unfinished runs."
    fn choose_section_pcp(&self, processor: usize) -> Option<At> {
        let (begun, waiting) = self.open_sections(processor);
        if let Some(first) = self.best_ranked(waiting) {
            let better = |held: &At| self.rank(first) < self.ceiling(*held);
            if begun.is_empty() || begun.iter().all(better) {
                return Some(first);
            }
        }
        begun.into_iter().max_by_key(|at| self.stage(*at).begun)
    }

    /// "NPP: a begun section runs to its end; then the best-ranked one starts."
    fn choose_section_npp(&self, processor: usize) -> Option<At> {
        let (begun, waiting) = self.open_sections(processor);
        match begun.first() {
            Some(at) => Some(*at),
            None => self.best_ranked(waiting),
        }
    }

    /// The released, unfinished sections on a synchronization processor: begun, and not yet begun.
    fn open_sections(&self, processor: usize) -> (Vec<At>, Vec<At>) {
        let open = self.open(|row, stage| {
            stage == SECTION && self.plan.homes[self.table.task(row).resource] == processor
        });
        let is_begun = |at: &At| self.stage(*at).begun.is_some();
        open.into_iter().partition(is_begun)
    }

    /// The released, unfinished stages whose row and stage are wanted.
    fn open(&self, wanted: impl Fn(usize, usize) -> bool) -> Vec<At> {
        let mut open = Vec::new();
        for (job, held) in self.jobs.iter().enumerate() {
            for stage in [ONE, SECTION, TWO] {
                if held.stages[stage].is_open() && wanted(held.row, stage) {
                    open.push(At { job, stage });
                }
            }
        }
        open
    }

    fn best_ranked(&self, stages: Vec<At>) -> Option<At> {
        stages.into_iter().min_by_key(|at| self.rank(*at))
    }

    fn rank(&self, at: At) -> usize {
        self.ranks.rank(self.jobs[at.job].row)
    }

    /// The ceiling of the resource that a section holds.
    fn ceiling(&self, at: At) -> usize {
        let row = self.jobs[at.job].row;
        self.ranks.ceiling(self.table.task(row).resource)
    }

    fn stage(&self, at: At) -> &Stage {
        &self.jobs[at.job].stages[at.stage]
    }

    fn stage_mut(&mut self, at: At) -> &mut Stage {
        &mut self.jobs[at.job].stages[at.stage]
    }
}

/// "2 bits of kind (0 idle, 1 stage one, 2 section, 3 stage two) and 6 bits row − 1"
fn trace_byte(stage: usize, row: usize) -> u8 {
    let kind = stage + 1;
    (kind << 6 | (row - 1)) as u8
}
