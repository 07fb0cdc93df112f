//! The run once more, written for speed: the same machine, stepped tick by tick, on numbers of 32
//! bits, with no memory asked for. `second bench` times the product beside it; everywhere else the
//! plain one counts.
//!
//! Tasks go by their place in rank order, from 0 on, so that of places that are kept in the bits of
//! one number the lowest bit is the best-ranked. What waits on a processor starts there if its
//! place is before the ceiling of what runs, and what it puts aside goes on behind its end. That is
//! the rule of all three kinds of processors: the ceiling of a stage is its own place, so that the
//! best-ranked runs; that of a section is under PCP the one of its resource, and the section begun
//! last has the best of all that are held; under NPP it is 0, and nothing is before it.
//!
//! It uses nothing but `fast.rs`, which plans, and nothing of the standard library.

use crate::fast::{read, refused, Answer, Load, Table, Trial, ROWS};

const PROCESSORS: usize = 16;
const MOST_TICKS: usize = 4_096;
const MOST_ARRIVALS: usize = 4_096;
const END_OF_TIME: u32 = 1_000_000;
const SECTION: usize = 1;
const TWO: usize = 2;
/// The place of idle time, behind those of all tasks.
const IDLE: u8 = ROWS as u8;
const PLACES: usize = ROWS + 1;
/// Later than every tick.
const NEVER: u32 = u32::MAX;

#[repr(C)]
#[derive(Clone, Copy, Debug, PartialEq, Eq)]
pub struct Arrival {
    pub tick: u32,
    pub row: u32,
    pub lengths: [u32; 3],
}

/// The refusal's number (0: none, and the trace is written), what it names, its mark, and its value;
/// the worst responses, three for each row; jobs ended, units run, units owed.
#[repr(C)]
#[derive(Clone, Copy, Debug, PartialEq, Eq)]
pub struct Ran {
    pub number: u32,
    pub names: u32,
    pub mark: u32,
    pub value: u32,
    pub worst: [u32; 3 * ROWS],
    pub jobs: u64,
    pub run: u64,
    pub owed: u64,
}

impl Ran {
    pub const NOTHING: Ran = Ran {
        number: 0,
        names: 0,
        mark: 0,
        value: 0,
        worst: [0; 3 * ROWS],
        jobs: 0,
        run: 0,
        owed: 0,
    };

    fn refused(no: Answer) -> Ran {
        Ran {
            number: no.number,
            names: no.names,
            mark: no.mark,
            value: no.value,
            ..Ran::NOTHING
        }
    }
}

/// Runs the planned table and writes the `ticks` ticks from `from` on into the trace.
pub fn run_into(
    bytes: &[u8],
    arrivals: &[Arrival],
    from: usize,
    ticks: usize,
    trace: &mut [u8],
) -> Ran {
    match checked_run(bytes, arrivals, from, ticks, trace) {
        Ok(ran) => ran,
        Err(no) => Ran::refused(no),
    }
}

fn checked_run(
    bytes: &[u8],
    arrivals: &[Arrival],
    from: usize,
    ticks: usize,
    trace: &mut [u8],
) -> Result<Ran, Answer> {
    let table = read(bytes)?;
    let load = Load::of(&table);
    let mut trial = Trial::new();
    trial.plan(&table, &load)?;
    let end = from.saturating_add(ticks);
    if ticks > MOST_TICKS || end > END_OF_TIME as usize {
        return Err(refused(12, 0));
    }
    let Some(part) = trace.get_mut(..table.m * ticks) else {
        return Err(refused(13, 0));
    };
    if arrivals.len() > MOST_ARRIVALS {
        return Err(refused(14, 0));
    }
    let places = places(&table);
    check(&table, &places, arrivals)?;
    let mut machine = Machine::new(&table, &load, &trial);
    if let Err(row) = machine.steps(&places, arrivals, from as u32, end as u32, part) {
        part.fill(0);
        return Err(refused(19, row));
    }
    Ok(machine.ran())
}

/// The place of each row in rank order, both counted from 0.
fn places(table: &Table) -> [u8; ROWS] {
    let mut places = [0; ROWS];
    for (place, task) in table.tasks[..table.n].iter().enumerate() {
        places[task.row as usize % ROWS] = place as u8;
    }
    places
}

/// The first bad arrival, and in it the lowest of 15 to 18.
fn check(table: &Table, places: &[u8; ROWS], arrivals: &[Arrival]) -> Result<(), Answer> {
    let mut before = (0, 0);
    // From this tick on the task in each place may arrive.
    let mut ready = [0; ROWS];
    for (position, arrival) in (1..).zip(arrivals) {
        let row = arrival.row.wrapping_sub(1) as usize;
        if row >= table.n {
            return Err(refused(15, position));
        }
        let place = usize::from(places[row]) % ROWS;
        let task = &table.tasks[place];
        let [one, section, two] = arrival.lengths;
        let number = match () {
            // Behind a first row of 0, every row is larger.
            _ if arrival.tick >= END_OF_TIME || (arrival.tick, arrival.row) <= before => 16,
            _ if one > task.c1 || section > task.a || two > task.c2 => 17,
            _ if arrival.tick < ready[place] => 18,
            _ => 0,
        };
        if number != 0 {
            return Err(refused(number, position));
        }
        before = (arrival.tick, arrival.row);
        ready[place] = arrival.tick + task.period;
    }
    Ok(())
}

/// What the plan says of a task.
#[derive(Clone, Copy, Default)]
struct Chain {
    row: u8,
    /// The ticks from an arrival to the releases of its stages.
    offsets: [u32; 3],
    /// Where the stages run, counted from 0.
    processors: [u8; 3],
    /// Only what is in a place before these may start while they run.
    ceilings: [u8; 3],
}

/// Columns of numbers. What runs has its units left with its processor, so that a tick in which
/// nothing is released and nothing ends only counts 16 numbers down.
struct Machine {
    m: usize,
    chains: [Chain; ROWS],

    // Of tasks, by place.
    arrived: [u32; ROWS],
    lengths: [[u32; 3]; ROWS],
    /// The stages before this one are released; 3 if all are.
    next: [u8; ROWS],
    /// The tick that releases the next one.
    due: [u32; ROWS],
    /// The tick of the first of these.
    soonest: u32,

    // Of released, unfinished stages, by place; a task has no more than one.
    open: u64,
    ceiling: [u8; PLACES],
    byte: [u8; PLACES],
    /// What it has put aside.
    aside: [u8; PLACES],
    /// The units left, if it does not run.
    rest: [u32; PLACES],

    // Of processors.
    /// The places whose stages are released there and have not begun.
    waiting: [u64; PROCESSORS],
    running: [u8; PROCESSORS],
    left: [u32; PROCESSORS],
    /// Bits of those where something has been released or has ended.
    changed: u32,
    busy: u64,

    /// The lowest row with a release that comes too early, counted from 1; 0 if there is none.
    late: usize,
    worst: [u32; 3 * ROWS],
    jobs: u64,
    run: u64,
}

impl Machine {
    fn new(table: &Table, load: &Load, trial: &Trial) -> Machine {
        let mut chains = [Chain::default(); ROWS];
        for (place, chain) in chains.iter_mut().enumerate().take(table.n) {
            *chain = Chain::of(table, load, trial, place);
        }
        Machine::of(table.m, chains)
    }

    /// With nothing in it yet.
    fn of(m: usize, chains: [Chain; ROWS]) -> Machine {
        Machine {
            m,
            chains,
            arrived: [0; ROWS],
            lengths: [[0; 3]; ROWS],
            next: [3; ROWS],
            due: [NEVER; ROWS],
            soonest: NEVER,
            open: 0,
            ceiling: [IDLE; PLACES],
            byte: [0; PLACES],
            aside: [IDLE; PLACES],
            rest: [NEVER; PLACES],
            waiting: [0; PROCESSORS],
            running: [IDLE; PROCESSORS],
            left: [NEVER; PROCESSORS],
            changed: 0,
            busy: 0,
            late: 0,
            worst: [0; 3 * ROWS],
            jobs: 0,
            run: 0,
        }
    }

    /// Steps ticks 0 to `end` - 1 and writes those from `from` on; or the row of refusal 19.
    fn steps(
        &mut self,
        places: &[u8; ROWS],
        arrivals: &[Arrival],
        from: u32,
        end: u32,
        trace: &mut [u8],
    ) -> Result<(), usize> {
        let mut coming = arrivals.iter().peekable();
        let mut lines = trace.chunks_exact_mut(self.m);
        for now in 0..end {
            if now == self.soonest {
                self.release_due(now);
            }
            while let Some(arrival) = coming.next_if(|arrival| arrival.tick == now) {
                self.arrive(arrival, places[arrival.row as usize - 1].into());
            }
            if self.late > 0 {
                return Err(self.late);
            }
            self.choose_again();
            if now >= from {
                self.write(lines.next().unwrap_or_default());
            }
            self.run_units(now);
        }
        Ok(())
    }

    fn release_due(&mut self, now: u32) {
        let mut soonest = NEVER;
        for place in 0..ROWS {
            if self.due[place] == now {
                self.release(place, now);
            }
            soonest = soonest.min(self.due[place]);
        }
        self.soonest = soonest;
    }

    fn arrive(&mut self, arrival: &Arrival, place: usize) {
        if self.next[place] < 3 {
            self.too_early(place);
        }
        self.arrived[place] = arrival.tick;
        self.lengths[place] = arrival.lengths;
        self.next[place] = 0;
        self.release(place, arrival.tick);
        self.soonest = self.soonest.min(self.due[place]);
    }

    /// Releases what is due of a task. A stage of length 0 ends at once, and its response is 0.
    fn release(&mut self, place: usize, now: u32) {
        let offsets = self.chains[place].offsets;
        let mut stage = usize::from(self.next[place]);
        let mut due = NEVER;
        while stage <= TWO {
            due = self.arrived[place] + offsets[stage];
            if due != now {
                break;
            }
            if self.open >> place & 1 == 1 {
                self.too_early(place);
            }
            if self.lengths[place][stage] > 0 {
                self.wait(place, stage);
            } else if stage == TWO {
                self.jobs += 1;
            }
            stage += 1;
            due = NEVER;
        }
        self.next[place] = stage as u8;
        self.due[place] = due;
    }

    fn too_early(&mut self, place: usize) {
        let row = usize::from(self.chains[place].row) + 1;
        if self.late == 0 || row < self.late {
            self.late = row;
        }
    }

    /// A stage is released, and has units to run.
    fn wait(&mut self, place: usize, stage: usize) {
        let chain = &self.chains[place];
        let processor = usize::from(chain.processors[stage]);
        self.open |= 1 << place;
        self.ceiling[place] = chain.ceilings[stage];
        self.byte[place] = (stage as u8 + 1) << 6 | chain.row;
        self.rest[place] = self.lengths[place][stage];
        self.waiting[processor] |= 1 << place;
        self.changed |= 1 << processor;
    }

    /// Where something has been released or has ended, the best of what waits starts, if it may.
    fn choose_again(&mut self) {
        while self.changed != 0 {
            let processor = self.changed.trailing_zeros() as usize % PROCESSORS;
            self.changed &= self.changed - 1;
            // IDLE if nothing waits, and that is before no ceiling.
            let best = self.waiting[processor].trailing_zeros() as u8;
            if best < self.ceiling[usize::from(self.running[processor])] {
                self.start(processor, best);
            }
        }
    }

    fn start(&mut self, processor: usize, place: u8) {
        let before = self.running[processor];
        self.busy += u64::from(before == IDLE);
        self.rest[usize::from(before)] = self.left[processor];
        self.waiting[processor] &= !(1 << place);
        self.aside[usize::from(place)] = before;
        self.running[processor] = place;
        self.left[processor] = self.rest[usize::from(place)];
    }

    fn write(&self, line: &mut [u8]) {
        for (byte, &place) in line.iter_mut().zip(&self.running) {
            *byte = self.byte[usize::from(place)];
        }
    }

    /// One unit on each processor; of idle time there is always some left.
    fn run_units(&mut self, now: u32) {
        self.run += self.busy;
        let mut ended = false;
        for left in &mut self.left {
            *left -= 1;
            ended |= *left == 0;
        }
        if ended {
            for processor in 0..self.m {
                if self.left[processor] == 0 {
                    self.end(processor, now + 1);
                }
            }
        }
    }

    /// The stage that runs ends; what it has put aside goes on.
    fn end(&mut self, processor: usize, tick: u32) {
        let place = usize::from(self.running[processor]);
        let chain = &self.chains[place];
        let stage = usize::from(self.byte[place] >> 6) - 1;
        let response = tick - self.arrived[place] - chain.offsets[stage];
        let worst = &mut self.worst[3 * usize::from(chain.row) + stage];
        *worst = response.max(*worst);
        self.jobs += u64::from(stage == TWO);
        self.open &= !(1 << place);
        let next = self.aside[place];
        self.busy -= u64::from(next == IDLE);
        self.running[processor] = next;
        self.left[processor] = self.rest[usize::from(next)];
        self.changed |= 1 << processor;
    }

    /// The answer behind the last tick.
    fn ran(&mut self) -> Ran {
        for (&place, &left) in self.running.iter().zip(&self.left) {
            self.rest[usize::from(place)] = left;
        }
        let mut owed = 0;
        for place in 0..ROWS {
            let later = &self.lengths[place][usize::from(self.next[place])..];
            owed += later.iter().map(|&length| u64::from(length)).sum::<u64>();
            owed += u64::from(self.rest[place]) * (self.open >> place & 1);
        }
        Ran {
            worst: self.worst,
            jobs: self.jobs,
            run: self.run,
            owed,
            ..Ran::NOTHING
        }
    }
}

impl Chain {
    fn of(table: &Table, load: &Load, trial: &Trial, place: usize) -> Chain {
        let task = &table.tasks[place];
        let planned = &trial.places[place];
        let resource = task.resource as usize;
        let mut chain = Chain {
            row: task.row as u8,
            offsets: [0, planned.d1, planned.d1 + planned.s],
            processors: [planned.processor as u8 - 1; 3],
            ceilings: [place as u8; 3],
        };
        if task.a > 0 {
            chain.processors[SECTION] = trial.home[resource] as u8 - 1;
            chain.ceilings[SECTION] = match table.npp {
                true => 0,
                false => load.ceiling[resource] as u8,
            };
        }
        chain
    }
}

#[cfg(test)]
mod tests {
    use super::*;

    /// The row of refusal 19 in runs of three rows with one stage of 3 ticks each, on one
    /// processor. No planned table brings it about, so the bounds D1 are too short.
    fn too_early(arrivals: &[(u32, u32)], end: u32) -> Option<usize> {
        let mut chains = [Chain::default(); ROWS];
        for (place, d1) in [50, 6, 7].into_iter().enumerate() {
            chains[place] = Chain {
                row: place as u8,
                offsets: [0, d1, d1],
                processors: [0; 3],
                ceilings: [place as u8; 3],
            };
        }
        let arrival = |&(tick, row): &(u32, u32)| Arrival {
            tick,
            row,
            lengths: [3, 0, 0],
        };
        let arrivals: Vec<Arrival> = arrivals.iter().map(arrival).collect();
        let places = core::array::from_fn(|row| row as u8);
        let mut trace = vec![0; 2 * end as usize];
        let mut machine = Machine::of(2, chains);
        machine.steps(&places, &arrivals, 0, end, &mut trace).err()
    }

    #[test]
    fn releases_that_come_too_early() {
        // Row 2 ends at 6, just as its section is released; row 3 would end at 9, not at 7.
        let all = [(0, 1), (0, 2), (0, 3)];
        assert_eq!(too_early(&all, 7), None);
        assert_eq!(too_early(&all, 8), Some(3));
        // A job that arrives before the last one of its task has ended, or with a release to come.
        assert_eq!(too_early(&[(0, 2), (2, 2)], 3), Some(2));
        assert_eq!(too_early(&[(0, 2), (4, 2)], 5), Some(2));
        // The lowest row, if it is by an arrival and the others are by a release.
        let two = [(0, 1), (0, 2), (0, 3), (7, 1)];
        assert_eq!(too_early(&two, 7), None);
        assert_eq!(too_early(&two, 8), Some(1));
    }
}
