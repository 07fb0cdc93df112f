//! What a run from tick 0 on does with each stage of each arrival, read off its trace, and what has
//! to be true of that where the table is planned.

use crate::aimed::offsets;
use crate::plan::{Place, Plan};
use crate::rank::Ranks;
use crate::run::Arrival;
use crate::table::Table;

const SECTION: usize = 1;
const NAMES: [&str; 3] = ["stage one", "section", "stage two"];

/// D1, S and D2 of each row.
pub type Bounds = Vec<[u64; 3]>;

pub fn bounds(plan: &Plan) -> Bounds {
    let three = |place: &Place| [place.d1, place.s, place.d2];
    plan.places.iter().map(three).collect()
}

/// One stage of one arrival.
#[derive(Clone, Debug)]
pub struct Stage {
    pub row: usize,
    /// 0 for stage one, 1 for the section, 2 for stage two.
    pub which: usize,
    release: u64,
    /// The units that the arrival brings for it, and those that have run.
    length: u64,
    ran: u64,
    /// The tick of its first unit.
    begun: Option<u64>,
    end: Option<u64>,
}

pub struct Seen<'a> {
    table: &'a Table,
    plan: &'a Plan,
    ranks: Ranks,
    trace: &'a [u8],
    /// The first tick that is not stepped.
    end: u64,
    /// The three stages of each arrival, by row.
    jobs: Vec<Vec<[Stage; 3]>>,
}

impl Stage {
    /// "A stage of actual length 0 ends at its release, in the tick that releases it."
    fn new(row: usize, which: usize, release: u64, length: u64, end: u64) -> Stage {
        Stage {
            row,
            which,
            release,
            length,
            ran: 0,
            begun: None,
            end: (length == 0 && release < end).then_some(release),
        }
    }

    pub fn is_section(&self) -> bool {
        self.which == SECTION
    }

    /// "end minus release", if it has ended.
    pub fn response(&self) -> Option<u64> {
        self.end.map(|end| end - self.release)
    }

    /// Has it waited before its end?
    pub fn has_waited(&self) -> bool {
        self.response() > Some(self.length)
    }

    /// Has another one run between its first unit and its last?
    pub fn is_put_aside(&self) -> bool {
        let ticks = self.begun.zip(self.end);
        ticks.is_some_and(|(begun, end)| end - begun > self.length)
    }

    pub fn bound(&self, bounds: &Bounds) -> u64 {
        bounds[self.row - 1][self.which]
    }

    fn words(&self) -> String {
        let (row, name, release) = (self.row, NAMES[self.which], self.release);
        let until = match self.end {
            Some(end) => format!("ended at {end}"),
            None => format!("unfinished with {} of {} units", self.ran, self.length),
        };
        format!("row {row}, {name}, released at {release}, {until}")
    }
}

impl<'a> Seen<'a> {
    /// An error if the trace has a unit that no released stage owes.
    pub fn of(
        table: &'a Table,
        plan: &'a Plan,
        arrivals: &[Arrival],
        trace: &'a [u8],
    ) -> Result<Seen<'a>, String> {
        let end = (trace.len() / table.processors) as u64;
        let mut jobs = vec![Vec::new(); table.tasks.len()];
        for arrival in arrivals.iter().filter(|arrival| arrival.tick < end) {
            let row = arrival.row as usize;
            let offsets = offsets(&plan.places[row - 1]);
            jobs[row - 1].push([0, 1, 2].map(|which| {
                let release = arrival.tick + offsets[which];
                Stage::new(row, which, release, arrival.lengths[which], end)
            }));
        }
        let ranks = Ranks::of(table);
        let mut seen = Seen {
            table,
            plan,
            ranks,
            trace,
            end,
            jobs,
        };
        for (now, line) in (0..).zip(trace.chunks(table.processors)) {
            for &byte in line.iter().filter(|&&byte| byte != 0) {
                seen.unit(byte, now)?;
            }
        }
        Ok(seen)
    }

    /// A unit runs. It is of the row's last arrival with such a stage released.
    fn unit(&mut self, byte: u8, now: u64) -> Result<(), String> {
        let row = usize::from(byte & 63) + 1;
        let which = usize::from(byte >> 6).wrapping_sub(1);
        let jobs = self.jobs.get_mut(row - 1).filter(|_| which <= 2);
        let stage = jobs.and_then(|jobs| {
            let released = jobs.partition_point(|job| job[which].release <= now);
            jobs[..released].last_mut().map(|job| &mut job[which])
        });
        let Some(stage) = stage.filter(|stage| stage.ran < stage.length) else {
            return Err(format!("tick {now}: {byte:02x} runs, and nothing is owed"));
        };
        stage.begun = stage.begun.or(Some(now));
        stage.ran += 1;
        if stage.ran == stage.length {
            stage.end = Some(now + 1);
        }
        Ok(())
    }

    /// All stages, row by row, and in each row in the order of their releases.
    pub fn stages(&self) -> impl Iterator<Item = &Stage> {
        self.jobs.iter().flatten().flatten()
    }

    /// All that has to be true, with these as the bounds.
    pub fn holds(&self, bounds: &Bounds) -> Result<(), String> {
        self.in_time(bounds)?;
        self.in_order()?;
        self.one_at_a_time()
    }

    /// Each stage ends at or before its release plus its bound, if the run goes that far.
    fn in_time(&self, bounds: &Bounds) -> Result<(), String> {
        for stage in self.stages().filter(|stage| stage.release < self.end) {
            let bound = stage.bound(bounds);
            let last = stage.release + bound;
            if stage.end.map_or(last <= self.end, |end| end > last) {
                return Err(format!("late, bound {bound}: {}", stage.words()));
            }
        }
        Ok(())
    }

    /// No stage is released before the one ahead of it, in its job or of the job before, has ended.
    fn in_order(&self) -> Result<(), String> {
        for jobs in &self.jobs {
            let stages: Vec<&Stage> = jobs.iter().flatten().collect();
            for pair in stages.windows(2) {
                let (ahead, stage) = (pair[0], pair[1]);
                let ended = ahead.end.is_some_and(|end| end <= stage.release);
                if stage.release < self.end && !ended {
                    let (ahead, stage) = (ahead.words(), stage.words());
                    return Err(format!("released too early: {stage}, behind {ahead}"));
                }
            }
        }
        Ok(())
    }

    /// Two sections of one resource are never both begun and unfinished.
    fn one_at_a_time(&self) -> Result<(), String> {
        for resource in self.table.used_resources() {
            let of_it = |stage: &&Stage| {
                stage.is_section() && self.table.task(stage.row).resource == resource
            };
            let begun = self.stages().filter(of_it);
            let mut begun: Vec<&Stage> = begun.filter(|stage| stage.begun.is_some()).collect();
            begun.sort_by_key(|stage| stage.begun);
            for pair in begun.windows(2) {
                if pair[0].end.is_none() || pair[0].end > pair[1].begun {
                    let [one, other] = [pair[0], pair[1]].map(Stage::words);
                    return Err(format!("resource {resource} held twice: {one}; {other}"));
                }
            }
        }
        Ok(())
    }

    pub fn is_a_resource_shared(&self) -> bool {
        let used = self.table.used_resources();
        used.iter()
            .any(|&resource| self.table.users(resource).count() > 1)
    }

    /// Does a section wait for its first unit while a lower-ranked one runs on its processor?
    pub fn waits_for_a_lower(&self, stage: &Stage) -> bool {
        if !stage.is_section() || stage.length == 0 {
            return false;
        }
        let home = self.plan.homes[self.table.task(stage.row).resource];
        let lower = |tick: u64| {
            let byte = self.trace[tick as usize * self.table.processors + home - 1];
            let row = usize::from(byte & 63) + 1;
            byte != 0 && self.ranks.rank(row) > self.ranks.rank(stage.row)
        };
        (stage.release..stage.begun.unwrap_or(self.end)).any(lower)
    }
}

#[cfg(test)]
mod tests {
    use super::*;
    use crate::plan::plan;
    use crate::raw;
    use crate::run::steps;
    use crate::table::read;

    /// Case P with row 2 at 0 and row 1 at 4 and 14: row 2's section takes ticks 4 to 6, row 1's is
    /// released at 5 and takes 7 and 8. Both stages two are released at 9; row 1's takes that tick,
    /// row 2's takes 10 and 11.
    struct Case {
        table: Table,
        plan: Plan,
        arrivals: Vec<Arrival>,
        trace: Vec<u8>,
    }

    fn case() -> Result<Case, String> {
        let rows = [(10, 1, 2, 1, 1), (20, 2, 3, 2, 1), (40, 4, 5, 4, 2)];
        let table = read(&raw::table(3, 0, &rows).bytes()).map_err(|no| no.to_string())?;
        let plan = plan(&table).map_err(|no| no.to_string())?;
        let arrivals = [(0, 2, [2, 3, 2]), (4, 1, [1, 2, 1]), (14, 1, [1, 2, 1])];
        let arrival = |(tick, row, lengths)| Arrival { tick, row, lengths };
        let arrivals: Vec<Arrival> = arrivals.into_iter().map(arrival).collect();
        let ran = steps(&table, &plan, &arrivals, 0, 25);
        let (trace, _) = ran.map_err(|row| format!("19, row {row}"))?;
        Ok(Case {
            table,
            plan,
            arrivals,
            trace,
        })
    }

    impl Case {
        /// What is said of the run when a unit of a processor is at another tick, and the bounds
        /// are longer by so many ticks.
        fn said(&self, processor: usize, from: usize, to: usize, more: u64) -> String {
            let mut trace = self.trace.clone();
            let place = |tick: usize| 3 * tick + processor - 1;
            trace.swap(place(from), place(to));
            self.said_of(&trace, more)
        }

        fn said_of(&self, trace: &[u8], more: u64) -> String {
            let longer = bounds(&self.plan).into_iter();
            let longer = longer.map(|three| three.map(|bound| bound + more));
            let seen = Seen::of(&self.table, &self.plan, &self.arrivals, trace);
            let said = seen.and_then(|seen| seen.holds(&longer.collect()));
            said.err().unwrap_or_default()
        }
    }

    #[test]
    fn a_run_in_which_all_holds() -> Result<(), String> {
        let case = case()?;
        // Also where it ends early, with stages unfinished or not yet released.
        for ticks in 0..=25 {
            assert_eq!(case.said_of(&case.trace[..3 * ticks], 0), "", "{ticks}");
        }
        Ok(())
    }

    #[test]
    fn what_comes_late_or_never() -> Result<(), String> {
        let case = case()?;
        let late = "late, bound 4: row 1, section, released at 5, ended at 10";
        assert_eq!(case.said(1, 8, 9, 0), late);
        let late = "late, bound 4: row 2, stage two, released at 9, ended at 14";
        assert_eq!(case.said(2, 11, 12, 0), "");
        assert_eq!(case.said(2, 11, 13, 0), late);
        let mut trace = case.trace.clone();
        trace[3 * 8] = 0;
        let never = "late, bound 4: row 1, section, released at 5, unfinished with 1 of 2 units";
        assert_eq!(case.said_of(&trace, 0), never);
        // Before tick 8 is stepped, it could still end in time.
        assert_eq!(case.said_of(&trace[..3 * 8], 0), "");
        assert_eq!(case.said_of(&trace[..3 * 9], 0), never);
        Ok(())
    }

    #[test]
    fn what_is_released_too_early() -> Result<(), String> {
        let case = case()?;
        // In the same job, and in the job before.
        let said = case.said(1, 8, 10, 9);
        let early =
            "released too early: row 1, stage two, released at 9, ended at 10, behind row 1";
        assert!(said.starts_with(early), "{said}");
        let said = case.said(2, 9, 15, 9);
        let early = "released too early: row 1, stage one, released at 14, ended at";
        assert!(said.starts_with(early), "{said}");
        Ok(())
    }

    #[test]
    fn a_resource_that_is_held_twice() -> Result<(), String> {
        let said = case()?.said(1, 6, 7, 0);
        assert!(said.starts_with("resource 1 held twice: row 2, "), "{said}");
        Ok(())
    }

    #[test]
    fn units_that_nobody_owes() -> Result<(), String> {
        let case = case()?;
        // One more of a section, one before its release, one of no row, and one of no stage.
        for (tick, byte) in [(12, 0x80), (2, 0x80), (12, 0x85), (12, 0x01)] {
            let mut trace = case.trace.clone();
            trace[3 * tick] = byte;
            let nobody = format!("tick {tick}: {byte:02x} runs, and nothing is owed");
            assert_eq!(case.said_of(&trace, 0), nobody);
        }
        Ok(())
    }

    #[test]
    fn a_section_behind_a_lower_ranked_one() -> Result<(), String> {
        let case = case()?;
        let seen = Seen::of(&case.table, &case.plan, &case.arrivals, &case.trace)?;
        let waits = seen.stages().filter(|stage| seen.waits_for_a_lower(stage));
        let waits: Vec<_> = waits.map(|stage| (stage.row, stage.response())).collect();
        assert_eq!(waits, [(1, Some(4))]);
        Ok(())
    }
}
