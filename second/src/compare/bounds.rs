//! The bounds, and runs of planned tables that are aimed at them: in none of them is a stage late,
//! as the trace shows it tick by tick. This does not rest on any proof that it is so.

mod seen;

use super::run::{judge, told};
use super::tally::{Counted, Tally};
use crate::aimed::{planned, Kind, Planned, KINDS};
use crate::checks::hex;
use crate::fast_run::Ran;
use crate::options::Options;
use crate::product::{Call, Product};
use crate::random::Random;
use crate::run_call::RunCall;
use crate::sheet;
use seen::{bounds, Bounds, Seen, Stage};

/// So many runs there are at least, half of them under either protocol.
const RUNS: usize = 5_000;

/// What is counted under one protocol.
const COUNTED: [Counted; 11] = [
    ("runs", RUNS / 2),
    ("with a shared resource", 1_500),
    ("stages ended in time", 100_000),
    ("just at their bound", 20_000),
    ("of these behind others", 1_000),
    ("sections ended in time", 100_000),
    ("just at their bound", 500),
    ("of these behind others", 50),
    ("sections behind a lower-ranked one", 2_000),
    ("of these just at their bound", 300),
    ("stages and sections put aside", 2_000),
];

type Counts = Tally<{ COUNTED.len() }>;

/// As a table has them.
const PROTOCOLS: [(u64, &str); 2] = [(0, "PCP"), (1, "NPP")];

struct Run {
    planned: Planned,
    call: RunCall,
}

pub fn compare(options: &Options, product: &mut Product) -> Result<Vec<String>, String> {
    let mut lines = Vec::new();
    for (protocol, short) in PROTOCOLS {
        let mut tally = Tally::new(&COUNTED);
        for kind in KINDS {
            let name = format!("bounds: {} under {short}", kind.name);
            let mut random = Random::new(options.seed, &name);
            let runs = (0..kind.count).map(|_| Run::new(&mut random, &kind, protocol));
            product.in_batches(runs, ask, |product, run| {
                run.hold(product, &name, &mut tally)
            })?;
        }
        lines.push(format!("bounds: under {short}: {}", tally.words()));
        let few = |few| format!("bounds: under {short}: {few}");
        tally.enough().map_err(few)?;
    }
    Ok(lines)
}

/// Asks for each table to be planned and then to be run.
fn ask(product: &mut Product, runs: &[Run]) {
    for run in runs {
        product.ask_to_plan(&[run.plan_call()]);
        product.ask_to_run(std::slice::from_ref(&run.call));
    }
}

impl Run {
    fn new(random: &mut Random, kind: &Kind, protocol: u64) -> Run {
        let planned = planned(random, protocol);
        let call = kind.call(random, &planned);
        Run { planned, call }
    }

    fn plan_call(&self) -> Call {
        Call {
            table: self.call.table.clone(),
            at: 0,
            sheet: vec![self.call.fill; sheet::size(&self.planned.table)],
            null_table: false,
            null_sheet: false,
        }
    }

    /// The product has been asked to plan the table and to run it, and its answers come next.
    fn hold(&self, product: &mut Product, name: &str, tally: &mut Counts) -> Result<(), String> {
        let failed = |why: String| self.failed(name, &why);
        let of_product = |why: String| failed(format!("product: {why}"));
        self.same_plan(product).map_err(of_product)?;
        let outcome = product.ran(&self.call).map_err(of_product)?;
        let bounds = bounds(&self.planned.plan);
        answer_holds(&bounds, &outcome.0).map_err(of_product)?;
        // The plain machine, tick by tick.
        let second = self.call.plainly();
        answer_holds(&bounds, &second.0).map_err(failed)?;
        judge(name, &self.call, &second, Ok(outcome))?;
        let seen = self.seen(&second.1).map_err(failed)?;
        seen.holds(&bounds).map_err(failed)?;
        count(&seen, &bounds, tally);
        Ok(())
    }

    /// The bounds that are held to are the product's own.
    fn same_plan(&self, product: &mut Product) -> Result<(), String> {
        let Planned { table, plan, .. } = &self.planned;
        let answer = product.answer()?;
        let bytes = product.sheet(sheet::size(table))?;
        let wanted = sheet::bytes(table, plan);
        if answer == Ok(()) && bytes == wanted {
            return Ok(());
        }
        let (bytes, wanted) = (hex(&bytes), hex(&wanted));
        Err(format!("{answer:?}, plan {bytes} and not {wanted}"))
    }

    fn seen<'a>(&'a self, trace: &'a [u8]) -> Result<Seen<'a>, String> {
        let Planned { table, plan, .. } = &self.planned;
        let written = &trace[..self.call.trace];
        Seen::of(table, plan, &self.call.arrivals, written)
    }

    fn failed(&self, name: &str, why: &str) -> String {
        let (told, table) = (told(&self.call), hex(&self.call.table));
        format!("fails: {name}: {why}\n{told}\ntable {table}")
    }
}

/// No refusal, 19 or any other, and no worst response above its bound.
fn answer_holds(bounds: &Bounds, ran: &Ran) -> Result<(), String> {
    if ran.number != 0 {
        return Err(format!(
            "refused {} {} {} {}",
            ran.number, ran.names, ran.mark, ran.value
        ));
    }
    for (row, (worst, bounds)) in (1..).zip(ran.worst.chunks(3).zip(bounds)) {
        let mut pairs = worst.iter().zip(bounds);
        if pairs.any(|(&worst, &bound)| u64::from(worst) > bound) {
            return Err(format!("row {row}: worst {worst:?}, bounds {bounds:?}"));
        }
    }
    Ok(())
}

/// Counts a run in which all holds.
fn count(seen: &Seen, bounds: &Bounds, tally: &mut Counts) {
    let mut run = [false; COUNTED.len()];
    (run[0], run[1]) = (true, seen.is_a_resource_shared());
    tally.count(run);
    for stage in seen.stages() {
        tally.count(counted(seen, bounds, stage));
    }
}

/// Which of these a stage is.
fn counted(seen: &Seen, bounds: &Bounds, stage: &Stage) -> [bool; COUNTED.len()] {
    let section = stage.is_section();
    let ended = stage.bound(bounds) > 0 && stage.response().is_some();
    let tight = is_tight(bounds, stage);
    let behind = tight && stage.has_waited();
    [
        false,
        false,
        !section && ended,
        !section && tight,
        !section && behind,
        section && ended,
        section && tight,
        section && behind,
        seen.waits_for_a_lower(stage),
        tight && seen.waits_for_a_lower(stage),
        stage.is_put_aside(),
    ]
}

/// Has it ended just at its bound? Where the table has no length, there is nothing to bound.
fn is_tight(bounds: &Bounds, stage: &Stage) -> bool {
    let bound = stage.bound(bounds);
    bound > 0 && stage.response() == Some(bound)
}

#[cfg(test)]
mod tests {
    use super::*;
    use crate::bound::{least, Term};
    use crate::machine::{mistakes, Machine, Rules};
    use crate::plan::{section_demand, Plan};
    use crate::rank::Ranks;
    use crate::run::steps_by;
    use crate::table::{Table, Task};

    /// One in so many of each kind.
    fn runs(seed: u64, protocol: u64, part: usize) -> impl Iterator<Item = Run> {
        KINDS.into_iter().flat_map(move |kind| {
            let mut random = Random::new(seed, kind.name);
            (0..kind.count / part).map(move |_| Run::new(&mut random, &kind, protocol))
        })
    }

    /// In a twentieth of the runs there is a twentieth of what has to be there, and not all of it.
    #[test]
    fn the_runs_have_variety_and_all_of_it_holds() -> Result<(), String> {
        let part = 20;
        for (protocol, _) in PROTOCOLS {
            let mut tally = Tally::new(&COUNTED);
            for run in runs(1, protocol, part) {
                let bounds = bounds(&run.planned.plan);
                let (ran, trace) = run.call.plainly();
                answer_holds(&bounds, &ran)?;
                let seen = run.seen(&trace)?;
                seen.holds(&bounds)?;
                count(&seen, &bounds, &mut tally);
            }
            assert_eq!(tally.enough_in_one_of(part), Ok(()));
            assert!(tally.enough().is_err());
        }
        Ok(())
    }

    /// With any one of the bounds that are met lower by one, and the run as it was.
    #[test]
    fn a_lower_bound_is_passed() -> Result<(), String> {
        for run in PROTOCOLS.iter().flat_map(|&(of, _)| runs(2, of, 20)) {
            let bounds = bounds(&run.planned.plan);
            let (ran, trace) = run.call.plainly();
            let seen = run.seen(&trace)?;
            for stage in seen.stages().filter(|stage| is_tight(&bounds, stage)) {
                let mut lower = bounds.clone();
                lower[stage.row - 1][stage.which] -= 1;
                let why = seen.holds(&lower).expect_err("a lower bound");
                let late = format!("late, bound {}: row {},", stage.bound(&lower), stage.row);
                assert!(why.starts_with(&late), "{why}");
                assert!(answer_holds(&lower, &ran).is_err());
            }
        }
        Ok(())
    }

    /// With every bound lower by one, in both protocols most runs fail.
    #[test]
    fn lower_bounds_are_passed() -> Result<(), String> {
        for (protocol, short) in PROTOCOLS {
            let (mut passed, mut all) = (0, 0);
            for run in runs(4, protocol, 20) {
                let lower = bounds(&run.planned.plan).into_iter();
                let lower = lower.map(|three| three.map(|bound| bound.saturating_sub(1)));
                let trace = run.call.plainly().1;
                let held = run.seen(&trace)?.holds(&lower.collect());
                passed += usize::from(held.is_err_and(|why| why.starts_with("late, ")));
                all += 1;
            }
            assert!(passed * 2 > all, "{short}: {passed} of {all}");
        }
        Ok(())
    }

    impl Run {
        /// Does all hold, if a machine with these rules makes the run?
        fn held_by(&self, rules: Rules) -> Result<(), String> {
            let Planned { table, plan, .. } = &self.planned;
            let ranks = Ranks::of(table);
            let mut machine = Machine::new(table, &ranks, plan);
            machine.rules = rules;
            let ran = steps_by(machine, &self.call.arrivals, 0, self.call.ticks as u64);
            let (trace, _) = ran.map_err(|row| format!("refused 19 {row} 0 0"))?;
            self.seen(&trace)?.holds(&bounds(plan))
        }
    }

    /// Puts bounds into a plan that may be too short.
    type Mistake = fn(&Table, &Ranks, &mut Plan);

    /// S as the least t of another demand, with the terms of the right one.
    fn s_of(
        table: &Table,
        ranks: &Ranks,
        plan: &mut Plan,
        demand: impl Fn(&Task, u64, Vec<Term>) -> (u64, Vec<Term>),
    ) {
        for task in table.tasks.iter().filter(|task| task.has_section()) {
            let (own, terms) = section_demand(table, ranks, &plan.homes, task.row);
            let (own, terms) = demand(task, own, terms);
            let s = &mut plan.places[task.row - 1].s;
            *s = least(own, &terms, task.period).unwrap_or(*s);
        }
    }

    fn without_blocking(table: &Table, ranks: &Ranks, plan: &mut Plan) {
        s_of(table, ranks, plan, |task, _, terms| (task.a, terms));
    }

    /// B as the largest such A less 2, as if the section in the way had run two units before.
    fn with_blocking_less_two(table: &Table, ranks: &Ranks, plan: &mut Plan) {
        s_of(table, ranks, plan, |task, own, terms| {
            ((own - 1).max(task.a), terms)
        });
    }

    /// Of a better-ranked row one release counts, however long the wait.
    fn with_one_release(table: &Table, ranks: &Ranks, plan: &mut Plan) {
        s_of(table, ranks, plan, |_, own, terms| {
            let others: u64 = terms.iter().map(|term| term.length).sum();
            (own + others, Vec::new())
        });
    }

    /// B with the ceilings that count beside a rank.
    fn with_ceilings(
        table: &Table,
        ranks: &Ranks,
        plan: &mut Plan,
        count: fn(usize, usize) -> bool,
    ) {
        let homes = plan.homes;
        s_of(table, ranks, plan, |task, _, terms| {
            let rank = ranks.rank(task.row);
            let lower = table.tasks.iter().filter(|other| {
                other.has_section()
                    && homes[other.resource] == homes[task.resource]
                    && ranks.rank(other.row) > rank
                    && count(ranks.ceiling(other.resource), rank)
            });
            let longest = lower.map(|other| other.a).max();
            (task.a + longest.map_or(0, |a| a - 1), terms)
        });
    }

    /// A ceiling equal to the row's rank is left out.
    fn without_equal_ceilings(table: &Table, ranks: &Ranks, plan: &mut Plan) {
        with_ceilings(table, ranks, plan, |ceiling, rank| ceiling < rank);
    }

    fn with_ceilings_of_pcp(table: &Table, ranks: &Ranks, plan: &mut Plan) {
        with_ceilings(table, ranks, plan, |ceiling, rank| ceiling <= rank);
    }

    /// No stage waits for a better-ranked one.
    fn without_better_stages(table: &Table, _: &Ranks, plan: &mut Plan) {
        for (task, place) in table.tasks.iter().zip(&mut plan.places) {
            (place.d1, place.d2) = (task.c1, task.c2);
        }
    }

    /// Does a run fail that is aimed at a plan with this mistake?
    fn fails(random: &mut Random, kind: &Kind, protocol: u64, mistake: Mistake) -> bool {
        let mut planned = planned(random, protocol);
        let ranks = Ranks::of(&planned.table);
        mistake(&planned.table, &ranks, &mut planned.plan);
        let call = kind.call(random, &planned);
        Run { planned, call }.held_by(Rules::PAPER).is_err()
    }

    /// How many of some runs fail, one in ten of each kind.
    fn failures(name: &str, protocol: u64, mistake: Mistake) -> usize {
        let mut random = Random::new(3, name);
        let kinds = KINDS.iter().flat_map(|kind| vec![kind; kind.count / 10]);
        let failed = kinds.filter(|kind| fails(&mut random, kind, protocol, mistake));
        failed.count()
    }

    #[test]
    fn mistakes_in_plans_are_seen() {
        let both = [0, 1];
        let mistakes: [(&str, &[u64], Mistake); 6] = [
            ("without blocking", &both, without_blocking),
            ("with blocking less two", &both, with_blocking_less_two),
            ("with one release", &both, with_one_release),
            ("without better stages", &both, without_better_stages),
            ("without equal ceilings", &[0], without_equal_ceilings),
            ("with ceilings of PCP", &[1], with_ceilings_of_pcp),
        ];
        for (name, protocols, mistake) in mistakes {
            for &protocol in protocols {
                let count = failures(name, protocol, mistake);
                assert!(count >= 5, "{name}, protocol {protocol}: {count}");
            }
        }
        // Under PCP that is right.
        assert_eq!(failures("no mistake", 0, with_ceilings_of_pcp), 0);
    }

    /// With a mistake in the machine so many in a hundred runs fail, or more, each for one of these
    /// reasons, and without it none of them.
    fn is_seen(mistake: Rules, protocols: &[u64], reasons: &[&str], share: usize) {
        for &protocol in protocols {
            let (mut failed, mut all) = (0, 0);
            for run in runs(5, protocol, 10) {
                assert_eq!(run.held_by(Rules::PAPER), Ok(()));
                if let Err(why) = run.held_by(mistake) {
                    let known = reasons.iter().any(|reason| why.contains(reason));
                    assert!(known, "{why}");
                    failed += 1;
                }
                all += 1;
            }
            let told = format!("protocol {protocol}: {failed} of {all}");
            assert!(100 * failed >= share * all, "{told}");
        }
    }

    #[test]
    fn the_worst_ranked_stage_first_is_seen() {
        let late = ["late, ", "refused 19 "];
        is_seen(mistakes::WORST_STAGE_FIRST, &[0, 1], &late, 60);
    }

    #[test]
    fn a_start_at_an_equal_ceiling_is_seen() {
        is_seen(mistakes::EQUAL_CEILING_STARTS, &[0], &["held twice: "], 25);
    }

    #[test]
    fn a_preempted_section_under_npp_is_seen() {
        is_seen(mistakes::PREEMPTED_UNDER_NPP, &[1], &["held twice: "], 25);
    }

    /// In most runs no stage is late by that, but units run before their release.
    #[test]
    fn a_release_at_the_end_of_the_stage_ahead_is_seen() {
        let early = ["runs, and nothing is owed", "refused 19 "];
        is_seen(mistakes::RELEASED_EARLY, &[0, 1], &early, 75);
    }

    /// Any refusal, and each response above its bound.
    #[test]
    fn a_wrong_answer_is_seen() {
        let bounds = vec![[3, 0, 2], [1, 5, 0]];
        let mut right = Ran::NOTHING;
        right.worst[..6].copy_from_slice(&[3, 0, 2, 1, 5, 0]);
        assert_eq!(answer_holds(&bounds, &right), Ok(()));
        for place in 0..6 {
            let mut wrong = right;
            wrong.worst[place] += 1;
            let why = answer_holds(&bounds, &wrong).expect_err("too long");
            assert!(
                why.starts_with(&format!("row {}: ", place / 3 + 1)),
                "{why}"
            );
        }
        let (number, names) = (19, 2);
        let refused = Ran {
            number,
            names,
            ..Ran::NOTHING
        };
        assert_eq!(
            answer_holds(&bounds, &refused),
            Err("refused 19 2 0 0".to_string())
        );
    }
}
