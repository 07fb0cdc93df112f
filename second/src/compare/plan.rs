//! The product's planner beside this program's: the answer and the whole sheet, of planned and of
//! refused tables. The planner that is written for speed is held to the same.

mod counted;
mod failed;

use super::mismatch;
use super::tally::{Counted, Tally};
use crate::answer::Refusal;
use crate::checks::hex;
use crate::fast;
use crate::options::Options;
use crate::plan::{weight, Plan};
use crate::product::{Call, Product};
use crate::random::Random;
use crate::sheet::plan_into;
use crate::table::{read, Protocol, Table};
use crate::workloads::{Kind, FAILING, KINDS};
use counted::Counts as FailedCounts;
use failed::Failure;
use std::collections::BTreeSet;

/// So many tables are compared, and so many more that are refused with 11.
const TABLES: usize = 210_000;
const FAILING_TABLES: usize = 160_000;

/// What is counted of the calls that agree.
const COUNTED: [Counted; 14] = [
    ("tables", TABLES + FAILING_TABLES),
    ("of 64 rows", 2_000),
    ("planned", TABLES / 3),
    ("with s >= 2 under PCP", 500),
    ("with s >= 2 under NPP", 500),
    ("with equal periods", 500),
    ("with equal weights and s >= 2", 500),
    ("with bytes before the plan", 500),
    ("with bytes behind it", 500),
    ("refused 1 to 9", 500),
    ("10", 500),
    ("10 where at + 12 + 9n runs over", 500),
    ("null tables", 50),
    ("null sheets", 50),
];

struct Counts {
    calls: Tally<{ COUNTED.len() }>,
    failed: FailedCounts,
}

impl Counts {
    fn new() -> Counts {
        Counts {
            calls: Tally::new(&COUNTED),
            failed: FailedCounts::new(),
        }
    }

    /// Counts a call that agrees; an error if the value of refusal 11 is not what is behind it.
    fn count(&mut self, call: &Call, plan: &Result<Plan, Refusal>) -> Result<(), String> {
        self.calls.count(seen(call, plan));
        let (Ok(table), Err(no)) = (read(&call.table), plan) else {
            return Ok(());
        };
        if no.number == 11 {
            let failure = Failure::of(&table);
            if !failure.holds(no) {
                let value = failure.value();
                return Err(format!("{no}, and its value would be {value}"));
            }
            self.failed.count(&failure);
        }
        Ok(())
    }

    /// Where one in so many of all calls was counted.
    fn enough_in_one_of(&self, part: usize) -> Result<(), String> {
        self.calls.enough_in_one_of(part)?;
        self.failed.enough_in_one_of(part)
    }
}

/// The calls of one kind.
struct Group {
    kind: &'static Kind,
    count: usize,
    /// One sheet in so many is too short.
    short: u64,
}

/// All groups, or one in so many calls of each.
fn groups(part: usize) -> impl Iterator<Item = Group> {
    let usual = KINDS.iter().map(|kind| (kind, TABLES, 6));
    let failing = FAILING.iter().map(|kind| (kind, FAILING_TABLES, 50));
    usual.chain(failing).map(move |(kind, all, short)| Group {
        kind,
        count: (all * kind.share).div_ceil(100 * part),
        short,
    })
}

impl Group {
    fn calls<'a>(&'a self, random: &'a mut Random) -> impl Iterator<Item = Call> + 'a {
        (0..self.count).map(|_| {
            let table = (self.kind.make)(random);
            let cramped = random.once_in(self.short);
            call(random, table, cramped)
        })
    }
}

/// Which of these a call is.
fn seen(call: &Call, plan: &Result<Plan, Refusal>) -> [bool; COUNTED.len()] {
    let table = read(&call.table).ok();
    let rows = table.as_ref().map_or(0, |table| table.tasks.len());
    let planned = table.as_ref().filter(|_| plan.is_ok());
    let several = plan.as_ref().is_ok_and(|plan| plan.sync >= 2);
    let under = |protocol| several && planned.is_some_and(|table| table.protocol == protocol);
    let end = call.at.checked_add(12 + 9 * rows);
    let no = plan.as_ref().err().map_or(0, |no| no.number);
    [
        true,
        rows == 64,
        planned.is_some(),
        under(Protocol::Pcp),
        under(Protocol::Npp),
        planned.is_some_and(equal_periods),
        several && planned.is_some_and(equal_weights),
        planned.is_some() && call.at > 0,
        planned.is_some() && end.is_some_and(|end| end < call.sheet.len()),
        (1..=9).contains(&no),
        no == 10,
        no == 10 && end.is_none(),
        call.null_table,
        call.null_sheet,
    ]
}

fn equal_periods(table: &Table) -> bool {
    distinct(table.tasks.iter().map(|task| task.period)) < table.tasks.len()
}

fn equal_weights(table: &Table) -> bool {
    let used = table.used_resources();
    distinct(used.iter().map(|&resource| weight(table, resource))) < used.len()
}

fn distinct(numbers: impl Iterator<Item = u64>) -> usize {
    numbers.collect::<BTreeSet<u64>>().len()
}

pub fn compare(options: &Options, product: &mut Product) -> Result<Vec<String>, String> {
    let mut lines = Vec::new();
    let mut counts = Counts::new();
    for group in groups(1) {
        let [_, _, before, ..] = counts.calls.counts();
        let (name, tables) = (group.kind.name, group.count);
        let mut random = Random::new(options.seed, name);
        compare_all(product, name, group.calls(&mut random), &mut counts)?;
        let [_, _, planned, ..] = counts.calls.counts();
        let planned = planned - before;
        lines.push(format!("plan: {name}: {tables} tables, {planned} planned"));
    }
    lines.push(format!("plan: all: {}", counts.calls.words()));
    lines.extend(counts.failed.lines().map(|line| format!("plan: {line}")));
    counts
        .enough_in_one_of(1)
        .map_err(|few| format!("plan: {few}"))?;
    Ok(lines)
}

/// Up to the first mismatch.
fn compare_all(
    product: &mut Product,
    name: &str,
    calls: impl Iterator<Item = Call>,
    counts: &mut Counts,
) -> Result<(), String> {
    product.in_batches(calls, Product::ask_to_plan, |product, call| {
        let plan = compare_one(product, name, call)?;
        let counted = counts.count(call, &plan);
        counted.map_err(|why| format!("plan: {name}: {why}\ninput {}", hex(&call.table)))
    })
}

/// What one of the planners makes of a call: its answer, and the sheet afterwards.
type Outcome = (Result<(), Refusal>, Vec<u8>);

/// The product has been asked to make the call, and its answer comes next.
fn compare_one(
    product: &mut Product,
    name: &str,
    call: &Call,
) -> Result<Result<Plan, Refusal>, String> {
    let mut sheet = call.sheet.clone();
    let plan = plan_into(&call.table, &mut sheet, call.at);
    let second = (plan.as_ref().map(|_| ()).map_err(|no| *no), sheet);
    let length = call.sheet.len();
    let answered = product.answer();
    let answered = answered.and_then(|answer| Ok((answer, product.sheet(length)?)));
    judge(name, call, &second, answered)?;
    let speed = format!("{name} (the planner written for speed)");
    judge(&speed, call, &second, Ok(fast_outcome(call)))?;
    Ok(plan)
}

fn judge(
    name: &str,
    call: &Call,
    second: &Outcome,
    product: Result<Outcome, String>,
) -> Result<(), String> {
    let said = match product {
        Ok(outcome) if outcome == *second => return Ok(()),
        Ok(outcome) => words(&outcome),
        Err(why) => why,
    };
    let what = format!(
        "{name}: at {}, sheet ({} bytes) {}",
        call.at,
        call.sheet.len(),
        hex(&call.sheet)
    );
    Err(mismatch(&what, &call.table, &words(second), &said))
}

fn words((answer, sheet): &Outcome) -> String {
    let answer = match answer {
        Ok(()) => "planned".to_string(),
        Err(refusal) => refusal.to_string(),
    };
    format!("{answer}, sheet {}", hex(sheet))
}

fn fast_outcome(call: &Call) -> Outcome {
    let mut sheet = call.sheet.clone();
    let answer = fast::plan_into(&call.table, call.at, &mut sheet);
    let fast::Answer {
        number,
        names,
        mark,
        value,
    } = answer;
    let answer = match (number, names, mark, value) {
        (0, 0, 0, 0) => Ok(()),
        _ => Err(Refusal {
            number,
            names,
            mark,
            value,
        }),
    };
    (answer, sheet)
}

/// A call with this table; the sheet has room for its plan, or not.
fn call(random: &mut Random, table: Vec<u8>, cramped: bool) -> Call {
    let rows = table.first().map_or(0, |byte| usize::from(byte >> 1));
    let (at, length) = match cramped {
        true => without_room(random, 12 + 9 * rows),
        false => with_room(random, 12 + 9 * rows),
    };
    Call {
        null_table: table.is_empty() && random.once_in(2),
        null_sheet: length == 0 && random.once_in(2),
        sheet: random.bytes(length),
        table,
        at,
    }
}

/// `at` and the length of a sheet for a plan of `size` bytes, often with nothing to spare.
fn with_room(random: &mut Random, size: usize) -> (usize, usize) {
    let before = random.within(1, 40) as usize;
    let behind = random.within(1, 40) as usize;
    let at = random.pick(&[0, before]);
    (at, at + size + random.pick(&[0, behind]))
}

/// The same for a sheet that is too short, by one byte or by many, also where the sum of `at` and
/// `size` runs over, or where the low bits of `at` alone would fit.
fn without_room(random: &mut Random, size: usize) -> (usize, usize) {
    let length = random.pick(&[0, 0, 1, size - 1, size, 2 * size]);
    let some = random.within(0, 40) as usize;
    match random.within(0, 8) {
        0 => (0, size - 1),
        1 => (some, some + size - 1),
        2 => (some, random.within(0, (some + size - 1) as u64) as usize),
        3 => (length, length),
        4 => (length + 1 + some, length),
        // The sum, if it wraps, is a number from 0 to the sheet's length.
        5 => {
            let wrapped = random.within(0, length.min(size - 1) as u64) as usize;
            (wrapped.wrapping_sub(size), length)
        }
        6 => (usize::MAX - some, length),
        7 => (
            1 << random.pick(&[31, 32, 33, 48, 62, 63]) | some,
            some + size,
        ),
        _ => (random.number() as usize, 2 * size),
    }
}

#[cfg(test)]
mod tests {
    use super::failed::{nearest, End, Misfit, Way};
    use super::*;
    use crate::raw;

    fn calls(seed: u64, part: usize) -> Vec<Call> {
        let mut random = Random::new(seed, "calls");
        let mut all = Vec::new();
        for group in groups(part) {
            all.extend(group.calls(&mut random));
        }
        all
    }

    fn outcome(call: &Call) -> (Result<Plan, Refusal>, Outcome) {
        let mut sheet = call.sheet.clone();
        let plan = plan_into(&call.table, &mut sheet, call.at);
        let answer = plan.as_ref().map(|_| ()).map_err(|no| *no);
        (plan, (answer, sheet))
    }

    /// In a hundredth of the calls there is a hundredth of what has to be there, and not all of it.
    #[test]
    fn the_calls_have_variety() {
        for seed in 1..4 {
            let mut counts = Counts::new();
            for call in calls(seed, 100) {
                assert_eq!(counts.count(&call, &outcome(&call).0), Ok(()));
            }
            assert_eq!(counts.enough_in_one_of(100), Ok(()));
            assert!(counts.calls.enough().is_err() && counts.failed.enough_in_one_of(1).is_err());
        }
    }

    #[test]
    fn the_planner_for_speed_agrees() {
        for call in calls(9, 100) {
            let second = outcome(&call).1;
            assert_eq!(
                judge("test", &call, &second, Ok(fast_outcome(&call))),
                Ok(())
            );
        }
    }

    /// Each byte of the sheet and each part of the answer counts, and so does no answer at all.
    #[test]
    fn a_wrong_outcome_is_seen() {
        let bytes = raw::table(3, 0, &[(10, 1, 2, 1, 1)]).bytes();
        let mut random = Random::new(1, "wrong");
        let (at, length) = (3, 30);
        let call = Call {
            table: bytes,
            at,
            sheet: random.bytes(length),
            null_table: false,
            null_sheet: false,
        };
        let right = outcome(&call).1;
        assert_eq!(judge("test", &call, &right, Ok(right.clone())), Ok(()));
        for place in 0..length {
            let mut wrong = right.clone();
            wrong.1[place] ^= 1;
            assert!(judge("test", &call, &right, Ok(wrong)).is_err());
        }
        for number in 0..4 {
            let mut no = Refusal::plain(0);
            let parts = [&mut no.number, &mut no.names, &mut no.mark, &mut no.value];
            *parts[number] = 1;
            let wrong = (Err(no), right.1.clone());
            assert!(judge("test", &call, &right, Ok(wrong)).is_err());
        }
        let wrong = (Err(Refusal::plain(0)), right.1.clone());
        assert!(judge("test", &call, &right, Ok(wrong)).is_err());
        assert!(judge("test", &call, &right, Err("no answer".to_string())).is_err());
    }
    /// The last member up to the limit, if the value is not the first of all.
    fn below(way: &Way) -> u64 {
        let members = &way.members;
        members[members.len().saturating_sub(2)]
    }

    fn misfits<'a>(failure: &'a Failure) -> &'a [Misfit] {
        match &failure.end {
            End::Section { .. } => &[],
            End::Stages { misfits, .. } => misfits,
        }
    }

    fn too_early(failure: &Failure) -> u64 {
        let value = |misfit: &Misfit| misfit.way().map_or_else(|| misfit.value(), below);
        match &failure.end {
            End::Section { way, .. } => below(way),
            End::Stages { misfits, .. } => misfits.iter().map(value).min().unwrap_or(0),
        }
    }

    fn two_first(misfit: &Misfit) -> u64 {
        match misfit.two.broke() {
            true => misfit.two.last(),
            false => misfit.value(),
        }
    }

    fn loosely(failure: &Failure) -> u64 {
        match &failure.end {
            End::Section { way, .. } => way.last(),
            End::Stages { loose, .. } => nearest(loose).value(),
        }
    }

    /// Of the stages on each processor, or else as it has to be.
    fn of_stages(failure: &Failure, pick: fn(&[Misfit]) -> Option<u64>) -> u64 {
        pick(misfits(failure)).unwrap_or(failure.value())
    }

    type Mistake = (&'static str, fn(&Failure) -> u64);

    const MISTAKES: [Mistake; 8] = [
        ("the last member up to the limit", too_early),
        ("one above the limit", |failure| failure.limit() + 1),
        ("the largest over the processors", |failure| {
            of_stages(failure, |all| all.iter().map(Misfit::value).max())
        }),
        ("the first processor's", |failure| {
            of_stages(failure, |all| all.first().map(Misfit::value))
        }),
        ("the last processor's", |failure| {
            of_stages(failure, |all| all.last().map(Misfit::value))
        }),
        ("D2's where D1 broke", |failure| {
            of_stages(failure, |all| all.iter().map(two_first).min())
        }),
        ("T for the limit of a stage", loosely),
        ("that of the trial before", |failure| {
            failure.before.unwrap_or(failure.value())
        }),
    ];

    /// Wrong rules for the value alone, of which each is seen in a hundredth of the calls.
    #[test]
    fn a_wrong_value_is_seen() {
        let mut seen = [0; MISTAKES.len()];
        for call in calls(4, 100) {
            let right = outcome(&call).1;
            let (Ok(table), Err(no)) = (read(&call.table), right.0) else {
                continue;
            };
            if no.number != 11 {
                continue;
            }
            let failure = Failure::of(&table);
            for (count, (_, mistake)) in seen.iter_mut().zip(MISTAKES) {
                let value = mistake(&failure) as u32;
                let wrong = (Err(Refusal { value, ..no }), right.1.clone());
                let agrees = judge("test", &call, &right, Ok(wrong)).is_ok();
                assert_eq!(agrees, value == no.value);
                *count += usize::from(!agrees);
            }
        }
        for ((what, _), count) in MISTAKES.iter().zip(seen) {
            assert!(count >= 50, "{what}: {count}");
        }
    }
}
