//! Blocking, weights, trials, and the plan, with refusal 11.

use crate::answer::Refusal;
use crate::bound::{bound, Term};
use crate::rank::Ranks;
use crate::table::{Protocol, Table, Task, LAST_RESOURCE};

/// Where a task's stages run, and its three bounds.
#[derive(Clone, Copy, Debug, PartialEq, Eq, Default)]
pub struct Place {
    /// 0 while the task has no application processor yet.
    pub processor: usize,
    pub d1: u64,
    pub s: u64,
    pub d2: u64,
}

/// The processor of each resource, by number; 0 if unused. Number 0 is no resource.
pub type Homes = [usize; LAST_RESOURCE + 1];

#[derive(Clone, Debug, PartialEq, Eq)]
pub struct Plan {
    /// How many synchronization processors there are; they are 1 to `sync`.
    pub sync: usize,
    pub homes: Homes,
    /// One for each row, in row order.
    pub places: Vec<Place>,
}

/// "A trial that ends without a plan hands back the task and the mark", and the value. How far it
/// came is there for those who count what is behind the value.
#[derive(Clone, Debug, PartialEq, Eq)]
pub struct Failed {
    pub row: usize,
    pub mark: u32,
    pub value: u64,
    pub places: Vec<Place>,
}

/// "The first [trial] that succeeds is the plan." Otherwise 11: "every trial failed".
pub fn plan(table: &Table) -> Result<Plan, Refusal> {
    let ranks = Ranks::of(table);
    let mut last = Refusal::plain(11);
    for sync in trials(table) {
        match trial(table, &ranks, sync) {
            Ok(plan) => return Ok(plan),
            // "row and mark of the last trial", and its value.
            Err(failed) => {
                last.names = failed.row as u32;
                last.mark = failed.mark;
                last.value = failed.value as u32;
            }
        }
    }
    Err(last)
}

/// The counts of synchronization processors that are tried, in order.
pub fn trials(table: &Table) -> std::ops::RangeInclusive<usize> {
    match table.used_resources().len() {
        // "If u is 0 there is one trial, with 0 synchronization processors."
        0 => 0..=0,
        // "1, 2, .. up to the smaller of m − 1 and u"
        used => 1..=used.min(table.processors - 1),
    }
}

pub fn trial(table: &Table, ranks: &Ranks, sync: usize) -> Result<Plan, Failed> {
    // Step 1.
    let homes = homes(table, sync);
    let mut places = vec![Place::default(); table.tasks.len()];
    // Step 2: "All S are worked out in rank order. The first missing one ends the trial, mark 1."
    for row in ranks.rows_in_order() {
        match section_bound(table, ranks, &homes, row) {
            Ok(bound) => places[row - 1].s = bound,
            // "Refusal 11 carries it for mark 1."
            Err(value) => {
                return Err(Failed {
                    row,
                    mark: 1,
                    value,
                    places,
                })
            }
        }
    }
    // Step 3: "In rank order each task goes to the lowest-numbered application processor that it
    // fits. The first that fits none ends the trial, mark 2."
    for row in ranks.rows_in_order() {
        match first_fit(table, ranks, &places, row, sync) {
            Ok(place) => places[row - 1] = place,
            Err(value) => {
                return Err(Failed {
                    row,
                    mark: 2,
                    value,
                    places,
                })
            }
        }
    }
    Ok(Plan {
        sync,
        homes,
        places,
    })
}

/// The lowest-numbered application processor that a task fits, or "For mark 2 it carries the
/// smallest, over the application processors" of what keeps it from each.
fn first_fit(
    table: &Table,
    ranks: &Ranks,
    places: &[Place],
    row: usize,
    sync: usize,
) -> Result<Place, u64> {
    let mut values = Vec::new();
    for processor in sync + 1..=table.processors {
        match fit(table, ranks, places, row, processor) {
            Ok(place) => return Ok(place),
            Err(value) => values.push(value),
        }
    }
    Err(values.into_iter().min().expect("s is at most m − 1"))
}

/// "the sum of ceil(A × 1,000,000 / T) over its users"
pub fn weight(table: &Table, resource: usize) -> u64 {
    table
        .users(resource)
        .map(|task| (task.a * 1_000_000).div_ceil(task.period))
        .sum()
}

/// "Heaviest first (ties: lower number), each goes to the least loaded of 1 to s (ties: lower
/// number)."
pub fn homes(table: &Table, sync: usize) -> Homes {
    let mut left = table.used_resources();
    let mut homes = [0; LAST_RESOURCE + 1];
    let mut load = vec![0; sync + 1];
    left.sort_by_key(|&resource| (std::cmp::Reverse(weight(table, resource)), resource));
    for resource in left {
        let home = (1..=sync).min_by_key(|&processor| (load[processor], processor));
        let home = home.expect("a used resource means a synchronization processor");
        homes[resource] = home;
        load[home] += weight(table, resource);
    }
    homes
}

/// The tasks other than `row`'s with a section on the processor where `row`'s section runs.
fn sharing<'a>(table: &'a Table, homes: &'a Homes, row: usize) -> impl Iterator<Item = &'a Task> {
    let here = homes[table.task(row).resource];
    table
        .tasks
        .iter()
        .filter(move |o| o.row != row && o.has_section() && homes[o.resource] == here)
}

/// The tasks whose sections can be in the way of the section in `row`.
pub fn in_the_way<'a>(
    table: &'a Table,
    ranks: &'a Ranks,
    homes: &'a Homes,
    row: usize,
) -> impl Iterator<Item = &'a Task> {
    let own = ranks.rank(row);
    sharing(table, homes, row)
        // "of a lower-ranked task on the same processor": a larger rank number is a lower rank.
        .filter(move |o| ranks.rank(o.row) > own)
        .filter(move |o| match table.protocol {
            // "whose resource has a ceiling at or above k's rank"
            Protocol::Pcp => ranks.ceiling(o.resource) <= own,
            // "any lower-ranked task there"
            Protocol::Npp => true,
        })
}

/// B of the task in `row`: "the largest such A less 1, under both protocols, and still 0 if there is
/// none". It "can only be in the way if it ran a unit before".
pub fn blocking(table: &Table, ranks: &Ranks, homes: &Homes, row: usize) -> u64 {
    let longest = in_the_way(table, ranks, homes, row).map(|o| o.a).max();
    longest.map_or(0, |a| a - 1)
}

/// What S of the task in `row` is the least t of: A + B, and the terms of "better-ranked tasks i
/// with a section on that processor".
pub fn section_demand(table: &Table, ranks: &Ranks, homes: &Homes, row: usize) -> (u64, Vec<Term>) {
    let own = table.task(row).a + blocking(table, ranks, homes, row);
    let terms = sharing(table, homes, row)
        .filter(|o| ranks.rank(o.row) < ranks.rank(row))
        .map(|o| Term {
            period: o.period,
            length: o.a,
        })
        .collect();
    (own, terms)
}

/// S of the task in `row`; "It must be at most T. S is 0 without a section." Or "the value that broke
/// the limit", which "is T for a section".
fn section_bound(table: &Table, ranks: &Ranks, homes: &Homes, row: usize) -> Result<u64, u64> {
    let task = table.task(row);
    if !task.has_section() {
        return Ok(0);
    }
    let (own, terms) = section_demand(table, ranks, homes, row);
    bound(own, &terms, task.period)
}

/// "for each better-ranked task i on the same application processor the term ceil(t / T_i) ×
/// (C1_i + C2_i)"
pub fn stage_terms(
    table: &Table,
    ranks: &Ranks,
    places: &[Place],
    row: usize,
    processor: usize,
) -> Vec<Term> {
    table
        .tasks
        .iter()
        .filter(|o| places[o.row - 1].processor == processor)
        .filter(|o| ranks.rank(o.row) < ranks.rank(row))
        .map(|o| Term {
            period: o.period,
            length: o.c1 + o.c2,
        })
        .collect()
}

/// D1 or D2: "the same with C1 (or C2) in place of A, no B"; "A stage of table length 0 has bound
/// 0."
fn stage_bound(length: u64, terms: &[Term], limit: u64) -> Result<u64, u64> {
    if length == 0 {
        return Ok(0);
    }
    bound(length, terms, limit)
}

/// "A task fits a processor when D1, D2 exist with D1 + S + D2 ≤ T." Otherwise "the value that broke
/// D1, else D2, else the sum D1 + S + D2".
fn fit(
    table: &Table,
    ranks: &Ranks,
    places: &[Place],
    row: usize,
    processor: usize,
) -> Result<Place, u64> {
    let task = table.task(row);
    let terms = stage_terms(table, ranks, places, row, processor);
    let s = places[row - 1].s;
    // "T − S for a stage"
    let limit = task.period - s;
    let d1 = stage_bound(task.c1, &terms, limit)?;
    let d2 = stage_bound(task.c2, &terms, limit)?;
    let sum = d1 + s + d2;
    if sum > task.period {
        return Err(sum);
    }
    Ok(Place {
        processor,
        d1,
        s,
        d2,
    })
}
