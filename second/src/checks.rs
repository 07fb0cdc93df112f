//! Checks of this program against itself on random tables: the two ways of the least t, and what
//! has to be true of every run of a planned table.

use crate::bound::{broke, by_trying, by_walking, demand, Term};
use crate::plan::{homes, plan, section_demand, trials, Plan};
use crate::random::{arrivals, large_table, small_table, Random};
use crate::rank::Ranks;
use crate::run::{run, Arrival, Done};
use crate::table::{read, Table};

const TABLES: usize = 4_000;
const LARGE_TABLES: usize = 12;

/// What a check has seen, in words.
type Seen = Result<String, String>;

/// Every bound that planning a table could ask for is the same in both ways, and just where it is
/// missing a value broke the limit; on small tables, and on a few with periods so long that planning
/// never tries every t.
pub fn two_ways(seed: u64) -> Seen {
    let mut random = Random::new(seed, "two ways");
    let (mut found, mut missing) = (0, 0);
    for count in 0..TABLES + LARGE_TABLES {
        let raw = match count < TABLES {
            true => small_table(&mut random),
            false => large_table(&mut random),
        };
        let table = read(&raw.bytes()).map_err(|no| format!("{raw:?}: {no}"))?;
        for (own, terms, limit) in demands(&mut random, &table) {
            match agreed(own, &terms, limit)? {
                Some(_) => found += 1,
                None => missing += 1,
            }
        }
    }
    if found < TABLES || missing < TABLES / 4 {
        return Err(format!("too few bounds: {found} found, {missing} missing"));
    }
    Ok(format!(
        "least t: two ways agree on {TABLES} small tables and {LARGE_TABLES} large, \
         {found} bounds and {missing} missing"
    ))
}

/// The least t, if both ways say the same.
fn agreed(own: u64, terms: &[Term], limit: u64) -> Result<Option<u64>, String> {
    let tried = by_trying(own, terms, limit);
    let walked = by_walking(own, terms, limit);
    let told = |why| format!("least t of {own} with {terms:?} up to {limit}: {why}");
    if tried != walked {
        return Err(told(format!("tried {tried:?}, walked {walked:?}")));
    }
    let value = broke(own, terms, limit);
    match value {
        None if tried.is_some() => Ok(tried),
        Some(value) if tried.is_none() && breaks(own, terms, limit, value) => Ok(tried),
        _ => Err(told(format!("{tried:?}, and {value:?} broke it"))),
    }
}

/// Whether a search could have come to this value from one up to the limit.
fn breaks(own: u64, terms: &[Term], limit: u64, value: u64) -> bool {
    let asked = |t| demand(own, terms, t) == value;
    value > limit && (value == own || (own..=limit).any(asked))
}

/// The demands of all sections in all trials, and of all stages among some better-ranked tasks.
fn demands(random: &mut Random, table: &Table) -> Vec<(u64, Vec<Term>, u64)> {
    let ranks = Ranks::of(table);
    let mut all = Vec::new();
    for sync in trials(table) {
        let homes = homes(table, sync);
        for task in table.tasks.iter().filter(|task| task.has_section()) {
            let (own, terms) = section_demand(table, &ranks, &homes, task.row);
            all.push((own, terms, task.period));
        }
    }
    for task in &table.tasks {
        for length in [task.c1, task.c2].into_iter().filter(|&length| length > 0) {
            let better = table
                .tasks
                .iter()
                .filter(|o| ranks.rank(o.row) < ranks.rank(task.row));
            let terms = better.filter(|_| !random.once_in(3)).map(|o| Term {
                period: o.period,
                length: o.c1 + o.c2,
            });
            all.push((length, terms.collect(), task.period));
        }
    }
    all
}

/// Runs of planned tables: no response above its bound, no refusal 19, no unit lost.
pub fn runs(seed: u64) -> Seen {
    let mut random = Random::new(seed, "runs");
    let (mut planned, mut ended, mut met) = (0, 0, 0);
    for _ in 0..TABLES {
        let bytes = small_table(&mut random).bytes();
        let table = read(&bytes).map_err(|no| format!("{}: {no}", hex(&bytes)))?;
        let Ok(plan) = plan(&table) else {
            continue;
        };
        planned += 1;
        let f = random.pick(&[0, 0, 1, 100]);
        let w = random.within(0, 500);
        let some = arrivals(&mut random, &table, f + w + 50);
        let told = |why| format!("{why}\ntable {}\n{some:?}\nf {f} w {w}", hex(&bytes));
        let done = one_run(&bytes, &table, &some, f, w).map_err(told)?;
        met += within_bounds(&plan, &done).map_err(told)?;
        ended += done.jobs;
    }
    if planned < TABLES / 4 || ended < TABLES as u64 || met < TABLES {
        return Err(format!(
            "too few: {planned} planned, {ended} jobs ended, {met} bounds met"
        ));
    }
    Ok(format!(
        "runs: {planned} planned tables, {ended} jobs, no response above its bound, \
         {met} of them equal to it"
    ))
}

fn one_run(
    bytes: &[u8],
    table: &Table,
    arrivals: &[Arrival],
    f: u64,
    w: u64,
) -> Result<Done, String> {
    let m = table.processors;
    let mut part = vec![0xee; m * w as usize + 5];
    let mut whole = vec![0xee; m * (f + w) as usize];
    let done = run(bytes, arrivals, f, w, &mut part).map_err(|no| no.to_string())?;
    let again = run(bytes, arrivals, 0, f + w, &mut whole).map_err(|no| no.to_string())?;
    // "run plus owed equals all lengths brought by arrivals before f + w"
    let brought = arrivals.iter().filter(|a| a.tick < f + w);
    let brought: u64 = brought.flat_map(|a| a.lengths).sum();
    if done.run + done.owed != brought {
        return Err(format!("{} + {} is not {brought}", done.run, done.owed));
    }
    // The same ticks from tick 0 on: the same answer, and the trace's end is the first one's.
    if done != again || part[..m * w as usize] != whole[m * f as usize..] {
        return Err("the window changes the run".to_string());
    }
    // "Bytes past m × w are untouched."
    if part[m * w as usize..] != [0xee; 5] {
        return Err("bytes behind the trace are written".to_string());
    }
    let busy = whole.iter().filter(|&&byte| byte != 0).count() as u64;
    if busy != done.run {
        return Err(format!("{busy} units traced, {} run", done.run));
    }
    Ok(done)
}

/// How many bounds above 0 are met exactly; an error if one is passed.
fn within_bounds(plan: &Plan, done: &Done) -> Result<usize, String> {
    let mut met = 0;
    for (row, place) in (1..).zip(&plan.places) {
        let worst = done.worst[row - 1];
        let bounds = [place.d1, place.s, place.d2];
        for (response, bound) in worst.into_iter().zip(bounds) {
            if response > bound {
                return Err(format!("row {row}: responses {worst:?}, bounds {bounds:?}"));
            }
            if bound > 0 && response == bound {
                met += 1;
            }
        }
    }
    Ok(met)
}

pub fn hex(bytes: &[u8]) -> String {
    bytes.iter().map(|byte| format!("{byte:02x}")).collect()
}

#[cfg(test)]
mod tests {
    #[test]
    fn both_checks_pass() {
        for seed in [1, 2] {
            assert!(super::two_ways(seed).is_ok());
            assert!(super::runs(seed).is_ok());
        }
    }
}
