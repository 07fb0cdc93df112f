//! The product's run beside this program's: all numbers of the answer, and the whole trace with the
//! bytes behind it, of runs that end and of refused ones. The machine that is written for speed is
//! held to the same.

mod counted;
mod watch;

use super::mismatch;
use crate::checks::hex;
use crate::options::Options;
use crate::product::Product;
use crate::random::Random;
use crate::run_call::{Outcome, RunCall};
use crate::runs::KINDS;
use counted::Counts;

pub fn compare(options: &Options, product: &mut Product) -> Result<Vec<String>, String> {
    let mut lines = Vec::new();
    let mut counts = Counts::new();
    for kind in KINDS {
        let before = counts.without_refusal();
        let mut random = Random::new(options.seed, kind.name);
        let calls = (0..kind.count).map(|_| (kind.make)(&mut random));
        compare_all(product, kind.name, calls, &mut counts)?;
        let (name, count, ended) = (kind.name, kind.count, counts.without_refusal() - before);
        lines.push(format!(
            "run: {name}: {count} runs, {ended} without refusal"
        ));
    }
    lines.extend(counts.lines().map(|line| format!("run: {line}")));
    counts
        .enough_in_one_of(1)
        .map_err(|few| format!("run: {few}"))?;
    Ok(lines)
}

/// Up to the first mismatch.
fn compare_all(
    product: &mut Product,
    name: &str,
    calls: impl Iterator<Item = RunCall>,
    counts: &mut Counts,
) -> Result<(), String> {
    product.in_batches(calls, Product::ask_to_run, |product, call| {
        let second = call.plainly();
        judge(name, call, &second, product.ran(call))?;
        let speed = format!("{name} (the machine written for speed)");
        judge(&speed, call, &second, Ok(call.fast()))?;
        counts.count(call, &second);
        Ok(())
    })
}

pub fn judge(
    name: &str,
    call: &RunCall,
    second: &Outcome,
    product: Result<Outcome, String>,
) -> Result<(), String> {
    let said = match product {
        Ok(outcome) if outcome == *second => return Ok(()),
        Ok(outcome) => format!("{}{}", words(&outcome), first_other(second, &outcome)),
        Err(why) => why,
    };
    let what = format!("{name}\n{}", told(call));
    Err(mismatch(&what, &call.table, &words(second), &said))
}

/// What the call hands over beside the table; the arrivals as `second run` reads them.
pub fn told(call: &RunCall) -> String {
    let mut text = format!(
        "f {} w {}, trace of {} bytes from {:02x} on, {} arrivals",
        call.from,
        call.ticks,
        call.trace,
        call.fill,
        call.arrivals.len()
    );
    for arrival in &call.arrivals {
        let [one, section, two] = arrival.lengths;
        let (tick, row) = (arrival.tick, arrival.row);
        text += &format!("\n{tick} {row} {one} {section} {two}");
    }
    text
}

fn words((ran, trace): &Outcome) -> String {
    format!(
        "refused {} {} {} {}, jobs {}, run {}, owed {}\nworst {:?}\ntrace {}",
        ran.number,
        ran.names,
        ran.mark,
        ran.value,
        ran.jobs,
        ran.run,
        ran.owed,
        ran.worst,
        hex(trace)
    )
}

/// Where the traces begin to differ, if they do.
fn first_other((_, second): &Outcome, (_, product): &Outcome) -> String {
    let mut pairs = second.iter().zip(product);
    match pairs.position(|(one, other)| one != other) {
        Some(place) => {
            format!("\nbyte {place} of the trace, counted from 0, is the first other one")
        }
        None => String::new(),
    }
}

#[cfg(test)]
mod tests {
    use super::*;
    use crate::raw;
    use crate::run::Arrival;

    /// One in so many of each kind, and all of the few.
    fn calls(seed: u64, part: usize) -> impl Iterator<Item = RunCall> {
        KINDS.into_iter().flat_map(move |kind| {
            let mut random = Random::new(seed, kind.name);
            let count = kind.count.div_ceil(part).max(kind.count.min(4));
            (0..count).map(move |_| (kind.make)(&mut random))
        })
    }

    /// In a twentieth of the calls there is a twentieth of what has to be there, and not all of it.
    #[test]
    fn the_calls_have_variety_and_the_machine_for_speed_agrees() {
        let part = 20;
        let mut counts = Counts::new();
        for call in calls(1, part) {
            let second = call.plainly();
            assert_eq!(judge("test", &call, &second, Ok(call.fast())), Ok(()));
            counts.count(&call, &second);
        }
        assert_eq!(counts.enough_in_one_of(part), Ok(()));
        assert!(counts.enough_in_one_of(1).is_err());
    }

    /// Each byte of the trace, and behind it, and each number counts, and so does no answer at all.
    #[test]
    fn a_wrong_outcome_is_seen() {
        let call = RunCall {
            table: raw::table(3, 0, &[(10, 1, 2, 1, 1)]).bytes(),
            arrivals: vec![Arrival {
                tick: 0,
                row: 1,
                lengths: [1, 2, 1],
            }],
            from: 0,
            ticks: 4,
            trace: 13,
            fill: 0xee,
            nulls: false,
        };
        let right = call.plainly();
        let judged = |outcome| judge("test", &call, &right, outcome);
        assert_eq!(judged(Ok(right.clone())), Ok(()));
        for place in 0..right.1.len() {
            let mut wrong = right.clone();
            wrong.1[place] ^= 1;
            let why = judged(Ok(wrong)).expect_err("another byte");
            assert!(why.ends_with(&format!(
                "byte {place} of the trace, counted from 0, is the first other one"
            )));
        }
        let mut wrong = vec![right.clone(); 7];
        wrong[0].0.number = 1;
        wrong[1].0.names = 1;
        wrong[2].0.mark = 1;
        wrong[3].0.value = 1;
        wrong[4].0.worst[191] = 1;
        wrong[5].0.jobs += 1;
        wrong[6].0.owed += 1;
        assert!(wrong
            .into_iter()
            .all(|outcome| judged(Ok(outcome)).is_err()));
        assert!(judged(Err("no answer".to_string())).is_err());
    }
}
