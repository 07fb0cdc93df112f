//! The product's machine beside the one in fast_run.rs: the longest run there is, as dense as it
//! can be.

use super::{number, output, part, Said};
use crate::options::Options;
use crate::product::{read_ran, RAN_BYTES};
use crate::random::Random;
use crate::run_call::{Outcome, RunCall};
use crate::runs::busiest_runs;

/// Always the same runs, so that what is measured can be set beside what was measured before.
const SEED: u64 = 1;
const ROUNDS: usize = 9;
const PROTOCOLS: [&str; 2] = ["PCP", "NPP"];

pub fn bench_machines(options: &Options) -> Result<(), String> {
    let runs = busiest_runs(&mut Random::new(SEED, "bench run"));
    let [first, _] = &runs;
    println!(
        "whole runs, from a table's bytes to a written trace; 64 rows, 16 processors, {} arrivals, \
         f = {}, w = {}, seed {SEED}; {ROUNDS} rounds; million ticks a second of processor time, \
         and the ratio of the times",
        first.arrivals.len(),
        first.from,
        first.ticks
    );
    let outcomes = [0, 1].map(|place| runs[place].plainly());
    for command in &options.halves {
        println!("{command}:");
        for (protocol, (run, outcome)) in PROTOCOLS.iter().zip(runs.iter().zip(&outcomes)) {
            let output = output(command, &input(run))?;
            let told = |why| format!("{command}: run under {protocol}: {why}");
            let said = said(&output, run, outcome).map_err(told)?;
            println!("{}", line(&said, protocol, run, outcome));
        }
    }
    Ok(())
}

fn line(said: &Said, protocol: &str, run: &RunCall, (ran, _): &Outcome) -> String {
    let ticks = (run.from + run.ticks) as f64;
    let rate = |nanos| ticks * 1_000.0 / nanos;
    let measured = said.measured(rate);
    format!("run under {protocol}, {} units: {measured}", ran.run)
}

fn input(run: &RunCall) -> Vec<u8> {
    let numbers = [1, ROUNDS, run.from, run.ticks, run.trace, run.table.len()].map(number);
    let mut bytes = [b"u", numbers.as_flattened(), &run.table].concat();
    bytes.extend(number(run.arrivals.len()));
    bytes.extend(run.record_bytes());
    bytes
}

/// What a half says, if both machines are right.
fn said(output: &[u8], run: &RunCall, (ran, trace): &Outcome) -> Result<Said, String> {
    let mut rest = output;
    let said = Said::read(&mut rest, ROUNDS)?;
    for machine in ["product", "Rust"] {
        let answer = read_ran(part(&mut rest, RAN_BYTES)?);
        let written = part(&mut rest, run.trace)?;
        if answer != *ran || written != &trace[..run.trace] {
            return Err(format!("{machine}: another answer or trace"));
        }
    }
    match rest {
        [] => Ok(said),
        _ => Err("it says too much".to_string()),
    }
}

#[cfg(test)]
mod tests {
    use super::*;
    use crate::bench::tests::said_first;
    use crate::fast_run::Ran;

    #[test]
    fn the_run_is_full() {
        let [pcp, npp] = busiest_runs(&mut Random::new(SEED, "bench run"));
        assert_eq!(pcp.arrivals, npp.arrivals);
        for run in [pcp, npp] {
            let (ran, trace) = run.fast();
            assert_eq!((run.from, run.ticks, run.trace), (995_904, 4_096, 65_536));
            assert_eq!((run.arrivals.len(), run.table.len()), (4_096, 706));
            let last = run.arrivals.last().map_or(0, |arrival| arrival.tick);
            // Of 16 million units.
            assert!(ran.number == 0 && ran.run > 6_000_000 && last > 980_000);
            assert!(trace[..run.trace].iter().any(|&byte| byte != 0));
        }
    }

    fn answer_bytes(ran: &Ran) -> Vec<u8> {
        let mut numbers = vec![ran.number, ran.names, ran.mark, ran.value];
        numbers.extend(ran.worst);
        let counts = [ran.jobs, ran.run, ran.owed];
        let mut bytes: Vec<u8> = numbers.into_iter().flat_map(u32::to_le_bytes).collect();
        bytes.extend(counts.into_iter().flat_map(u64::to_le_bytes));
        bytes
    }

    #[test]
    fn a_wrong_half_is_seen() {
        let [run, _] = busiest_runs(&mut Random::new(SEED, "bench run"));
        let run = RunCall {
            from: 0,
            ticks: 100,
            trace: 1_600,
            ..run
        };
        let outcome = run.plainly();
        let own = [answer_bytes(&outcome.0), outcome.1[..run.trace].to_vec()].concat();
        let right = [said_first(ROUNDS as u64), own.clone(), own.clone()].concat();
        let said = |bytes: &[u8]| said(bytes, &run, &outcome);
        let line = line(&said(&right).expect("a right half"), "PCP", &run, &outcome);
        let wanted = "best product 50.00, Rust 100.00, product/Rust 2.00; median product 10.00";
        assert!(line.contains(wanted), "{line}");
        for place in right.len() - 2 * own.len()..right.len() {
            let mut wrong = right.clone();
            wrong[place] ^= 1;
            assert!(said(&wrong).is_err());
        }
        assert!(said(&right[..right.len() - 1]).is_err());
        assert!(said(&[&right[..], &[0]].concat()).is_err());
    }

    #[test]
    fn a_half_is_asked_to_run() {
        let [run, _] = busiest_runs(&mut Random::new(SEED, "bench run"));
        let input = input(&run);
        assert_eq!(input[..9], *b"u\x01\0\0\0\0\0\0\0");
        assert_eq!(input.len(), 1 + 7 * 8 + 706 + 20 * 4_096);
    }
}
