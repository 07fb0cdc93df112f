//! The product's listing program beside `second list`, a process for each input.

use super::mismatch;
use super::tally::{Counted, Tally};
use crate::inputs::{one_bad, several_bad, SETS};
use crate::listing::{list, TAKEN};
use crate::options::Options;
use crate::product::Product;
use crate::program;
use crate::random::{good_table_of, Random};
use crate::raw::{self, RawTable};
use crate::table::{self, LONGEST_PERIOD};
use crate::workloads::{is_planned, largest, FAILING, KINDS};
use std::process::Output;
use std::thread;

/// How many processes run at a time.
const AT_ONCE: usize = 2;

/// What is counted, by the text that `second list` prints and by the input.
const COUNTED: [Counted; 21] = [
    ("inputs", 1_000),
    ("planned", 300),
    ("of 64 rows and 16 resources", 30),
    ("with a number of six digits", 30),
    ("with one of seven", 30),
    ("refused 1", 5),
    ("2", 5),
    ("3", 5),
    ("4", 5),
    ("5", 5),
    ("6", 5),
    ("7", 5),
    ("8", 5),
    ("9", 5),
    ("11 with mark 1", 30),
    ("11 with mark 2", 30),
    ("11 with a value of one or two digits", 30),
    ("11 with one of six or seven", 5),
    ("empty", 1),
    ("of 707 bytes", 5),
    ("longer", 30),
];

type Counts = Tally<{ COUNTED.len() }>;

pub fn compare(options: &Options, _: &mut Product) -> Result<Vec<String>, String> {
    let Some(command) = &options.list else {
        return Ok(vec!["list: no program given".to_string()]);
    };
    let inputs = inputs(&mut Random::new(options.seed, "list"));
    thread::scope(|scope| {
        let share = |worker| inputs.iter().skip(worker).step_by(AT_ONCE);
        let start = |worker| scope.spawn(move || compare_all(command, share(worker)));
        let workers: Vec<_> = (0..AT_ONCE).map(start).collect();
        let ended = workers.into_iter().map(|worker| match worker.join() {
            Ok(outcome) => outcome,
            Err(_) => Err("list: a thread of this program failed".to_string()),
        });
        ended.collect::<Result<(), String>>()
    })?;
    let tally = counted(&inputs);
    tally.enough().map_err(|few| format!("list: {few}"))?;
    Ok(vec![format!("list: {}", tally.words())])
}

/// Up to the first mismatch.
fn compare_all<'a>(command: &str, inputs: impl Iterator<Item = &'a Vec<u8>>) -> Result<(), String> {
    for input in inputs {
        let second = list(input);
        let output = program::output(command, input).map_err(|why| format!("{command}: {why}"))?;
        if !output.status.success() || output.stdout != second.as_bytes() {
            return Err(mismatch("list", input, &second, &all_of(&output)));
        }
    }
    Ok(())
}

fn counted(inputs: &[Vec<u8>]) -> Counts {
    let mut tally = Tally::new(&COUNTED);
    for input in inputs {
        let text = list(input);
        let words: Vec<&str> = text.split_whitespace().collect();
        let planned = text.starts_with("plan ");
        let digits = |count| words.iter().any(|word| word.len() == count);
        let resources = text.lines().filter(|line| line.starts_with("resource "));
        let refused = |number: &str| words[..2] == ["refused", number];
        let marked = |mark: &str| refused("11") && words[3] == mark;
        let valued = |least, most| refused("11") && (least..=most).contains(&words[4].len());
        tally.count([
            true,
            planned,
            text.starts_with("plan 64 ") && resources.count() == 16,
            planned && digits(6),
            planned && digits(7),
            refused("1"),
            refused("2"),
            refused("3"),
            refused("4"),
            refused("5"),
            refused("6"),
            refused("7"),
            refused("8"),
            refused("9"),
            marked("1"),
            marked("2"),
            valued(1, 2),
            valued(6, 7),
            input.is_empty(),
            input.len() == TAKEN,
            input.len() > TAKEN,
        ]);
    }
    tally
}

/// Something over 1,000: nothing, tables of every size and kind, bad ones, and long ones.
fn inputs(random: &mut Random) -> Vec<Vec<u8>> {
    let mut all = vec![Vec::new()];
    all.extend((1..=64).map(|n| good_table_of(random, n).bytes()));
    for kind in KINDS {
        all.extend((0..60).map(|_| (kind.make)(random)));
    }
    for kind in FAILING {
        all.extend((0..12).map(|_| (kind.make)(random)));
    }
    all.extend(of_each_number(random));
    for _ in 0..50 {
        all.push(one_bad(random));
        all.push(several_bad(random));
        all.push(most_lines(random));
        all.push(widest(random).bytes());
    }
    all.extend(long(random));
    all
}

/// Of all sets of inputs, some that are refused with each of 1 to 9.
fn of_each_number(random: &mut Random) -> Vec<Vec<u8>> {
    let mut by_number = vec![Vec::new(); 10];
    for set in SETS {
        for input in (set.make)(random) {
            if let Err(refusal) = table::read(&input) {
                by_number[refusal.number as usize].push(input);
            }
        }
    }
    let mut all = Vec::new();
    for inputs in &by_number[1..] {
        all.extend(
            (0..8).map(|_| inputs[random.within(0, inputs.len() as u64 - 1) as usize].clone()),
        );
    }
    all
}

/// A table of 64 rows that is planned, with all resources in use.
fn most_lines(random: &mut Random) -> Vec<u8> {
    loop {
        let bytes = largest(random);
        let table = table::read(&bytes).ok();
        if table.is_some_and(|table| table.used_resources().len() == 16) && is_planned(&bytes) {
            return bytes;
        }
    }
}

/// Rows with bounds of the longest period there is, or a little less, each on its own processor.
fn widest(random: &mut Random) -> RawTable {
    let longest = LONGEST_PERIOD;
    let less = longest - random.within(0, 2);
    let other = random.within(1, longest - 1);
    let rows = [
        (longest, less, 0, 0, 0),
        (longest, 0, 0, less, 0),
        (longest, 0, less, 0, 1),
        (longest, 0, longest, 0, 16),
        (longest, other, 0, longest - other, 0),
    ];
    let first = random.within(0, 1) as usize;
    raw::table(random.within(6, 16), random.within(0, 1), &rows[first..])
}

/// Longer than the 707 bytes that are taken, with a good table of any size in front, or not.
fn long(random: &mut Random) -> Vec<Vec<u8>> {
    let mut all = Vec::new();
    for length in [706, 707, 707, 708, 709, 717, 1_000, 4_096, 70_000, 200_000] {
        for n in [random.within(1, 63), 64] {
            let mut bytes = good_table_of(random, n).bytes();
            bytes.resize(length, random.pick(&[0, 0xff]));
            let mut spoilt = bytes.clone();
            spoilt[random.pick(&[0, 1])] ^= random.pick(&[0x80, 0x01, 0x04]);
            all.extend([bytes, spoilt]);
        }
        all.push(random.bytes(length));
    }
    all
}

/// What a process has left behind, on both outputs, and how it ended.
fn all_of(output: &Output) -> String {
    let stdout = String::from_utf8_lossy(&output.stdout);
    let stderr = String::from_utf8_lossy(&output.stderr);
    format!("{stdout}{stderr}({})", output.status)
}

#[cfg(test)]
mod tests {
    use super::*;

    #[test]
    fn the_inputs_have_variety() {
        for seed in 1..6 {
            let inputs = inputs(&mut Random::new(seed, "list"));
            assert!(inputs.len() < 1_200);
            assert_eq!(counted(&inputs).enough(), Ok(()));
            assert!(counted(&inputs[..900]).enough().is_err());
        }
    }

    /// Two rows (10, 4, 1, 4, 1) on two processors: 4, and then 12 of 8 ticks.
    #[test]
    fn a_wrong_value_is_seen() {
        let q = raw::table(2, 0, &[(10, 4, 1, 4, 1); 2]).bytes();
        let said = |line: &str| compare_all(&format!("echo {line}"), [q.clone()].iter());
        assert_eq!(said("refused 11 2 2 12"), Ok(()));
        for wrong in ["", " 0", " 4", " 8", " 9", " 11", " 13", " 012"] {
            assert!(said(&format!("refused 11 2 2{wrong}")).is_err(), "{wrong}");
        }
    }

    /// A program that prints nothing, one that prints something else, and one that is not there.
    #[test]
    fn no_listing() {
        for command in ["true", "echo plan 1 2 0", "/no/such/program"] {
            let bytes = good_table_of(&mut Random::new(1, "one"), 1).bytes();
            assert!(compare_all(command, [bytes].iter()).is_err(), "{command}");
        }
    }
}
