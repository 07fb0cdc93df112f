//! `second bench`: the product's reader and the one in fast.rs, timed in one process; then the two
//! planners; and then the product's machine and the one in fast_run.rs. The program that does so is
//! `bench/half.c`, which says how; here the tables are made, and what it says is read. Both readers'
//! answers have to be the plain reader's, both planners' answers and sheets the plain planner's, and
//! both machines' answers and traces the plain machine's.

mod plan;
mod read;
mod run;

use crate::answer::Refusal;
use crate::checks::hex;
use crate::options::Options;
use crate::program;

/// The tables of a group.
const TABLES: usize = 400;
const UNTOUCHED: u8 = 0xee;

/// The plain answer, and the plain sheet.
type Outcome = (Result<(), Refusal>, Vec<u8>);

/// What a half is asked for.
struct Kind {
    letter: u8,
    /// How often each side goes over the tables.
    rounds: usize,
    /// The length of the sheet.
    sheet: usize,
    /// What a table's time is printed in, in nanoseconds.
    unit: f64,
}

struct Group {
    name: &'static str,
    tables: Vec<Vec<u8>>,
    outcomes: Vec<Outcome>,
}

/// Prints what was measured; an error if something errs, or if a half cannot be run.
pub fn bench(options: &Options) -> Result<(), String> {
    read::bench_readers(options)?;
    plan::bench_planners(options)?;
    run::bench_machines(options)
}

fn bench_groups(options: &Options, kind: &Kind, groups: &[Group]) -> Result<(), String> {
    for command in &options.halves {
        for (place, group) in groups.iter().enumerate() {
            let output = output(command, &kind.input(group))?;
            let told = |why| format!("{command}: {}: {why}", group.name);
            let said = kind.said(&output, group).map_err(told)?;
            if place == 0 {
                println!("{command}: {}", said.how);
            }
            println!("{}", said.line(group, kind.unit));
        }
    }
    Ok(())
}

/// What a half prints, if it ends in success.
fn output(command: &str, input: &[u8]) -> Result<Vec<u8>, String> {
    let output = program::output(command, input).map_err(|why| format!("{command}: {why}"))?;
    match output.status.success() {
        true => Ok(output.stdout),
        false => Err(format!("{command}: {}", output.status)),
    }
}

impl Kind {
    fn input(&self, group: &Group) -> Vec<u8> {
        let numbers = [group.tables.len(), self.rounds, self.sheet].map(number);
        let mut bytes = [&[self.letter], numbers.as_flattened()].concat();
        for table in &group.tables {
            bytes.extend(number(table.len()));
            bytes.extend(table);
        }
        bytes
    }

    /// What a half says, if both sides are right.
    fn said(&self, output: &[u8], group: &Group) -> Result<Said, String> {
        let mut rest = output;
        let said = Said::read(&mut rest, self.rounds)?;
        for (table, outcome) in group.tables.iter().zip(&group.outcomes) {
            for side in ["product", "Rust"] {
                if answered(&mut rest, self.sheet)? != *outcome {
                    return Err(format!("{side}: another answer for {}", hex(table)));
                }
            }
        }
        match rest {
            [] => Ok(said),
            _ => Err("it says too much".to_string()),
        }
    }
}

fn number(number: usize) -> [u8; 8] {
    (number as u64).to_le_bytes()
}

/// How a half was built, and what it has measured.
struct Said {
    how: String,
    /// Nanoseconds of each round, the fastest first.
    product: Vec<u64>,
    rust: Vec<u64>,
}

impl Said {
    fn read(rest: &mut &[u8], rounds: usize) -> Result<Said, String> {
        let length = u64::from_le_bytes(array(rest)?) as usize;
        let how = String::from_utf8_lossy(part(rest, length)?).to_string();
        let (mut product, mut rust) = (Vec::new(), Vec::new());
        for _ in 0..rounds {
            product.push(u64::from_le_bytes(array(rest)?));
            rust.push(u64::from_le_bytes(array(rest)?));
        }
        product.sort();
        rust.sort();
        Ok(Said { how, product, rust })
    }

    /// The best round and the median, each in the unit that is made of nanoseconds, and the ratio
    /// of the times.
    fn measured(&self, unit: impl Fn(f64) -> f64) -> String {
        let words = |place: usize| {
            let (product, rust) = (self.product[place] as f64, self.rust[place] as f64);
            let ratio = product / rust;
            let (product, rust) = (unit(product), unit(rust));
            format!("product {product:.2}, Rust {rust:.2}, product/Rust {ratio:.2}")
        };
        let (best, median) = (words(0), words(self.product.len() / 2));
        format!("best {best}; median {median}")
    }

    fn line(&self, group: &Group, unit: f64) -> String {
        let (name, count) = (group.name, group.tables.len());
        let units = |nanos| nanos / unit / count as f64;
        format!("{name}, {count} tables: {}", self.measured(units))
    }
}

fn answered(rest: &mut &[u8], sheet: usize) -> Result<Outcome, String> {
    let number = u32::from_le_bytes(array(rest)?);
    let names = u32::from_le_bytes(array(rest)?);
    let mark = u32::from_le_bytes(array(rest)?);
    let value = u32::from_le_bytes(array(rest)?);
    let sheet = part(rest, sheet)?.to_vec();
    let answer = match (number, names, mark, value) {
        (0, 0, 0, 0) => Ok(()),
        _ => Err(Refusal {
            number,
            names,
            mark,
            value,
        }),
    };
    Ok((answer, sheet))
}

fn array<const N: usize>(rest: &mut &[u8]) -> Result<[u8; N], String> {
    let bytes = part(rest, N)?;
    bytes
        .try_into()
        .map_err(|_| "it says too little".to_string())
}

/// The first bytes of what is left, which are then no longer there.
fn part<'a>(rest: &mut &'a [u8], count: usize) -> Result<&'a [u8], String> {
    let all = *rest;
    let too_little = || "it says too little".to_string();
    let (first, behind) = all.split_at_checked(count).ok_or_else(too_little)?;
    *rest = behind;
    Ok(first)
}

#[cfg(test)]
pub mod tests {
    use super::*;

    /// What a half says in front of its answers.
    pub fn said_first(rounds: u64) -> Vec<u8> {
        let mut bytes = [&[3, 0, 0, 0, 0, 0, 0, 0], &b"how"[..]].concat();
        for round in (1..=2 * rounds).rev() {
            bytes.extend((round * 1_000).to_le_bytes());
        }
        bytes
    }

    /// As a half would put it, if both sides were right.
    fn right(kind: &Kind, group: &Group) -> Vec<u8> {
        let mut bytes = said_first(kind.rounds as u64);
        for (answer, sheet) in &group.outcomes {
            let no = answer.err().unwrap_or(Refusal::plain(0));
            let numbers = [no.number, no.names, no.mark, no.value].map(u32::to_le_bytes);
            for _ in 0..2 {
                bytes.extend(numbers.concat());
                bytes.extend(sheet);
            }
        }
        bytes
    }

    /// Two tables, and the rounds say 2 and 1, 4 and 3, and so on, microseconds.
    pub fn what_a_half_says_is_read(kind: &Kind, group: &Group, wanted: &str) {
        let said = kind.said(&right(kind, group), group).expect("a right half");
        assert_eq!(
            (said.how.as_str(), said.product[0], said.rust[0]),
            ("how", 2_000, 1_000)
        );
        let line = said.line(group, kind.unit);
        assert!(line.contains(wanted), "{line}");
    }

    /// Each byte of an answer that is another one is noticed, and each one too few or too many.
    pub fn a_wrong_half_is_seen(kind: &Kind, group: &Group) {
        let right = right(kind, group);
        let answers = 2 * group.tables.len() * (16 + kind.sheet);
        for place in right.len() - answers..right.len() {
            let mut wrong = right.clone();
            wrong[place] ^= 1;
            assert!(kind.said(&wrong, group).is_err());
        }
        assert!(kind.said(&right[..right.len() - 1], group).is_err());
        assert!(kind.said(&[&right[..], &[0]].concat(), group).is_err());
    }
}
