//! The product's reader beside this program's, on every input there is.

use super::mismatch;
use crate::answer::Refusal;
use crate::inputs::{SETS, STREAMS};
use crate::options::Options;
use crate::product::Product;
use crate::random::Random;
use crate::table;

/// How many inputs agreed, and how many of them were good tables.
#[derive(Clone, Copy, Default)]
struct Tally {
    inputs: usize,
    good: usize,
}

impl Tally {
    fn add(&mut self, other: Tally) {
        self.inputs += other.inputs;
        self.good += other.good;
    }

    fn line(&self, name: &str) -> String {
        format!("reader: {name}: {} inputs, {} good", self.inputs, self.good)
    }
}

pub fn compare(options: &Options, product: &mut Product) -> Result<Vec<String>, String> {
    product.ask_to_read_null();
    compare_one(product, "nothing, lent by a null pointer", &[])?;
    let mut lines = Vec::new();
    let mut total = Tally::default();
    for set in SETS {
        let mut random = Random::new(options.seed, set.name);
        let inputs = (set.make)(&mut random).into_iter();
        let tally = compare_all(product, set.name, inputs)?;
        lines.push(tally.line(set.name));
        total.add(tally);
    }
    // Always at least twice as many random inputs as there were in the sets.
    let left = options
        .inputs
        .saturating_sub(total.inputs)
        .max(2 * total.inputs);
    for stream in STREAMS {
        let mut random = Random::new(options.seed, stream.name);
        let count = (left * stream.share).div_ceil(100);
        let inputs = (0..count).map(|_| (stream.make)(&mut random));
        let tally = compare_all(product, stream.name, inputs)?;
        lines.push(tally.line(stream.name));
        total.add(tally);
    }
    lines.push(total.line("all"));
    // Too few good tables would leave half of the reader unseen.
    if total.good * 3 < total.inputs {
        return Err(format!("{}, fewer than a third", total.line("all")));
    }
    Ok(lines)
}

/// Up to the first mismatch.
fn compare_all(
    product: &mut Product,
    name: &str,
    inputs: impl Iterator<Item = Vec<u8>>,
) -> Result<Tally, String> {
    let mut tally = Tally::default();
    product.in_batches(inputs, Product::ask_to_read, |product, input| {
        tally.add(compare_one(product, name, input)?);
        Ok(())
    })?;
    Ok(tally)
}

/// The product has been asked about the input, and its answer comes next.
fn compare_one(product: &mut Product, name: &str, input: &[u8]) -> Result<Tally, String> {
    let second = table::read(input).map(|_| ());
    let told = |product: &str| mismatch(name, input, &words(second), product);
    let answer = product.answer().map_err(|why| told(&why))?;
    if second != answer {
        return Err(told(&words(answer)));
    }
    Ok(Tally {
        inputs: 1,
        good: usize::from(second.is_ok()),
    })
}

fn words(answer: Result<(), Refusal>) -> String {
    match answer {
        Ok(()) => "a good table".to_string(),
        Err(refusal) => refusal.to_string(),
    }
}
