//! The comparison of the product with this program: one file for each thing that is compared.
//! A further one is a further line in COMPARISONS.

mod bounds;
mod list;
mod plan;
mod reader;
mod run;
mod tally;

use crate::checks::hex;
use crate::options::Options;
use crate::product::Product;

/// Compares one thing; hands back lines that sum up, or what does not agree.
type Comparison = fn(&Options, &mut Product) -> Result<Vec<String>, String>;

const COMPARISONS: [Comparison; 5] = [
    reader::compare,
    plan::compare,
    list::compare,
    run::compare,
    bounds::compare,
];

/// Makes every comparison, up to the first mismatch.
pub fn all(options: &Options, mut product: Product) -> Result<(), String> {
    for comparison in COMPARISONS {
        for line in comparison(options, &mut product)? {
            println!("{line}");
        }
    }
    let ended = product.finish();
    ended.map_err(|why| mismatch("after the last request", &[], "the end", &why))
}

/// What is printed of an input on which the two do not agree.
fn mismatch(what: &str, input: &[u8], second: &str, product: &str) -> String {
    format!(
        "mismatch: {what}\ninput ({} bytes) {}\nsecond program:\n{}\nproduct:\n{}",
        input.len(),
        hex(input),
        second.trim_end(),
        product.trim_end()
    )
}
