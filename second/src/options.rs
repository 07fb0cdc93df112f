//! The options behind `second paper`, `second compare` and `second bench`.

use std::time::{SystemTime, UNIX_EPOCH};

pub struct Options {
    pub seed: u64,
    /// How many inputs the product's reader is compared on, if not more.
    pub inputs: usize,
    /// The command that starts the product, `product.c`.
    pub product: Option<String>,
    /// The command of the product's listing program.
    pub list: Option<String>,
    /// The commands that start the programs which time readers, planners and machines, `bench/half.c`.
    pub halves: Vec<String>,
}

impl Options {
    /// Pairs of a known option and its value, in any order; nothing if the words are not that.
    pub fn read(words: &[&str], known: &[&str]) -> Option<Options> {
        let mut options = Options {
            seed: clock(),
            inputs: 400_000,
            product: None,
            list: None,
            halves: Vec::new(),
        };
        for pair in words.chunks(2) {
            match pair {
                [name, _] if !known.contains(name) => return None,
                ["--seed", value] => options.seed = value.parse().ok()?,
                ["--inputs", value] => options.inputs = value.parse().ok()?,
                ["--product", value] => options.product = Some(value.to_string()),
                ["--list", value] => options.list = Some(value.to_string()),
                ["--half", value] => options.halves.push(value.to_string()),
                _ => return None,
            }
        }
        Some(options)
    }
}

/// A seed from the clock; 0 if the clock stands before 1970.
fn clock() -> u64 {
    match SystemTime::now().duration_since(UNIX_EPOCH) {
        Ok(time) => time.as_nanos() as u64,
        Err(_) => 0,
    }
}

#[cfg(test)]
mod tests {
    use super::Options;

    #[test]
    fn pairs_of_known_options() {
        let known = ["--product", "--inputs"];
        let read = |words: &[&str]| Options::read(words, &known);
        let options = read(&["--inputs", "7", "--product", "a b"]);
        let options = options.map(|options| (options.inputs, options.product, options.list));
        assert_eq!(options, Some((7, Some("a b".to_string()), None)));
        for words in [
            &["--inputs", "x"][..],
            &["--inputs"],
            &["--seed", "1"],
            &["7", "7"],
        ] {
            assert!(read(words).is_none(), "{words:?}");
        }
    }
}
