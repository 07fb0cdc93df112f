//! Counts of what was compared, each with how many there have to be: too few of something would
//! leave a part of the product unseen.

/// In words, and the least.
pub type Counted = (&'static str, usize);

#[derive(Clone)]
pub struct Tally<const N: usize> {
    counted: &'static [Counted; N],
    counts: [usize; N],
}

impl<const N: usize> Tally<N> {
    pub fn new(counted: &'static [Counted; N]) -> Tally<N> {
        Tally {
            counted,
            counts: [0; N],
        }
    }

    /// Counts one more that agrees, for each thing that is true of it.
    pub fn count(&mut self, seen: [bool; N]) {
        for (count, seen) in self.counts.iter_mut().zip(seen) {
            *count += usize::from(seen);
        }
    }

    pub fn counts(&self) -> [usize; N] {
        self.counts
    }

    pub fn enough(&self) -> Result<(), String> {
        self.enough_in_one_of(1)
    }

    pub fn words(&self) -> String {
        let both = self.counted.iter().zip(self.counts);
        let words: Vec<String> = both
            .map(|((what, _), count)| format!("{count} {what}"))
            .collect();
        words.join(", ")
    }

    /// Where one in so many was counted of what is to be there in all.
    pub fn enough_in_one_of(&self, part: usize) -> Result<(), String> {
        for (&(what, least), count) in self.counted.iter().zip(self.counts) {
            let least = least / part;
            if count < least {
                return Err(format!("{count} {what}, fewer than {least}"));
            }
        }
        Ok(())
    }
}

#[cfg(test)]
mod tests {
    use super::Tally;

    #[test]
    fn too_few_are_seen() {
        let mut tally = Tally::new(&[("of these", 1), ("of those", 2)]);
        tally.count([true, true]);
        assert_eq!(tally.enough(), Err("1 of those, fewer than 2".to_string()));
        tally.count([false, true]);
        assert_eq!(tally.enough(), Ok(()));
        assert_eq!(tally.words(), "1 of these, 2 of those");
        assert_eq!(tally.counts(), [1, 2]);
    }
}
