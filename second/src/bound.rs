//! The demand of a section or a stage; the least t that equals it, found in two ways; and, where it
//! is missing, the value that broke the limit.

/// One better-ranked task's part in a demand: its period, and what each release brings.
#[derive(Clone, Debug)]
pub struct Term {
    pub period: u64,
    pub length: u64,
}

/// `own` and the sum of "ceil(t / T_i) × A_i" over the terms.
pub fn demand(own: u64, terms: &[Term], t: u64) -> u64 {
    let others: u64 = terms
        .iter()
        .map(|term| t.div_ceil(term.period) * term.length)
        .sum();
    own + others
}

/// The longest limit up to which every t is tried.
const QUICK: u64 = 200;

/// "the least t ≥ 1 for which [the demand] equals t", none if it is above the limit.
pub fn least(own: u64, terms: &[Term], limit: u64) -> Option<u64> {
    if limit <= QUICK {
        by_trying(own, terms, limit)
    } else {
        by_walking(own, terms, limit)
    }
}

/// The least t, or, "where a bound is missing", what "broke the limit".
pub fn bound(own: u64, terms: &[Term], limit: u64) -> Result<u64, u64> {
    least(own, terms, limit).ok_or_else(|| {
        let value = broke(own, terms, limit);
        value.expect("a member above the limit, where no t up to it equals its demand")
    })
}

/// "the value that broke the limit: the first member above it of the sequence"; none if there is no
/// such member.
pub fn broke(own: u64, terms: &[Term], limit: u64) -> Option<u64> {
    sequence(own, terms).find(|&member| member > limit)
}

/// The sequence "that starts with the length plus B and goes on with the demand at the last value",
/// as long as that is another value.
pub fn sequence(own: u64, terms: &[Term]) -> impl Iterator<Item = u64> + '_ {
    let goes_on = move |&last: &u64| Some(demand(own, terms, last)).filter(|&next| next != last);
    std::iter::successors(Some(own), goes_on)
}

/// The first way, by the definition: t = 1, 2, 3, .. up to the limit.
pub fn by_trying(own: u64, terms: &[Term], limit: u64) -> Option<u64> {
    (1..=limit).find(|&t| demand(own, terms, t) == t)
}

/// The second way. From behind one multiple of a period up to and with the next multiple of any
/// of them, the demand is one and the same number; that number is then the only t in there that
/// can be equal to its demand. As t grows the demand never falls, so that no t below that number
/// and behind the multiple can be equal to its demand either.
pub fn by_walking(own: u64, terms: &[Term], limit: u64) -> Option<u64> {
    let mut low = 0;
    while low < limit {
        let high = next_multiple(terms, low, limit);
        let same = demand(own, terms, high);
        if low < same && same <= high {
            return Some(same);
        }
        // From here on it stays above every t allowed.
        if same > limit {
            return None;
        }
        low = high.max(same - 1);
    }
    None
}

/// The first multiple of any period above `low`, or the limit if that comes first.
fn next_multiple(terms: &[Term], low: u64, limit: u64) -> u64 {
    terms
        .iter()
        .map(|term| (low / term.period + 1) * term.period)
        .fold(limit, u64::min)
}

#[cfg(test)]
mod tests {
    use super::*;

    fn terms(pairs: &[(u64, u64)]) -> Vec<Term> {
        let term = |&(period, length)| Term { period, length };
        pairs.iter().map(term).collect()
    }

    #[test]
    fn a_release_on_the_last_tick_does_not_count() {
        // At t = 10 a period of 10 has one release inside, not two.
        assert_eq!(demand(5, &terms(&[(10, 2), (20, 3)]), 10), 10);
        assert_eq!(demand(5, &terms(&[(10, 2), (20, 3)]), 11), 12);
    }

    #[test]
    fn both_ways_find_a_late_least_t() {
        // 1 + 9 is 10 at once; 7 + 9 is 16, then 25, 34, .. and only 7 + 7 × 9 is its own t.
        let nine = terms(&[(10, 9)]);
        for way in [by_trying, by_walking] {
            assert_eq!(way(1, &nine, 100), Some(10));
            assert_eq!(way(7, &nine, 70), Some(70));
            assert_eq!(way(7, &nine, 69), None);
        }
    }

    #[test]
    fn a_full_processor_has_no_least_t() {
        let full = terms(&[(1, 1)]);
        assert_eq!(by_trying(1, &full, 5_000), None);
        assert_eq!(by_walking(1, &full, 5_000), None);
        // Each member is the last one and 1 more.
        assert_eq!(bound(1, &full, 5_000), Err(5_001));
    }

    #[test]
    fn the_sequence_ends_with_the_least_t() {
        let nine = terms(&[(10, 9)]);
        let members: Vec<u64> = sequence(7, &nine).collect();
        assert_eq!(members, [7, 16, 25, 34, 43, 52, 61, 70]);
        assert_eq!(sequence(7, &[]).collect::<Vec<_>>(), [7]);
    }

    /// The first member above the limit, be it the first of all or one far behind.
    #[test]
    fn the_value_that_broke_the_limit() {
        let nine = terms(&[(10, 9)]);
        let wanted = [
            (0, 7),
            (6, 7),
            (7, 16),
            (15, 16),
            (16, 25),
            (60, 61),
            (61, 70),
            (69, 70),
        ];
        for (limit, value) in wanted {
            assert_eq!(bound(7, &nine, limit), Err(value), "limit {limit}");
        }
        assert_eq!((bound(7, &nine, 70), broke(7, &nine, 70)), (Ok(70), None));
        // 25 + 3 × 9 at once, and not 25 + 9: three releases are in the first member already.
        assert_eq!(bound(25, &nine, 51), Err(52));
        assert_eq!(bound(25, &nine, 33), Err(52));
    }
}
