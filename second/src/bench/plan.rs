//! The product's planner beside the one in fast.rs, on tables of as many rows and processors as there
//! can be.

use super::{bench_groups, Group, Kind, TABLES, UNTOUCHED};
use crate::fast;
use crate::options::Options;
use crate::random::Random;
use crate::sheet::plan_into;
use crate::workloads::largest;

const SHEET_BYTES: usize = 12 + 9 * 64;
const PLAN: Kind = Kind {
    letter: b'p',
    rounds: 25,
    sheet: SHEET_BYTES,
    unit: 1_000.0,
};
/// A group for each outcome.
const GROUPS: [&str; 3] = [
    "planned",
    "refused 11 with mark 1",
    "refused 11 with mark 2",
];

pub fn bench_planners(options: &Options) -> Result<(), String> {
    let groups = groups(&mut Random::new(options.seed, "bench"), TABLES);
    println!(
        "whole calls, from a table's bytes to a written sheet; 64 rows, 16 processors; one sheet for \
         all calls, not cleared; {} rounds; processor time in microseconds a table",
        PLAN.rounds
    );
    bench_groups(options, &PLAN, &groups)
}

/// So many tables for each group.
fn groups(random: &mut Random, count: usize) -> [Group; GROUPS.len()] {
    let mut groups = GROUPS.map(|name| Group {
        name,
        tables: Vec::new(),
        outcomes: Vec::new(),
    });
    while groups.iter().any(|group| group.tables.len() < count) {
        let table = largest(random);
        // It only says where the table belongs; the plain planner is slow.
        let mark = fast::plan_into(&table, 0, &mut [0; SHEET_BYTES]).mark;
        let group = &mut groups[mark as usize];
        if group.tables.len() < count {
            let mut sheet = vec![UNTOUCHED; SHEET_BYTES];
            let answer = plan_into(&table, &mut sheet, 0).map(|_| ());
            group.tables.push(table);
            group.outcomes.push((answer, sheet));
        }
    }
    groups
}

#[cfg(test)]
mod tests {
    use super::*;
    use crate::bench::tests;

    #[test]
    fn what_a_half_says_is_read() {
        let wanted =
            "2 tables: best product 1.00, Rust 0.50, product/Rust 2.00; median product 13.00";
        for group in groups(&mut Random::new(1, "bench"), 2) {
            tests::what_a_half_says_is_read(&PLAN, &group, wanted);
        }
    }

    #[test]
    fn a_half_is_asked_to_plan() {
        let [group, ..] = groups(&mut Random::new(3, "bench"), 1);
        let input = PLAN.input(&group);
        assert_eq!(input[..9], *b"p\x01\0\0\0\0\0\0\0");
        assert!(input.ends_with(&group.tables[0]));
        assert_eq!(input.len(), 1 + 4 * 8 + 706);
    }

    #[test]
    fn a_wrong_half_is_seen() {
        let [group, ..] = groups(&mut Random::new(2, "bench"), 2);
        tests::a_wrong_half_is_seen(&PLAN, &group);
    }
}
