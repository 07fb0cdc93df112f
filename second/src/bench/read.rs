//! The product's reader beside the one in fast.rs, on tables of as many rows as there can be: good
//! ones, and the same with a bad last row, where every row is read too, but no rank is worked out.

use super::{bench_groups, Group, Kind, TABLES};
use crate::options::Options;
use crate::random::Random;
use crate::raw::{RawRow, RawTable};
use crate::table;
use crate::workloads::largest_within;

const READ: Kind = Kind {
    letter: b'r',
    rounds: 101,
    sheet: 0,
    unit: 1.0,
};

pub fn bench_readers(options: &Options) -> Result<(), String> {
    let groups = groups(&mut Random::new(options.seed, "bench read"), TABLES);
    println!(
        "readings, from a table's bytes to an answer; 64 rows; {} rounds; processor time in \
         nanoseconds a table",
        READ.rounds
    );
    bench_groups(options, &READ, &groups)
}

fn groups(random: &mut Random, count: usize) -> [Group; 2] {
    let any_period = |_| largest_within(random, 64, table::LONGEST_PERIOD);
    let good: Vec<RawTable> = (0..count).map(any_period).collect();
    let mut bad = good.clone();
    for (place, table) in bad.iter_mut().enumerate() {
        let last = table.rows.last_mut().expect("64 rows");
        spoil(last, 6 + place as u64 % 4);
    }
    [
        group("read", &good),
        group("refused for the last row", &bad),
    ]
}

fn group(name: &'static str, tables: &[RawTable]) -> Group {
    let tables: Vec<Vec<u8>> = tables.iter().map(RawTable::bytes).collect();
    let answered = |bytes: &Vec<u8>| (table::read(bytes).map(|_| ()), Vec::new());
    let outcomes = tables.iter().map(answered).collect();
    Group {
        name,
        tables,
        outcomes,
    }
}

/// Makes a good row one that is refused with this number, 6 to 9.
fn spoil(row: &mut RawRow, number: u64) {
    match number {
        6 => row.t = 0,
        7 => row.spare = 1,
        8 => row.resource = u64::from(row.resource == 0),
        _ => row.c2 = row.t + 1,
    }
}

#[cfg(test)]
mod tests {
    use super::*;
    use crate::answer::Refusal;
    use crate::bench::tests;

    #[test]
    fn what_a_half_says_is_read() {
        let wanted =
            "2 tables: best product 1000.00, Rust 500.00, product/Rust 2.00; median product 51000.00";
        for group in groups(&mut Random::new(1, "bench read"), 2) {
            tests::what_a_half_says_is_read(&READ, &group, wanted);
        }
    }

    #[test]
    fn a_half_is_asked_to_read() {
        let [group, _] = groups(&mut Random::new(3, "bench read"), 1);
        let input = READ.input(&group);
        assert_eq!(input[..9], *b"r\x01\0\0\0\0\0\0\0");
        assert!(input.ends_with(&group.tables[0]));
        assert_eq!(input.len(), 1 + 4 * 8 + 706);
    }

    #[test]
    fn a_wrong_half_is_seen() {
        for group in groups(&mut Random::new(2, "bench read"), 4) {
            tests::a_wrong_half_is_seen(&READ, &group);
        }
    }

    #[test]
    fn good_tables_and_tables_with_a_bad_last_row() {
        let [good, bad] = groups(&mut Random::new(4, "bench read"), 8);
        assert!(good.outcomes.iter().all(|outcome| outcome.0.is_ok()));
        for (place, (answer, _)) in bad.outcomes.iter().enumerate() {
            assert_eq!(*answer, Err(Refusal::naming(6 + place as u32 % 4, 64)));
        }
    }
}
