//! The inputs that the reader is compared on: sets that are always the same in shape, and streams
//! of random ones to fill up with.

use crate::random::{any_good_table, good_table_of, Random};
use crate::raw::{RawRow, RawTable};
use crate::table::{HEADER_BYTES, LONGEST_PERIOD, ROW_BYTES};

/// The largest number in 20 bits.
const WIDEST: u64 = (1 << 20) - 1;
/// Each spare bit alone, none, and all.
const SPARE: [u64; 5] = [0, 1, 2, 4, 7];

pub struct Set {
    pub name: &'static str,
    pub make: fn(&mut Random) -> Vec<Vec<u8>>,
}

pub const SETS: [Set; 9] = [
    Set {
        name: "headers at their boundaries",
        make: headers,
    },
    Set {
        name: "rows at their boundaries, alone",
        make: lone_rows,
    },
    Set {
        name: "rows at their boundaries, among others",
        make: rows_among_others,
    },
    Set {
        name: "spare bits, one at a time",
        make: spare_bits,
    },
    Set {
        name: "tables with two bad rows",
        make: two_bad_rows,
    },
    Set {
        name: "prefixes of good tables",
        make: prefixes,
    },
    Set {
        name: "good tables with one bit flipped",
        make: flips,
    },
    Set {
        name: "good tables with too much behind",
        make: too_long,
    },
    Set {
        name: "random bytes of every length to 800",
        make: random_lengths,
    },
];

pub struct Stream {
    pub name: &'static str,
    /// How many of a hundred random inputs come from here.
    pub share: usize,
    pub make: fn(&mut Random) -> Vec<u8>,
}

pub const STREAMS: [Stream; 5] = [
    Stream {
        name: "good tables",
        share: 55,
        make: good,
    },
    Stream {
        name: "tables with one bad thing",
        share: 12,
        make: one_bad,
    },
    Stream {
        name: "tables with several bad things",
        share: 20,
        make: several_bad,
    },
    Stream {
        name: "random rows behind a good header",
        share: 9,
        make: random_rows,
    },
    Stream {
        name: "random bytes",
        share: 4,
        make: random_bytes,
    },
];

/// Task counts, processor counts, protocols, spare bits and lengths, each with each.
fn headers(random: &mut Random) -> Vec<Vec<u8>> {
    let rows = good_table_of(random, 127).rows;
    let mut all = Vec::new();
    for n in [0, 1, 2, 3, 63, 64, 65, 127] {
        for m in [0, 1, 2, 3, 15, 16, 17, 31] {
            for (protocol, spare) in SPARE.iter().flat_map(|&spare| [(0, spare), (1, spare)]) {
                let rows = rows[..n as usize].to_vec();
                let table = RawTable {
                    n,
                    m,
                    protocol,
                    spare,
                    rows,
                };
                all.extend(lengths(table.bytes()));
            }
        }
    }
    all
}

/// The bytes as they are, and shorter and longer.
fn lengths(bytes: Vec<u8>) -> Vec<Vec<u8>> {
    let right = bytes.len();
    let around = [right.saturating_sub(ROW_BYTES), right - 1, right, right + 1];
    let mut all = vec![0, 1, 2, right + ROW_BYTES];
    all.extend(around);
    all.sort();
    all.dedup();
    let resized = |length| {
        let mut bytes = bytes.clone();
        bytes.resize(length, 0);
        bytes
    };
    all.into_iter().map(resized).collect()
}

/// Periods, sums, the ways to split a sum, resources and spare bits, each with each.
fn boundary_rows() -> Vec<RawRow> {
    let mut all = Vec::new();
    let longest = LONGEST_PERIOD;
    for t in [0, 1, 2, 10, longest - 1, longest, longest + 1, WIDEST] {
        // The last ones would look small if a sum were kept in 20 or 21 bits.
        let mut sums = vec![0, 1, t.saturating_sub(1), t, t + 1];
        sums.extend([1 << 20, (1 << 20) + 1, (1 << 21) + 1, 3 * WIDEST]);
        sums.sort();
        sums.dedup();
        for (c1, a, c2) in sums.into_iter().flat_map(splits) {
            for (resource, spare) in SPARE
                .iter()
                .flat_map(|&spare| [0, 1, 16, 17, 31].map(|resource| (resource, spare)))
            {
                all.push(RawRow {
                    t,
                    c1,
                    a,
                    c2,
                    resource,
                    spare,
                });
            }
        }
    }
    all
}

/// A sum as C1, A, C2: all of it in one of them, or in two, or in all three.
fn splits(sum: u64) -> Vec<(u64, u64, u64)> {
    let half = sum / 2;
    let third = sum / 3;
    let all = [
        (sum, 0, 0),
        (0, sum, 0),
        (0, 0, sum),
        (half, 0, sum - half),
        (half, sum - half, 0),
        (third, third, sum - 2 * third),
        (sum.min(WIDEST), sum - sum.min(WIDEST), 0),
    ];
    let fits = |&(c1, a, c2): &(u64, u64, u64)| c1.max(a).max(c2) <= WIDEST;
    all.into_iter().filter(fits).collect()
}

/// One row for each of refusals 6 to 9, bad in that way alone.
const BAD_ROWS: [RawRow; 4] = [
    bad_row(0, 1, 1, 0),
    bad_row(9, 1, 17, 0),
    bad_row(9, 0, 3, 0),
    bad_row(9, 1, 3, 9),
];

const fn bad_row(t: u64, a: u64, resource: u64, c2: u64) -> RawRow {
    RawRow {
        t,
        c1: 1,
        a,
        c2,
        resource,
        spare: 0,
    }
}

/// Each pair of refusals 6 to 9, in any two rows of small tables and some rows of the largest.
fn two_bad_rows(random: &mut Random) -> Vec<Vec<u8>> {
    let places: [(u64, usize, usize); 9] = [
        (2, 0, 1),
        (3, 0, 1),
        (3, 0, 2),
        (3, 1, 2),
        (5, 1, 3),
        (64, 0, 1),
        (64, 0, 63),
        (64, 31, 32),
        (64, 62, 63),
    ];
    let mut all = Vec::new();
    for (n, first, second) in places {
        for (one, other) in BAD_ROWS.iter().flat_map(|one| BAD_ROWS.map(|o| (*one, o))) {
            let mut table = good_table_of(random, n);
            table.rows[first] = one;
            table.rows[second] = other;
            all.push(table.bytes());
        }
    }
    all
}

fn lone_rows(random: &mut Random) -> Vec<Vec<u8>> {
    let alone = |row| RawTable {
        rows: vec![row],
        ..good_table_of(random, 1)
    };
    let tables = boundary_rows().into_iter().map(alone);
    tables.map(|table| table.bytes()).collect()
}

/// Each in the first, some or the last row of a good table.
fn rows_among_others(random: &mut Random) -> Vec<Vec<u8>> {
    let mut all = Vec::new();
    for row in boundary_rows() {
        let n = random.pick(&[2, 3, 5, 64]);
        let mut table = good_table_of(random, n);
        let some = random.within(1, n);
        let place = random.pick(&[1, some, n]);
        table.rows[place as usize - 1] = row;
        all.push(table.bytes());
    }
    all
}

fn spare_bits(random: &mut Random) -> Vec<Vec<u8>> {
    let mut all = Vec::new();
    for n in [1, 2, 3, 9, 33, 63, 64] {
        let table = good_table_of(random, n);
        for bit in [1, 2, 4] {
            let mut spoilt = table.clone();
            spoilt.spare = bit;
            all.push(spoilt.bytes());
            for place in 0..n as usize {
                let mut spoilt = table.clone();
                spoilt.rows[place].spare = bit;
                all.push(spoilt.bytes());
            }
        }
    }
    all
}

/// Good tables to cut and to flip bits in.
fn several_good(random: &mut Random) -> Vec<Vec<u8>> {
    let sizes = [1, 1, 1, 2, 2, 3, 5, 17, 64];
    let tables = sizes.map(|n| good_table_of(random, n));
    tables.iter().map(|table| table.bytes()).collect()
}

fn prefixes(random: &mut Random) -> Vec<Vec<u8>> {
    let mut all = Vec::new();
    for bytes in several_good(random) {
        all.extend((0..=bytes.len()).map(|length| bytes[..length].to_vec()));
    }
    all
}

fn flips(random: &mut Random) -> Vec<Vec<u8>> {
    let mut all = Vec::new();
    for bytes in several_good(random) {
        for place in 0..8 * bytes.len() {
            let mut flipped = bytes.clone();
            flipped[place / 8] ^= 0x80 >> (place % 8);
            all.push(flipped);
        }
    }
    all
}

/// One byte too many, a row too many, and more; for every task count.
fn too_long(random: &mut Random) -> Vec<Vec<u8>> {
    let mut all = Vec::new();
    for n in 1..=64 {
        let bytes = good_table_of(random, n).bytes();
        for more in [
            vec![0],
            vec![0xff],
            bytes[HEADER_BYTES..][..ROW_BYTES].to_vec(),
        ] {
            all.push([bytes.clone(), more].concat());
        }
        let count = random.within(2, 900) as usize;
        all.push([bytes, random.bytes(count)].concat());
    }
    all
}

fn random_lengths(random: &mut Random) -> Vec<Vec<u8>> {
    let mut all = Vec::new();
    for length in 0..=800 {
        all.extend((0..4).map(|_| random.bytes(length)));
    }
    all
}

fn good(random: &mut Random) -> Vec<u8> {
    any_good_table(random).bytes()
}

pub fn one_bad(random: &mut Random) -> Vec<u8> {
    let mut table = any_good_table(random);
    if random.once_in(6) {
        spoil_header(random, &mut table);
    } else {
        let place = random.within(1, table.n) as usize - 1;
        spoil_row(random, &mut table.rows[place]);
    }
    table.bytes()
}

/// Up to four rows, each with up to three bad things, sometimes the header too, and the length.
pub fn several_bad(random: &mut Random) -> Vec<u8> {
    let mut table = any_good_table(random);
    for _ in 0..random.within(1, 4) {
        let place = random.within(1, table.n) as usize - 1;
        for _ in 0..random.within(1, 3) {
            spoil_row(random, &mut table.rows[place]);
        }
    }
    if random.once_in(4) {
        for _ in 0..random.within(1, 3) {
            spoil_header(random, &mut table);
        }
    }
    let mut bytes = table.bytes();
    if random.once_in(6) {
        let length = random.within(0, bytes.len() as u64 + 20) as usize;
        bytes.resize(length, 0);
    }
    bytes
}

fn spoil_header(random: &mut Random, table: &mut RawTable) {
    match random.within(0, 4) {
        0 => table.n = random.pick(&[0, 65, 66, 127]),
        1 => table.n = random.pick(&[table.n.saturating_sub(1), (table.n + 1).min(127)]),
        2 => table.m = random.pick(&[0, 1, 17, 31]),
        _ => table.spare = random.within(1, 7),
    }
}

/// Makes one thing in a row bad; a second bad thing may make the first good again.
fn spoil_row(random: &mut Random, row: &mut RawRow) {
    let sum = row.c1 + row.a + row.c2;
    match random.within(0, 9) {
        0 => row.t = 0,
        1 => row.t = random.within(LONGEST_PERIOD + 1, WIDEST),
        2 => row.t = random.pick(&[LONGEST_PERIOD + 1, WIDEST]),
        3 => row.resource = random.within(17, 31),
        4 => row.spare = random.within(1, 7),
        5 => row.a = random.pick(&[0, row.a + 1]).min(WIDEST),
        6 => row.resource = random.pick(&[0, 1, 16]),
        7 => (row.c1, row.a, row.c2) = (0, 0, 0),
        8 => row.c1 = (row.c1 + (row.t + 1).saturating_sub(sum)).min(WIDEST),
        _ => row.c2 = random.within(0, WIDEST),
    }
}

/// Rows of any bits, none or some of them behind good ones.
fn random_rows(random: &mut Random) -> Vec<u8> {
    let table = any_good_table(random);
    let mut bytes = table.bytes();
    let kept = random.within(0, table.n - 1) as usize;
    for byte in &mut bytes[HEADER_BYTES + ROW_BYTES * kept..] {
        *byte = random.number() as u8;
    }
    bytes
}

fn random_bytes(random: &mut Random) -> Vec<u8> {
    let length = random.within(0, 800) as usize;
    random.bytes(length)
}

#[cfg(test)]
mod tests {
    use super::*;
    use crate::answer::Refusal;
    use crate::table::read;

    #[test]
    fn good_tables_are_good() {
        let mut random = Random::new(1, "good");
        for _ in 0..2_000 {
            let table = any_good_table(&mut random);
            assert!(read(&table.bytes()).is_ok(), "{table:?}");
        }
    }

    /// Row by row, the number it is there for.
    #[test]
    fn bad_rows_are_bad_in_one_way() {
        for (row, number) in BAD_ROWS.into_iter().zip(6..) {
            let table = RawTable {
                n: 1,
                m: 2,
                protocol: 0,
                spare: 0,
                rows: vec![row],
            };
            let refusal = read(&table.bytes()).expect_err("a bad row");
            assert_eq!(refusal, Refusal::naming(number, 1));
        }
    }

    #[test]
    fn the_sets_meet_every_number() {
        let mut random = Random::new(1, "sets");
        let mut seen = [0; 10];
        for set in SETS {
            for input in (set.make)(&mut random) {
                match read(&input) {
                    Ok(_) => seen[0] += 1,
                    Err(refusal) => seen[refusal.number as usize] += 1,
                }
            }
        }
        assert!(seen.iter().all(|&count| count >= 10), "{seen:?}");
    }
}
