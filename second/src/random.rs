//! A small generator of random numbers, and the random tables and arrivals made with it.

use crate::machine::Arrival;
use crate::raw::{RawRow, RawTable};
use crate::table::Table;

/// Splitmix64. The same seed and part give the same numbers again.
pub struct Random {
    state: u64,
}

impl Random {
    /// Each part of the checks draws from its own numbers, so that a new part leaves the others
    /// as they were.
    pub fn new(seed: u64, part: &str) -> Random {
        let mut random = Random { state: seed };
        for byte in part.bytes() {
            random.state = random.number() ^ u64::from(byte);
        }
        random
    }

    pub fn number(&mut self) -> u64 {
        self.state = self.state.wrapping_add(0x9e37_79b9_7f4a_7c15);
        let mut z = self.state;
        z = (z ^ (z >> 30)).wrapping_mul(0xbf58_476d_1ce4_e5b9);
        z = (z ^ (z >> 27)).wrapping_mul(0x94d0_49bb_1331_11eb);
        z ^ (z >> 31)
    }

    /// A number from `low` to `high`, both included.
    pub fn within(&mut self, low: u64, high: u64) -> u64 {
        low + self.number() % (high - low + 1)
    }

    /// True once in `count` times.
    pub fn once_in(&mut self, count: u64) -> bool {
        self.within(1, count) == 1
    }

    pub fn pick<T: Copy>(&mut self, list: &[T]) -> T {
        list[self.within(0, list.len() as u64 - 1) as usize]
    }

    pub fn bytes(&mut self, count: usize) -> Vec<u8> {
        (0..count).map(|_| self.number() as u8).collect()
    }

    /// A number from `low` to `high`, the small ones as likely as the large.
    fn spread(&mut self, low: u64, high: u64) -> u64 {
        let digits = self.within(1, 7) as u32;
        let top = high.min(10_u64.pow(digits)).max(low);
        self.within(low, top)
    }
}

/// How the rows of one random table are to look.
#[derive(Clone, Copy)]
pub struct Manner {
    pub shortest: u64,
    pub longest: u64,
    /// Lengths together take up to this many hundredths of the period, and at least one tick.
    pub share: u64,
    /// The resources to pick from are 1 to this; 0 for none at all.
    pub resources: u64,
    /// One row in this many goes without a resource.
    pub without: u64,
}

/// A good table of `n` rows.
pub fn good_table(random: &mut Random, n: u64, m: u64, manner: Manner) -> RawTable {
    RawTable {
        n,
        m,
        protocol: random.within(0, 1),
        spare: 0,
        rows: (0..n).map(|_| good_row(random, manner)).collect(),
    }
}

/// A good row.
pub fn good_row(random: &mut Random, manner: Manner) -> RawRow {
    let t = random.spread(manner.shortest, manner.longest);
    let most = (t * manner.share / 100).clamp(1, t);
    let sum = random.within(1, most);
    let resource = match manner.resources {
        0 => 0,
        _ if random.once_in(manner.without) => 0,
        last => random.within(1, last),
    };
    let a = match resource {
        0 => 0,
        _ => random.within(1, sum),
    };
    let c1 = random.within(0, sum - a);
    RawRow {
        t,
        c1,
        a,
        c2: sum - a - c1,
        resource,
        spare: 0,
    }
}

/// A good table of any size and manner, up to 64 rows and 16 processors.
pub fn any_good_table(random: &mut Random) -> RawTable {
    let largest = random.pick(&[1, 4, 16, 64]);
    let n = random.within(1, largest);
    good_table_of(random, n)
}

/// A good table of `n` rows, in any manner.
pub fn good_table_of(random: &mut Random, n: u64) -> RawTable {
    let m = random.within(2, 16);
    let manner = Manner {
        shortest: 1,
        longest: random.pick(&[1, 10, 1_000, 1_000_000]),
        share: random.pick(&[1, 20, 100]),
        resources: random.pick(&[0, 1, 4, 16]),
        without: random.pick(&[2, 5, 1_000]),
    };
    good_table(random, n, m, manner)
}

/// A good table small enough to try every t and to step many ticks; most of them can be planned.
pub fn small_table(random: &mut Random) -> RawTable {
    let n = random.within(1, 8);
    let m = random.within(2, 6);
    let longest = random.pick(&[8, 20, 60, 200]);
    let manner = Manner {
        shortest: random.pick(&[1, 5]),
        longest,
        share: random.pick(&[20, 40, 70, 100]),
        resources: random.within(0, 4),
        without: random.pick(&[2, 6]),
    };
    good_table(random, n, m, manner)
}

/// A good table of few rows, with periods up to the longest there is.
pub fn large_table(random: &mut Random) -> RawTable {
    let n = random.within(2, 5);
    let manner = Manner {
        shortest: 1_000,
        longest: 1_000_000,
        share: random.pick(&[40, 100]),
        resources: 2,
        without: 3,
    };
    good_table(random, n, 3, manner)
}

/// Arrivals that no refusal of 14 to 18 meets, before tick `end`.
pub fn arrivals(random: &mut Random, table: &Table, end: u64) -> Vec<Arrival> {
    let crowded = random.once_in(2);
    let full = random.once_in(2);
    let mut all = Vec::new();
    for task in &table.tasks {
        let mut tick = match crowded {
            true => random.pick(&[0, 0, 1, 2]),
            false => random.within(0, 2 * task.period),
        };
        while tick < end {
            let lengths = task.lengths().map(|most| match full {
                true => most,
                false => some_length(random, most),
            });
            let row = task.row as u64;
            all.push(Arrival { tick, row, lengths });
            tick += task.period;
            if !crowded {
                tick += random.pick(&[0, 0, 1, task.period / 2]);
            }
        }
    }
    all.sort_by_key(|arrival| (arrival.tick, arrival.row));
    all.truncate(4_096);
    all
}

/// A length up to the table's, often 0 or all of it.
pub fn some_length(random: &mut Random, most: u64) -> u64 {
    match random.within(0, 3) {
        0 => 0,
        1 => most,
        _ => random.within(0, most),
    }
}
