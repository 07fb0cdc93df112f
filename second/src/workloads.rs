//! The tables that planning is compared on and timed with, kind by kind, as bytes.

use crate::fast;
use crate::inputs::{one_bad, several_bad};
use crate::random::{any_good_table, small_table, Random};
use crate::raw::{self, RawRow, RawTable};
use crate::table::LONGEST_PERIOD;

pub struct Kind {
    pub name: &'static str,
    /// How many of a hundred tables come from here.
    pub share: usize,
    pub make: fn(&mut Random) -> Vec<u8>,
}

pub const KINDS: [Kind; 11] = [
    Kind {
        name: "small tables",
        share: 15,
        make: small,
    },
    Kind {
        name: "tables in any manner",
        share: 5,
        make: any,
    },
    Kind {
        name: "tables of any size and load",
        share: 18,
        make: loaded,
    },
    Kind {
        name: "tables at the edge of what can be planned",
        share: 16,
        make: at_the_edge,
    },
    Kind {
        name: "equal periods",
        share: 9,
        make: equal_periods,
    },
    Kind {
        name: "equal weights",
        share: 9,
        make: equal_weights,
    },
    Kind {
        name: "stages of length 0",
        share: 7,
        make: without_stages,
    },
    Kind {
        name: "long sections",
        share: 8,
        make: long_sections,
    },
    Kind {
        name: "64 rows on 16 processors",
        share: 4,
        make: largest,
    },
    Kind {
        name: "long searches",
        share: 1,
        make: long_search,
    },
    Kind {
        name: "tables with damaged bytes",
        share: 8,
        make: damaged,
    },
];

/// Tables that are refused with 11, all of them.
pub const FAILING: [Kind; 8] = [
    Kind {
        name: "small tables, refused with 11",
        share: 26,
        make: |random| failing(random, small),
    },
    Kind {
        name: "sections too long",
        share: 24,
        make: |random| failing(random, crowded_sections),
    },
    Kind {
        name: "a processor for each task and one task more",
        share: 22,
        make: |random| failing(random, one_too_many),
    },
    Kind {
        name: "just past the edge",
        share: 8,
        make: |random| failing(random, past_the_edge),
    },
    Kind {
        name: "values behind many members",
        share: 6,
        make: |random| failing(random, many_members),
    },
    Kind {
        name: "several trials",
        share: 8,
        make: |random| failing(random, several_trials),
    },
    Kind {
        name: "tables of any size and load, refused with 11",
        share: 5,
        make: |random| failing(random, loaded),
    },
    Kind {
        name: "64 rows on 16 processors, refused with 11",
        share: 1,
        make: |random| failing(random, largest),
    },
];

/// How the rows of a table are to look.
#[derive(Clone, Copy)]
struct Shape {
    n: u64,
    m: u64,
    shortest: u64,
    longest: u64,
    /// All lengths together take this many hundredths of the processors' time.
    load: u64,
    /// A section takes up to this many hundredths of its row's lengths.
    section: u64,
    /// The resources to pick from are 1 to this.
    resources: u64,
    /// One row in this many goes without a resource.
    without: u64,
}

impl Shape {
    fn any(random: &mut Random) -> Shape {
        let n = random.pick(&[2, 4, 8, 16, 32, 64]);
        let (shortest, longest) = random.pick(&[
            (1, 20),
            (10, 100),
            (50, 2_000),
            (1_000, 9_000),
            (10_000, LONGEST_PERIOD),
            (1, LONGEST_PERIOD),
        ]);
        Shape {
            n: random.within(n / 2, n),
            m: random.pick(&[2, 3, 4, 6, 8, 12, 16]),
            shortest,
            longest,
            load: random.within(5, 60),
            section: random.pick(&[5, 15, 30, 60]),
            resources: random.pick(&[1, 2, 3, 5, 8, 12, 16]),
            without: random.pick(&[2, 3, 10]),
        }
    }

    /// As many rows and processors as there can be; either sections or stages are too many first.
    fn largest(random: &mut Random) -> Shape {
        let (load, section) = random.pick(&[(15, 60), (25, 30), (40, 15), (50, 3), (60, 1)]);
        Shape {
            n: 64,
            m: 16,
            load: random.within(load / 2, load + 10),
            section,
            resources: random.pick(&[3, 8, 16, 16]),
            ..Shape::any(random)
        }
    }

    fn table(&self, random: &mut Random) -> RawTable {
        // Each row gets its part of the load, some much more than others.
        let parts: Vec<u64> = (0..self.n).map(|_| random.within(1, 20)).collect();
        let all: u64 = parts.iter().sum();
        let millionths = self.load * self.m * 10_000;
        let rows = parts
            .iter()
            .map(|part| self.row(random, (millionths * part / all).min(1_000_000)));
        RawTable {
            n: self.n,
            m: self.m,
            spare: 0,
            rows: rows.collect(),
            protocol: random.within(0, 1),
        }
    }

    /// A period in the shape's limits; from each number to its double there are as many.
    fn period(&self, random: &mut Random) -> u64 {
        let doublings = (self.longest / self.shortest).ilog2();
        let from = self.shortest << random.within(0, doublings.into());
        random.within(from, (2 * from).min(self.longest))
    }

    /// A row whose lengths take so many millionths of its period.
    fn row(&self, random: &mut Random, millionths: u64) -> RawRow {
        let t = self.period(random);
        let sum = (t * millionths / 1_000_000).max(1);
        let without = random.once_in(self.without);
        let a = match without {
            true => 0,
            false => random.within(1, (sum * self.section / 100).max(1)),
        };
        let c1 = random.within(0, sum - a);
        RawRow {
            t,
            c1,
            a,
            c2: sum - a - c1,
            resource: match without {
                true => 0,
                false => random.within(1, self.resources),
            },
            spare: 0,
        }
    }
}

fn small(random: &mut Random) -> Vec<u8> {
    small_table(random).bytes()
}

fn any(random: &mut Random) -> Vec<u8> {
    any_good_table(random).bytes()
}

fn loaded(random: &mut Random) -> Vec<u8> {
    Shape::any(random).table(random).bytes()
}

pub fn largest(random: &mut Random) -> Vec<u8> {
    Shape::largest(random).table(random).bytes()
}

/// As many rows and processors as there can be, with periods in these limits.
pub fn largest_within(random: &mut Random, shortest: u64, longest: u64) -> RawTable {
    let shape = Shape {
        shortest,
        longest,
        ..Shape::largest(random)
    };
    shape.table(random)
}

/// Rows and processors in any number, with periods in these limits, and lengths at the edge of what
/// can be planned under the protocol.
pub fn fullest_within(random: &mut Random, protocol: u64, shortest: u64, longest: u64) -> RawTable {
    let shape = Shape {
        shortest,
        longest,
        load: random.within(60, 100),
        ..Shape::any(random)
    };
    let full = under(protocol, &shape.table(random));
    let planned = last_planned(&full, |table| is_planned(&table.bytes()));
    part_of(&full, planned)
}

/// Lengths grow in 64 steps from next to nothing to too much; the last step that is planned, or
/// the one behind it.
fn at_the_edge(random: &mut Random) -> Vec<u8> {
    let shape = Shape {
        load: random.within(60, 100),
        ..Shape::any(random)
    };
    let full = shape.table(random);
    let planned = last_planned(&full, |table| is_planned(&table.bytes()));
    part_of(&full, random.pick(&[planned, planned + 1])).bytes()
}

/// The last of the 64 steps to this table that is planned, if it is not the table itself.
fn last_planned(full: &RawTable, is_planned: impl Fn(&RawTable) -> bool) -> u64 {
    let (mut planned, mut refused) = (0, 64);
    while planned + 1 < refused {
        let between = (planned + refused) / 2;
        match is_planned(&part_of(full, between)) {
            true => planned = between,
            false => refused = between,
        }
    }
    planned
}

/// 64 rows on 16 processors with lengths at the edge of what can be planned under both protocols;
/// in a million ticks each row can arrive about 64 times.
pub fn busiest(random: &mut Random) -> RawTable {
    let shape = Shape {
        n: 64,
        m: 16,
        shortest: 12_000,
        longest: 20_000,
        load: 80,
        section: 30,
        resources: 16,
        without: 10,
    };
    let full = shape.table(random);
    let both = |table: &RawTable| [0, 1].map(|protocol| under(protocol, table));
    let planned = last_planned(&full, |table| {
        both(table).iter().all(|table| is_planned(&table.bytes()))
    });
    part_of(&full, planned)
}

/// The table with this protocol.
pub fn under(protocol: u64, table: &RawTable) -> RawTable {
    RawTable {
        protocol,
        ..table.clone()
    }
}

/// The table with so many 64ths of each length; a section keeps a tick, and so does a row.
fn part_of(table: &RawTable, parts: u64) -> RawTable {
    let shorter = |row: &RawRow| {
        let [c1, a, c2] = [row.c1, row.a, row.c2].map(|length| length * parts / 64);
        let a = a.max(row.a.min(1));
        let c1 = if c1 + a + c2 == 0 { 1 } else { c1 };
        RawRow { c1, a, c2, ..*row }
    };
    RawTable {
        rows: table.rows.iter().map(shorter).collect(),
        ..table.clone()
    }
}

/// As the fast planner has it: it helps to choose tables, and judges nothing.
pub fn is_planned(table: &[u8]) -> bool {
    fast_number(table) == 0
}

fn fast_number(table: &[u8]) -> u32 {
    fast::plan_into(table, 0, &mut [0; 588]).number
}

/// The first of these tables that is refused with 11.
fn failing(random: &mut Random, make: fn(&mut Random) -> Vec<u8>) -> Vec<u8> {
    loop {
        let table = make(random);
        if fast_number(&table) == 11 {
            return table;
        }
    }
}

/// The shortest and the longest period of a table, which is four times as long.
fn some_periods(random: &mut Random) -> (u64, u64) {
    let longest = random.pick(&[12, 40, 160, 800, 12_000, 120_000, LONGEST_PERIOD]);
    let longest = random.within(longest / 2, longest);
    (longest / 4, longest)
}

/// Sections that take about all of the time of one or two processors, and stages that take little.
fn crowded_sections(random: &mut Random) -> Vec<u8> {
    let (shortest, longest) = some_periods(random);
    let n = random.pick(&[2, 3, 4, 6, 14]);
    let n = random.within(n.min(2), n);
    let resources = random.within(1, 3);
    let share = random.within(50, 130) / n;
    let rows: Vec<_> = (0..n)
        .map(|_| {
            let t = random.within(shortest, longest);
            let a = random.within(1, (2 * t * share / 100).clamp(1, t));
            let [c1, c2] = [0, 0].map(|_| random.within(0, (t - a) / 20));
            (t, c1, a, c2, random.within(1, resources))
        })
        .collect();
    raw::table(random.within(2, 4), random.within(0, 1), &rows).bytes()
}

/// Tasks that take most of a processor each, in any two stages, and a last one, with or without a
/// section, that may fit none of them.
fn one_too_many(random: &mut Random) -> Vec<u8> {
    let (shortest, longest) = some_periods(random);
    let tasks = random.pick(&[1, 2, 3, 3, 4, 6, 12]);
    let with_section = random.once_in(2);
    let least = random.pick(&[30, 50, 70]);
    let mut rows = Vec::new();
    for _ in 0..tasks {
        let t = random.within(shortest, longest);
        let sum = (t * random.within(least, 100) / 100).max(1);
        let some = random.within(0, sum);
        let c1 = random.pick(&[0, sum, some]);
        rows.push((t, c1, 0, sum - c1, 0));
    }
    let t = random.within(longest, 2 * longest).min(LONGEST_PERIOD);
    let a = match with_section {
        true => random.within(1, (t / 2).max(1)),
        false => 0,
    };
    let [c1, c2] = [0, 0].map(|_| random.within(0, (t - a) / 2));
    rows.push((t, c1.max(1), a, c2.min(t - a - c1.max(1)), a.min(1)));
    let m = tasks + a.min(1);
    raw::table(m.max(2), random.within(0, 1), &rows).bytes()
}

/// The first step of `at_the_edge` that is not planned, of few rows.
fn past_the_edge(random: &mut Random) -> Vec<u8> {
    let shape = Shape {
        n: random.within(2, 10),
        m: random.within(2, 5),
        load: random.within(60, 100),
        ..Shape::any(random)
    };
    let full = shape.table(random);
    let planned = last_planned(&full, |table| is_planned(&table.bytes()));
    part_of(&full, planned + 1).bytes()
}

/// As `long_search`, and not quite as long.
fn many_members(random: &mut Random) -> Vec<u8> {
    let long = random.pick(&[100, 400, 2_000]);
    search_of(random, long)
}

/// Resources enough for several trials, and sections and stages too long for all of them.
fn several_trials(random: &mut Random) -> Vec<u8> {
    let shape = Shape {
        n: random.within(3, 12),
        m: random.within(3, 6),
        load: random.within(30, 90),
        section: random.pick(&[30, 60, 90]),
        resources: random.within(2, 5),
        without: 10,
        ..Shape::any(random)
    };
    shape.table(random).bytes()
}

/// One to three periods in all: ranks go by rows.
fn equal_periods(random: &mut Random) -> Vec<u8> {
    let mut table = Shape::any(random).table(random);
    let longest = table.rows.iter().map(|row| row.t).max().unwrap_or(1);
    let count = random.within(1, 3);
    for row in &mut table.rows {
        row.t = (longest / random.within(1, count)).max(row.c1 + row.a + row.c2);
    }
    table.bytes()
}

/// Every section takes the same part of its period, and resources have about as many users each.
fn equal_weights(random: &mut Random) -> Vec<u8> {
    let mut table = Shape::any(random).table(random);
    let part = random.pick(&[4, 10, 25, 100]);
    let resources = random.within(1, 16);
    for (place, row) in (0..).zip(&mut table.rows) {
        row.a = (row.t / part).max(1);
        row.t = row.a * part;
        row.resource = place % resources + 1;
        row.c1 = row.c1.min((row.t - row.a) / 2);
        row.c2 = row.c2.min((row.t - row.a) / 2);
    }
    table.bytes()
}

/// Rows of a section alone, of one stage alone, and of a section with one stage.
fn without_stages(random: &mut Random) -> Vec<u8> {
    let mut table = Shape::any(random).table(random);
    for row in &mut table.rows {
        match random.within(0, 3) {
            0 => row.c1 = 0,
            1 => row.c2 = 0,
            2 => (row.c1, row.c2) = (0, 0),
            _ => (row.a, row.resource) = (0, 0),
        }
        if row.c1 + row.a + row.c2 == 0 {
            row.c2 = 1;
        }
    }
    table.bytes()
}

/// Much time in sections and little in stages, so that one processor for them may not do.
fn long_sections(random: &mut Random) -> Vec<u8> {
    let shape = Shape {
        load: random.within(10, 40),
        section: 100,
        without: 20,
        resources: random.pick(&[2, 4, 8, 16]),
        ..Shape::any(random)
    };
    let mut table = shape.table(random);
    for row in table.rows.iter_mut().filter(|row| row.a > 0) {
        let stages = random.within(0, 10);
        (row.c1, row.c2) = (row.c1 * stages / 100, row.c2 * stages / 100);
    }
    table.bytes()
}

/// A processor that is taken nearly all the time, or all the time, and a long wait there.
fn long_search(random: &mut Random) -> Vec<u8> {
    let long = random.pick(&[3_000, 30_000, 100_000]);
    search_of(random, long)
}

fn search_of(random: &mut Random, long: u64) -> Vec<u8> {
    let long = random.within(long / 2, long);
    let period = random.within(20.min(long / 4), 1_000.min(2 * long / 3));
    let own = (long / period).saturating_sub(random.within(0, 3)).max(1);
    let rows = match random.within(0, 6) {
        0 => vec![(period, period - 1, 0, 0, 0), (long, own, 0, 0, 0)],
        1 => vec![(period, 0, 0, period - 1, 0), (long, 0, 1, own, 1)],
        // Sections of a tick or two each, so that nobody is blocked for more than one.
        2 => {
            let users = random.within(1, 60) as usize;
            let mut rows = vec![(long, 0, random.within(1, 2), 0, 2); users];
            rows.insert(random.pick(&[0, users]), (period, 0, period - 1, 0, 1));
            rows
        }
        // 1/2 + 1/3 + 1/6 of the time are all of it.
        3 => stages_of_one(&[2, 3, 6], long, 1),
        // 1/2 + 1/3 + 1/7 + 1/43 of the time are all but 1/1806 of it.
        _ => stages_of_one(&[2, 3, 7, 43], long, (long / 1_806).max(1)),
    };
    raw::table(2, random.within(0, 1), &rows).bytes()
}

/// A stage of one tick with each of the periods, and a longer one behind them.
fn stages_of_one(periods: &[u64], long: u64, own: u64) -> Vec<(u64, u64, u64, u64, u64)> {
    let one = |&period| (period, 1, 0, 0, 0);
    let mut rows: Vec<_> = periods.iter().map(one).collect();
    rows.push((long, own, 0, 0, 0));
    rows
}

/// Damage that a reader sees, and damage that makes it another table.
fn damaged(random: &mut Random) -> Vec<u8> {
    match random.within(0, 9) {
        0..3 => one_bad(random),
        3..5 => several_bad(random),
        5 => [0x06, 0x30][..random.within(0, 2) as usize].to_vec(),
        _ => {
            let mut bytes = loaded(random);
            for _ in 0..random.within(1, 3) {
                let place = random.within(0, bytes.len() as u64 - 1) as usize;
                bytes[place] ^= 1 << random.within(0, 7);
            }
            bytes
        }
    }
}

#[cfg(test)]
mod tests {
    use super::*;
    use crate::bound::{demand, Term};
    use crate::table::{read, Table};

    #[test]
    fn the_shares_are_hundredths() {
        for kinds in [&KINDS[..], &FAILING] {
            let shares = kinds.iter().map(|kind| kind.share);
            assert_eq!(shares.sum::<usize>(), 100);
        }
    }

    /// How often the demand changes, from the last row's lengths on, with all other rows in it.
    fn rounds(table: &Table) -> usize {
        let length = |[c1, a, c2]: [u64; 3]| c1 + a + c2;
        let mut tasks = table.tasks.clone();
        tasks.sort_by_key(|task| task.period);
        let Some(last) = tasks.pop() else {
            return 0;
        };
        let term = |task: &crate::table::Task| Term {
            period: task.period,
            length: length(task.lengths()),
        };
        let terms: Vec<Term> = tasks.iter().map(term).collect();
        let own = length(last.lengths());
        let next = |&t: &u64| Some(demand(own, &terms, t)).filter(|&next| next != t);
        let members = std::iter::successors(Some(own), next);
        members.take_while(|&t| t <= last.period).count()
    }

    #[test]
    fn long_searches_are_long() {
        let mut random = Random::new(1, "long");
        let tables = (0..200).map(|_| long_search(&mut random));
        let rounds = tables.map(|bytes| rounds(&read(&bytes).expect("a good table")));
        let rounds: Vec<usize> = rounds.collect();
        let above = |least| rounds.iter().filter(|&&rounds| rounds > least).count();
        assert!(above(100) >= 100, "{rounds:?}");
        assert!(above(1_000) >= 60, "{rounds:?}");
        assert!(above(10_000) >= 10, "{rounds:?}");
    }
}
