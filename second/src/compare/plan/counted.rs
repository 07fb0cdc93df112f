//! What is counted of the tables that are refused with 11, and how many of each there have to be.

use super::failed::{nearest, End, Failure, Misfit, Part, Way};
use crate::compare::tally::{Counted, Tally};
use crate::table::Protocol;

const FAILED: [Counted; 15] = [
    ("refused with 11", 200_000),
    ("under PCP", 60_000),
    ("under NPP", 60_000),
    ("of 1 or 2 rows", 10_000),
    ("of 3 to 8", 60_000),
    ("of 9 to 31", 20_000),
    ("of 32 to 64", 10_000),
    ("on 2 processors", 30_000),
    ("on 3 to 5", 50_000),
    ("on 6 to 16", 25_000),
    ("with T below 100", 60_000),
    ("with T of 10,000 or more", 20_000),
    ("where the trial before gave another value", 15_000),
    ("by one tick", 20_000),
    ("with a value above 1,000,000", 1_000),
];

const SECTIONS: [Counted; 8] = [
    ("under PCP", 30_000),
    ("under NPP", 30_000),
    ("with B", 40_000),
    ("by the first member", 30_000),
    ("by the second", 6_000),
    ("by the third", 8_000),
    ("by the fourth to the tenth", 9_000),
    ("by a later one", 1_000),
];

const STAGES: [Counted; 21] = [
    ("under PCP", 20_000),
    ("under NPP", 20_000),
    ("with S", 25_000),
    ("where T for T - S would give another value", 15_000),
    ("by D1's first member", 1_500),
    ("by its second", 7_000),
    ("by its third", 7_000),
    ("by a later one", 5_000),
    ("by D2's first member", 1_000),
    ("by its second", 2_500),
    ("by its third", 2_500),
    ("by a later one", 1_500),
    ("by the sum", 11_000),
    ("by D1 where D2 has a smaller value", 3_500),
    ("on one application processor", 14_000),
    ("on two", 7_000),
    ("the smallest on the first of three or more", 5_000),
    ("on one between", 6_000),
    ("on the last", 2_500),
    ("on several", 4_500),
    ("on processors where not the same is missing", 12_000),
];

pub struct Counts {
    failed: Tally<{ FAILED.len() }>,
    sections: Tally<{ SECTIONS.len() }>,
    stages: Tally<{ STAGES.len() }>,
}

impl Counts {
    pub fn new() -> Counts {
        Counts {
            failed: Tally::new(&FAILED),
            sections: Tally::new(&SECTIONS),
            stages: Tally::new(&STAGES),
        }
    }

    pub fn count(&mut self, failure: &Failure) {
        self.failed.count(failed(failure));
        match &failure.end {
            End::Section { way, blocking } => self.sections.count(section(failure, way, *blocking)),
            End::Stages { misfits, loose } => self.stages.count(stages(failure, misfits, loose)),
        }
    }

    pub fn lines(&self) -> [String; 3] {
        [
            self.failed.words(),
            format!("with mark 1: {}", self.sections.words()),
            format!("with mark 2: {}", self.stages.words()),
        ]
    }

    /// Where one in so many of all tables was counted.
    pub fn enough_in_one_of(&self, part: usize) -> Result<(), String> {
        self.failed.enough_in_one_of(part)?;
        self.sections.enough_in_one_of(part)?;
        self.stages.enough_in_one_of(part)
    }
}

fn under(failure: &Failure, protocol: Protocol) -> bool {
    failure.table.protocol == protocol
}

fn failed(failure: &Failure) -> [bool; FAILED.len()] {
    let (rows, m) = (failure.table.tasks.len(), failure.table.processors);
    let value = failure.value();
    [
        true,
        under(failure, Protocol::Pcp),
        under(failure, Protocol::Npp),
        rows <= 2,
        (3..=8).contains(&rows),
        (9..=31).contains(&rows),
        rows >= 32,
        m == 2,
        (3..=5).contains(&m),
        m >= 6,
        failure.period < 100,
        failure.period >= 10_000,
        failure.before.is_some_and(|before| before != value),
        value == failure.limit() + 1,
        value > 1_000_000,
    ]
}

fn section(failure: &Failure, way: &Way, blocking: u64) -> [bool; SECTIONS.len()] {
    let members = way.members.len();
    [
        under(failure, Protocol::Pcp),
        under(failure, Protocol::Npp),
        blocking > 0,
        members == 1,
        members == 2,
        members == 3,
        (4..=10).contains(&members),
        members > 10,
    ]
}

fn stages(failure: &Failure, misfits: &[Misfit], loose: &[Misfit]) -> [bool; STAGES.len()] {
    let smallest = nearest(misfits);
    let value = smallest.value();
    let part = smallest.part();
    let members = smallest.way().map_or(0, |way| way.members.len());
    let by = |this, least, most| part == this && (least..=most).contains(&members);
    let two = &smallest.two;
    // Where the smallest value is, among three or more.
    let mut places = (0..misfits.len()).filter(|&place| misfits[place].value() == value);
    let (first, again) = (places.next().unwrap_or(0), places.next().is_some());
    let many = misfits.len() >= 3;
    let last = misfits.len() - 1;
    [
        under(failure, Protocol::Pcp),
        under(failure, Protocol::Npp),
        smallest.s > 0,
        nearest(loose).value() != value,
        by(Part::One, 1, 1),
        by(Part::One, 2, 2),
        by(Part::One, 3, 3),
        by(Part::One, 4, usize::MAX),
        by(Part::Two, 1, 1),
        by(Part::Two, 2, 2),
        by(Part::Two, 3, 3),
        by(Part::Two, 4, usize::MAX),
        part == Part::Sum,
        part == Part::One && two.broke() && two.last() < value,
        misfits.len() == 1,
        misfits.len() == 2,
        many && !again && first == 0,
        many && !again && first > 0 && first < last,
        many && !again && first == last,
        many && again,
        misfits.iter().any(|misfit| misfit.part() != part),
    ]
}
