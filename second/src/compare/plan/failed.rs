//! What is behind the value of refusal 11, read off the sequences of the last trial alone: no least t
//! is searched for here. It holds the value once more, and says what sort of failure it is of.

use crate::answer::Refusal;
use crate::bound::{sequence, Term};
use crate::plan::{homes, section_demand, stage_terms, trial, trials, Failed};
use crate::rank::Ranks;
use crate::table::Table;

/// The members of a sequence up to the first above the limit, or to the last there is; none for a
/// length of 0.
pub struct Way {
    pub members: Vec<u64>,
    pub limit: u64,
}

impl Way {
    fn of(own: u64, terms: &[Term], limit: u64) -> Way {
        let mut members = Vec::new();
        for member in sequence(own, terms).filter(|&member| member > 0) {
            members.push(member);
            if member > limit {
                break;
            }
        }
        Way { members, limit }
    }

    /// The value that broke the limit, or the bound.
    pub fn last(&self) -> u64 {
        self.members.last().copied().unwrap_or(0)
    }

    pub fn broke(&self) -> bool {
        self.last() > self.limit
    }
}

/// What keeps a task from a processor.
#[derive(Clone, Copy, PartialEq, Eq)]
pub enum Part {
    One,
    Two,
    Sum,
}

/// The stages of a task on a processor that it does not fit.
pub struct Misfit {
    pub one: Way,
    pub two: Way,
    pub s: u64,
}

impl Misfit {
    pub fn part(&self) -> Part {
        match (self.one.broke(), self.two.broke()) {
            (true, _) => Part::One,
            (false, true) => Part::Two,
            (false, false) => Part::Sum,
        }
    }

    /// The sequence that comes to the value; none for a sum.
    pub fn way(&self) -> Option<&Way> {
        match self.part() {
            Part::One => Some(&self.one),
            Part::Two => Some(&self.two),
            Part::Sum => None,
        }
    }

    pub fn value(&self) -> u64 {
        let sum = || self.one.last() + self.s + self.two.last();
        self.way().map_or_else(sum, Way::last)
    }
}

/// What the row that ended the last trial came to.
pub enum End {
    /// Its section, and B.
    Section { way: Way, blocking: u64 },
    /// Its stages on each application processor; and the same if their limit were T.
    Stages {
        misfits: Vec<Misfit>,
        loose: Vec<Misfit>,
    },
}

/// The end of the last trial of a table that is refused with 11.
pub struct Failure<'a> {
    pub table: &'a Table,
    /// T of the row.
    pub period: u64,
    pub end: End,
    /// The value of the trial before, if there is one.
    pub before: Option<u64>,
}

impl Failure<'_> {
    pub fn of(table: &Table) -> Failure<'_> {
        let ranks = Ranks::of(table);
        let last = *trials(table).end();
        let failed = |sync| trial(table, &ranks, sync).err();
        let end = failed(last).expect("a table that is refused with 11");
        let before = trials(table).rev().nth(1).and_then(failed);
        Failure {
            table,
            period: table.task(end.row).period,
            end: match end.mark {
                1 => section(table, &ranks, last, &end),
                _ => stages(table, &ranks, last, &end),
            },
            before: before.map(|failed| failed.value),
        }
    }

    pub fn value(&self) -> u64 {
        match &self.end {
            End::Section { way, .. } => way.last(),
            End::Stages { misfits, .. } => nearest(misfits).value(),
        }
    }

    /// The limit that was broken.
    pub fn limit(&self) -> u64 {
        match &self.end {
            End::Section { way, .. } => way.limit,
            End::Stages { misfits, .. } => {
                let way = nearest(misfits).way();
                way.map_or(self.period, |way| way.limit)
            }
        }
    }

    /// Whether the refusal has this mark and value, and the value is above the limit.
    pub fn holds(&self, no: &Refusal) -> bool {
        let mark = match &self.end {
            End::Section { .. } => 1,
            End::Stages { .. } => 2,
        };
        (no.mark, u64::from(no.value)) == (mark, self.value()) && self.value() > self.limit()
    }
}

/// The first of those with the smallest value.
pub fn nearest(misfits: &[Misfit]) -> &Misfit {
    let smallest = misfits.iter().min_by_key(|misfit| misfit.value());
    smallest.expect("s is at most m − 1")
}

fn section(table: &Table, ranks: &Ranks, sync: usize, end: &Failed) -> End {
    let (own, terms) = section_demand(table, ranks, &homes(table, sync), end.row);
    let task = table.task(end.row);
    End::Section {
        way: Way::of(own, &terms, task.period),
        blocking: own - task.a,
    }
}

fn stages(table: &Table, ranks: &Ranks, sync: usize, end: &Failed) -> End {
    let task = table.task(end.row);
    let s = end.places[end.row - 1].s;
    let misfits = |limit| {
        let misfit = |processor| {
            let terms = stage_terms(table, ranks, &end.places, end.row, processor);
            Misfit {
                one: Way::of(task.c1, &terms, limit),
                two: Way::of(task.c2, &terms, limit),
                s,
            }
        };
        (sync + 1..=table.processors).map(misfit).collect()
    };
    End::Stages {
        misfits: misfits(task.period - s),
        loose: misfits(task.period),
    }
}
