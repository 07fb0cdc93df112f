//! What kieferntuch_run is handed, and what it leaves behind; and what this program's two machines,
//! the plain one and the one written for speed, make of the same call.

use crate::answer::Refusal;
use crate::fast_run::{self, Ran};
use crate::run::{run, Arrival, Done};

/// As many bytes lie behind the lent trace, which no run may touch.
pub const GUARD: usize = 64;

#[derive(Clone, Debug)]
pub struct RunCall {
    pub table: Vec<u8>,
    pub arrivals: Vec<Arrival>,
    /// f and w.
    pub from: usize,
    pub ticks: usize,
    /// The length of the trace.
    pub trace: usize,
    /// What the trace and the bytes behind it hold before the call, by their first byte.
    pub fill: u8,
    /// Is what is empty lent by a null pointer?
    pub nulls: bool,
}

/// The answer, and afterwards the trace and the bytes behind it.
pub type Outcome = (Ran, Vec<u8>);

impl RunCall {
    pub fn null_table(&self) -> bool {
        self.nulls && self.table.is_empty()
    }

    pub fn null_arrivals(&self) -> bool {
        self.nulls && self.arrivals.is_empty()
    }

    pub fn null_trace(&self) -> bool {
        self.nulls && self.trace == 0
    }

    /// How many bytes the trace has with those behind it; none behind a null pointer.
    pub fn trace_and_guard(&self) -> usize {
        match self.null_trace() {
            true => 0,
            false => self.trace + GUARD,
        }
    }

    /// The trace before the call, with the bytes behind it. Neighbours differ, so that also a byte
    /// that is moved is seen.
    pub fn filled(&self) -> Vec<u8> {
        let step = |place: usize| self.fill.wrapping_add((37 * place) as u8);
        (0..self.trace_and_guard()).map(step).collect()
    }

    /// As five numbers of 32 bits each.
    pub fn records(&self) -> Vec<fast_run::Arrival> {
        let number = |number: u64| u32::try_from(number).expect("a number of 32 bits");
        let record = |arrival: &Arrival| fast_run::Arrival {
            tick: number(arrival.tick),
            row: number(arrival.row),
            lengths: arrival.lengths.map(number),
        };
        self.arrivals.iter().map(record).collect()
    }

    /// The records as x86-64 has them in memory.
    pub fn record_bytes(&self) -> Vec<u8> {
        let numbers = |record: fast_run::Arrival| {
            let [one, section, two] = record.lengths;
            [record.tick, record.row, one, section, two]
        };
        let all = self.records().into_iter().flat_map(numbers);
        all.flat_map(u32::to_le_bytes).collect()
    }

    /// By the plain machine.
    pub fn plainly(&self) -> Outcome {
        let mut trace = self.filled();
        let (f, w) = (self.from as u64, self.ticks as u64);
        let lent = &mut trace[..self.trace];
        let done = run(&self.table, &self.arrivals, f, w, lent);
        (ran(done), trace)
    }

    /// By the machine that is written for speed.
    pub fn fast(&self) -> Outcome {
        let mut trace = self.filled();
        let lent = &mut trace[..self.trace];
        let records = self.records();
        let ran = fast_run::run_into(&self.table, &records, self.from, self.ticks, lent);
        (ran, trace)
    }
}

/// "All else that a refused call returns is 0"
fn ran(done: Result<Done, Refusal>) -> Ran {
    let mut ran = Ran::NOTHING;
    match done {
        Ok(done) => {
            for (worst, response) in ran.worst.iter_mut().zip(done.worst.as_flattened()) {
                *worst = u32::try_from(*response).expect("a number of 32 bits");
            }
            (ran.jobs, ran.run, ran.owed) = (done.jobs, done.run, done.owed);
        }
        Err(no) => {
            (ran.number, ran.names) = (no.number, no.names);
            (ran.mark, ran.value) = (no.mark, no.value);
        }
    }
    ran
}
