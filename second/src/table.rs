//! The reader of task tables, with refusals 1 to 9.

use crate::answer::Refusal;
use crate::bits::field;

pub const HEADER_BYTES: usize = 2;
pub const ROW_BYTES: usize = 11;
pub const LONGEST_PERIOD: u64 = 1_000_000;
pub const LAST_RESOURCE: usize = 16;

#[derive(Clone, Copy, Debug, PartialEq, Eq)]
pub enum Protocol {
    Pcp,
    Npp,
}

#[derive(Clone, Debug, PartialEq, Eq)]
pub struct Task {
    /// Rows count from 1.
    pub row: usize,
    pub period: u64,
    pub c1: u64,
    pub a: u64,
    pub c2: u64,
    /// 1 to 16, or 0 for none.
    pub resource: usize,
}

impl Task {
    pub fn has_section(&self) -> bool {
        self.resource != 0
    }

    /// The table's lengths of stage one, section, stage two.
    pub fn lengths(&self) -> [u64; 3] {
        [self.c1, self.a, self.c2]
    }
}

#[derive(Clone, Debug, PartialEq, Eq)]
pub struct Table {
    pub processors: usize,
    pub protocol: Protocol,
    pub tasks: Vec<Task>,
}

impl Table {
    pub fn task(&self, row: usize) -> &Task {
        &self.tasks[row - 1]
    }

    pub fn users(&self, resource: usize) -> impl Iterator<Item = &Task> {
        self.tasks.iter().filter(move |t| t.resource == resource)
    }

    /// The numbers of the resources that some task names, ascending.
    pub fn used_resources(&self) -> Vec<usize> {
        (1..=LAST_RESOURCE)
            .filter(|&resource| self.users(resource).next().is_some())
            .collect()
    }
}

/// The table in `bytes`, or the refusal. "The lowest number wins; for rows .. the first bad one,
/// and in it the lowest."
pub fn read(bytes: &[u8]) -> Result<Table, Refusal> {
    if let Some(number) = bad_header(bytes) {
        return Err(Refusal::plain(number));
    }
    let mut tasks = Vec::new();
    for row in 1..=field(bytes, 0, 7) as usize {
        // "each row is read from its own eleven bytes"
        let start = HEADER_BYTES + ROW_BYTES * (row - 1);
        let own = &bytes[start..start + ROW_BYTES];
        let task = read_row(row, own);
        if let Some(number) = bad_row(&task, own) {
            return Err(Refusal::naming(number, row));
        }
        tasks.push(task);
    }
    Ok(Table {
        processors: field(bytes, 7, 5) as usize,
        protocol: match field(bytes, 12, 1) {
            0 => Protocol::Pcp,
            _ => Protocol::Npp,
        },
        tasks,
    })
}

/// "task count n (7), processor count m (5), protocol (1 ..), three zero bits"
fn bad_header(bytes: &[u8]) -> Option<u32> {
    // 1: "fewer than 2 bytes"
    if bytes.len() < HEADER_BYTES {
        return Some(1);
    }
    let n = field(bytes, 0, 7) as usize;
    let m = field(bytes, 7, 5);
    // 2: "n is 0 or above 64"
    if n == 0 || n > 64 {
        return Some(2);
    }
    // 3: "m outside 2 to 16"
    if !(2..=16).contains(&m) {
        return Some(3);
    }
    // 4: "a spare header bit is set"
    if field(bytes, 13, 3) != 0 {
        return Some(4);
    }
    // 5: "length differs from 2 + 11n"
    if bytes.len() != HEADER_BYTES + ROW_BYTES * n {
        return Some(5);
    }
    None
}

/// "period T (20), C1 (20), A (20), C2 (20), resource (5; 0 is none), three zero bits"
fn read_row(row: usize, own: &[u8]) -> Task {
    Task {
        row,
        period: field(own, 0, 20),
        c1: field(own, 20, 20),
        a: field(own, 40, 20),
        c2: field(own, 60, 20),
        resource: field(own, 80, 5) as usize,
    }
}

fn bad_row(task: &Task, own: &[u8]) -> Option<u32> {
    // 6: "T is 0 or above 1,000,000"
    if task.period == 0 || task.period > LONGEST_PERIOD {
        return Some(6);
    }
    // 7: "resource above 16, or spare row bit set"
    if task.resource > LAST_RESOURCE || field(own, 85, 3) != 0 {
        return Some(7);
    }
    // 8: "A and resource disagree"; "A is above 0 exactly when a resource is named"
    if (task.a > 0) != (task.resource != 0) {
        return Some(8);
    }
    // 9: "C1 + A + C2 is 0 or above T"
    let sum = task.c1 + task.a + task.c2;
    if sum == 0 || sum > task.period {
        return Some(9);
    }
    None
}
