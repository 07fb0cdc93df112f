//! The text of `second list`: lines of words with one space between them.

use crate::answer::Refusal;
use crate::plan::plan;
use crate::table::read;

/// As many bytes of an input as are taken; one more than the longest table has.
pub const TAKEN: usize = 707;

/// The paper's listing of the plan of a table, or its refused line.
pub fn list(input: &[u8]) -> String {
    match lines(&input[..input.len().min(TAKEN)]) {
        Ok(lines) => lines.iter().map(|line| format!("{line}\n")).collect(),
        // "A refusal prints one line: refused, number, what it names, mark." It "ends with the value".
        Err(refusal) => format!("{refusal}\n"),
    }
}

/// "plan: n, m, s; resource: number, processor, used ones only; task: row, processor, D1, S, D2"
fn lines(bytes: &[u8]) -> Result<Vec<String>, Refusal> {
    let table = read(bytes)?;
    let plan = plan(&table)?;
    let (n, m) = (table.tasks.len(), table.processors);
    let mut lines = vec![format!("plan {n} {m} {}", plan.sync)];
    for resource in table.used_resources() {
        lines.push(format!("resource {resource} {}", plan.homes[resource]));
    }
    for (row, place) in (1..).zip(&plan.places) {
        let (processor, d1, s, d2) = (place.processor, place.d1, place.s, place.d2);
        lines.push(format!("task {row} {processor} {d1} {s} {d2}"));
    }
    Ok(lines)
}
