//! The text of `second run`: a lane for each processor, the responses beside the bounds, the
//! counts. And the reader of its text file of arrivals.

use crate::answer::Refusal;
use crate::plan::plan;
use crate::run::{run, Arrival, Done};
use crate::table::{read, Table};

/// Runs, and puts the trace and the answer into lines.
pub fn text(table: &[u8], arrivals: &[Arrival], f: u64, w: u64) -> String {
    match lines(table, arrivals, f, w) {
        Ok(lines) => lines.iter().map(|line| format!("{line}\n")).collect(),
        Err(refusal) => format!("{refusal}\n"),
    }
}

fn lines(bytes: &[u8], arrivals: &[Arrival], f: u64, w: u64) -> Result<Vec<String>, Refusal> {
    let table = read(bytes)?;
    let plan = plan(&table)?;
    // As long as any w that is not refused can need.
    let mut trace = vec![0; table.processors * w.min(4_096) as usize];
    let done = run(bytes, arrivals, f, w, &mut trace)?;
    let mut lines = lanes(&table, f, w, &trace);
    for (row, place) in (1..).zip(&plan.places) {
        let [one, section, two] = done.worst[row - 1];
        let (d1, s, d2) = (place.d1, place.s, place.d2);
        lines.push(format!(
            "task {row} worst {one} {section} {two} bounds {d1} {s} {d2}"
        ));
    }
    let Done {
        jobs, run, owed, ..
    } = done;
    lines.push(format!("jobs {jobs}"));
    lines.push(format!("run {run}"));
    lines.push(format!("owed {owed}"));
    Ok(lines)
}

/// A line of ticks, then one line for each processor, a column a tick.
fn lanes(table: &Table, f: u64, w: u64, trace: &[u8]) -> Vec<String> {
    let width = (f + w).to_string().len().max(3) + 1;
    let ticks: String = (f..f + w).map(|tick| format!("{tick:>width$}")).collect();
    let mut lines = vec![format!("tick        {ticks}")];
    for processor in 1..=table.processors {
        let lane = trace.iter().skip(processor - 1).step_by(table.processors);
        let cells: String = lane
            .map(|&byte| format!("{:>width$}", cell(byte)))
            .collect();
        lines.push(format!("processor {processor:<2}{cells}"));
    }
    lines
}

/// The row with a letter behind it: a for stage one, x for the section, b for stage two. A dot is
/// an idle tick.
fn cell(byte: u8) -> String {
    let row = (byte & 63) + 1;
    match byte >> 6 {
        0 => ".".to_string(),
        1 => format!("{row}a"),
        2 => format!("{row}x"),
        _ => format!("{row}b"),
    }
}

/// Arrivals from a text with a line `tick row l1 l2 l3` for each; # begins a comment. An error
/// names the line.
pub fn read_arrivals(text: &str) -> Result<Vec<Arrival>, String> {
    let mut arrivals = Vec::new();
    for (number, line) in (1..).zip(text.lines()) {
        let words = line.split('#').next().unwrap_or("");
        let words: Vec<&str> = words.split_whitespace().collect();
        if words.is_empty() {
            continue;
        }
        match read_arrival(&words) {
            Some(arrival) => arrivals.push(arrival),
            None => return Err(format!("line {number} is not five whole numbers: {line}")),
        }
    }
    Ok(arrivals)
}

fn read_arrival(words: &[&str]) -> Option<Arrival> {
    let numbers: Result<Vec<u64>, _> = words.iter().map(|word| word.parse()).collect();
    match numbers.ok()?[..] {
        [tick, row, one, section, two] => Some(Arrival {
            tick,
            row,
            lengths: [one, section, two],
        }),
        _ => None,
    }
}

#[cfg(test)]
mod tests {
    use super::*;

    #[test]
    fn arrivals_are_read_past_comments() {
        let text = "# tick row lengths\n\n0 2 2 3 2\n 4 1 1 2 1 # later\n";
        let arrivals = read_arrivals(text).expect("two arrivals");
        assert_eq!(arrivals.len(), 2);
        assert_eq!((arrivals[1].tick, arrivals[1].lengths), (4, [1, 2, 1]));
        assert!(read_arrivals("0 1 2 3").is_err());
        assert!(read_arrivals("0 1 2 3 x").is_err());
    }
}
