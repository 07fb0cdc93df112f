//! The plan's bytes, and writing them into a lent sheet, with refusal 10.

use crate::answer::Refusal;
use crate::bits::Bits;
use crate::plan::{plan, Plan};
use crate::table::{read, Table};

/// "So 12 + 9n bytes"
pub fn size(table: &Table) -> usize {
    12 + 9 * table.tasks.len()
}

/// "Header: n (7), m (5), s (4). Then 16 fields of 5 bits .. Then 72 bits for each task"
pub fn bytes(table: &Table, plan: &Plan) -> Vec<u8> {
    let mut bits = Bits::default();
    bits.put(table.tasks.len() as u64, 7);
    bits.put(table.processors as u64, 5);
    bits.put(plan.sync as u64, 4);
    // "the processor of resources 1 to 16, 0 if unused"
    for &home in &plan.homes[1..] {
        bits.put(home as u64, 5);
    }
    // "application processor (5), D1, S, D2 (20 each), 7 zero bits"
    for place in &plan.places {
        bits.put(place.processor as u64, 5);
        bits.put(place.d1, 20);
        bits.put(place.s, 20);
        bits.put(place.d2, 20);
        bits.put(0, 7);
    }
    bits.bytes()
}

/// Plans the table and writes the plan "from byte `at` of the lent sheet on; bytes before and
/// behind are untouched". "Planning gives 1 to 11", and a refused one leaves the sheet as it was.
pub fn plan_into(table: &[u8], sheet: &mut [u8], at: usize) -> Result<Plan, Refusal> {
    let table = read(table)?;
    // 10: "sheet has fewer than at + 12 + 9n bytes"
    let end = match at.checked_add(size(&table)) {
        Some(end) if end <= sheet.len() => end,
        _ => return Err(Refusal::plain(10)),
    };
    let plan = plan(&table)?;
    sheet[at..end].copy_from_slice(&bytes(&table, &plan));
    Ok(plan)
}
