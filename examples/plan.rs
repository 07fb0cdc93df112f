//! Plans two tables, and prints the plan of the first and why the second has none.
//!
//!     rustc examples/plan.rs -L target/staticlib -l static=kieferntuch && ./plan

use std::fmt;

/// A refusal: its number (0: none), the row that it names or 0, its mark, and its value.
#[repr(C)]
struct Answer {
    number: u32,
    names: u32,
    mark: u32,
    value: u32,
}

// In edition 2024: unsafe extern "C".
extern "C" {
    fn kieferntuch_plan(
        table: *const u8,
        table_length: usize,
        at: usize,
        sheet: *mut u8,
        sheet_length: usize,
    ) -> Answer;
}

/// Each row has its period, stage one, section, stage two, and the resource of its section.
#[rustfmt::skip]
const P: [u8; 35] = [
    0x06, 0x38, // 3 rows, 3 processors, NPP
    0x00, 0x00, 0xa0, 0x00, 0x01, 0x00, 0x00, 0x20, 0x00, 0x01, 0x08, // 10, 1, 2, 1, resource 1
    0x00, 0x01, 0x40, 0x00, 0x02, 0x00, 0x00, 0x30, 0x00, 0x02, 0x08, // 20, 2, 3, 2, resource 1
    0x00, 0x02, 0x80, 0x00, 0x04, 0x00, 0x00, 0x50, 0x00, 0x04, 0x10, // 40, 4, 5, 4, resource 2
];

/// One processor serves the resource, and on the other there is no room for row 2: its stages have 8
/// ticks, and with row 1's in front of it, its stage one alone would take 12.
#[rustfmt::skip]
const Q: [u8; 24] = [
    0x04, 0x20, // 2 rows, 2 processors, PCP
    0x00, 0x00, 0xa0, 0x00, 0x04, 0x00, 0x00, 0x10, 0x00, 0x04, 0x08, // 10, 4, 1, 4, resource 1
    0x00, 0x00, 0xa0, 0x00, 0x04, 0x00, 0x00, 0x10, 0x00, 0x04, 0x08, // 10, 4, 1, 4, resource 1
];

/// As many bytes as any plan needs: 12, and 9 for each of at most 64 rows.
const SHEET: usize = 12 + 9 * 64;

/// A plan's bytes.
struct Plan([u8; SHEET]);

/// Plans a table, whatever its bytes are.
fn plan(table: &[u8]) -> Result<Plan, Answer> {
    let mut sheet = [0; SHEET];
    // SAFETY: each pointer is good for the length beside it, and nobody else has the sheet.
    let answer =
        unsafe { kieferntuch_plan(table.as_ptr(), table.len(), 0, sheet.as_mut_ptr(), SHEET) };
    match answer.number {
        0 => Ok(Plan(sheet)),
        _ => Err(answer),
    }
}

impl Plan {
    /// The number that stands in `width` bits from bit `from` on, the most significant bit first.
    fn field(&self, from: usize, width: usize) -> u32 {
        let bit = |place: usize| u32::from(self.0[place / 8] >> (7 - place % 8) & 1);
        (from..from + width).fold(0, |value, place| value << 1 | bit(place))
    }

    /// The header has 7 bits for the rows, 5 for the processors, 4 for those that serve sections.
    fn write_header(&self, out: &mut fmt::Formatter<'_>) -> fmt::Result {
        let [rows, processors, serving] = [(0, 7), (7, 5), (12, 4)].map(|(f, w)| self.field(f, w));
        writeln!(out, "plan {} {} {}", rows, processors, serving)
    }

    /// Then come the processors of resources 1 to 16, 5 bits each; 0 if nobody uses it.
    fn write_resources(&self, out: &mut fmt::Formatter<'_>) -> fmt::Result {
        for resource in 1..=16 {
            let processor = self.field(16 + 5 * (resource - 1), 5);
            if processor > 0 {
                writeln!(out, "resource {} {}", resource, processor)?;
            }
        }
        Ok(())
    }

    /// From byte 12 on each row has 72 bits: processor (5), D1, S and D2 (20 each), 7 zero bits.
    fn write_tasks(&self, out: &mut fmt::Formatter<'_>) -> fmt::Result {
        for row in 1..=self.field(0, 7) as usize {
            let from = 8 * 12 + 72 * (row - 1);
            let processor = self.field(from, 5);
            let [d1, s, d2] = [5, 25, 45].map(|place| self.field(from + place, 20));
            writeln!(out, "task {} {} {} {} {}", row, processor, d1, s, d2)?;
        }
        Ok(())
    }
}

impl fmt::Display for Plan {
    fn fmt(&self, out: &mut fmt::Formatter<'_>) -> fmt::Result {
        self.write_header(out)?;
        self.write_resources(out)?;
        self.write_tasks(out)
    }
}

impl fmt::Display for Answer {
    fn fmt(&self, out: &mut fmt::Formatter<'_>) -> fmt::Result {
        let Answer { number, names, mark, value } = self;
        writeln!(out, "refused {} {} {} {}", number, names, mark, value)
    }
}

fn show(table: &[u8]) {
    match plan(table) {
        Ok(plan) => print!("{}", plan),
        Err(refusal) => print!("{}", refusal),
    }
}

fn main() {
    show(&P);
    show(&Q);
}
