//! The reader, the planner and the machine that are written for speed, alone, for `half.c` to link:
//! called as the product is.

#![no_std]

#[path = "../src/fast.rs"]
mod fast;
#[path = "../src/fast_run.rs"]
mod fast_run;

use core::slice::{from_raw_parts, from_raw_parts_mut};

/// # Safety
/// The pointer is good for as many bytes as are named.
#[no_mangle]
pub unsafe extern "C" fn second_read(table: *const u8, table_length: usize) -> fast::Answer {
    match first_refusal(from_raw_parts(table, table_length)) {
        Ok(()) => fast::refused(0, 0),
        Err(no) => no,
    }
}

/// As the planner reads a table, but nobody wants it, so that no order of its rows is worked out.
fn first_refusal(table: &[u8]) -> Result<(), fast::Answer> {
    let (_, rows) = fast::read_header(table)?;
    for (row, own) in rows.enumerate() {
        fast::read_row(row, own)?;
    }
    Ok(())
}

/// # Safety
/// Both pointers are good for as many bytes as are named, and the sheet is nobody else's.
#[no_mangle]
pub unsafe extern "C" fn second_plan(
    table: *const u8,
    table_length: usize,
    at: usize,
    sheet: *mut u8,
    sheet_length: usize,
) -> fast::Answer {
    let table = from_raw_parts(table, table_length);
    fast::plan_into(table, at, from_raw_parts_mut(sheet, sheet_length))
}

/// # Safety
/// All pointers are good for as many bytes or arrivals as are named, and the trace is nobody
/// else's.
#[no_mangle]
pub unsafe extern "C" fn second_run(
    table: *const u8,
    table_length: usize,
    arrivals: *const fast_run::Arrival,
    arrival_count: usize,
    from: usize,
    ticks: usize,
    trace: *mut u8,
    trace_length: usize,
) -> fast_run::Ran {
    let table = from_raw_parts(table, table_length);
    let arrivals = from_raw_parts(arrivals, arrival_count);
    let trace = from_raw_parts_mut(trace, trace_length);
    fast_run::run_into(table, arrivals, from, ticks, trace)
}
