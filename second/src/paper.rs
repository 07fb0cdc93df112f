//! The paper's "Numbers to hold it to", one by one, against figures typed from the paper and from
//! its amendments "Blocking is a tick too long" and "By how much it failed", or worked out by hand
//! where these change them; and one case for each of its other rules that a run of plain figures
//! would not touch.

use crate::answer::Refusal;
use crate::listing::list;
use crate::plan::{homes, plan, Place, Plan};
use crate::raw::{self, RawTable};
use crate::run::{run, steps, Arrival, Done};
use crate::sheet::plan_into;
use crate::table::{read, Table};
use std::fmt::Debug;

type Figure = (&'static str, fn() -> Result<(), String>);

const FIGURES: [Figure; 37] = [
    ("P's bytes", p_bytes),
    ("P's listing", p_listing),
    ("P's section bounds under PCP", p_sections_pcp),
    ("P's section bounds under NPP", p_sections_npp),
    ("P's plan bytes", p_plan_bytes),
    ("Q on two processors", q_two),
    ("Q on three processors", q_three),
    ("Q with a longer stage two", q_longer),
    ("two full sections", full_sections),
    ("one row without a resource", one_row),
    ("Q on two processors with a longer stage two", q_two_longer),
    ("a value behind three members", fourth_member),
    ("a value that is the first member", first_member),
    ("stage two breaks its limit", stage_two_broke),
    ("the three bounds break the period", sum_broke),
    ("the smallest of three processors", middle_smallest),
    ("stage one counts before stage two", stage_one_first),
    ("the value of the last trial", last_trials_value),
    ("the value beside a run", run_refused),
    ("resources by weight", by_weight),
    ("trials one after the other", further_trials),
    ("P runs 8 ticks", p_runs_8),
    ("P runs 6 ticks", p_runs_6),
    ("P runs 5 ticks", p_runs_5),
    ("P with two arrivals", p_two_arrivals),
    ("longest period", longest_period),
    ("empty and long inputs", empty_and_long),
    ("the sheet around a plan", around_the_sheet),
    ("refusal 10 comes before 11", sheet_too_short),
    ("zero-length stage two on an arrival tick", two_on_arrival),
    ("zero-length stages in a row", zero_in_a_row),
    ("fixed releases", fixed_releases),
    ("PCP: a strictly better rank starts", pcp_nests),
    ("NPP: a begun section runs to its end", npp_waits),
    ("refusals 12 to 14", bad_calls),
    ("refusals 15 to 18", bad_arrivals),
    ("refusal 19", unfinished),
];

/// Holds every figure; hands back how many there are, or the first that does not hold.
pub fn hold() -> Result<usize, String> {
    for (name, figure) in FIGURES {
        figure().map_err(|why| format!("{name}: {why}"))?;
    }
    Ok(FIGURES.len())
}

fn same<T: Debug + PartialEq>(got: T, wanted: T) -> Result<(), String> {
    if got == wanted {
        return Ok(());
    }
    Err(format!("got {got:?}, wanted {wanted:?}"))
}

const PCP: u64 = 0;
const NPP: u64 = 1;

fn p(protocol: u64) -> RawTable {
    let rows = [(10, 1, 2, 1, 1), (20, 2, 3, 2, 1), (40, 4, 5, 4, 2)];
    raw::table(3, protocol, &rows)
}

fn q(m: u64, c2_of_row_1: u64) -> RawTable {
    raw::table(m, PCP, &[(10, 4, 1, c2_of_row_1, 1), (10, 4, 1, 4, 1)])
}

fn good(raw: &RawTable) -> Result<Table, String> {
    read(&raw.bytes()).map_err(|refusal| refusal.to_string())
}

fn planned(raw: &RawTable) -> Result<Plan, Refusal> {
    plan(&read(&raw.bytes())?)
}

/// Processor, D1, S, D2 of each row.
fn places(raw: &RawTable) -> Result<Vec<[u64; 4]>, String> {
    let plan = planned(raw).map_err(|refusal| refusal.to_string())?;
    let numbers = |p: &Place| [p.processor as u64, p.d1, p.s, p.d2];
    Ok(plan.places.iter().map(numbers).collect())
}

fn refused(number: u32, names: u32, mark: u32, value: u32) -> Refusal {
    Refusal {
        number,
        names,
        mark,
        value,
    }
}

fn arrival(tick: u64, row: u64, lengths: [u64; 3]) -> Arrival {
    Arrival { tick, row, lengths }
}

fn p_bytes() -> Result<(), String> {
    let typed = [
        0x06, 0x30, // header
        0x00, 0x00, 0xa0, 0x00, 0x01, 0x00, 0x00, 0x20, 0x00, 0x01, 0x08, // row 1
        0x00, 0x01, 0x40, 0x00, 0x02, 0x00, 0x00, 0x30, 0x00, 0x02, 0x08, // row 2
        0x00, 0x02, 0x80, 0x00, 0x04, 0x00, 0x00, 0x50, 0x00, 0x04, 0x10, // row 3
    ];
    same(p(PCP).bytes(), typed.to_vec())?;
    let table = good(&p(PCP))?;
    let rows: Vec<_> = table
        .tasks
        .iter()
        .map(|t| (t.period, t.lengths()))
        .collect();
    let wanted = vec![(10, [1, 2, 1]), (20, [2, 3, 2]), (40, [4, 5, 4])];
    same(rows, wanted)
}

fn p_listing() -> Result<(), String> {
    let wanted = "plan 3 3 1\n\
                  resource 1 1\n\
                  resource 2 1\n\
                  task 1 2 1 4 1\n\
                  task 2 2 4 5 4\n\
                  task 3 2 10 10 10\n";
    same(list(&p(PCP).bytes()), wanted.to_string())
}

fn sections(raw: &RawTable) -> Result<Vec<u64>, String> {
    Ok(places(raw)?.iter().map(|place| place[2]).collect())
}

fn p_sections_pcp() -> Result<(), String> {
    same(sections(&p(PCP))?, vec![4, 5, 10])
}

fn p_sections_npp() -> Result<(), String> {
    same(sections(&p(NPP))?, vec![6, 9, 10])
}

fn p_plan_bytes() -> Result<(), String> {
    let mut sheet = [0; 39];
    plan_into(&p(PCP).bytes(), &mut sheet, 0).map_err(|no| no.to_string())?;
    same(&sheet[..4], &[0x06, 0x31, 0x08, 0x40])?;
    let row_1 = [0x10, 0x00, 0x00, 0x80, 0x00, 0x20, 0x00, 0x00, 0x80];
    same(&sheet[12..21], &row_1[..])
}

/// Row 2 has S = 2, so that its stages have 10 − 2 = 8. D1 on processor 2: 4, then 4 + (4 + 4) = 12.
fn q_two() -> Result<(), String> {
    same(planned(&q(2, 4)), Err(refused(11, 2, 2, 12)))?;
    same(list(&q(2, 4).bytes()), "refused 11 2 2 12\n".to_string())
}

fn q_three() -> Result<(), String> {
    same(places(&q(3, 4))?, vec![[2, 4, 1, 4], [3, 4, 2, 4]])
}

fn q_longer() -> Result<(), String> {
    same(places(&q(3, 5))?, vec![[2, 4, 1, 5], [3, 4, 2, 4]])
}

/// B of row 1 is 3 − 1, and 3 + 2 is at once above 4.
fn full_sections() -> Result<(), String> {
    let table = raw::table(2, PCP, &[(4, 0, 3, 0, 1), (4, 0, 3, 0, 1)]);
    same(planned(&table), Err(refused(11, 1, 1, 5)))?;
    same(list(&table.bytes()), "refused 11 1 1 5\n".to_string())
}

fn one_row() -> Result<(), String> {
    let table = raw::table(2, PCP, &[(1, 1, 0, 0, 0)]);
    same(planned(&table).map(|plan| plan.sync), Ok(0))?;
    same(places(&table)?, vec![[1, 1, 0, 0]])
}

/// As above, but the term of row 1 is 4 + 5: 4, then 4 + 9 = 13.
fn q_two_longer() -> Result<(), String> {
    same(planned(&q(2, 5)), Err(refused(11, 2, 2, 13)))
}

/// Two sections on processor 1, the longer one with the longer period.
fn two_sections(protocol: u64) -> RawTable {
    raw::table(2, protocol, &[(30, 0, 9, 0, 2), (10, 0, 8, 0, 1)])
}

/// Row 2 is ranked first. Under PCP the ceiling of resource 2 is rank 2, so nothing is in its way.
/// Row 1 has no B, and the term of row 2 is 8 every 10 ticks: 9, 9 + 8 = 17, 9 + 2 × 8 = 25, and
/// 9 + 3 × 8 = 33 is above 30. (The next are 41 and 49, the least t.)
fn fourth_member() -> Result<(), String> {
    same(planned(&two_sections(PCP)), Err(refused(11, 1, 1, 33)))
}

/// Under NPP row 1 may be in the way of row 2 for 9 − 1 ticks, and 8 + 8 is at once above 10.
/// And in P with A = 9 in row 2, row 1 has S = 2 + 8 = 10, which leaves nothing for its stages: its
/// C1 = 1 is at once above 0, on whatever processor.
fn first_member() -> Result<(), String> {
    same(planned(&two_sections(NPP)), Err(refused(11, 2, 1, 16)))?;
    let mut p = p(PCP);
    p.rows[1].a = 9;
    same(planned(&p), Err(refused(11, 1, 2, 1)))
}

/// Row 1 has S = 1 + 1 and takes 3 + 2 + 3 of 10 ticks; on processor 2 its term is 6 every 10. Row 2
/// has S = 2 + 1 = 3, so that its stages have 20 − 3 = 17. D1: 2, then 2 + 6 = 8, and 8 it is.
fn two_on_one(c2_of_row_2: u64) -> RawTable {
    raw::table(2, PCP, &[(10, 3, 1, 3, 1), (20, 2, 2, c2_of_row_2, 1)])
}

/// D2: 6, then 6 + 6 = 12, then 6 + 2 × 6 = 18 is above 17 (and not above T).
fn stage_two_broke() -> Result<(), String> {
    same(planned(&two_on_one(6)), Err(refused(11, 2, 2, 18)))
}

/// D2: 4, then 4 + 6 = 10, and 10 it is; but 8 + 3 + 10 is 21. With 3 in place of 4 it is 20, and
/// row 2 fits.
fn sum_broke() -> Result<(), String> {
    same(planned(&two_on_one(4)), Err(refused(11, 2, 2, 21)))?;
    same(places(&two_on_one(3))?, vec![[2, 3, 2, 3], [2, 8, 3, 9]])
}

/// Each of the first three rows is too long to go behind another, so that it has a processor of its
/// own. Row 4 may take 20 ticks:
/// on 1, behind 10 every 10, D1 is 4, 4 + 10 = 14, and 4 + 2 × 10 = 24 is too much;
/// on 2, behind 6 every 11, D1 is 4 + 6 = 10 and D2 is 5 + 6 = 11, and their sum of 21 is too much;
/// on 3, behind 9 every 13, D1 is 4 + 9 = 13, and D2 is 5, 5 + 9 = 14, and 5 + 2 × 9 = 23 is too much.
fn middle_smallest() -> Result<(), String> {
    let alone = [(10, 10, 0, 0, 0), (11, 6, 0, 0, 0), (13, 9, 0, 0, 0)];
    same(
        places(&raw::table(3, NPP, &alone))?,
        vec![[1, 10, 0, 0], [2, 6, 0, 0], [3, 9, 0, 0]],
    )?;
    let rows = [&alone[..], &[(20, 4, 0, 5, 0)]].concat();
    same(
        planned(&raw::table(3, NPP, &rows)),
        Err(refused(11, 4, 2, 21)),
    )
}

/// Rows 1 and 2 have a processor each, and row 3 may take 15 ticks. On 1, behind 7 every 10, a stage of
/// 3 has 3 + 7 = 10; one of 4 has 4 + 7 = 11, and then 4 + 2 × 7 = 18 is too much; one of 7 has
/// 7 + 7 = 14, and then 7 + 2 × 7 = 21 is. On 2, behind 8 every 11, it is 3 + 8 = 11; 12 and then 20;
/// 15 and then 23.
fn stage_one_first() -> Result<(), String> {
    let with = |c1, c2| {
        let rows = [(10, 7, 0, 0, 0), (11, 0, 0, 8, 0), (15, c1, 0, c2, 0)];
        planned(&raw::table(2, PCP, &rows))
    };
    // D1 alone is missing on both; then D2 alone; then none, and the sums are 20 and 22.
    same(with(4, 3), Err(refused(11, 3, 2, 18)))?;
    same(with(3, 4), Err(refused(11, 3, 2, 18)))?;
    same(with(3, 3), Err(refused(11, 3, 2, 20)))?;
    // Where both are missing, D1 counts, be it the smaller or the larger value.
    same(with(4, 7), Err(refused(11, 3, 2, 18)))?;
    same(with(7, 4), Err(refused(11, 3, 2, 21)))
}

/// With one processor for sections, row 2 has S = 5 + 5 = 10, and its C1 = 4 is at once above 0. With
/// two it has S = 5, and on processor 3, the only one left, D1 is 4, then 4 + 4 = 8 is above 5. The
/// last trial counts, though the first came nearer.
fn last_trials_value() -> Result<(), String> {
    let on = |m| raw::table(m, PCP, &[(10, 4, 5, 0, 1), (10, 4, 5, 0, 2)]);
    same(planned(&on(2)), Err(refused(11, 2, 2, 4)))?;
    same(planned(&on(3)), Err(refused(11, 2, 2, 8)))
}

/// A run is refused as its table is, before its other numbers are looked at.
fn run_refused() -> Result<(), String> {
    let answer = |raw: &RawTable| run(&raw.bytes(), &[], 0, 4_097, &mut []).err();
    same(answer(&q(2, 4)), Some(refused(11, 2, 2, 12)))?;
    same(answer(&two_sections(PCP)), Some(refused(11, 1, 1, 33)))?;
    same(answer(&p(PCP)), Some(refused(12, 0, 0, 0)))
}

/// Heaviest first, to the least loaded; the lower number wins a tie; weights are rounded up.
fn by_weight() -> Result<(), String> {
    let homes_of = |rows: &[_]| Ok::<_, String>(homes(&good(&raw::table(3, PCP, rows))?, 2));
    let four = homes_of(&[
        (10, 0, 1, 0, 1),
        (10, 0, 4, 0, 2),
        (10, 0, 3, 0, 3),
        (3, 0, 1, 0, 4),
    ])?;
    same(&four[..6], &[0, 1, 1, 2, 2, 0])?;
    let tied = homes_of(&[(10, 0, 2, 0, 9), (5, 0, 1, 0, 7), (5, 0, 1, 0, 16)])?;
    same([tied[7], tied[9], tied[16]], [1, 2, 1])?;
    // 333,333 is lighter than a third of a million.
    let rounded = homes_of(&[(1_000_000, 0, 333_333, 0, 1), (3, 0, 1, 0, 2)])?;
    same([rounded[1], rounded[2]], [2, 1])
}

/// Two sections too long for one processor, where row 2 is at 3 and then at 3 + 3 = 6 of 4 ticks: the
/// second trial plans them, if m allows for one.
fn further_trials() -> Result<(), String> {
    let on = |m| raw::table(m, PCP, &[(4, 0, 3, 0, 1), (4, 0, 3, 0, 2)]);
    same(planned(&on(2)), Err(refused(11, 2, 1, 6)))?;
    same(planned(&on(3)).map(|plan| plan.sync), Ok(2))?;
    same(places(&on(3))?, vec![[3, 0, 3, 0], [3, 0, 3, 0]])
}

/// Runs on a trace just long enough; hands back the trace, a list of bytes for each tick.
fn runs(
    raw: &RawTable,
    arrivals: &[Arrival],
    f: u64,
    w: u64,
) -> Result<(Vec<Vec<u8>>, Done), String> {
    let m = raw.m as usize;
    let mut trace = vec![0xee; m * w as usize];
    let done = run(&raw.bytes(), arrivals, f, w, &mut trace).map_err(|no| no.to_string())?;
    let ticks = trace.chunks(m).map(|tick| tick.to_vec()).collect();
    Ok((ticks, done))
}

fn counts(done: &Done) -> [u64; 3] {
    [done.jobs, done.run, done.owed]
}

fn p_runs_8() -> Result<(), String> {
    let (trace, done) = runs(&p(PCP), &[arrival(0, 1, [1, 2, 1])], 0, 8)?;
    let mut wanted = vec![vec![0; 3]; 8];
    wanted[0][1] = 0x40;
    wanted[1][0] = 0x80;
    wanted[2][0] = 0x80;
    wanted[5][1] = 0xc0;
    same(trace, wanted)?;
    same(done.worst[0], [1, 2, 1])?;
    same(done.worst[1..].concat(), vec![0; 189])?;
    same(counts(&done), [1, 4, 0])
}

fn p_runs_6() -> Result<(), String> {
    let (_, done) = runs(&p(PCP), &[arrival(0, 1, [1, 2, 1])], 0, 6)?;
    same(done.worst[0], [1, 2, 1])?;
    same(counts(&done), [1, 4, 0])
}

/// Stage two, which is released at 5, is owed.
fn p_runs_5() -> Result<(), String> {
    let (_, done) = runs(&p(PCP), &[arrival(0, 1, [1, 2, 1])], 0, 5)?;
    same(done.worst[0], [1, 2, 0])?;
    same(counts(&done), [0, 3, 1])
}

fn p_two_arrivals() -> Result<(), String> {
    let both = [arrival(0, 2, [2, 3, 2]), arrival(4, 1, [1, 2, 1])];
    let (trace, done) = runs(&p(PCP), &both, 0, 20)?;
    let sections: Vec<u8> = trace[4..10].iter().map(|tick| tick[0]).collect();
    same(sections, vec![0x81, 0x81, 0x81, 0x80, 0x80, 0])?;
    // Both stages two are released at 9.
    let stages: Vec<u8> = trace[8..13].iter().map(|tick| tick[1]).collect();
    same(stages, vec![0, 0xc0, 0xc1, 0xc1, 0])?;
    same(&done.worst[..2], &[[1, 4, 1], [2, 3, 3]])
}

fn longest_period() -> Result<(), String> {
    let of = |t| raw::table(2, PCP, &[(t, 1, 0, 0, 0)]);
    same(planned(&of(1_000_000)).is_ok(), true)?;
    same(planned(&of(1_000_001)), Err(refused(6, 1, 0, 0)))
}

fn empty_and_long() -> Result<(), String> {
    same(list(&[]), "refused 1 0 0 0\n".to_string())?;
    let mut long = raw::table(16, NPP, &[(9, 1, 1, 1, 16); 64]).bytes();
    same(long.len(), 706)?;
    // Row 10 is at 1 and then at 1 + 9 × 1.
    same(list(&long), "refused 11 10 1 10\n".to_string())?;
    long.extend([0; 500]);
    same(list(&long), "refused 5 0 0 0\n".to_string())?;
    long[1] |= 1;
    same(list(&long), "refused 4 0 0 0\n".to_string())
}

fn around_the_sheet() -> Result<(), String> {
    let mut alone = [0; 39];
    let mut sheet = [0xee; 50];
    plan_into(&p(PCP).bytes(), &mut alone, 0).map_err(|no| no.to_string())?;
    plan_into(&p(PCP).bytes(), &mut sheet, 7).map_err(|no| no.to_string())?;
    same(&sheet[..7], &[0xee; 7][..])?;
    same(&sheet[7..46], &alone[..])?;
    same(&sheet[46..], &[0xee; 4][..])
}

fn sheet_too_short() -> Result<(), String> {
    let mut sheet = [0xee; 30];
    let answer = |sheet: &mut [u8], at| plan_into(&q(2, 4).bytes(), sheet, at).err();
    same(answer(&mut sheet, 1), Some(refused(10, 0, 0, 0)))?;
    same(answer(&mut sheet, usize::MAX), Some(refused(10, 0, 0, 0)))?;
    same(answer(&mut sheet, 0), Some(refused(11, 2, 2, 12)))?;
    same(sheet, [0xee; 30])
}

/// D1 + S = T, so that stage two of one job is released as the next arrives.
fn two_on_arrival() -> Result<(), String> {
    let table = raw::table(2, PCP, &[(4, 2, 2, 0, 1)]);
    same(places(&table)?, vec![[2, 2, 2, 0]])?;
    let twice = [arrival(0, 1, [2, 2, 0]), arrival(4, 1, [2, 2, 0])];
    let (_, before) = runs(&table, &twice, 0, 4)?;
    same(counts(&before), [0, 4, 0])?;
    let (_, after) = runs(&table, &twice, 0, 5)?;
    same(counts(&after), [1, 5, 3])
}

/// Without a section, stage two is released with the end of an empty section at a + D1.
fn zero_in_a_row() -> Result<(), String> {
    let table = raw::table(2, NPP, &[(6, 3, 0, 0, 0), (6, 0, 0, 2, 0)]);
    same(places(&table)?, vec![[1, 3, 0, 0], [1, 0, 0, 5]])?;
    let both = [arrival(0, 1, [0, 0, 0]), arrival(1, 2, [0, 0, 2])];
    let (trace, done) = runs(&table, &both, 0, 3)?;
    same(trace, vec![vec![0, 0], vec![0xc1, 0], vec![0xc1, 0]])?;
    same(counts(&done), [1, 2, 0])?;
    let (_, later) = runs(&table, &both, 0, 4)?;
    same(counts(&later), [2, 2, 0])?;
    same(later.worst[1], [0, 0, 2])
}

/// Shorter lengths than the table's change no release.
fn fixed_releases() -> Result<(), String> {
    let early = [arrival(3, 3, [1, 1, 1])];
    let (trace, done) = runs(&p(PCP), &early, 2, 30)?;
    let busy = |tick: usize| trace[tick - 2].clone();
    same(busy(3), vec![0, 0x42, 0])?;
    same(busy(13), vec![0x82, 0, 0])?;
    same(busy(23), vec![0, 0xc2, 0])?;
    same(done.worst[2], [1, 1, 1])?;
    same(counts(&done), [1, 3, 0])
}

/// Three rows whose sections alone matter: row 3 begins first, row 1 is better than its ceiling.
fn nested(protocol: u64) -> RawTable {
    let rows = [(50, 0, 2, 0, 1), (60, 0, 2, 0, 2), (70, 0, 5, 0, 2)];
    raw::table(2, protocol, &rows)
}

fn nested_sections(protocol: u64) -> Result<Vec<u8>, String> {
    let three = [
        arrival(0, 3, [0, 5, 0]),
        arrival(1, 2, [0, 2, 0]),
        arrival(2, 1, [0, 2, 0]),
    ];
    let (trace, _) = runs(&nested(protocol), &three, 0, 10)?;
    Ok(trace.iter().map(|tick| tick[0]).collect())
}

fn pcp_nests() -> Result<(), String> {
    // Row 2 is as good as the ceiling, not strictly better, and waits; row 1 does not.
    let wanted = vec![0x82, 0x82, 0x80, 0x80, 0x82, 0x82, 0x82, 0x81, 0x81, 0];
    same(nested_sections(PCP)?, wanted)
}

fn npp_waits() -> Result<(), String> {
    let wanted = vec![0x82, 0x82, 0x82, 0x82, 0x82, 0x80, 0x80, 0x81, 0x81, 0];
    same(nested_sections(NPP)?, wanted)
}

fn bad_calls() -> Result<(), String> {
    let bytes = p(PCP).bytes();
    let mut trace = vec![0xee; 3 * 4_096];
    let many = vec![arrival(0, 0, [0; 3]); 4_097];
    let mut answer = |arrivals: &[Arrival], f, w, length| {
        let part: &mut [u8] = &mut trace[..length];
        run(&bytes, arrivals, f, w, part).map(|done| done.run)
    };
    same(answer(&[], 995_904, 4_096, 12_288), Ok(0))?;
    same(answer(&[], 0, 4_097, 12_288), Err(refused(12, 0, 0, 0)))?;
    same(answer(&many, 999_999, 2, 0), Err(refused(12, 0, 0, 0)))?;
    same(answer(&[], u64::MAX, 1, 3), Err(refused(12, 0, 0, 0)))?;
    same(answer(&[], 0, 0, 0), Ok(0))?;
    same(answer(&many, 0, 5, 14), Err(refused(13, 0, 0, 0)))?;
    same(answer(&many, 0, 5, 15), Err(refused(14, 0, 0, 0)))?;
    same(answer(&many[..4_096], 0, 5, 15), Err(refused(15, 1, 0, 0)))
}

fn bad_arrivals() -> Result<(), String> {
    let first = arrival(5, 2, [2, 3, 2]);
    let answer = |second: Arrival| {
        let mut trace = [0xee; 12];
        let answer = run(&p(PCP).bytes(), &[first, second], 0, 4, &mut trace).map(|_| ());
        // Refused calls leave the trace; the others have written all of it.
        let kept = trace == [0xee; 12];
        (answer, kept)
    };
    let no = |number| (Err(refused(number, 2, 0, 0)), true);
    same(answer(arrival(0, 0, [9; 3])), no(15))?;
    same(answer(arrival(9, 4, [0; 3])), no(15))?;
    same(answer(arrival(4, 1, [9; 3])), no(16))?;
    same(answer(arrival(5, 1, [0; 3])), no(16))?;
    same(answer(arrival(5, 2, [0; 3])), no(16))?;
    same(answer(arrival(1_000_000, 1, [0; 3])), no(16))?;
    same(answer(arrival(6, 2, [2, 4, 2])), no(17))?;
    same(answer(arrival(24, 2, [0; 3])), no(18))?;
    same(answer(arrival(25, 2, [0; 3])), (Ok(()), false))?;
    same(answer(arrival(999_999, 3, [4, 5, 4])), (Ok(()), false))
}

/// No planned table brings 19 about, so the machine is given bounds that are too short.
fn unfinished() -> Result<(), String> {
    let table = good(&raw::table(2, PCP, &[(90, 3, 0, 0, 0); 3]))?;
    let place = |d1| Place {
        processor: 1,
        d1,
        s: 0,
        d2: 0,
    };
    let plan = Plan {
        sync: 0,
        homes: [0; 17],
        places: vec![place(50), place(6), place(7)],
    };
    let answer = |arrivals: &[Arrival], w| steps(&table, &plan, arrivals, 0, w).err();
    let full = |tick, row| arrival(tick, row, [3, 0, 0]);
    // Row 2 ends at 6, just as its section is released; row 3 would end at 9, not at 7.
    let all = [full(0, 1), full(0, 2), full(0, 3)];
    same(answer(&all, 7), None)?;
    same(answer(&all, 8), Some(3))?;
    // A job that arrives before the last one of its task has ended.
    let again = [full(0, 2), full(2, 2)];
    same(answer(&again, 2), None)?;
    same(answer(&again, 3), Some(2))?;
    // Row 3 is caught at tick 7 by a release, row 1 at the same tick by an arrival: the lower row.
    let both = [full(0, 3), full(0, 1), full(0, 2), full(7, 1)];
    same(answer(&both, 7), None)?;
    same(answer(&both, 8), Some(1))
}

#[cfg(test)]
mod tests {
    #[test]
    fn every_figure_holds() {
        assert_eq!(super::hold(), Ok(super::FIGURES.len()));
    }
}
