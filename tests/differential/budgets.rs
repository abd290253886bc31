//! Document 02, ticket 5: a budget of 1,400 settles every production, price and inverse column that passes
//! the other questions. Every case is held against it, and the slowest sheets that are known are built
//! and settled; `tests/slow/run` looks for slower ones.

use crate::calls::{by_library, by_reference, number_seen, Call, Case, Outcome};
use crate::reference::{COLUMN_LIMIT, DEMAND_LIMIT, ONE, PAGE_BUDGET, PRICE_BUDGET, PRODUCTION_BUDGET, RISE_LIMIT, SECTORS};

const MILLION: u64 = ONE as u64;
const LIMIT: u64 = COLUMN_LIMIT as u64;
const N: usize = SECTORS;

/// The budget of a call that always suffices, if the call goes round.
pub fn enough(call: Call) -> Option<u32> {
    match call {
        Call::Production | Call::Impact | Call::Page => Some(PRODUCTION_BUDGET),
        Call::Price | Call::Inverse => Some(PRICE_BUDGET),
        _ => None,
    }
}

/// A case and what one side gives. An error if number 9 comes although the budget suffices.
pub fn check(case: &Case, outcome: &Outcome) -> Result<(), &'static str> {
    let budget = if case.call == Call::Page { PAGE_BUDGET } else { case.budget };
    if enough(case.call).is_some_and(|least| budget >= least) && number_seen(case, outcome) == 9 {
        return Err("number 9 from a budget that suffices");
    }
    Ok(())
}

/// A ring of 40 at the column limit: each sector buys from the next alone. All amounts are equal but one,
/// which has a unit more; that unit goes round 19 times, a sector a round.
fn ring(amount: u64) -> (Vec<u64>, Vec<u64>) {
    let mut d = vec![0; N * N];
    (0..N).for_each(|j| d[(j + 1) % N * N + j] = LIMIT);
    let mut start = vec![amount; N];
    start[0] += 1;
    (d, start)
}

/// A loop and a ring of 39. Sector 0, the loop, buys mostly from itself and settles last; the ring rests before that, each sector
/// where it can pass a unit on 19 times. The loop's last unit lifts sector 1 by a unit, which goes round. The sectors of
/// the ring buy a little from sector 1 and from the loop too, so that the unit is passed on there, and takes 40 rounds each time.
/// The demands are those behind the amounts at which the ring rests.
pub fn loop_and_ring() -> (Vec<u64>, Vec<u64>) {
    const NEXT: u64 = 947_379;
    const FIRST: u64 = 2_050;
    let mut d = vec![0; N * N];
    d[N] = 1;
    (1..N - 1).for_each(|j| d[(j + 1) * N + j] = NEXT);
    (2..N - 1).for_each(|j| d[N + j] = FIRST);
    d[N + N - 1] = MILLION - 1 - (N as u64 - 3) * FIRST;
    for j in 0..N {
        d[j] = LIMIT - (1..N).map(|i| d[i * N + j]).sum::<u64>();
    }
    let mut rest = vec![38_007_537_295; N];
    (rest[0], rest[1]) = (77_696_537_295, 38_007_651_736);
    let taken = |i: usize| (0..N).map(|j| d[i * N + j] * rest[j]).sum::<u64>() / MILLION;
    let mut demand: Vec<u64> = (0..N).map(|i| rest[i] - taken(i)).collect();
    // Sector 1 rests a unit lower, until the loop has its last unit.
    demand[1] += 1;
    (d, demand)
}

/// The same for a column of the inverse, in which only the loop has a demand: of the ring there is demanded what the loop buys
/// from sector 1. Each sector buys the most from the next with which that one rests as above.
fn loop_and_ring_of_units() -> Vec<u64> {
    const OUTLET: u64 = 152;
    const FIRST: u64 = 1_370;
    let mut d = vec![0; N * N];
    (d[0], d[N]) = (LIMIT - OUTLET, OUTLET);
    let mut amount = 3_535;
    for j in 1..N - 1 {
        let first = if j == 1 { 0 } else { FIRST };
        d[N + j] = first;
        let passes = |cell: &u64| cell * amount % MILLION >= 19 * (MILLION - cell);
        let next = (0..=LIMIT - first).rev().find(passes).expect("a cell with which the sector rests");
        d[(j + 1) * N + j] = next;
        amount = next * amount / MILLION;
    }
    d[N + N - 1] = 949_638;
    d
}

/// The slowest sheets that are known, each with its count.
fn slow() -> Vec<(Call, Vec<Vec<u64>>, usize)> {
    let (rises, most) = (RISE_LIMIT as u64, DEMAND_LIMIT as u64);
    let (d, demand) = ring(most - 20);
    let (turned, rise) = ring(rises - 20);
    let (slowest, slowest_demand) = loop_and_ring();
    vec![
        (Call::Production, vec![d.clone(), demand.clone()], 1_189),
        (Call::Production, vec![slowest.clone(), slowest_demand.clone()], 1_244),
        // In the one impact the second demand is slow, in the other the first.
        (Call::Impact, vec![slowest, vec![0; N], slowest_demand], 1_244),
        (Call::Impact, vec![d, demand, vec![most; N]], 1_189),
        (Call::Price, vec![turned, rise], 1_175),
        (Call::Inverse, vec![loop_and_ring_of_units()], 1_022),
    ]
}

pub struct Report {
    pub sheets: usize,
    /// The most rounds of production, impact, price and inverse.
    pub most: [usize; 4],
    pub broken: usize,
}

/// One slow sheet: a round less than its count is too few; with its count, the budget that suffices and any more it settles in that count.
fn settles(call: Call, given: &[Vec<u64>], count: usize) -> Result<(), String> {
    let suffices = enough(call).ok_or("a call without rounds")?;
    for budget in [count as u32 - 1, count as u32, suffices, u32::MAX] {
        let case = Case { budget, ..Case::new(call, N, given.to_vec()) };
        let paper = by_reference(&case);
        let library = by_library(&case)?;
        let expected = if (budget as usize) < count { (9, 0) } else { (0, count) };
        for (side, outcome) in [("paper", &paper), ("library", &library)] {
            if (outcome.number, outcome.counts[0]) != expected {
                return Err(format!("budget {budget}: {side} gives {} and {} rounds", outcome.number, outcome.counts[0]));
            }
        }
        if library != paper {
            return Err(format!("budget {budget}: paper and library differ"));
        }
    }
    Ok(())
}

pub fn run() -> Report {
    let mut report = Report { sheets: 0, most: [0; 4], broken: 0 };
    for (call, given, count) in slow() {
        report.sheets += 1;
        let calls = [Call::Production, Call::Impact, Call::Price, Call::Inverse];
        let at = calls.iter().position(|other| *other == call).expect("a call that goes round");
        report.most[at] = report.most[at].max(count);
        if let Err(what) = settles(call, &given, count) {
            report.broken += 1;
            println!("slow sheet {}, {} of {count} rounds: {what}", report.sheets, call.name());
        }
    }
    report
}
