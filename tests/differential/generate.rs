//! Pseudo-random cases: valid, nearly valid and hostile. A case depends on its index alone.

use crate::budgets::loop_and_ring;
use crate::calls::{by_reference, Call, Case, ORDER, PAGE_BYTES};
use crate::reference::{self, amounts, PRICE_BUDGET, PRODUCTION_BUDGET, SECTORS};

const AMOUNT: u64 = reference::AMOUNT_LIMIT as u64;
const ONE: u64 = reference::ONE as u64;
const COLUMN: u64 = reference::COLUMN_LIMIT as u64;
const DEMAND: u64 = reference::DEMAND_LIMIT as u64;
const RISE: u64 = reference::RISE_LIMIT as u64;
const PRODUCTION: u64 = reference::PRODUCTION_LIMIT as u64;

/// Xorshift, 64 bits.
pub struct Rng(u64);

impl Rng {
    /// One stream for each index.
    pub fn new(seed: u64, index: u64) -> Rng {
        let mut z = seed.wrapping_add((index + 1).wrapping_mul(0x9e37_79b9_7f4a_7c15));
        z = (z ^ (z >> 30)).wrapping_mul(0xbf58_476d_1ce4_e5b9);
        z = (z ^ (z >> 27)).wrapping_mul(0x94d0_49bb_1331_11eb);
        Rng((z ^ (z >> 31)) | 1)
    }

    pub fn next(&mut self) -> u64 {
        self.0 ^= self.0 >> 12;
        self.0 ^= self.0 << 25;
        self.0 ^= self.0 >> 27;
        self.0.wrapping_mul(0x2545_f491_4f6c_dd1d)
    }

    /// 0 to `most`, both included.
    pub fn upto(&mut self, most: u64) -> u64 {
        if most == u64::MAX { self.next() } else { (self.next() >> 1) % (most + 1) }
    }

    pub fn between(&mut self, least: u64, most: u64) -> u64 {
        least + self.upto(most - least)
    }

    /// Below `n`, which is not 0.
    pub fn below(&mut self, n: usize) -> usize {
        self.upto(n as u64 - 1) as usize
    }

    /// True `part` times of `whole`.
    pub fn chance(&mut self, part: u64, whole: u64) -> bool {
        self.upto(whole - 1) < part
    }

    pub fn of<T: Copy>(&mut self, list: &[T]) -> T {
        list[self.below(list.len())]
    }

    /// First, last or any place of a list that is not empty.
    pub fn spot(&mut self, length: usize) -> usize {
        match self.below(3) {
            0 => 0,
            1 => length - 1,
            _ => self.below(length),
        }
    }

    /// A number of any magnitude up to `most`.
    pub fn magnitude(&mut self, most: u64) -> u64 {
        let bits = 64 - most.leading_zeros() as u64;
        let most_here = if bits == 0 { 0 } else { most >> self.upto(bits) };
        self.upto(most_here)
    }
}

/// Sizes: most small; 13, 37 and 40 now and then.
fn size(rng: &mut Rng) -> usize {
    match rng.below(100) {
        0..=77 => 1 + rng.below(6),
        78..=89 => 7 + rng.below(6),
        90..=92 => 13,
        93..=94 => 37,
        95..=96 => SECTORS,
        _ => 1 + rng.below(SECTORS),
    }
}

/// Sizes for calls that go round: large ones rarer.
fn round_size(rng: &mut Rng) -> usize {
    if rng.chance(1, 4) { size(rng) } else { 1 + rng.below(5) }
}

fn strange_n(rng: &mut Rng) -> usize {
    match rng.below(6) {
        0 => 0,
        1 => 41,
        2 => usize::MAX,
        3 => 1 << 32,
        4 => 41 + rng.below(60),
        _ => rng.next() as usize,
    }
}

fn strange_cell(rng: &mut Rng) -> u64 {
    match rng.below(5) {
        0 => u64::MAX,
        1 => 1 << 63,
        2 => u64::MAX - rng.upto(2_000_000),
        3 => 1 << 32,
        _ => rng.next(),
    }
}

/// A budget that suffices, one a round from it, or one far larger.
fn near(rng: &mut Rng, budget: u32) -> u32 {
    rng.of(&[budget - 1, budget, budget + 1, 2 * budget])
}

fn budget(rng: &mut Rng) -> u32 {
    match rng.below(12) {
        0 => 0,
        1 => 1 + rng.below(20) as u32,
        2..=4 => u32::MAX,
        5 => near(rng, PRODUCTION_BUDGET),
        6 => near(rng, PRICE_BUDGET),
        _ => PRODUCTION_BUDGET,
    }
}

// ---------------------------------------------------------------------------------------------
// Domestic sheets
// ---------------------------------------------------------------------------------------------

/// A whole amount split over the cells at random.
fn split(rng: &mut Rng, whole: u64, cells: usize) -> Vec<u64> {
    let mut cuts: Vec<u64> = (1..cells).map(|_| rng.upto(whole)).collect();
    cuts.push(0);
    cuts.push(whole);
    cuts.sort_unstable();
    cuts.windows(2).map(|pair| pair[1] - pair[0]).collect()
}

fn permutation(rng: &mut Rng, n: usize) -> Vec<usize> {
    let mut list: Vec<usize> = (0..n).collect();
    shuffle(rng, &mut list);
    list
}

fn shuffle<T>(rng: &mut Rng, list: &mut [T]) {
    for k in (1..list.len()).rev() {
        list.swap(k, rng.below(k + 1));
    }
}

/// An accepted domestic sheet.
pub fn domestic(rng: &mut Rng, n: usize) -> Vec<u64> {
    let mut d = vec![0; n * n];
    // The column sums: most are small enough to settle soon.
    let most = match rng.below(16) {
        0 => COLUMN,
        1..=3 => 900_000,
        4..=6 => 600_000,
        _ => 350_000,
    };
    let exactly = rng.chance(1, 4);
    match rng.below(12) {
        0 => {}
        // A ring: each sector buys from the next alone.
        1 => (0..n).for_each(|j| d[(j + 1) % n * n + j] = most),
        // A diagonal.
        2 => (0..n).for_each(|j| d[j * n + j] = rng.upto(most)),
        // Rows and columns with one sum.
        3 => {
            for weight in split(rng, most, 3) {
                for (i, j) in permutation(rng, n).into_iter().enumerate() {
                    d[i * n + j] += weight;
                }
            }
        }
        // Few cells.
        4 => {
            for j in 0..n {
                d[rng.below(n) * n + j] = if exactly { most } else { rng.upto(most) };
            }
        }
        // Below the diagonal.
        5 => {
            for j in 0..n {
                let whole = rng.upto(most);
                for (k, part) in split(rng, whole, n - j).into_iter().enumerate() {
                    d[(j + k) * n + j] = part;
                }
            }
        }
        // One sector that sells to all.
        6 => {
            let i = rng.spot(n);
            (0..n).for_each(|j| d[i * n + j] = most);
        }
        _ => {
            for j in 0..n {
                let whole = if exactly { most } else { rng.upto(most) };
                for (i, part) in split(rng, whole, n).into_iter().enumerate() {
                    d[i * n + j] = part;
                }
            }
        }
    }
    d
}

/// A column of the sheet at its limit, or one over it, or far over it, or over it past 64 bits.
fn press_column(rng: &mut Rng, n: usize, d: &mut [u64]) {
    let j = rng.spot(n);
    let i = rng.spot(n);
    let whole = COLUMN + rng.upto(1);
    match rng.below(5) {
        0 | 1 => {
            for (k, part) in split(rng, whole, n).into_iter().enumerate() {
                d[k * n + j] = part;
            }
        }
        2 => {
            (0..n).for_each(|k| d[k * n + j] = 0);
            d[i * n + j] = whole;
        }
        3 => d[i * n + j] = strange_cell(rng),
        _ => {
            // The sum of the column passes 2^64 and would come out small.
            let rest = (0..n).filter(|k| *k != i).map(|k| d[k * n + j]);
            let rest = rest.fold(0, u64::wrapping_add);
            d[i * n + j] = rng.upto(COLUMN).wrapping_sub(rest);
            if n > 1 {
                let k = (i + 1 + rng.below(n - 1)) % n;
                d[k * n + j] = d[k * n + j].wrapping_add(1 << 63);
                d[i * n + j] = d[i * n + j].wrapping_add(1 << 63);
            }
        }
    }
}

/// Starting amounts up to the limit; sometimes one over it or far over it.
fn starts(rng: &mut Rng, n: usize, limit: u64) -> Vec<u64> {
    let mut list: Vec<u64> = match rng.below(8) {
        0 => vec![0; n],
        1 => vec![limit; n],
        2 | 3 => (0..n).map(|_| rng.upto(40)).collect(),
        4 => (0..n).map(|_| rng.upto(limit)).collect(),
        5 => {
            let mut list = vec![0; n];
            list[rng.spot(n)] = rng.magnitude(limit);
            list
        }
        _ => (0..n).map(|_| rng.magnitude(limit)).collect(),
    };
    match rng.below(14) {
        0 => list[rng.spot(n)] = limit,
        1 => list[rng.spot(n)] = limit + 1,
        2 => list[rng.spot(n)] = strange_cell(rng),
        _ => {}
    }
    list
}

/// Amounts with a scheme in them: nothing added, a unit, a little, much, or all up to the limit.
pub fn raised(rng: &mut Rng, before: &[u64], limit: u64) -> Vec<u64> {
    let mut after = before.to_vec();
    let at = rng.spot(after.len());
    let room = |amount: u64| limit.saturating_sub(amount);
    match rng.below(8) {
        0 => {}
        1 => after[at] += room(after[at]).min(1),
        2 => after[at] += rng.magnitude(room(after[at])),
        3 | 4 => after.iter_mut().for_each(|amount| *amount += rng.upto(20).min(room(*amount))),
        5 => after.iter_mut().for_each(|amount| *amount += room(*amount)),
        _ => after.iter_mut().for_each(|amount| *amount += rng.magnitude(room(*amount))),
    }
    after
}

/// The demand with a scheme; now and then over the limit, or below the first demand.
fn second_demand(rng: &mut Rng, before: &[u64]) -> Vec<u64> {
    let n = before.len();
    let mut after = raised(rng, before, DEMAND);
    let at = rng.spot(n);
    match rng.below(14) {
        0 => after[at] = DEMAND + 1,
        1 => after[at] = strange_cell(rng),
        2 => after[at] = before[at].saturating_sub(1),
        // Two sectors below the first demand, to see the first taken.
        3 => {
            for k in [at, rng.below(n)] {
                after[k] = rng.magnitude(before[k]);
            }
        }
        4 => return starts(rng, n, DEMAND),
        _ => {}
    }
    after
}

/// A given production: a running total at the limit, one over it or far over it now and then.
fn productions(rng: &mut Rng, n: usize) -> Vec<u64> {
    let most = PRODUCTION / n as u64;
    let mut list: Vec<u64> = match rng.below(6) {
        0 => vec![0; n],
        1 => vec![rng.magnitude(most); n],
        2 => vec![most; n],
        3 => (0..n).map(|_| rng.upto(2_000)).collect(),
        _ => (0..n).map(|_| rng.magnitude(most)).collect(),
    };
    let at = rng.spot(n);
    let before: u64 = list[..at].iter().sum();
    match rng.below(12) {
        0 | 1 => {
            list[at] = PRODUCTION - before;
            list[at + 1..].fill(0);
        }
        2 => list[at] = PRODUCTION - before + 1,
        3 => list[at] = strange_cell(rng),
        // The running total passes 2^64 and would come out small.
        4 => list[at] = before.wrapping_neg(),
        _ => {}
    }
    list
}

fn rounds_case(rng: &mut Rng, call: Call) -> Case {
    let n = round_size(rng);
    let mut d = domestic(rng, n);
    if rng.chance(1, 8) {
        press_column(rng, n, &mut d);
    }
    let limit = if call == Call::Price { RISE } else { DEMAND };
    let mut given = vec![d, starts(rng, n, limit)];
    if call == Call::Impact {
        given.push(second_demand(rng, &given[1]));
    }
    let mut case = Case { budget: budget(rng), ..Case::new(call, n, given) };
    if rng.chance(1, 6) {
        tight_budget(rng, &mut case);
    }
    case
}

/// The budget exactly at the count, or one below it.
fn tight_budget(rng: &mut Rng, case: &mut Case) {
    let asked = Case { budget: u32::MAX, ..case.clone() };
    let outcome = by_reference(&asked);
    if outcome.number == 0 {
        case.budget = outcome.counts[0] as u32 - rng.upto(1) as u32;
    }
}

/// A settled production, one next to it, or one in which a sector makes less.
fn settled_production(rng: &mut Rng, n: usize, d: &[u64]) -> Option<Vec<u64>> {
    let start: Vec<u64> = (0..n).map(|_| rng.magnitude(DEMAND)).collect();
    let (mut production, _) = reference::settle(n, d, &start, 3000)?;
    let at = rng.spot(n);
    match rng.below(8) {
        0 => production[at] += 1,
        1 => production[at] = production[at].saturating_sub(1),
        2 | 3 => production[at] = 0,
        4 | 5 => production[at] = rng.magnitude(production[at]),
        _ => {}
    }
    Some(production)
}

/// The least that sector i can make without being short, beside what the others make.
fn least_made(n: usize, d: &[u64], production: &[u64], i: usize) -> u64 {
    let taken: u64 = (0..n).filter(|j| *j != i).map(|j| d[i * n + j] * production[j]).sum();
    // With what it takes itself that is less than a unit more than it makes.
    if taken < ONE { 0 } else { (taken - ONE) / (ONE - d[i * n + i]) + 1 }
}

/// A production that leaves sectors short or with nothing, where the sheet has them sell to others.
fn short_production(rng: &mut Rng, n: usize, d: &[u64]) -> Vec<u64> {
    let at = rng.spot(n);
    let whole = PRODUCTION - rng.of(&[0, 0, 1, PRODUCTION / 2]);
    let mut production = vec![0; n];
    match rng.below(6) {
        // One sector alone makes something: a little, any amount, or a large total.
        0 | 1 => production[at] = [rng.upto(2_000), rng.magnitude(PRODUCTION), whole][rng.below(3)],
        // A large total in any parts, mostly with a sector that makes nothing or little.
        2 | 3 => {
            production = split(rng, whole, n);
            production[at] = [production[at], 0, rng.magnitude(production[at])][rng.below(3)];
        }
        // A sector or two have nothing left or are a unit short. A twentieth of the limit leaves room for the first.
        _ => {
            let most = rng.of(&[2_000, PRODUCTION / (20 * n as u64)]);
            production.iter_mut().for_each(|amount| *amount = rng.magnitude(most));
            for i in [at, rng.below(n)] {
                production[i] = least_made(n, d, &production, i).saturating_sub(rng.upto(1));
            }
        }
    }
    production
}

fn implied_case(rng: &mut Rng) -> Case {
    // A single sector is never short.
    let n = if rng.chance(1, 4) { size(rng) } else { 1 + rng.below(7) };
    let mut d = domestic(rng, n);
    let drawn = match rng.below(8) {
        0 | 1 if n <= 6 => settled_production(rng, n, &d),
        2..=6 => Some(short_production(rng, n, &d)),
        _ => None,
    };
    let production = drawn.unwrap_or_else(|| productions(rng, n));
    if rng.chance(1, 8) {
        press_column(rng, n, &mut d);
    }
    Case::new(Call::ImpliedDemand, n, vec![d, production])
}

fn induced_case(rng: &mut Rng) -> Case {
    let n = if rng.chance(1, 3) { size(rng) } else { 1 + rng.below(5) };
    let lengths = Call::Induced.given_lengths(n);
    let mut given: Vec<Vec<u64>> = Vec::new();
    for (slice, length) in lengths.iter().enumerate() {
        let limit = if slice == 3 { AMOUNT } else { ONE };
        let list = match rng.below(4) {
            0 => vec![limit; *length],
            1 => (0..*length).map(|_| rng.magnitude(limit)).collect(),
            _ => (0..*length).map(|_| rng.upto(limit)).collect(),
        };
        given.push(list);
    }
    given[4] = productions(rng, n);
    for _ in 0..2 {
        if rng.chance(1, 5) {
            let slice = rng.below(4);
            let limit = if slice == 3 { AMOUNT } else { ONE };
            let at = rng.spot(given[slice].len());
            given[slice][at] = match rng.below(3) {
                0 => limit,
                1 => limit + 1,
                _ => strange_cell(rng),
            };
        }
    }
    Case::new(Call::Induced, n, given)
}

fn inverse_case(rng: &mut Rng) -> Case {
    let n = if rng.chance(1, 20) { size(rng) } else { 1 + rng.below(5) };
    let mut d = domestic(rng, n);
    if rng.chance(1, 8) {
        press_column(rng, n, &mut d);
    }
    let mut case = Case { budget: budget(rng), ..Case::new(Call::Inverse, n, vec![d]) };
    if n < 13 && rng.chance(1, 5) {
        tight_budget(rng, &mut case);
    }
    case
}

fn row_case(rng: &mut Rng) -> Case {
    let n = size(rng);
    let sheet = (0..n * n).map(|_| rng.next()).collect();
    let sector = match rng.below(8) {
        0 => n,
        1 => usize::MAX,
        2 => n + rng.below(50),
        3 => rng.next() as usize,
        _ => rng.spot(n),
    };
    Case { sector, ..Case::new(Call::Row, n, vec![sheet]) }
}

// ---------------------------------------------------------------------------------------------
// Tables
// ---------------------------------------------------------------------------------------------

/// A table: x, F, E, M, V, X, G, in the interface's order.
type Table = Vec<Vec<u64>>;
const FINAL: usize = 1;
const EXPORTS: usize = 2;
const IMPORTS: usize = 3;
const VALUE: usize = 4;
const OUTPUT: usize = 5;
const ADJUSTMENT: usize = 6;

fn zero_table(n: usize) -> Table {
    Call::Coefficients.given_lengths(n).iter().map(|length| vec![0; *length]).collect()
}

fn row_sum(table: &Table, n: usize, i: usize) -> u64 {
    table[0][i * n..(i + 1) * n].iter().sum()
}

fn column_sum(table: &Table, n: usize, j: usize) -> u64 {
    (0..n).map(|i| table[0][i * n + j]).sum()
}

/// E + G of a sector.
fn outflow(table: &Table, i: usize) -> u64 {
    table[EXPORTS][i] + table[ADJUSTMENT][i]
}

/// Chooses X, V and M so that x, F, E and G balance; raises F where they cannot.
fn balance(rng: &mut Rng, n: usize, table: &mut Table, cap: u64) {
    for i in 0..n {
        let (row, column) = (row_sum(table, n, i), column_sum(table, n, i));
        let outflow = outflow(table, i);
        let short = column.saturating_sub(row + outflow + table[FINAL][i]);
        table[FINAL][i] += short;
        let used = row + outflow + table[FINAL][i];
        // Imports within domestic need: X at least E + G. Imports within the cap: X at least used - cap.
        let least = outflow.max(column).max(used.saturating_sub(cap));
        let most = used.min(cap).max(least);
        let output = match rng.below(8) {
            0 => least,
            1 => most,
            2 => least + rng.magnitude(most - least),
            3..=5 => most - rng.magnitude(most - least),
            _ => rng.between(least, most),
        };
        table[OUTPUT][i] = output;
        table[VALUE][i] = output.saturating_sub(column);
        table[IMPORTS][i] = used.saturating_sub(output);
    }
}

/// A table that balances: x, F, E and G are drawn, the rest is chosen. Half of the tables have no G.
fn drawn_table(rng: &mut Rng, n: usize) -> Table {
    let mut table = zero_table(n);
    let scale = match rng.below(6) {
        0 => 3,
        1 => 1_000,
        2 => 1_000_000,
        3 => AMOUNT / (3 * n as u64),
        _ => 100_000,
    };
    let full = rng.between(1, 4);
    for cell in &mut table[0] {
        if rng.chance(full, 4) {
            *cell = rng.upto(scale);
        }
    }
    let (inside, outside) = (rng.upto(2 * scale * n as u64), rng.upto(scale));
    let (inside, outside) = (inside.min(AMOUNT / 3), outside.min(AMOUNT / 3));
    let adjusted = rng.of(&[0, 0, 1, 2]);
    for i in 0..n {
        table[FINAL][i] = rng.upto(inside);
        table[EXPORTS][i] = if rng.chance(1, 2) { rng.upto(outside) } else { 0 };
        table[ADJUSTMENT][i] = if rng.chance(adjusted, 2) { rng.upto(outside) } else { 0 };
    }
    // A sector that nobody sells to or buys from.
    if rng.chance(1, 8) {
        let k = rng.spot(n);
        let (row, column) = (rng.chance(2, 3), rng.chance(2, 3));
        for other in 0..n {
            if row {
                table[0][k * n + other] = 0;
                table[FINAL][k] = 0;
                table[EXPORTS][k] = 0;
                table[ADJUSTMENT][k] = 0;
            }
            if column {
                table[0][other * n + k] = 0;
            }
        }
    }
    balance(rng, n, &mut table, AMOUNT);
    table
}

/// A table without imports whose column sums are 950,000, or one column one over.
fn pressed_table(rng: &mut Rng, n: usize) -> Table {
    let mut table = zero_table(n);
    let unit = rng.between(1, 1_000);
    // One part makes rings, which settle slowly.
    let parts = rng.of(&[1, 3, 3]);
    for weight in split(rng, COLUMN, parts) {
        for (i, j) in permutation(rng, n).into_iter().enumerate() {
            table[0][i * n + j] += weight * unit;
        }
    }
    if rng.chance(1, 2) {
        let (i, j) = (rng.spot(n), rng.spot(n));
        table[0][i * n + j] += unit;
    }
    for i in 0..n {
        let rest = ONE * unit - row_sum(&table, n, i);
        table[EXPORTS][i] = if rng.chance(1, 2) { rng.upto(rest) } else { 0 };
        table[ADJUSTMENT][i] = if rng.chance(1, 4) { rng.upto(rest - table[EXPORTS][i]) } else { 0 };
        table[FINAL][i] = rest - outflow(&table, i);
        table[VALUE][i] = ONE * unit - column_sum(&table, n, i);
        table[OUTPUT][i] = ONE * unit;
    }
    table
}

/// A table with small cells of x, F, E and now and then of G.
fn small_table(rng: &mut Rng, n: usize) -> Table {
    let mut table = zero_table(n);
    let small = rng.upto(1_000);
    let slices = if rng.chance(1, 2) { &[0, FINAL, EXPORTS][..] } else { &[0, FINAL, EXPORTS, ADJUSTMENT] };
    for slice in slices {
        for cell in &mut table[*slice] {
            *cell = rng.upto(small);
        }
    }
    table
}

/// A balanced table with one cell at 1,000,000,000, or at one over.
fn capped_table(rng: &mut Rng, n: usize) -> Table {
    let mut table = small_table(rng, n);
    let cap = AMOUNT + rng.upto(1);
    let k = rng.spot(n);
    let clear_column = |table: &mut Table, j: usize| {
        (0..n).for_each(|i| table[0][i * n + j] = 0);
    };
    match rng.below(7) {
        // x: the whole of the column; the row is imported as far as need be.
        0 => {
            let i = rng.spot(n);
            clear_column(&mut table, k);
            table[0][i * n + k] = cap;
            if i != k {
                table[FINAL][k] = cap - row_sum(&table, n, k) - outflow(&table, k);
            }
            for j in 0..n {
                if j != k {
                    table[0][i * n + j] = 0;
                }
            }
            if i == k {
                table[FINAL][i] = 0;
            }
            balance(rng, n, &mut table, cap);
        }
        FINAL => {
            table[FINAL][k] = cap;
            balance(rng, n, &mut table, cap);
        }
        EXPORTS => {
            (table[EXPORTS][k], table[ADJUSTMENT][k]) = (cap, 0);
            balance(rng, n, &mut table, cap);
        }
        ADJUSTMENT => {
            (table[EXPORTS][k], table[ADJUSTMENT][k]) = (0, cap);
            balance(rng, n, &mut table, cap);
        }
        IMPORTS => {
            clear_column(&mut table, k);
            table[FINAL][k] = cap - row_sum(&table, n, k);
            balance(rng, n, &mut table, cap);
            table[OUTPUT][k] = outflow(&table, k);
            table[VALUE][k] = outflow(&table, k);
            table[IMPORTS][k] = cap;
        }
        VALUE => {
            clear_column(&mut table, k);
            table[FINAL][k] = cap;
            balance(rng, n, &mut table, cap);
            table[IMPORTS][k] = row_sum(&table, n, k) + outflow(&table, k);
            table[VALUE][k] = cap;
            table[OUTPUT][k] = cap;
        }
        _ => {
            table[FINAL][k] = cap;
            balance(rng, n, &mut table, cap);
            table[IMPORTS][k] = row_sum(&table, n, k) + outflow(&table, k);
            table[OUTPUT][k] = cap;
            table[VALUE][k] = cap - column_sum(&table, n, k);
        }
    }
    table
}

/// A table in which E + G of one or two sectors is 1,000,000,000, or over it. Its columns and rows balance, unless imports would pass
/// the limit. X is at the limit, so imports are as far over domestic need as E + G is over the limit: such a table is refused with 16,
/// and where that is not asked with 6.
fn outflow_table(rng: &mut Rng, n: usize) -> Table {
    let mut table = small_table(rng, n);
    balance(rng, n, &mut table, AMOUNT);
    for _ in 0..rng.between(1, 2) {
        let k = rng.spot(n);
        let over = match rng.below(4) {
            0 | 1 => 0,
            2 => 1,
            _ => rng.magnitude(AMOUNT),
        };
        // All exports but what is over, all adjustment but what is over, or both in any parts.
        let exports = match rng.below(4) {
            0 => AMOUNT,
            1 => over,
            _ => rng.between(over, AMOUNT),
        };
        table[EXPORTS][k] = exports;
        table[ADJUSTMENT][k] = AMOUNT + over - exports;
        table[OUTPUT][k] = AMOUNT;
        table[VALUE][k] = AMOUNT - column_sum(&table, n, k);
        table[IMPORTS][k] = (row_sum(&table, n, k) + table[FINAL][k] + over).min(AMOUNT);
    }
    table
}

/// A unit more or less in a table that balances, so that it still does: in x or in M, or in the whole that one of them is divided by.
fn move_unit(rng: &mut Rng, n: usize, table: &mut Table) {
    let (i, j) = (rng.spot(n), rng.spot(n));
    let (more, less) = match rng.below(4) {
        0 => (vec![(0, i * n + j)], vec![(FINAL, i), (VALUE, j)]),
        1 => (vec![(IMPORTS, i), (EXPORTS, i)], vec![]),
        2 => (vec![(FINAL, i)], vec![(EXPORTS, i)]),
        _ => (vec![(OUTPUT, i), (VALUE, i), (EXPORTS, i)], vec![]),
    };
    let (more, less) = if rng.chance(1, 2) { (more, less) } else { (less, more) };
    if less.iter().all(|(slice, at)| table[*slice][*at] > 0) {
        more.into_iter().for_each(|(slice, at)| table[slice][at] += 1);
        less.into_iter().for_each(|(slice, at)| table[slice][at] -= 1);
    }
}

/// A table whose a, v and m are whole or half millionths, and then some of them just below or above that. X and domestic need are the same
/// in every sector, 128 × 5^k steps with k at most 6: an odd number of steps is an odd number of half millionths of that whole.
fn halved_table(rng: &mut Rng, n: usize) -> Table {
    let mut table = zero_table(n);
    let steps = 128 * 5_u64.pow(rng.upto(6) as u32);
    let step = 1 + rng.magnitude(AMOUNT / steps - 1);
    let whole = step * steps;
    for cell in &mut table[0] {
        *cell = step * rng.upto(steps / n as u64);
    }
    for i in 0..n {
        let imports = step * rng.upto(steps);
        table[FINAL][i] = whole - row_sum(&table, n, i);
        table[IMPORTS][i] = imports;
        table[ADJUSTMENT][i] = if rng.chance(1, 4) { rng.upto(imports) } else { 0 };
        table[EXPORTS][i] = imports - table[ADJUSTMENT][i];
        table[VALUE][i] = whole - column_sum(&table, n, i);
        table[OUTPUT][i] = whole;
    }
    for _ in 0..rng.upto(2 * n as u64) {
        move_unit(rng, n, &mut table);
    }
    table
}

/// Chooses V and F so that a table with X, M, E and G balances.
fn close(n: usize, table: &mut Table) {
    for i in 0..n {
        table[VALUE][i] = table[OUTPUT][i] - column_sum(table, n, i);
        table[FINAL][i] = table[OUTPUT][i] + table[IMPORTS][i] - outflow(table, i) - row_sum(table, n, i);
    }
}

/// A table in which a column sum of d is 950,000 or a few millionths from it: a cell of x is the largest with which the table is accepted,
/// a unit less, or one or two more.
fn limit_table(rng: &mut Rng, n: usize) -> Table {
    let mut table = zero_table(n);
    // Every unit of x is half a millionth of 2,000,000.
    let whole = rng.of(&[100_000, 1_000_000, 2_000_000, 2_000_000, 4_000_000, AMOUNT]);
    let below = rng.of(&[0, whole / 500]);
    let (i, j, sectors) = (rng.spot(n), rng.spot(n), n as u64);
    for (at, cell) in table[0].iter_mut().enumerate() {
        *cell = rng.upto(if at % n == j { whole / (2 * sectors) } else { whole / (100 * sectors) });
    }
    for k in 0..n {
        let imports = if rng.chance(1, 3) { 0 } else { rng.magnitude(whole / 50) };
        table[OUTPUT][k] = whole - rng.upto(below);
        table[IMPORTS][k] = imports;
        table[EXPORTS][k] = rng.upto(imports);
        table[ADJUSTMENT][k] = if rng.chance(1, 4) { rng.upto(imports - table[EXPORTS][k]) } else { 0 };
    }
    let at = i * n + j;
    table[0][at] = 0;
    // Accepted with the least. Refused with the most: 98 in 100 of production are bought, of which at most 21 in 1,000 are imported.
    let (mut least, mut most) = (0, table[OUTPUT][j] / 100 * 98 - column_sum(&table, n, j));
    while most - least > 1 {
        let middle = (least + most) / 2;
        table[0][at] = middle;
        close(n, &mut table);
        let accepted = by_reference(&Case::new(Call::Coefficients, n, table.clone())).number == 0;
        if accepted { least = middle } else { most = middle }
    }
    table[0][at] = (least + rng.upto(3)).saturating_sub(1);
    close(n, &mut table);
    table
}

fn table(rng: &mut Rng, n: usize) -> Table {
    match rng.below(10) {
        0 => pressed_table(rng, n),
        1 => capped_table(rng, n),
        2 => outflow_table(rng, n),
        3 => halved_table(rng, n),
        4 if n <= 6 => limit_table(rng, n),
        _ => drawn_table(rng, n),
    }
}

fn nudge(rng: &mut Rng, cell: &mut u64) {
    *cell = if rng.chance(1, 2) { cell.wrapping_add(1) } else { cell.saturating_sub(1) };
}

/// Breaks one thing in a table.
fn spoil_table(rng: &mut Rng, n: usize, table: &mut Table) {
    let k = rng.spot(n);
    match rng.below(8) {
        // A cell at the limit, over it, or far over it.
        0 | 1 => {
            let slice = rng.below(7);
            let at = rng.spot(table[slice].len());
            table[slice][at] = match rng.below(3) {
                0 => AMOUNT,
                1 => AMOUNT + 1,
                _ => strange_cell(rng),
            };
        }
        2 => nudge(rng, &mut table[VALUE][k]),
        3 => nudge(rng, &mut table[OUTPUT][k]),
        4 => {
            let slice = rng.of(&[FINAL, EXPORTS, IMPORTS, ADJUSTMENT]);
            nudge(rng, &mut table[slice][k]);
        }
        5 => {
            let at = rng.spot(n * n);
            nudge(rng, &mut table[0][at]);
        }
        // Imports up to domestic need exactly, or one over; exports or the adjustment keep the row balanced.
        6 => {
            let row: u64 = table[0][k * n..(k + 1) * n].iter().fold(0, |sum, x| sum.wrapping_add(*x));
            let need = row.wrapping_add(table[FINAL][k]);
            let more = need.wrapping_sub(table[IMPORTS][k]).wrapping_add(rng.upto(1));
            table[IMPORTS][k] = table[IMPORTS][k].wrapping_add(more);
            let slice = rng.of(&[EXPORTS, ADJUSTMENT]);
            table[slice][k] = table[slice][k].wrapping_add(more);
        }
        // Two sectors that fail, to see the first taken.
        _ => {
            let slice = rng.of(&[FINAL, EXPORTS, IMPORTS, VALUE, OUTPUT, ADJUSTMENT]);
            let other = rng.below(n);
            nudge(rng, &mut table[slice][k]);
            nudge(rng, &mut table[slice][other]);
        }
    }
}

fn coefficients_case(rng: &mut Rng) -> Case {
    let n = size(rng);
    let mut given = table(rng, n);
    if rng.chance(1, 3) {
        for _ in 0..rng.between(1, 2) {
            spoil_table(rng, n, &mut given);
        }
    }
    Case::new(Call::Coefficients, n, given)
}

// ---------------------------------------------------------------------------------------------
// Final demands
// ---------------------------------------------------------------------------------------------

/// What a demand for domestic goods is worked out from: m, F, E, G, in the interface's order.
type Inputs = [Vec<u64>; 4];

/// The limits of their cells.
const INPUT_LIMITS: [u64; 4] = [ONE, AMOUNT, AMOUNT, AMOUNT];

/// Those of a table, if its sheets are accepted.
fn inputs_of_table(rng: &mut Rng, n: usize) -> Option<Inputs> {
    let table = table(rng, n);
    let sheets = by_reference(&Case::new(Call::Coefficients, n, table.clone()));
    let [final_demand, exports, adjustment] = [FINAL, EXPORTS, ADJUSTMENT].map(|slice| table[slice].clone());
    let shares = amounts(&sheets.cells).swap_remove(2);
    if sheets.number == 0 { Some([shares, final_demand, exports, adjustment]) } else { None }
}

/// Any that are accepted: cells at 0, at the limit, near one of these, or between.
fn free_inputs(rng: &mut Rng, n: usize) -> Inputs {
    let mut inputs: Inputs = INPUT_LIMITS.map(|limit| match rng.below(8) {
        0 => vec![0; n],
        1 => vec![limit; n],
        2 => (0..n).map(|_| rng.of(&[0, 1, limit - 1, limit])).collect(),
        3 => (0..n).map(|_| limit - rng.magnitude(limit)).collect(),
        // Whole tenths of the limit: nothing is rounded where both m and F have them.
        4 => (0..n).map(|_| limit / 10 * rng.upto(10)).collect(),
        5 => (0..n).map(|_| rng.upto(40)).collect(),
        6 => (0..n).map(|_| rng.magnitude(limit)).collect(),
        _ => (0..n).map(|_| rng.upto(limit)).collect(),
    });
    // E and G together within their limit, or at it.
    let [_, _, exports, adjustment] = &mut inputs;
    let full = rng.of(&[0, 0, 1, 4]);
    for (e, g) in exports.iter_mut().zip(adjustment) {
        let (kept, other) = if rng.chance(1, 2) { (e, g) } else { (g, e) };
        let rest = AMOUNT - *kept;
        *other = if rng.chance(full, 4) { rest } else { rest.min(*other) };
    }
    inputs
}

/// Breaks one thing in them.
fn spoil_inputs(rng: &mut Rng, n: usize, inputs: &mut Inputs) {
    let k = rng.spot(n);
    if rng.chance(1, 2) {
        // A cell at its limit, over it, or far over it; a share as large as an amount.
        let slice = rng.below(4);
        let limit = INPUT_LIMITS[slice];
        inputs[slice][k] = match rng.below(5) {
            0 => limit,
            1 | 2 => limit + 1,
            3 => limit + 1 + rng.magnitude(AMOUNT - 1),
            _ => strange_cell(rng),
        };
    } else {
        // E and G over their limit, in two sectors, to see the first taken.
        let [_, _, exports, adjustment] = inputs;
        for i in [k, rng.below(n)] {
            let over = if rng.chance(1, 2) { 1 } else { 1 + rng.magnitude(AMOUNT - 1) };
            exports[i] = rng.between(over, AMOUNT);
            adjustment[i] = AMOUNT + over - exports[i];
        }
    }
}

fn demand_case(rng: &mut Rng) -> Case {
    let n = size(rng);
    let of_table = if rng.chance(2, 3) { inputs_of_table(rng, n) } else { None };
    let mut inputs = of_table.unwrap_or_else(|| free_inputs(rng, n));
    if rng.chance(1, 2) {
        inputs[1] = raised(rng, &inputs[1], AMOUNT);
    }
    if rng.chance(1, 3) {
        for _ in 0..rng.between(1, 2) {
            spoil_inputs(rng, n, &mut inputs);
        }
    }
    Case::new(Call::DomesticDemand, n, inputs.to_vec())
}

// ---------------------------------------------------------------------------------------------
// Tables to be merged
// ---------------------------------------------------------------------------------------------

/// Groups with every sector in one: single sectors in order, backwards or shuffled, all in one group, neighbours, or any.
fn partition(rng: &mut Rng, n: usize) -> Vec<u64> {
    let g = 1 + rng.below(n);
    let homes: Vec<usize> = match rng.below(12) {
        0 => (0..n).collect(),
        1 => (0..n).rev().collect(),
        2 => permutation(rng, n),
        3 => vec![0; n],
        4 | 5 => (0..n).map(|sector| sector * g / n).collect(),
        _ => permutation(rng, n).into_iter().map(|k| if k < g { k } else { rng.below(g) }).collect(),
    };
    let mut groups = vec![0; homes.iter().max().map_or(0, |last| last + 1)];
    homes.iter().enumerate().for_each(|(sector, home)| groups[*home] |= 1 << sector);
    groups
}

/// Breaks one thing in the groups. Now and then every sector still is in one.
fn spoil_groups(rng: &mut Rng, n: usize, groups: &mut Vec<u64>) {
    let (k, other) = (rng.spot(groups.len()), rng.below(groups.len()));
    let (sector, second) = (1 << rng.spot(n), 1 << rng.below(n));
    let bit = n + rng.below(64 - n);
    let beyond = 1 << rng.of(&[n, 63, bit]);
    let take_out = |groups: &mut Vec<u64>| groups.iter_mut().for_each(|word| *word &= !sector);
    match rng.below(11) {
        // A sector in two groups, or in all.
        0 => groups[k] |= sector,
        1 => groups.iter_mut().for_each(|word| *word |= sector),
        // A sector in no group.
        2 => take_out(groups),
        // Another in two groups in its place: there are as many bits as sectors.
        3 => {
            take_out(groups);
            groups[k] |= second;
        }
        // A group that is empty, whose sectors are in another.
        4 => {
            groups[other] |= groups[k];
            groups[k] = 0;
        }
        // An empty group more.
        5 => groups.insert(k, 0),
        // A bit at n or above, beside the sectors or in place of one.
        6 => groups[k] |= beyond,
        7 => {
            take_out(groups);
            groups[k] |= beyond;
        }
        // A group twice.
        8 => groups[k] = groups[other],
        // Words with the sum of those before.
        9 => {
            let more = rng.upto(2 * sector);
            groups[k] = groups[k].wrapping_add(more);
            groups[other] = groups[other].wrapping_sub(more);
        }
        _ => groups[k] = strange_cell(rng),
    }
}

/// No groups, one more than sectors, or very many.
fn bend_groups(rng: &mut Rng, n: usize, groups: &mut Vec<u64>) {
    let other = match rng.below(4) {
        0 => 0,
        1 | 2 => n + 1,
        _ => n + 1 + rng.below(100),
    };
    let fill = rng.of(&[0, 1, u64::MAX]);
    groups.resize(other, fill);
}

/// As much of an amount as there is room for, in parts.
fn parts(rng: &mut Rng, whole: u64, room: &[u64]) -> Vec<u64> {
    let mut left: u64 = room.iter().sum();
    let mut rest = whole.min(left);
    let mut parts = Vec::new();
    for most in room {
        left -= most;
        let part = rng.between(rest.saturating_sub(left), rest.min(*most));
        rest -= part;
        parts.push(part);
    }
    parts
}

/// What each sector may add to its amount of a column, so that all of them have the whole; as far as each stays within the limit.
fn missing(rng: &mut Rng, column: &[u64], sectors: &[usize], whole: u64) -> Vec<(usize, u64)> {
    let before: u64 = sectors.iter().map(|i| column[*i]).sum();
    let room: Vec<u64> = sectors.iter().map(|i| AMOUNT.saturating_sub(column[*i])).collect();
    sectors.iter().copied().zip(parts(rng, whole.saturating_sub(before), &room)).collect()
}

/// The least that X of a sector can be.
fn least_output(n: usize, table: &Table, i: usize) -> u64 {
    outflow(table, i).max(column_sum(table, n, i))
}

/// X of a sector, with V and M by which its column and its row balance.
fn set_output(n: usize, table: &mut Table, i: usize, output: u64) {
    let used = row_sum(table, n, i) + table[FINAL][i] + outflow(table, i);
    table[OUTPUT][i] = output;
    table[VALUE][i] = output - column_sum(table, n, i);
    table[IMPORTS][i] = used - output;
}

/// F of these sectors is the whole; half of what is used or any part of it is imported.
fn press_final(rng: &mut Rng, n: usize, table: &mut Table, sectors: &[usize], whole: u64) {
    let half = rng.chance(1, 2);
    for (i, part) in missing(rng, &table[FINAL], sectors, whole) {
        table[FINAL][i] += part;
        let used = row_sum(table, n, i) + table[FINAL][i] + outflow(table, i);
        let least = least_output(n, table, i).max(used.saturating_sub(AMOUNT));
        let most = used.min(AMOUNT).max(least);
        let output = if half { least.max(used / 2) } else { rng.between(least, most) };
        set_output(n, table, i, output);
    }
}

/// M of these sectors is the whole. All is imported that can be.
fn press_imports(rng: &mut Rng, n: usize, table: &mut Table, sectors: &[usize], whole: u64) {
    sectors.iter().for_each(|i| set_output(n, table, *i, least_output(n, table, *i)));
    for (i, part) in missing(rng, &table[IMPORTS], sectors, whole) {
        table[FINAL][i] += part;
        table[IMPORTS][i] += part;
    }
}

/// X of these sectors is the whole, by F, E or G.
fn press_output(rng: &mut Rng, table: &mut Table, sectors: &[usize], whole: u64) {
    for (i, part) in missing(rng, &table[OUTPUT], sectors, whole) {
        for slice in [OUTPUT, VALUE, rng.of(&[FINAL, EXPORTS, ADJUSTMENT])] {
            table[slice][i] += part;
        }
    }
}

/// E + G of these sectors is the whole, and X no more where it can.
fn press_outflow(rng: &mut Rng, n: usize, table: &mut Table, sectors: &[usize], whole: u64) {
    let outflows: Vec<u64> = (0..n).map(|i| outflow(table, i)).collect();
    for (i, part) in missing(rng, &outflows, sectors, whole) {
        let exports = rng.upto(part);
        table[EXPORTS][i] += exports;
        table[ADJUSTMENT][i] += part - exports;
        set_output(n, table, i, least_output(n, table, i));
    }
}

/// X of these sectors is the whole, by what they buy from the sellers.
fn press_flows(rng: &mut Rng, n: usize, table: &mut Table, sectors: &[usize], sellers: &[usize], whole: u64) {
    for (j, part) in missing(rng, &table[OUTPUT], sectors, whole) {
        let i = rng.of(sellers);
        for (slice, at) in [(0, i * n + j), (OUTPUT, j), (IMPORTS, i), (FINAL, j)] {
            table[slice][at] += part;
        }
    }
}

fn sectors_of(n: usize, group: u64) -> Vec<usize> {
    (0..n).filter(|i| group >> i & 1 == 1).collect()
}

/// A table that balances, in which a sum over one group is 1,000,000,000, one over it or far over it. Few amounts of a sector are over.
fn brimming_table(rng: &mut Rng, n: usize, groups: &[u64]) -> Table {
    let mut table = if rng.chance(1, 2) { zero_table(n) } else { small_table(rng, n) };
    balance(rng, n, &mut table, AMOUNT);
    let largest = groups.iter().copied().max_by_key(|word| word.count_ones()).unwrap_or(0);
    let group = if rng.chance(1, 2) { largest } else { rng.of(groups) };
    let sectors = sectors_of(n, group);
    let whole = match rng.below(8) {
        0..=2 => AMOUNT,
        3 | 4 => AMOUNT + 1,
        // What 32 bits would hold of it is small.
        5 => (1 << 32) + rng.magnitude(AMOUNT),
        6 => sectors.len() as u64 * AMOUNT,
        _ => AMOUNT + rng.magnitude(sectors.len() as u64 * AMOUNT),
    };
    match rng.below(5) {
        0 => press_final(rng, n, &mut table, &sectors, whole),
        1 => press_imports(rng, n, &mut table, &sectors, whole),
        2 => press_output(rng, &mut table, &sectors, whole),
        3 => press_outflow(rng, n, &mut table, &sectors, whole),
        _ => {
            let sellers = sectors_of(n, rng.of(groups));
            press_flows(rng, n, &mut table, &sectors, &sellers, whole);
        }
    }
    table
}

fn aggregate_case(rng: &mut Rng) -> Case {
    let n = size(rng);
    let mut groups = partition(rng, n);
    let mut given = if rng.chance(1, 3) { brimming_table(rng, n, &groups) } else { table(rng, n) };
    if rng.chance(1, 4) {
        for _ in 0..rng.between(1, 2) {
            spoil_table(rng, n, &mut given);
        }
    }
    if rng.chance(1, 4) {
        for _ in 0..rng.between(1, 2) {
            spoil_groups(rng, n, &mut groups);
        }
    }
    if rng.chance(1, 20) {
        bend_groups(rng, n, &mut groups);
    }
    given.push(groups);
    let mut case = Case::new(Call::Aggregate, n, given);
    // Lent as if no sectors were merged.
    if rng.chance(1, 30) {
        case.lent = case.call.lent_lengths(n);
    }
    case
}

// ---------------------------------------------------------------------------------------------
// Tables to be put in another order
// ---------------------------------------------------------------------------------------------

/// A list of all sectors: in order, backwards, with two sectors or all neighbours exchanged, turned, or any.
pub fn sector_list(rng: &mut Rng, n: usize) -> Vec<u64> {
    let mut list: Vec<u64> = (0..n as u64).collect();
    match rng.below(20) {
        0 => {}
        1 => list.reverse(),
        2 => list.swap(rng.spot(n), rng.below(n)),
        3 => list.chunks_exact_mut(2).for_each(|pair| pair.reverse()),
        // A stretch of three or more sectors turned by a place, to one side or the other.
        4..=9 => {
            let length = if n < 3 { n } else { 3 + rng.below(n - 2) };
            let start = rng.below(n - length + 1);
            let stretch = &mut list[start..start + length];
            if rng.chance(1, 2) { stretch.rotate_left(1) } else { stretch.rotate_right(1) }
        }
        10..=12 => list.rotate_left(rng.below(n)),
        _ => shuffle(rng, &mut list),
    }
    list
}

/// An entry that is no sector: n, one more, one of which 6, 8, 16, 32 or 63 bits are a sector, the largest, one that times n is small past
/// 64 bits, or another large one.
fn no_sector(rng: &mut Rng, n: usize) -> u64 {
    let sector = rng.below(n) as u64;
    match rng.below(10) {
        0 | 1 => n as u64,
        2 => n as u64 + 1,
        3 => (1 << rng.of(&[6, 8, 16])) + sector,
        4 | 5 => (1 << 32) + sector,
        6 => (1 << 63) + sector,
        7 => u64::MAX,
        8 => (u64::MAX / n as u64).saturating_add(1 + sector),
        _ => strange_cell(rng),
    }
}

/// Breaks one thing in a list of sectors. A single sector repeats none.
fn spoil_list(rng: &mut Rng, list: &mut [u64]) {
    let n = list.len();
    let at = rng.spot(n);
    match rng.below(12) {
        0..=3 => list[at] = no_sector(rng, n),
        // A repeat of a neighbour, before it or after it.
        4 | 5 => list[at] = list[(at + rng.of(&[1, n - 1])) % n],
        // A repeat from one end at the other, or from anywhere.
        6 => list[n - 1] = list[0],
        7 => list[0] = list[n - 1],
        8 | 9 => list[at] = list[rng.below(n)],
        // One sector everywhere.
        10 => list.fill(rng.below(n) as u64),
        // Sectors counted from 1.
        _ => list.iter_mut().for_each(|entry| *entry = entry.wrapping_add(1)),
    }
}

/// Tables that balance and tables that do not, which is not asked.
fn permute_case(rng: &mut Rng) -> Case {
    let n = if rng.chance(1, 3) { size(rng) } else { 3 + rng.below(5) };
    let mut given = if rng.chance(1, 4) { free_table(rng, n) } else { table(rng, n) };
    given.truncate(ORDER);
    if rng.chance(1, 5) {
        for _ in 0..rng.between(1, 2) {
            spoil_table(rng, n, &mut given);
        }
    }
    let mut list = sector_list(rng, n);
    if rng.chance(1, 3) {
        for _ in 0..rng.between(1, 2) {
            spoil_list(rng, &mut list);
        }
    }
    given.push(list);
    Case::new(Call::Permute, n, given)
}

// ---------------------------------------------------------------------------------------------
// Table files
// ---------------------------------------------------------------------------------------------

/// The kinds of F, E, M, V, X, G and the rises.
const COLUMN_KINDS: [u8; 7] = [3, 4, 5, 6, 7, 10, 9];

fn record(kind: u8, sectors: &[usize], amount: u64) -> Vec<u8> {
    let mut record = vec![kind];
    record.extend(sectors.iter().map(|sector| *sector as u8));
    record.extend((amount as u32).to_be_bytes());
    record
}

/// Every cell of a table as a record, of its rises too where it has them; zeros too where the call asks.
fn table_records(n: usize, table: &Table, zeros: bool) -> Vec<Vec<u8>> {
    let mut records = Vec::new();
    for (k, amount) in table[0].iter().enumerate() {
        if zeros || *amount != 0 {
            records.push(record(2, &[k / n + 1, k % n + 1], *amount));
        }
    }
    for (column, kind) in table[1..].iter().zip(COLUMN_KINDS) {
        for (k, amount) in column.iter().enumerate() {
            if zeros || *amount != 0 {
                records.push(record(kind, &[k + 1], *amount));
            }
        }
    }
    records
}

/// Records of random cells, each named once.
fn random_records(rng: &mut Rng, n: usize) -> Vec<Vec<u8>> {
    let part = rng.of(&[0, 1, 2, 5, 10, 10]);
    let most = rng.of(&[0, 300, AMOUNT, AMOUNT + 1, u64::from(u32::MAX)]);
    let mut records = Vec::new();
    for k in 0..n * n {
        if rng.chance(part, 10) {
            records.push(record(2, &[k / n + 1, k % n + 1], rng.upto(most)));
        }
    }
    for kind in COLUMN_KINDS {
        for k in 0..n {
            if rng.chance(part, 10) {
                records.push(record(kind, &[k + 1], rng.upto(most)));
            }
        }
    }
    records
}

fn joined(n: usize, records: &[Vec<u8>]) -> Vec<u8> {
    let mut file = vec![1, n as u8];
    file.extend(records.iter().flatten());
    file.push(8);
    file
}

/// Breaks one thing among the records.
fn spoil_records(rng: &mut Rng, n: usize, records: &mut Vec<Vec<u8>>) {
    if records.is_empty() {
        records.push(record(3, &[1], 5));
    }
    let at = rng.spot(records.len());
    match rng.below(6) {
        // A record repeated, with the same amount or another.
        0 | 1 => {
            let mut again = records[at].clone();
            if rng.chance(1, 2) {
                *again.last_mut().unwrap() ^= 1;
            }
            let to = rng.between(at as u64 + 1, records.len() as u64) as usize;
            let to = if rng.chance(1, 3) { rng.below(records.len() + 1) } else { to };
            records.insert(to, again);
        }
        // A sector byte outside 1 to n.
        2 | 3 => {
            let byte = if records[at][0] == 2 { 1 + rng.below(2) } else { 1 };
            records[at][byte] = match rng.below(4) {
                0 => 0,
                1 => n as u8 + 1,
                2 => 255,
                _ => rng.next() as u8,
            };
        }
        // A kind that is none, or another.
        4 => records[at][0] = rng.of(&[0, 11, 255, 8, 1, 2, 9, 10, 128]),
        // The number of sectors again.
        _ => {
            let again = vec![1, if rng.chance(1, 2) { n as u8 } else { rng.next() as u8 }];
            let to = rng.below(records.len() + 1);
            records.insert(to, again);
        }
    }
}

/// Breaks one thing in the bytes.
fn spoil_file(rng: &mut Rng, file: &mut Vec<u8>) {
    match rng.below(9) {
        0 => file.truncate(rng.below(file.len() + 1)),
        1 => file.truncate(file.len().saturating_sub(1 + rng.below(8))),
        // The end left out.
        2 => {
            file.pop();
        }
        // Bytes after the end.
        3 => file.push(rng.of(&[0, 8, 1, 255])),
        4 => {
            let copy: Vec<u8> = file.iter().skip(rng.below(3)).copied().collect();
            file.extend(copy);
        }
        5 => file[1] = rng.of(&[0, 41, 255, 40, 1, 128]),
        6 => {
            file.drain(..2.min(file.len()));
        }
        7 => {
            let at = rng.below(file.len());
            file[at] ^= 1 << rng.below(8);
        }
        _ => {
            let at = rng.below(file.len());
            file[at] = rng.next() as u8;
        }
    }
}

/// Random bytes, or random records in the right shape.
fn random_file(rng: &mut Rng) -> Vec<u8> {
    let mut file = Vec::new();
    match rng.below(4) {
        0 => {
            let length = rng.magnitude(600);
            file.extend((0..length).map(|_| rng.next() as u8));
        }
        1 => {
            let length = rng.upto(12);
            file.extend((0..length).map(|_| rng.upto(11) as u8));
        }
        _ => {
            let n = rng.between(1, 6);
            file.extend([1, n as u8]);
            for _ in 0..rng.upto(12) {
                let kind = rng.of(&[2, 2, 2, 3, 4, 5, 6, 7, 9, 10]);
                let sectors: Vec<usize> =
                    (0..if kind == 2 { 2 } else { 1 }).map(|_| 1 + rng.below(n as usize)).collect();
                file.extend(record(kind, &sectors, rng.next()));
            }
            if rng.chance(3, 4) {
                file.push(8);
            }
        }
    }
    file
}

fn file(rng: &mut Rng, tables: bool) -> Vec<u8> {
    if rng.chance(1, 6) {
        return random_file(rng);
    }
    let n = if rng.chance(1, 4) { size(rng) } else { 1 + rng.below(5) };
    let mut records = if tables {
        let mut table = table(rng, n);
        if rng.chance(1, 4) {
            spoil_table(rng, n, &mut table);
        }
        table_records(n, &table, rng.chance(1, 2))
    } else {
        random_records(rng, n)
    };
    if rng.chance(2, 3) {
        shuffle(rng, &mut records);
    }
    if rng.chance(1, 4) {
        spoil_records(rng, n, &mut records);
    }
    let mut file = joined(n, &records);
    if rng.chance(1, 5) {
        spoil_file(rng, &mut file);
    }
    file
}

fn read_case(rng: &mut Rng) -> Case {
    Case::of_file(Call::ReadTable, file(rng, false))
}

/// So many lent bytes, or another number of them now and then.
fn lent_bytes(rng: &mut Rng, exact: usize) -> usize {
    match rng.below(10) {
        0 => exact - 1,
        1 => rng.below(exact),
        2 => 0,
        3 => exact + rng.below(500),
        _ => exact,
    }
}

fn page_case(rng: &mut Rng) -> Case {
    let mut case = Case::of_file(Call::Page, file(rng, true));
    case.lent[0] = lent_bytes(rng, PAGE_BYTES);
    case
}

// ---------------------------------------------------------------------------------------------
// Tables to be written as files
// ---------------------------------------------------------------------------------------------

/// Cells within the limit, for x and for each column with an own share of zeros and an own size.
fn free_table(rng: &mut Rng, n: usize) -> Table {
    let mut table = Vec::new();
    for length in Call::WriteTable.given_lengths(n) {
        let part = rng.of(&[0, 1, 5, 9, 10]);
        let most = rng.of(&[1, 255, 256, 65_536, 1 << 24, AMOUNT]);
        let cells = (0..length).map(|_| if rng.chance(part, 10) { most - rng.magnitude(most) } else { 0 });
        table.push(cells.collect());
    }
    table
}

/// A table with rises whose amounts pass question 3, whether it balances or not.
pub fn written_table(rng: &mut Rng, n: usize) -> Table {
    if rng.chance(1, 3) {
        let mut table = drawn_table(rng, n);
        table.push(if rng.chance(1, 2) { vec![0; n] } else { (0..n).map(|_| rng.magnitude(AMOUNT)).collect() });
        if table.iter().flatten().all(|cell| *cell <= AMOUNT) {
            return table;
        }
    }
    free_table(rng, n)
}

/// A file of the table in any order, in which some or all zeros are named.
pub fn file_of(rng: &mut Rng, n: usize, table: &Table) -> Vec<u8> {
    let mut records = table_records(n, table, true);
    let zeros = rng.of(&[0, 1, 5, 10]);
    records.retain(|record| record[record.len() - 4..] != [0; 4] || rng.chance(zeros, 10));
    shuffle(rng, &mut records);
    joined(n, &records)
}

/// What a file holds, if it is one: n, and x, F, E, M, V, X, G and the rises of n sectors.
pub fn table_read(file: &[u8]) -> Option<(usize, Table)> {
    let read = reference::read_table(file, &reference::FILE_LENGTHS).ok()?;
    let n = read.counts[0];
    let lengths = Call::WriteTable.given_lengths(n);
    Some((n, amounts(&read.cells).iter().zip(lengths).map(|(cells, length)| cells[..length].to_vec()).collect()))
}

fn write_case(rng: &mut Rng) -> Case {
    let size = if rng.chance(1, 4) { size(rng) } else { 1 + rng.below(5) };
    let (n, mut given) = match rng.below(4) {
        // What was read from a file; its amounts may be over the limit.
        0 => table_read(&file(rng, false)).unwrap_or_else(|| (1, vec![vec![0]; 8])),
        _ => (size, written_table(rng, size)),
    };
    // Cells at the limit, one over it, or far over it, the adjustment and the rises among them.
    if rng.chance(1, 3) {
        for _ in 0..rng.between(1, 2) {
            let slice = rng.below(8);
            let at = rng.spot(given[slice].len());
            given[slice][at] = match rng.below(4) {
                0 => 0,
                1 => AMOUNT,
                2 => AMOUNT + 1,
                _ => strange_cell(rng),
            };
        }
    }
    let mut case = Case::new(Call::WriteTable, n, given);
    case.lent[0] = lent_bytes(rng, reference::FILE_BYTES);
    case
}

// ---------------------------------------------------------------------------------------------
// Hostile lengths and sizes, and the mix of the calls
// ---------------------------------------------------------------------------------------------

/// One slice, given or lent, with another length.
fn bend_length(rng: &mut Rng, case: &mut Case) {
    let given = case.given.len();
    let slice = rng.below(given + case.lent.len());
    let length = if slice < given { case.given[slice].len() } else { case.lent[slice - given] };
    let other = match rng.below(6) {
        0 => 0,
        1 => length.saturating_sub(1),
        2 => length + 1,
        3 => 2 * length,
        4 => case.n.min(SECTORS),
        _ => rng.below(2 * length + 2),
    };
    if slice < given {
        let fill = if rng.chance(1, 2) { 0 } else { rng.next() };
        case.given[slice].resize(other, fill);
    } else {
        case.lent[slice - given] = other;
    }
}

/// An n outside 1 to 40, with the slices of the old one, of the new one, or of none.
fn bend_n(rng: &mut Rng, case: &mut Case) {
    case.n = strange_n(rng);
    if case.n <= 41 && rng.chance(2, 3) {
        for (slice, length) in case.given.iter_mut().zip(case.call.given_lengths(case.n)) {
            slice.resize(length, 0);
        }
        case.lent = case.call.lent_lengths(case.n);
    } else if rng.chance(1, 4) {
        case.given.iter_mut().for_each(Vec::clear);
        case.lent.iter_mut().for_each(|length| *length = 0);
    }
}

/// Rings at the column limit or a little below it: one of all sectors, or several, some of whose sectors buy from themselves too.
fn slow_sheet(rng: &mut Rng, n: usize) -> Vec<u64> {
    let mut d = vec![0; n * n];
    let below = rng.of(&[0, 0, 0, 1, 60]);
    let own = rng.of(&[0, 0, 0, 5_000, COLUMN]);
    let order = if rng.chance(3, 4) { (0..n).map(|j| (j + 1) % n).collect() } else { permutation(rng, n) };
    for (j, i) in order.into_iter().enumerate() {
        let kept = rng.upto(own);
        d[i * n + j] = COLUMN - kept;
        d[j * n + j] += kept.saturating_sub(rng.upto(below));
    }
    d
}

/// Amounts of which one is a unit more than the others: on a ring of 40 that unit goes round up to 19 times before nothing
/// changes, and there are over 1,000 rounds. Or any amounts.
fn slow_start(rng: &mut Rng, n: usize, limit: u64) -> Vec<u64> {
    if rng.chance(1, 4) {
        return starts(rng, n, limit);
    }
    let mut start = vec![rng.of(&[limit - 1, limit - 20, limit / 3]); n];
    start[rng.below(n)] += 1;
    start
}

/// The slowest demand that is known, or one a unit or two from it somewhere.
fn near_slowest(rng: &mut Rng) -> (Vec<u64>, Vec<u64>) {
    let (d, mut demand) = loop_and_ring();
    let at = rng.below(SECTORS);
    demand[at] = (demand[at] + rng.upto(4)).saturating_sub(2).min(DEMAND);
    (d, demand)
}

/// A sheet and a start that settle slowly, mostly of 40 sectors. The inverse, with its n columns, has few.
fn slow_case(rng: &mut Rng) -> Case {
    let call = rng.of(&[Call::Production, Call::Production, Call::Impact, Call::Price, Call::Price, Call::Inverse]);
    let suffices = rng.of(&[PRODUCTION_BUDGET, PRICE_BUDGET]);
    let around = near(rng, suffices);
    let budget = rng.of(&[u32::MAX, around, around, 1000]);
    let n = if call == Call::Inverse { 1 + rng.below(13) } else if rng.chance(2, 3) { SECTORS } else { 1 + rng.below(SECTORS) };
    let limit = if call == Call::Price { RISE } else { DEMAND };
    let mut given = vec![slow_sheet(rng, n)];
    if call != Call::Inverse {
        given.push(slow_start(rng, n, limit));
    }
    if n == SECTORS && limit == DEMAND && rng.chance(1, 4) {
        let (d, demand) = near_slowest(rng);
        given = vec![d, demand];
    }
    if call == Call::Impact {
        given.push(second_demand(rng, &given[1]));
    }
    Case { budget, ..Case::new(call, n, given) }
}

pub fn case(seed: u64, index: u64) -> Case {
    let mut random = Rng::new(seed, index);
    let rng = &mut random;
    if index % 2_000 == 0 {
        return slow_case(rng);
    }
    let mut case = match rng.below(170) {
        0..=23 => coefficients_case(rng),
        24..=43 => rounds_case(rng, Call::Production),
        44..=55 => rounds_case(rng, Call::Price),
        56..=67 => implied_case(rng),
        68..=77 => induced_case(rng),
        78..=82 => inverse_case(rng),
        83..=85 => row_case(rng),
        86..=99 => read_case(rng),
        100..=109 => write_case(rng),
        110..=125 => rounds_case(rng, Call::Impact),
        126..=141 => aggregate_case(rng),
        142..=151 => demand_case(rng),
        152..=161 => permute_case(rng),
        _ => page_case(rng),
    };
    let by_size = !matches!(case.call, Call::ReadTable | Call::Page);
    if case.call != Call::Page && rng.chance(1, 12) {
        bend_length(rng, &mut case);
        if rng.chance(1, 4) {
            bend_length(rng, &mut case);
        }
    }
    if by_size && rng.chance(1, 25) {
        bend_n(rng, &mut case);
    }
    case
}
