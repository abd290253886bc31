//! The timed calls in Rust, with the checks of the proved ones. Sums of accepted inputs fit 64 bits.

#[path = "../include/tawqeshim.rs"]
mod tawqeshim;

use std::slice::{from_raw_parts, from_raw_parts_mut};
use tawqeshim::{
    TAWQESHIM_AMOUNT_LIMIT as AMOUNT, TAWQESHIM_COLUMN_LIMIT as COLUMN, TAWQESHIM_DEMAND_LIMIT as DEMAND, TAWQESHIM_ONE as ONE,
    TAWQESHIM_PRODUCTION_LIMIT as TOTAL, TAWQESHIM_RISE_LIMIT as RISE, TAWQESHIM_SECTORS as SECTORS,
};

const COLUMNS: usize = 7;

// Each function for C has the type of the library's, which is not called here.
const _: () = {
    let _ = [rust_production, rust_price, tawqeshim::tawqeshim_production, tawqeshim::tawqeshim_price];
    let _ = [rust_impact, tawqeshim::tawqeshim_impact];
    let _ = [rust_implied_demand, tawqeshim::tawqeshim_implied_demand];
    let _ = [rust_inverse, tawqeshim::tawqeshim_inverse];
    let _ = [rust_read_table, tawqeshim::tawqeshim_read_table];
    let _ = [rust_write_table, tawqeshim::tawqeshim_write_table];
};

/// The number of the first question answered no, and its place.
type Refusal = (u8, usize);

/// One round along the rows. Did it change no sector?
fn turn_rows(n: usize, d: &[u64], start: &[u64], out: &mut [u64], work: &mut [u64]) -> bool {
    let mut unchanged = true;
    for (i, row) in d.chunks_exact(n).enumerate() {
        let sum: u64 = row.iter().zip(out.iter()).map(|(c, x)| c * x).sum();
        work[i] = start[i] + sum / ONE;
        unchanged &= work[i] == out[i];
    }
    out.copy_from_slice(work);
    unchanged
}

/// One round down the columns, all columns at once, so that cells are read in their order.
fn turn_columns(n: usize, d: &[u64], start: &[u64], out: &mut [u64], work: &mut [u64]) -> bool {
    let mut unchanged = true;
    work.fill(0);
    for (row, x) in d.chunks_exact(n).zip(out.iter()) {
        for (sum, c) in work.iter_mut().zip(row) {
            *sum += c * x;
        }
    }
    for (x, (f, sum)) in out.iter_mut().zip(start.iter().zip(work.iter())) {
        let amount = f + sum / ONE;
        unchanged &= amount == *x;
        *x = amount;
    }
    unchanged
}

/// Rounds from the start until one changes no sector, and their count.
fn settle(
    n: usize,
    d: &[u64],
    transposed: bool,
    start: &[u64],
    budget: u32,
    out: &mut [u64],
    work: &mut [u64],
) -> Option<u32> {
    out.copy_from_slice(start);
    for done in 0..budget {
        let unchanged = if transposed {
            turn_columns(n, d, start, out, work)
        } else {
            turn_rows(n, d, start, out, work)
        };
        if unchanged {
            return Some(done + 1);
        }
    }
    None
}

/// Does a column's sum pass the limit?
fn is_over(n: usize, d: &[u64], j: usize) -> bool {
    let mut sum = 0;
    for row in d.chunks_exact(n) {
        if COLUMN - sum < row[j] {
            return true;
        }
        sum += row[j];
    }
    false
}

fn check_sheet(n: usize, d: &[u64]) -> Result<(), Refusal> {
    if !(1..=SECTORS).contains(&n) {
        return Err((1, 0));
    }
    match (0..n).find(|&j| is_over(n, d, j)) {
        Some(j) => Err((7, j)),
        None => Ok(()),
    }
}

fn check_start(start: &[u64], limit: u64) -> Result<(), Refusal> {
    match start.iter().position(|&f| limit < f) {
        Some(i) => Err((8, i)),
        None => Ok(()),
    }
}

fn solve(
    n: usize,
    d: &[u64],
    transposed: bool,
    limit: u64,
    start: &[u64],
    budget: u32,
    out: &mut [u64],
    work: &mut [u64],
) -> Result<u32, Refusal> {
    check_sheet(n, d)?;
    check_start(start, limit)?;
    settle(n, d, transposed, start, budget, out, work).ok_or((9, 0))
}

/// The rise of production from one demand to a second, and the larger count of the two.
fn add(
    n: usize,
    d: &[u64],
    before: &[u64],
    after: &[u64],
    budget: u32,
    out: &mut [u64],
    work: &mut [u64],
) -> Result<u32, Refusal> {
    check_sheet(n, d)?;
    check_start(before, DEMAND)?;
    check_start(after, DEMAND)?;
    if let Some(i) = before.iter().zip(after).position(|(first, second)| second < first) {
        return Err((17, i));
    }
    let mut without = [0; SECTORS];
    let first = settle(n, d, false, before, budget, &mut without[..n], work).ok_or((9, 0))?;
    let second = settle(n, d, false, after, budget, out, work).ok_or((9, 0))?;
    for (amount, less) in out.iter_mut().zip(without) {
        *amount -= less;
    }
    Ok(first.max(second))
}

fn check_total(production: &[u64]) -> Result<(), Refusal> {
    let mut total = 0;
    for (i, &amount) in production.iter().enumerate() {
        if TOTAL - total < amount {
            return Err((8, i));
        }
        total += amount;
    }
    Ok(())
}

/// The demand behind a production, below 0 where a sector is short.
fn imply(n: usize, d: &[u64], production: &[u64], out: &mut [i64]) -> Result<(), Refusal> {
    check_sheet(n, d)?;
    check_total(production)?;
    for ((row, made), left) in d.chunks_exact(n).zip(production).zip(out) {
        let sum: u64 = row.iter().zip(production).map(|(c, x)| c * x).sum();
        *left = *made as i64 - (sum / ONE) as i64;
    }
    Ok(())
}

/// Each column sum and each row sum of a sheet against their mean, in millionths.
fn disperse(n: usize, sheet: &[u64], power: &mut [u64], sensitivity: &mut [u64]) {
    let mut total = 0;
    power.fill(0);
    for (row, sensitivity) in sheet.chunks_exact(n).zip(sensitivity.iter_mut()) {
        let sum: u64 = row.iter().sum();
        for (power, cell) in power.iter_mut().zip(row) {
            *power += cell;
        }
        *sensitivity = sum;
        total += sum;
    }
    for ratio in power.iter_mut().chain(sensitivity) {
        *ratio = *ratio * n as u64 * ONE / total;
    }
}

/// The inverse, column by column, and the largest count of a column.
fn invert(n: usize, d: &[u64], budget: u32, sheet: &mut [u64]) -> Result<u32, Refusal> {
    check_sheet(n, d)?;
    let (mut demand, mut amounts, mut work) = ([0; SECTORS], [0; SECTORS], [0; SECTORS]);
    let mut most = 0;
    for j in 0..n {
        demand[j] = ONE;
        let rounds = settle(n, d, false, &demand[..n], budget, &mut amounts[..n], &mut work[..n]);
        demand[j] = 0;
        most = most.max(rounds.ok_or((9, j))?);
        for (row, amount) in sheet.chunks_exact_mut(n).zip(amounts) {
            row[j] = amount;
        }
    }
    Ok(most)
}

/// Bytes of a record by its kind, and the line of a column.
const LENGTHS: [usize; 11] = [0, 2, 7, 6, 6, 6, 6, 6, 1, 6, 6];
const LINES: [usize; 11] = [0, 0, 0, 40, 41, 42, 43, 44, 0, 46, 45];

fn amount_from(s: &[u8]) -> u64 {
    u32::from_be_bytes([s[0], s[1], s[2], s[3]]).into()
}

/// The records, into x, columns and marks of 0: n, and how many cells are named.
fn walk(
    file: &[u8],
    x: &mut [u64],
    columns: &mut [&mut [u64]; COLUMNS],
    marks: &mut [u64],
) -> Result<(usize, usize), Refusal> {
    let (mut n, mut at, mut named) = (0, 0, 0);
    while at < file.len() {
        let kind = file[at] as usize;
        if !(1..=10).contains(&kind) || file.len() - at < LENGTHS[kind] {
            return Err((11, at));
        }
        let record = &file[at..at + LENGTHS[kind]];
        if (at == 0) != (kind == 1) {
            return Err((12, at));
        }
        if kind == 1 {
            n = record[1] as usize;
            if !(1..=SECTORS).contains(&n) {
                return Err((12, at));
            }
        } else if kind == 8 {
            if at + 1 != file.len() {
                return Err((15, at + 1));
            }
            return Ok((n, named));
        } else {
            let row = record[1] as usize;
            let position = if kind == 2 { record[2] as usize } else { row };
            if row < 1 || n < row || position < 1 || n < position {
                return Err((13, at));
            }
            let line = if kind == 2 { row - 1 } else { LINES[kind] };
            let bit = 1 << (position - 1);
            if marks[line] & bit != 0 {
                return Err((14, at));
            }
            marks[line] |= bit;
            named += 1;
            if kind == 2 {
                x[line * n + position - 1] = amount_from(&record[3..]);
            } else {
                columns[line - 40][position - 1] = amount_from(&record[2..]);
            }
        }
        at += LENGTHS[kind];
    }
    Err((15, file.len()))
}

fn read(
    file: &[u8],
    x: &mut [u64],
    columns: &mut [&mut [u64]; COLUMNS],
    marks: &mut [u64],
) -> Result<(usize, usize), Refusal> {
    x.fill(0);
    columns.iter_mut().for_each(|column| column.fill(0));
    marks.fill(0);
    let answer = walk(file, x, columns, marks);
    if answer.is_err() {
        x.fill(0);
        columns.iter_mut().for_each(|column| column.fill(0));
    }
    marks.fill(0);
    answer
}

/// Kinds in their order, and the column of each: the rises are the last column, and the adjustment the last kind.
const KINDS: [(u8, usize); COLUMNS] = [(3, 0), (4, 1), (5, 2), (6, 3), (7, 4), (9, 6), (10, 5)];

fn check_table(n: usize, x: &[u64], columns: &[&[u64]; COLUMNS]) -> Result<(), Refusal> {
    if !(1..=SECTORS).contains(&n) {
        return Err((1, 0));
    }
    let mut cells = x.iter().chain(columns.iter().copied().flatten());
    match cells.position(|&cell| AMOUNT < cell) {
        Some(place) => Err((3, place)),
        None => Ok(()),
    }
}

/// Some bytes at a place of the file: the place after them.
fn put<const N: usize>(file: &mut [u8], at: usize, bytes: [u8; N]) -> usize {
    file[at..at + N].copy_from_slice(&bytes);
    at + N
}

/// The table as a file, and zeros after it: the file's length.
fn write(n: usize, x: &[u64], columns: &[&[u64]; COLUMNS], file: &mut [u8]) -> Result<usize, Refusal> {
    check_table(n, x, columns)?;
    let mut at = put(file, 0, [1, n as u8]);
    for (i, row) in (1..).zip(x.chunks_exact(n)) {
        for (j, &cell) in (1..).zip(row) {
            if cell != 0 {
                at = put(file, at, [2, i, j]);
                at = put(file, at, (cell as u32).to_be_bytes());
            }
        }
    }
    for (kind, column) in KINDS {
        for (i, &cell) in (1..).zip(columns[column]) {
            if cell != 0 {
                at = put(file, at, [kind, i]);
                at = put(file, at, (cell as u32).to_be_bytes());
            }
        }
    }
    at = put(file, at, [8]);
    file[at..].fill(0);
    Ok(at)
}

// The same for C. Pointers are those of arrays with the lengths that follow them.

unsafe fn tell(
    answer: Result<u32, Refusal>,
    number: *mut u8,
    place: *mut usize,
    rounds: *mut u32,
) {
    let (q, p, k) = match answer {
        Ok(rounds) => (0, 0, rounds),
        Err((number, place)) => (number, place, 0),
    };
    *number = q;
    *place = p;
    *rounds = k;
}

macro_rules! settling {
    ($name:ident, $transposed:expr, $limit:expr) => {
        #[no_mangle]
        pub unsafe extern "C" fn $name(
            n: usize,
            d: *const u64,
            d_length: usize,
            start: *const u64,
            start_length: usize,
            budget: u32,
            out: *mut u64,
            out_length: usize,
            work: *mut u64,
            work_length: usize,
            number: *mut u8,
            place: *mut usize,
            rounds: *mut u32,
        ) {
            let d = from_raw_parts(d, d_length);
            let start = from_raw_parts(start, start_length);
            let out = from_raw_parts_mut(out, out_length);
            let work = from_raw_parts_mut(work, work_length);
            let answer = solve(n, d, $transposed, $limit, start, budget, out, work);
            if answer.is_err() {
                out.fill(0);
            }
            work.fill(0);
            tell(answer, number, place, rounds);
        }
    };
}

settling!(rust_production, false, DEMAND);
settling!(rust_price, true, RISE);

#[no_mangle]
pub unsafe extern "C" fn rust_impact(
    n: usize,
    d: *const u64,
    d_length: usize,
    before: *const u64,
    before_length: usize,
    after: *const u64,
    after_length: usize,
    budget: u32,
    out: *mut u64,
    out_length: usize,
    work: *mut u64,
    work_length: usize,
    number: *mut u8,
    place: *mut usize,
    rounds: *mut u32,
) {
    let d = from_raw_parts(d, d_length);
    let before = from_raw_parts(before, before_length);
    let after = from_raw_parts(after, after_length);
    let out = from_raw_parts_mut(out, out_length);
    let work = from_raw_parts_mut(work, work_length);
    let answer = add(n, d, before, after, budget, out, work);
    if answer.is_err() {
        out.fill(0);
    }
    work.fill(0);
    tell(answer, number, place, rounds);
}

#[no_mangle]
pub unsafe extern "C" fn rust_implied_demand(
    n: usize,
    d: *const u64,
    d_length: usize,
    production: *const u64,
    production_length: usize,
    out: *mut i64,
    out_length: usize,
    number: *mut u8,
    place: *mut usize,
) {
    let d = from_raw_parts(d, d_length);
    let production = from_raw_parts(production, production_length);
    let out = from_raw_parts_mut(out, out_length);
    let answer = imply(n, d, production, out);
    if answer.is_err() {
        out.fill(0);
    }
    (*number, *place) = answer.err().unwrap_or((0, 0));
}

#[no_mangle]
pub unsafe extern "C" fn rust_inverse(
    n: usize,
    d: *const u64,
    d_length: usize,
    budget: u32,
    sheet: *mut u64,
    sheet_length: usize,
    power: *mut u64,
    power_length: usize,
    sensitivity: *mut u64,
    sensitivity_length: usize,
    number: *mut u8,
    place: *mut usize,
    rounds: *mut u32,
) {
    let d = from_raw_parts(d, d_length);
    let sheet = from_raw_parts_mut(sheet, sheet_length);
    let power = from_raw_parts_mut(power, power_length);
    let sensitivity = from_raw_parts_mut(sensitivity, sensitivity_length);
    let answer = invert(n, d, budget, sheet);
    if answer.is_ok() {
        disperse(n, sheet, power, sensitivity);
    } else {
        sheet.fill(0);
        power.fill(0);
        sensitivity.fill(0);
    }
    tell(answer, number, place, rounds);
}

#[no_mangle]
pub unsafe extern "C" fn rust_read_table(
    file: *const u8,
    file_length: usize,
    x: *mut u64,
    x_length: usize,
    final_demand: *mut u64,
    final_demand_length: usize,
    exports: *mut u64,
    exports_length: usize,
    imports: *mut u64,
    imports_length: usize,
    value_added: *mut u64,
    value_added_length: usize,
    production: *mut u64,
    production_length: usize,
    adjustment: *mut u64,
    adjustment_length: usize,
    rises: *mut u64,
    rises_length: usize,
    marks: *mut u64,
    marks_length: usize,
    number: *mut u8,
    place: *mut usize,
    sectors: *mut usize,
    named: *mut usize,
) {
    let file = from_raw_parts(file, file_length);
    let x = from_raw_parts_mut(x, x_length);
    let mut columns = [
        from_raw_parts_mut(final_demand, final_demand_length),
        from_raw_parts_mut(exports, exports_length),
        from_raw_parts_mut(imports, imports_length),
        from_raw_parts_mut(value_added, value_added_length),
        from_raw_parts_mut(production, production_length),
        from_raw_parts_mut(adjustment, adjustment_length),
        from_raw_parts_mut(rises, rises_length),
    ];
    let marks = from_raw_parts_mut(marks, marks_length);
    let answer = read(file, x, &mut columns, marks);
    (*number, *place) = answer.err().unwrap_or((0, 0));
    (*sectors, *named) = answer.unwrap_or((0, 0));
}

#[no_mangle]
pub unsafe extern "C" fn rust_write_table(
    n: usize,
    x: *const u64,
    x_length: usize,
    final_demand: *const u64,
    final_demand_length: usize,
    exports: *const u64,
    exports_length: usize,
    imports: *const u64,
    imports_length: usize,
    value_added: *const u64,
    value_added_length: usize,
    production: *const u64,
    production_length: usize,
    adjustment: *const u64,
    adjustment_length: usize,
    rises: *const u64,
    rises_length: usize,
    file: *mut u8,
    file_length: usize,
    number: *mut u8,
    place: *mut usize,
    length: *mut usize,
) {
    let x = from_raw_parts(x, x_length);
    let columns = [
        from_raw_parts(final_demand, final_demand_length),
        from_raw_parts(exports, exports_length),
        from_raw_parts(imports, imports_length),
        from_raw_parts(value_added, value_added_length),
        from_raw_parts(production, production_length),
        from_raw_parts(adjustment, adjustment_length),
        from_raw_parts(rises, rises_length),
    ];
    let file = from_raw_parts_mut(file, file_length);
    let answer = write(n, x, &columns, file);
    if answer.is_err() {
        file.fill(0);
    }
    (*number, *place) = answer.err().unwrap_or((0, 0));
    *length = answer.unwrap_or(0);
}
