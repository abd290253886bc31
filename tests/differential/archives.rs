//! Document 02, tickets 1 and 3: what holds of files that are written and read, by the library and by the
//! reference in turn.

use crate::calls::{by_library, Call, Case};
use crate::generate::{file_of, written_table, Rng};
use crate::reference::{self, amounts, FILE_BYTES, FILE_LENGTHS, SECTORS};

pub struct Report {
    pub tables: usize,
    pub pairs: usize,
    pub broken: usize,
}

type Table = Vec<Vec<u64>>;

/// The 12,883 bytes that the library writes, and the file's length.
fn written(n: usize, table: &Table) -> Option<(Vec<u8>, usize)> {
    let outcome = by_library(&Case::new(Call::WriteTable, n, table.clone())).ok()?;
    if outcome.number == 0 { Some((outcome.bytes, outcome.counts[0])) } else { None }
}

/// The cells of a table as the reader leaves them in its slices, with the marks.
fn delivered(table: &Table) -> Table {
    let mut cells = table.clone();
    cells.push(vec![]);
    cells.iter_mut().zip(FILE_LENGTHS).for_each(|(slice, length)| slice.resize(length, 0));
    cells
}

/// What the library reads from a file: n, how many cells are named, and its slices.
fn read(file: &[u8]) -> Option<([usize; 2], Table)> {
    let outcome = by_library(&Case::of_file(Call::ReadTable, file.to_vec())).ok()?;
    if outcome.number == 0 { Some((outcome.counts, amounts(&outcome.cells))) } else { None }
}

/// One table: its file read by the other reading of the paper, in both directions; files of it in
/// other orders, with zeros named; and tables beside it.
fn check(rng: &mut Rng) -> Result<usize, String> {
    let n = if rng.chance(1, 10) { 1 + rng.below(SECTORS) } else { 1 + rng.below(5) };
    let table = written_table(rng, n);
    let about = |what: &str| format!("{what}: n {n}, {table:?}");
    let (bytes, length) = written(n, &table).ok_or_else(|| about("not written"))?;
    let cells = delivered(&table);
    let counts = [n, table.iter().flatten().filter(|cell| **cell != 0).count()];

    // The library's file, read by the reference; the reference's, read by the library.
    match reference::read_table(&bytes[..length], &FILE_LENGTHS) {
        Ok(read) if read.counts == counts && amounts(&read.cells) == cells => {}
        _ => return Err(about("the reference reads something else")),
    }
    let slices = std::array::from_fn(|k| &table[k][..]);
    let file = reference::write_table(n, slices, FILE_BYTES).map_err(|_| about("refused"))?;
    if read(&file) != Some((counts, cells.clone())) {
        return Err(about("the library reads something else"));
    }

    // Any other file of the table is read as the table, and written again as the same bytes.
    for _ in 0..2 {
        let other = file_of(rng, n, &table);
        let (told, read) = read(&other).ok_or_else(|| about("another file is not read"))?;
        if told[0] != n || read != cells {
            return Err(about(&format!("another file reads otherwise, {other:?}")));
        }
        let lengths = Call::WriteTable.given_lengths(n);
        let again = read.iter().zip(lengths).map(|(slice, length)| slice[..length].to_vec()).collect();
        if written(n, &again) != Some((bytes.clone(), length)) {
            return Err(about(&format!("another file is written otherwise, {other:?}")));
        }
    }

    // Pairs: the same table, one that differs in a cell, one of another n with the same cells at the
    // front, and another drawn.
    let mut near = table.clone();
    let slice = rng.below(8);
    let at = rng.below(near[slice].len());
    let cell = near[slice][at];
    near[slice][at] = if rng.chance(1, 2) { cell / 256 } else if cell == 0 { 1 } else { cell - 1 };
    let m = if n < SECTORS { n + 1 } else { n - 1 };
    let mut wide = table.clone();
    wide.iter_mut().zip(Call::WriteTable.given_lengths(m)).for_each(|(slice, length)| slice.resize(length, 0));
    let drawn = written_table(rng, n);
    let mut pairs = 0;
    for (m, other) in [(n, table.clone()), (n, near), (m, wide), (n, drawn)] {
        let second = written(m, &other).ok_or_else(|| about("a second table is not written"))?;
        let same = m == n && other == table;
        if (bytes == second.0) != same || (bytes[..length] == second.0[..second.1]) != same {
            return Err(about(&format!("bytes and cells differ unlike, n {m}, {other:?}")));
        }
        pairs += 1;
    }
    Ok(pairs)
}

pub fn run(seed: u64, tables: usize) -> Report {
    let mut report = Report { tables, pairs: 0, broken: 0 };
    for index in 0..tables {
        match check(&mut Rng::new(seed, index as u64)) {
            Ok(pairs) => report.pairs += pairs,
            Err(what) => {
                report.broken += 1;
                if report.broken <= 3 {
                    println!("archives, table {index}: {what}");
                }
            }
        }
    }
    report
}
