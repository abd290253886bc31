//! Document 02, ticket 7: what is promised of every table that the library merges, held against the table
//! before, the questions of a table, and other mergings by the library.

use crate::calls::{by_library, by_reference, Call, Case, Outcome, GROUPS};
use crate::reference::amounts;

type Table = [Vec<u64>];

fn total(cells: &[u64]) -> u128 {
    cells.iter().map(|cell| u128::from(*cell)).sum()
}

/// What the library gives of a table and other groups: the number and all cells.
fn merged(n: usize, table: &Table, groups: Vec<u64>) -> Result<(u8, Vec<Vec<u64>>), &'static str> {
    let given = [table, &[groups]].concat();
    let outcome = by_library(&Case::new(Call::Aggregate, n, given))?;
    Ok((outcome.number, amounts(&outcome.cells)))
}

/// "The totals of x, F, E, M, V, X and G equal those before", and the groups together have n sectors.
fn totals(n: usize, before: &Table, after: &Table, sizes: &[u64]) -> Result<(), &'static str> {
    if before.iter().zip(after).any(|(before, after)| total(before) != total(after)) {
        return Err("a total is not the one before");
    }
    if sizes.contains(&0) || total(sizes) != n as u128 {
        return Err("the sizes are none of groups of n sectors");
    }
    Ok(())
}

/// "The merged table passes 4, 5 and 6", and 1, 2, 3 and 16: its sheets are refused by 7 alone, which is asked last.
fn questions(g: usize, after: &Table) -> Result<(), &'static str> {
    let sheets = Case::new(Call::Coefficients, g, after.to_vec());
    for number in [by_reference(&sheets).number, by_library(&sheets)?.number] {
        if number != 0 && number != 7 {
            return Err("the merged table does not pass a question before 7");
        }
    }
    Ok(())
}

/// Groups of one sector each, in order, change nothing.
fn singles(n: usize, before: &Table) -> Result<(), &'static str> {
    let (number, cells) = merged(n, before, (0..n).map(|sector| 1 << sector).collect())?;
    if number != 0 || cells[..GROUPS] != *before || cells[GROUPS] != vec![1; n] {
        return Err("groups of one sector each change something");
    }
    Ok(())
}

/// Merged again, a table is what it is merged at once into the joined groups. Group k goes into group k % h.
fn twice(case: &Case, after: &Table, sizes: &[u64]) -> Result<(), &'static str> {
    let (before, groups) = (&case.given[..GROUPS], &case.given[GROUPS]);
    let g = groups.len();
    let h = 1 + groups.iter().fold(0, |sum: u64, word| sum.wrapping_add(*word)) as usize % g;
    let (mut second, mut joined, mut taken_in) = (vec![0; h], vec![0; h], vec![0; h]);
    for k in 0..g {
        second[k % h] |= 1 << k;
        joined[k % h] |= groups[k];
        taken_in[k % h] += sizes[k];
    }
    let (number, again) = merged(g, after, second)?;
    let (number_at_once, at_once) = merged(case.n, before, joined)?;
    if number != number_at_once || number != 0 && number != 19 {
        return Err("merging again is answered unlike merging at once");
    }
    if again[..GROUPS] != at_once[..GROUPS] {
        return Err("merging again gives another table than merging at once");
    }
    if number == 0 && at_once[GROUPS] != taken_in {
        return Err("a joined group has not the sectors of its groups");
    }
    Ok(())
}

/// A case and what the library gives; other calls and refusals pass. An error names what is broken.
pub fn check(case: &Case, outcome: &Outcome) -> Result<(), &'static str> {
    if case.call != Call::Aggregate || outcome.number != 0 {
        return Ok(());
    }
    let cells = amounts(&outcome.cells);
    let (before, after, sizes) = (&case.given[..GROUPS], &cells[..GROUPS], &cells[GROUPS]);
    totals(case.n, before, after, sizes)?;
    questions(sizes.len(), after)?;
    singles(case.n, before)?;
    twice(case, after, sizes)
}
