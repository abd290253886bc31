//! Document 02, ticket 9: what is promised of every table that the library puts in another order, held against
//! the table before, other orders and mergings by the library, and its own sheets, productions and prices. The
//! reference has no part in it.

use crate::calls::{by_library, Call, Case, Outcome, GROUPS, ORDER};
use crate::generate::{sector_list, Rng};
use crate::reference::{amounts, PRICE_BUDGET, PRODUCTION_BUDGET, RISE_LIMIT, SECTORS};

type Table = [Vec<u64>];

/// The most sectors of a table that is always settled in both orders. Of larger ones one in eight is.
const SETTLED: usize = 8;

/// The accepted lists that are not their own inverse, the tables whose sheets are accepted, and how many of these were settled in both
/// orders.
#[derive(Default)]
pub struct Seen {
    pub other_inverse: u64,
    pub sheets: u64,
    pub settled: u64,
}

impl Seen {
    pub fn add(&mut self, other: Seen) {
        self.other_inverse += other.other_inverse;
        self.sheets += other.sheets;
        self.settled += other.settled;
    }
}

/// Cell k in the new order is cell order(k) in the old.
fn column<T: Copy>(order: &[usize], cells: &[T]) -> Vec<T> {
    order.iter().map(|sector| cells[*sector]).collect()
}

/// The same in rows and columns.
fn sheet(order: &[usize], cells: &[u64]) -> Vec<u64> {
    let n = order.len();
    order.iter().flat_map(|row| column(order, &cells[row * n..(row + 1) * n])).collect()
}

fn sectors(list: &[u64]) -> Vec<usize> {
    list.iter().map(|entry| *entry as usize).collect()
}

/// What the library gives of a table and a list of all its sectors: the table in the new order and the inverse list.
fn permuted(n: usize, table: &Table, order: &[u64]) -> Result<Vec<Vec<u64>>, &'static str> {
    let given = [table, &[order.to_vec()]].concat();
    let outcome = by_library(&Case::new(Call::Permute, n, given))?;
    if outcome.number != 0 {
        return Err("a list of all sectors is refused");
    }
    Ok(amounts(&outcome.cells))
}

/// Only a call with exact lengths is accepted.
fn lengths(case: &Case) -> Result<(), &'static str> {
    let given: Vec<usize> = case.given.iter().map(Vec::len).collect();
    let size = (1..=SECTORS).contains(&case.n);
    if !size || given != case.call.given_lengths(case.n) || case.lent != case.call.lent_lengths(case.n) {
        return Err("a table of another size is put in order");
    }
    Ok(())
}

/// inverse(order(k)) = k and order(inverse(s)) = s. So both are lists of all sectors.
fn inverses(order: &[usize], inverse: &[usize]) -> Result<(), &'static str> {
    let undone = |first: &[usize], second: &[usize]| first.iter().enumerate().all(|(k, entry)| second.get(*entry) == Some(&k));
    if !undone(order, inverse) || !undone(inverse, order) {
        return Err("the inverse list is none");
    }
    Ok(())
}

/// "Rearranging by the list and then by its inverse returns the table." The list is then the inverse list.
fn there_and_back(n: usize, before: &Table, order: &[u64], after: &Table, inverse: &[u64]) -> Result<(), &'static str> {
    let back = permuted(n, after, inverse)?;
    if back[..ORDER] != *before {
        return Err("by the inverse list another table returns");
    }
    if back[ORDER] != order {
        return Err("the inverse of the inverse list is another list");
    }
    Ok(())
}

/// By a second list, a table is what it is at once by the list whose entry k is the first list's entry at the second's entry k. A sector
/// comes to a place by the first list, and from there to its last by the second.
fn twice(before: &Table, order: &[u64], after: &Table, inverse: &[usize], second: &[u64]) -> Result<(), &'static str> {
    let n = order.len();
    let again = permuted(n, after, second)?;
    let at_once = permuted(n, before, &column(&sectors(second), order))?;
    if again[..ORDER] != at_once[..ORDER] {
        return Err("by two lists it is another table than by both at once");
    }
    if column(inverse, &again[ORDER]) != at_once[ORDER] {
        return Err("the inverse of both lists at once is not their inverses in turn");
    }
    Ok(())
}

/// Merged into groups of one sector each, in the order of the list, a table that can be merged is the same.
fn merged(n: usize, before: &Table, order: &[usize], after: &Table) -> Result<(), &'static str> {
    let groups = order.iter().map(|sector| 1 << sector).collect();
    let given = [before, &[groups]].concat();
    let outcome = by_library(&Case::new(Call::Aggregate, n, given))?;
    if outcome.number == 0 && amounts(&outcome.cells)[..GROUPS] != *after {
        return Err("merged into single sectors in that order it is another table");
    }
    Ok(())
}

/// The library's number for the sheets of a table, and a, v, m, d and f.
fn sheets(n: usize, table: &Table) -> Result<(u8, Vec<Vec<u64>>), &'static str> {
    let outcome = by_library(&Case::new(Call::Coefficients, n, table.to_vec()))?;
    Ok((outcome.number, amounts(&outcome.cells)))
}

/// "Where sheets from the old table are accepted, so are those from the new", and they are the old ones in the new order. Each question
/// asks of every sector, so that a refusal has its number in any order. Gives both sheets where they are accepted.
fn sheets_alike(order: &[usize], before: &Table, after: &Table) -> Result<Option<[Vec<Vec<u64>>; 2]>, &'static str> {
    let n = order.len();
    let ((number, old), (new_number, new)) = (sheets(n, before)?, sheets(n, after)?);
    if number != new_number {
        return Err("the sheets are answered with another number in the new order");
    }
    let [a, v, m, d, f] = &old[..] else { unreachable!() };
    let expected = [sheet(order, a), column(order, v), column(order, m), sheet(order, d), column(order, f)];
    if new != expected {
        return Err("the sheets are not the old ones in the new order");
    }
    Ok(if number == 0 { Some([old, new]) } else { None })
}

/// Production or price from a sheet and a start in both orders: "the old ones rearranged, with the same count of rounds". Where the budget
/// does not suffice, number and place are the same.
fn settled_alike(call: Call, order: &[usize], old: [&[u64]; 2], new: [&[u64]; 2], budget: u32) -> Result<(), &'static str> {
    let settled = |given: [&[u64]; 2]| {
        let given = given.map(|cells| cells.to_vec()).to_vec();
        by_library(&Case { budget, ..Case::new(call, order.len(), given) })
    };
    let (old, new) = (settled(old)?, settled(new)?);
    if (old.number, old.place) != (new.number, new.place) {
        return Err("what settles in one order is refused in the other");
    }
    if old.number != 0 && old.number != 9 {
        return Err("accepted sheets are refused by another question than 9");
    }
    if old.counts != new.counts {
        return Err("the count of rounds is another in the new order");
    }
    if new.cells[0] != column(order, &old.cells[0]) {
        return Err("what settles is not the old amounts in the new order");
    }
    Ok(())
}

/// "Production settled from f, and prices from direct rises rearranged alike", with budgets that suffice and with small ones.
fn amounts_alike(rng: &mut Rng, order: &[usize], old: &Table, new: &Table) -> Result<(), &'static str> {
    let ([_, _, _, d, f], [_, _, _, new_d, new_f]) = (old, new) else { unreachable!() };
    for budget in [PRODUCTION_BUDGET, rng.upto(40) as u32] {
        settled_alike(Call::Production, order, [d, f], [new_d, new_f], budget)?;
    }
    let rises: Vec<u64> = order.iter().map(|_| rng.magnitude(RISE_LIMIT as u64)).collect();
    let new_rises = column(order, &rises);
    for budget in [PRICE_BUDGET, rng.upto(40) as u32] {
        settled_alike(Call::Price, order, [d, &rises], [new_d, &new_rises], budget)?;
    }
    Ok(())
}

/// A case and what the library gives; other calls and refusals pass. An error names what is broken. What else is drawn depends on the
/// case alone.
pub fn check(case: &Case, outcome: &Outcome, seen: &mut Seen) -> Result<(), &'static str> {
    if case.call != Call::Permute || outcome.number != 0 {
        return Ok(());
    }
    lengths(case)?;
    let cells = amounts(&outcome.cells);
    let (before, order) = (&case.given[..ORDER], &case.given[ORDER]);
    let (after, inverse) = (&cells[..ORDER], &cells[ORDER]);
    let (list, inverse_list) = (sectors(order), sectors(inverse));
    let seed = case.given.concat().iter().fold(0, |sum: u64, cell| sum.wrapping_mul(31).wrapping_add(*cell));
    let rng = &mut Rng::new(seed, 0);

    inverses(&list, &inverse_list)?;
    seen.other_inverse += u64::from(list != inverse_list);
    there_and_back(case.n, before, order, after, inverse)?;
    twice(before, order, after, &inverse_list, &sector_list(rng, case.n))?;
    merged(case.n, before, &list, after)?;
    if let Some([old, new]) = sheets_alike(&list, before, after)? {
        seen.sheets += 1;
        if case.n <= SETTLED || rng.chance(1, 8) {
            amounts_alike(rng, &list, &old, &new)?;
            seen.settled += 1;
        }
    }
    Ok(())
}
