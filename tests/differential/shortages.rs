//! Document 02, ticket 8: what is promised of every demand behind a production that the library accepts, held
//! against document 01's call, the library's own production and the total. The reference has no part in it.

use crate::calls::{by_library, number_seen, Call, Case, Outcome};
use crate::reference::{amounts, COLUMN_LIMIT, DEMAND_LIMIT, ONE, PRODUCTION_LIMIT};

/// The largest shortage: of a sector that makes nothing another, which makes the largest total, takes 95 in 100 of that.
const LARGEST: i128 = (PRODUCTION_LIMIT * COLUMN_LIMIT / ONE) as i128;

/// The most sectors of a demand that is settled again.
const SETTLED: usize = 8;

/// Document 01's call, after its question 8: the demand in amounts, none below 0, or the place of question 10.
fn unsigned_demand(n: usize, d: &[u64], production: &[u64]) -> Result<Vec<u128>, usize> {
    let mut demand = Vec::new();
    for i in 0..n {
        let products = (0..n).map(|j| u128::from(d[i * n + j]) * u128::from(production[j]));
        let taken = products.sum::<u128>() / ONE;
        demand.push(u128::from(production[i]).checked_sub(taken).ok_or(i)?);
    }
    Ok(demand)
}

/// "Productions accepted before give the demand they gave." Where 10 refused, the first sector below 0 is at its place.
fn as_before(case: &Case, demand: &[i128]) -> Result<(), &'static str> {
    match unsigned_demand(case.n, &case.given[0], &case.given[1]) {
        Ok(gave) if !gave.iter().map(|amount| *amount as i128).eq(demand.iter().copied()) => {
            Err("a production accepted before gives another demand")
        }
        Err(place) if demand.iter().position(|cell| *cell < 0) != Some(place) => {
            Err("the first sector below 0 is not at the place of 10")
        }
        _ => Ok(()),
    }
}

/// Question 7 leaves at least a twentieth of the total, so never are all sectors short.
fn bounds(production: &[u64], demand: &[i128]) -> Result<(), &'static str> {
    let total: i128 = production.iter().map(|amount| i128::from(*amount)).sum();
    if 20 * demand.iter().sum::<i128>() < total {
        return Err("the demands together are less than a twentieth of the total");
    }
    if demand.iter().any(|cell| *cell < -LARGEST) {
        return Err("a shortage above the largest");
    }
    Ok(())
}

/// Where production takes the demand, what settles from it is nowhere above the production that was given.
fn forward(case: &Case, outcome: &Outcome) -> Result<(), &'static str> {
    let within = |cell: &i128| (0..=DEMAND_LIMIT as i128).contains(cell);
    if case.n > SETTLED || !outcome.cells[0].iter().all(within) {
        return Ok(());
    }
    let given = [vec![case.given[0].clone()], amounts(&outcome.cells)].concat();
    let settled = by_library(&Case { budget: u32::MAX, ..Case::new(Call::Production, case.n, given) })?;
    if settled.number != 0 {
        return Err("production refuses a demand behind a production");
    }
    if settled.cells[0].iter().zip(&case.given[1]).any(|(amount, before)| *amount > i128::from(*before)) {
        return Err("back and then forward is above the production");
    }
    Ok(())
}

/// A case and what the library gives; other calls and refusals pass, if not with 10. An error names what is broken.
pub fn check(case: &Case, outcome: &Outcome) -> Result<(), &'static str> {
    if number_seen(case, outcome) == 10 {
        return Err("number 10, which is reserved");
    }
    if case.call != Call::ImpliedDemand || outcome.number != 0 {
        return Ok(());
    }
    let (production, demand) = (&case.given[1], &outcome.cells[0]);
    as_before(case, demand)?;
    bounds(production, demand)?;
    forward(case, outcome)
}
