//! The demand for domestic goods of a final demand: what is promised of it beside the definition, held
//! against the library's own sheets, productions and impacts. The reference has no part in it.

use crate::calls::{by_library, Call, Case, Outcome};
use crate::generate::{raised, Rng};
use crate::reference::{amounts, AMOUNT_LIMIT, ONE, PRODUCTION_BUDGET};

/// What the library gives of m, F, E and G, which are accepted.
fn demand(n: usize, inputs: [&[u64]; 4]) -> Result<Vec<u64>, &'static str> {
    let given = inputs.map(|slice| slice.to_vec()).to_vec();
    let outcome = by_library(&Case::new(Call::DomesticDemand, n, given))?;
    if outcome.number != 0 {
        return Err("a final demand within its limit is refused");
    }
    Ok(amounts(&outcome.cells).swap_remove(0))
}

/// The number of a call that takes a sheet and demands, with a budget that suffices.
fn number(call: Call, n: usize, given: &[&[u64]]) -> Result<u8, &'static str> {
    let given = given.iter().map(|slice| slice.to_vec()).collect();
    Ok(by_library(&Case { budget: PRODUCTION_BUDGET, ..Case::new(call, n, given) })?.number)
}

/// What a scheme adds to the demand: never more than is spent, all of it where nothing is imported, and the part of it that is not
/// imported, rounded down, or one more.
fn added(share: u64, spent: u64, before: u64, after: u64) -> Result<(), &'static str> {
    let added = after.checked_sub(before).ok_or("a demand falls")?;
    if added > spent {
        return Err("more is added than is spent");
    }
    if share == 0 && added != spent {
        return Err("a sector imports nothing, and less is added than is spent");
    }
    let inside = (ONE - u128::from(share)) * u128::from(spent) / ONE;
    if u128::from(added) != inside && u128::from(added) != inside + 1 {
        return Err("what is added is not the part that is not imported");
    }
    Ok(())
}

/// The demand of m, F, E and G, and that with a scheme in F: production and impact accept them, with a sheet that is accepted.
fn scheme(n: usize, d: &[u64], inputs: [&[u64]; 4], before: &[u64]) -> Result<(), &'static str> {
    let [m, final_demand, exports, adjustment] = inputs;
    let seed = inputs.concat().iter().fold(0, |sum: u64, cell| sum.wrapping_add(*cell));
    let with_scheme = raised(&mut Rng::new(seed, 0), final_demand, AMOUNT_LIMIT as u64);
    let after = demand(n, [m, &with_scheme, exports, adjustment])?;
    for i in 0..n {
        added(m[i], with_scheme[i] - final_demand[i], before[i], after[i])?;
    }
    for f in [before, &after] {
        if number(Call::Production, n, &[d, f])? != 0 {
            return Err("production refuses the demand");
        }
    }
    match number(Call::Impact, n, &[d, before, &after])? {
        0 => Ok(()),
        17 => Err("impact refuses a scheme with 17"),
        _ => Err("impact refuses a scheme"),
    }
}

/// A case and what the library gives; other calls and refusals pass. An error names what is broken. The demand of an accepted table's
/// own final demand is its f.
pub fn check(case: &Case, outcome: &Outcome) -> Result<(), &'static str> {
    if outcome.number != 0 {
        return Ok(());
    }
    let (n, given) = (case.n, &case.given);
    match case.call {
        Call::Coefficients => {
            let [_, _, m, d, f] = &amounts(&outcome.cells)[..] else { unreachable!() };
            let inputs: [&[u64]; 4] = [m, &given[1], &given[2], &given[6]];
            if demand(n, inputs)? != *f {
                return Err("the demand of a table's final demand is not its f");
            }
            scheme(n, d, inputs, f)
        }
        Call::DomesticDemand => {
            let inputs = std::array::from_fn(|k| &given[k][..]);
            scheme(n, &vec![0; n * n], inputs, &amounts(&outcome.cells)[0])
        }
        _ => Ok(()),
    }
}
