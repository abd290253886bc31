//! Document 02, ticket 4: what is promised of every impact that the library accepts, held against the
//! library's own productions and against the demands. The reference has no part in it.

use crate::calls::{by_library, Call, Case, Outcome};

/// The production that the library settles from a demand, and its count.
fn production(case: &Case, demand: &[u64]) -> Result<(Vec<i128>, usize), &'static str> {
    let given = vec![case.given[0].clone(), demand.to_vec()];
    let outcome = by_library(&Case { budget: case.budget, ..Case::new(Call::Production, case.n, given) })?;
    if outcome.number != 0 {
        return Err("an impact of a production that is refused");
    }
    Ok((outcome.cells[0].clone(), outcome.counts[0]))
}

/// A case and what the library gives; other calls and refusals pass. An error names what is broken.
pub fn check(case: &Case, outcome: &Outcome) -> Result<(), &'static str> {
    if case.call != Call::Impact || outcome.number != 0 {
        return Ok(());
    }
    let (before, after, rise) = (&case.given[1], &case.given[2], &outcome.cells[0]);
    let (without, first) = production(case, before)?;
    let (with, second) = production(case, after)?;
    if outcome.counts[0] != first.max(second) {
        return Err("the count is not the larger of the two");
    }
    let (mut added, mut risen) = (0, 0);
    for i in 0..case.n {
        if with[i] < without[i] {
            return Err("a sector falls");
        }
        if rise[i] != with[i] - without[i] {
            return Err("a rise is not the difference of two productions");
        }
        let scheme = i128::from(after[i]) - i128::from(before[i]);
        if scheme < 0 || rise[i] < scheme {
            return Err("a sector rises by less than what was added to it");
        }
        added += scheme;
        risen += rise[i];
    }
    if risen >= 20 * added + 20 * case.n as i128 {
        return Err("the total rise is too large");
    }
    if added == 0 && risen != 0 {
        return Err("a rise without a scheme");
    }
    Ok(())
}
