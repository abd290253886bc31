//! Demand 3: settled amounts of the library against exact balances, worked out as whole numbers.

use crate::calls::{by_library, Call, Case};
use crate::generate::{domestic, Rng};
use crate::reference::{turned, ONE, DEMAND_LIMIT, RISE_LIMIT};

/// A signed whole number of 320 bits, two's complement, lowest word first. With at most 6 sectors
/// every number here is below 2^210.
#[derive(Clone, Copy, PartialEq, Eq)]
struct Wide([u64; 5]);

impl Wide {
    const ZERO: Wide = Wide([0; 5]);

    fn from(value: u64) -> Wide {
        Wide([value, 0, 0, 0, 0])
    }

    fn plus(self, other: Wide) -> Wide {
        let mut words = [0; 5];
        let mut carry = 0;
        for k in 0..5 {
            let sum = u128::from(self.0[k]) + u128::from(other.0[k]) + carry;
            words[k] = sum as u64;
            carry = sum >> 64;
        }
        Wide(words)
    }

    fn negative(self) -> Wide {
        Wide(self.0.map(|word| !word)).plus(Wide::from(1))
    }

    fn minus(self, other: Wide) -> Wide {
        self.plus(other.negative())
    }

    fn times(self, factor: u64) -> Wide {
        let mut words = [0; 5];
        let mut carry = 0;
        for k in 0..5 {
            let product = u128::from(self.0[k]) * u128::from(factor) + carry;
            words[k] = product as u64;
            carry = product >> 64;
        }
        Wide(words)
    }

    fn times_signed(self, factor: i64) -> Wide {
        let product = self.times(factor.unsigned_abs());
        if factor < 0 { product.negative() } else { product }
    }

    fn is_below_zero(self) -> bool {
        self.0[4] >> 63 == 1
    }

    fn is_below(self, other: Wide) -> bool {
        self.minus(other).is_below_zero()
    }
}

/// The determinant, by minors of the first rows over every set of columns.
fn determinant(n: usize, matrix: &[i64]) -> Wide {
    let mut minors = vec![Wide::ZERO; 1 << n];
    minors[0] = Wide::from(1);
    for set in 1..1_usize << n {
        let row = set.count_ones() as usize - 1;
        let mut sum = Wide::ZERO;
        for column in (0..n).filter(|column| set >> column & 1 == 1) {
            let part = minors[set & !(1 << column)].times_signed(matrix[row * n + column]);
            // The column's place from the end of the set gives the sign.
            let later = (set >> (column + 1)).count_ones();
            sum = if later % 2 == 0 { sum.plus(part) } else { sum.minus(part) };
        }
        minors[set] = sum;
    }
    minors[(1 << n) - 1]
}

/// The exact balance of a sheet and a start: b and q, by Cramer's rule on
/// (one × I − D) b = one × q × start, with q the determinant.
fn exact_balance(n: usize, sheet: &[u64], start: &[u64]) -> (Vec<Wide>, Wide) {
    let one = ONE as i64;
    let mut matrix: Vec<i64> = sheet.iter().map(|d| -(*d as i64)).collect();
    (0..n).for_each(|i| matrix[i * n + i] += one);
    let divisor = determinant(n, &matrix);
    let amounts = (0..n).map(|column| {
        let mut other = matrix.clone();
        (0..n).for_each(|i| other[i * n + column] = one * start[i] as i64);
        determinant(n, &other)
    });
    (amounts.collect(), divisor)
}

/// "An exact balance": the paper's equation, in every sector, with q above 0 and nothing below 0.
fn balances(n: usize, sheet: &[u64], start: &[u64], b: &[Wide], q: Wide) -> bool {
    let one = ONE as u64;
    let whole = !q.is_below(Wide::from(1)) && b.iter().all(|b| !b.is_below_zero());
    whole
        && (0..n).all(|i| {
            let mut sum = q.times(one).times(start[i]);
            for j in 0..n {
                sum = sum.plus(b[j].times(sheet[i * n + j]));
            }
            b[i].times(one) == sum
        })
}

pub struct Report {
    pub sheets: usize,
    pub pairs: usize,
    pub broken: usize,
}

/// What the library gives; None if it refuses, or if a cell is below 0.
fn amounts(call: Call, n: usize, sheet: &[u64], start: &[u64]) -> Option<Vec<u64>> {
    let case = Case::new(call, n, vec![sheet.to_vec(), start.to_vec()]);
    let outcome = by_library(&Case { budget: u32::MAX, ..case }).ok()?;
    if outcome.number == 0 { outcome.cells[0].iter().map(|cell| u64::try_from(*cell).ok()).collect() } else { None }
}

fn start(rng: &mut Rng, n: usize, limit: u64) -> Vec<u64> {
    match rng.below(3) {
        0 => (0..n).map(|_| rng.upto(30)).collect(),
        1 => (0..n).map(|_| rng.upto(limit)).collect(),
        _ => (0..n).map(|_| rng.magnitude(limit)).collect(),
    }
}

/// One sheet: production and prices against their exact balances; pairs of demands; and going
/// forward and then back.
fn check(rng: &mut Rng) -> Result<usize, String> {
    let n = 1 + rng.below(6);
    let d = domestic(rng, n);
    let mut pairs = 0;

    let f = start(rng, n, DEMAND_LIMIT as u64);
    let about = |what: &str| format!("{what}: n {n}, d {d:?}, f {f:?}");
    let production =
        amounts(Call::Production, n, &d, &f).ok_or_else(|| about("production not accepted"))?;
    let (b, q) = exact_balance(n, &d, &f);
    if !balances(n, &d, &f, &b, q) {
        return Err(about("the exact balance of the test is none"));
    }
    let mut lack = Wide::ZERO;
    for i in 0..n {
        let own = b[i].minus(q.times(production[i]));
        if own.is_below_zero() {
            return Err(about("production too high"));
        }
        lack = lack.plus(own);
    }
    if !lack.is_below(q.times(20 * n as u64)) {
        return Err(about("production lacks too much"));
    }

    // Pairs: the same demand again, one a unit away, and another drawn.
    let mut near = f.clone();
    let at = rng.below(n);
    near[at] = if near[at] == 0 { 1 } else { near[at] - 1 };
    for other in [f.clone(), near, start(rng, n, DEMAND_LIMIT as u64)] {
        let second = amounts(Call::Production, n, &d, &other)
            .ok_or_else(|| about("a second production not accepted"))?;
        if (production == second) != (f == other) {
            return Err(about(&format!("productions and demands differ unlike, {other:?}")));
        }
        pairs += 1;
    }

    // Forward and then back returns the demand.
    let back = amounts(Call::ImpliedDemand, n, &d, &production);
    if back != Some(f.clone()) {
        return Err(about("forward and then back is not the demand"));
    }

    let w = start(rng, n, RISE_LIMIT as u64);
    let about = |what: &str| format!("{what}: n {n}, d {d:?}, w {w:?}");
    let rise = amounts(Call::Price, n, &d, &w).ok_or_else(|| about("price not accepted"))?;
    let columns = turned(n, &d);
    let (b, q) = exact_balance(n, &columns, &w);
    if !balances(n, &columns, &w, &b, q) {
        return Err(about("the exact balance of the test is none"));
    }
    for j in 0..n {
        let own = b[j].minus(q.times(rise[j]));
        if own.is_below_zero() || !own.is_below(q.times(20)) {
            return Err(about("a rise too high or lacking too much"));
        }
    }
    Ok(pairs)
}

pub fn run(seed: u64, sheets: usize) -> Report {
    let mut report = Report { sheets, pairs: 0, broken: 0 };
    for index in 0..sheets {
        match check(&mut Rng::new(seed, index as u64)) {
            Ok(pairs) => report.pairs += pairs,
            Err(what) => {
                report.broken += 1;
                if report.broken <= 3 {
                    println!("exact balances, sheet {index}: {what}");
                }
            }
        }
    }
    report
}
