//! The paper "The competitive-import sheets", and the later requests to it, call by call, written from their words alone.
//!
//! Plain and slow on purpose: sums have 128 bits, every list is a fresh vector, nothing is shared
//! with the library. A call takes its inputs and the lengths of the slices lent to it. It gives
//! the cells of those slices after the call, in the interface's order, or a refusal.

/// The last number of a question.
pub const QUESTIONS: usize = 20;
pub const ONE: u128 = 1_000_000;
pub const SECTORS: usize = 40;
pub const AMOUNT_LIMIT: u128 = 1_000_000_000;
pub const COLUMN_LIMIT: u128 = 950_000;
pub const DEMAND_LIMIT: u128 = 2_000_000_000;
pub const RISE_LIMIT: u128 = 1_000_000_000;
pub const PRODUCTION_LIMIT: u128 = 1_600_000_000_000;
/// "The table file" with "the adjustment item": 1,600 cells for x, 40 for each of seven columns, 47 work words.
pub const FILE_LENGTHS: [usize; 9] = [1600, 40, 40, 40, 40, 40, 40, 40, 47];
/// "A writer for table files" is lent the bytes of the file; "the adjustment item" makes them 12,883.
pub const FILE_BYTES: usize = 12_883;
/// "The printed sheet": the program's budget.
pub const PAGE_BUDGET: u32 = PRODUCTION_BUDGET;
/// Document 02, ticket 5: with these budgets or larger ones every production, and every price and inverse column, settles.
pub const PRODUCTION_BUDGET: u32 = 1_400;
pub const PRICE_BUDGET: u32 = 1_400;

/// A refusal: the number of the first question answered no, and its place.
#[derive(Clone, Copy, Debug, PartialEq, Eq)]
pub struct Refusal {
    pub number: u8,
    pub place: usize,
}

/// An acceptance: every lent slice after the call, and the counts of the answer. Only the demand behind a production
/// may be below 0.
#[derive(Clone, Debug, PartialEq, Eq)]
pub struct Given {
    pub cells: Vec<Vec<i128>>,
    pub counts: [usize; 2],
}

impl Given {
    /// The answer of a call whose cells are amounts.
    fn of(slices: Vec<Vec<u64>>, counts: [usize; 2]) -> Given {
        let cells = slices.iter().map(|slice| slice.iter().map(|amount| i128::from(*amount)).collect()).collect();
        Given { cells, counts }
    }
}

/// Cells that a call gave as amounts for another to take: none is below 0.
pub fn amounts(cells: &[Vec<i128>]) -> Vec<Vec<u64>> {
    let amount = |cell: &i128| u64::try_from(*cell).expect("a cell that is no amount");
    cells.iter().map(|slice| slice.iter().map(amount).collect()).collect()
}

type Asked = Result<(), Refusal>;

fn refuse(number: u8, place: usize) -> Asked {
    Err(Refusal { number, place })
}

/// The sum of a list.
fn total(cells: impl Iterator<Item = u64>) -> u128 {
    cells.map(u128::from).sum()
}

/// Row i of a sheet, "row by row".
fn row_of(sheet: &[u64], n: usize, i: usize) -> impl Iterator<Item = u64> + '_ {
    sheet[i * n..(i + 1) * n].iter().copied()
}

/// Column j of a sheet.
fn column_of(sheet: &[u64], n: usize, j: usize) -> impl Iterator<Item = u64> + '_ {
    (0..n).map(move |i| sheet[i * n + j])
}

/// A result of a definition as a cell; the accepted ranges keep every result far below 2^64.
fn cell(value: u128) -> u64 {
    u64::try_from(value).expect("a result beyond 64 bits")
}

// ---------------------------------------------------------------------------------------------
// "Questions a call asks, in this order"
// ---------------------------------------------------------------------------------------------

/// Question 1: is n from 1 to 40? Place 0.
fn question_1(n: usize) -> Asked {
    if n >= 1 && n <= SECTORS { Ok(()) } else { refuse(1, 0) }
}

/// Question 2: has every lent slice its exact length? Place 0.
fn question_2(lengths: &[(usize, usize)]) -> Asked {
    if lengths.iter().all(|(length, exact)| length == exact) { Ok(()) } else { refuse(2, 0) }
}

/// Question 3: is every cell within its limit? The place counts the cells on through the slices.
fn question_3(slices: &[(&[u64], u128)]) -> Asked {
    let mut place = 0;
    for (slice, limit) in slices {
        for value in *slice {
            if u128::from(*value) > *limit {
                return refuse(3, place);
            }
            place += 1;
        }
    }
    Ok(())
}

/// Question 16, asked after 3: is E plus G within 1,000,000,000? The place is the first failing sector.
fn question_16(exports: &[u64], adjustment: &[u64]) -> Asked {
    for (i, (e, g)) in exports.iter().zip(adjustment).enumerate() {
        if u128::from(*e) + u128::from(*g) > AMOUNT_LIMIT {
            return refuse(16, i);
        }
    }
    Ok(())
}

/// Question 4: does every column balance? The place is the first failing column.
fn question_4(n: usize, x: &[u64], value_added: &[u64], production: &[u64]) -> Asked {
    for j in 0..n {
        if total(column_of(x, n, j)) + u128::from(value_added[j]) != u128::from(production[j]) {
            return refuse(4, j);
        }
    }
    Ok(())
}

/// Question 5: does every row balance, with G beside E? The place is the first failing row.
fn question_5(
    n: usize,
    x: &[u64],
    final_demand: &[u64],
    exports: &[u64],
    imports: &[u64],
    production: &[u64],
    adjustment: &[u64],
) -> Asked {
    for i in 0..n {
        let used = total(row_of(x, n, i))
            + u128::from(final_demand[i])
            + u128::from(exports[i])
            + u128::from(adjustment[i]);
        let supplied = u128::from(production[i]) + u128::from(imports[i]);
        if used != supplied {
            return refuse(5, i);
        }
    }
    Ok(())
}

/// Question 6: are a sector's imports at most its domestic need? The place is the first failing row.
fn question_6(n: usize, x: &[u64], final_demand: &[u64], imports: &[u64]) -> Asked {
    for i in 0..n {
        if u128::from(imports[i]) > domestic_need(n, x, final_demand, i) {
            return refuse(6, i);
        }
    }
    Ok(())
}

/// Question 7: is every column sum of domestic coefficients at most 950,000? First failing column.
fn question_7(n: usize, d: &[u64]) -> Asked {
    for j in 0..n {
        if total(column_of(d, n, j)) > COLUMN_LIMIT {
            return refuse(7, j);
        }
    }
    Ok(())
}

/// Question 8 for demands and direct rises: the first sector whose amount is too large.
fn question_8_each(amounts: &[u64], limit: u128) -> Asked {
    for (i, amount) in amounts.iter().enumerate() {
        if u128::from(*amount) > limit {
            return refuse(8, i);
        }
    }
    Ok(())
}

/// Question 8 for a given production: the first sector whose running total is too large.
fn question_8_total(production: &[u64]) -> Asked {
    let mut running = 0;
    for (i, amount) in production.iter().enumerate() {
        running += u128::from(*amount);
        if running > PRODUCTION_LIMIT {
            return refuse(8, i);
        }
    }
    Ok(())
}

/// Question 17, asked after 8: is the second demand nowhere below the first? The place is the first failing sector.
fn question_17(before: &[u64], after: &[u64]) -> Asked {
    for (i, (first, second)) in before.iter().zip(after).enumerate() {
        if second < first {
            return refuse(17, i);
        }
    }
    Ok(())
}

/// Question 18, asked after 6: "18 if a sector is in no group or in two, a group is empty, or a bit at n or above is set". Place 0.
/// It gives the group of each sector.
fn question_18(n: usize, groups: &[u64]) -> Result<Vec<usize>, Refusal> {
    let no = Refusal { number: 18, place: 0 };
    let mut homes = vec![None; n];
    for (k, word) in groups.iter().enumerate() {
        let sectors: Vec<usize> = (0..64).filter(|bit| word >> bit & 1 == 1).collect();
        if sectors.is_empty() {
            return Err(no);
        }
        for sector in sectors {
            if sector >= n || homes[sector].is_some() {
                return Err(no);
            }
            homes[sector] = Some(k);
        }
    }
    homes.into_iter().collect::<Option<_>>().ok_or(no)
}

/// Question 19, asked after 18: "19 if a merged amount exceeds its limit, or E plus G does". Place 0. The table is x, F, E, M, V, X, G.
fn question_19(merged: &[Vec<u128>]) -> Asked {
    let (exports, adjustment) = (&merged[2], &merged[6]);
    let outflows: Vec<u128> = exports.iter().zip(adjustment).map(|(e, g)| e + g).collect();
    let within = |amounts: &Vec<u128>| amounts.iter().all(|amount| *amount <= AMOUNT_LIMIT);
    if merged.iter().all(within) && within(&outflows) { Ok(()) } else { refuse(19, 0) }
}

/// Question 20, asked after 3: "20 if an entry of the list is not below n or repeats an earlier one". The place is the first such entry.
/// It gives the inverse list: the place to which each sector comes.
fn question_20(n: usize, order: &[u64]) -> Result<Vec<usize>, Refusal> {
    let mut entries: Vec<(u64, usize)> = order.iter().copied().zip(0..).collect();
    entries.sort();
    // Equal entries stand side by side now, by their places: each but the first repeats an earlier one.
    let repeats = entries.windows(2).filter(|pair| pair[0].0 == pair[1].0).map(|pair| pair[1].1);
    let beyond = entries.iter().filter(|(entry, _)| u128::from(*entry) >= n as u128).map(|(_, place)| *place);
    match repeats.chain(beyond).min() {
        Some(place) => Err(Refusal { number: 20, place }),
        // All n sectors, in ascending order.
        None => Ok(entries.into_iter().map(|(_, place)| place).collect()),
    }
}

/// Questions 3, 16, 4, 5 and 6 of a table x, F, E, M, V, X, G.
fn questions_of_table(n: usize, table: [&[u64]; 7]) -> Asked {
    let [x, final_demand, exports, imports, value_added, production, adjustment] = table;
    question_3(&table.map(|slice| (slice, AMOUNT_LIMIT)))?;
    question_16(exports, adjustment)?;
    question_4(n, x, value_added, production)?;
    question_5(n, x, final_demand, exports, imports, production, adjustment)?;
    question_6(n, x, final_demand, imports)
}

// ---------------------------------------------------------------------------------------------
// "The table and its units", "The sheets, all rounded down", "Coefficients to the nearest millionth" (document 02, ticket 6): a, v and m
// are to the nearest millionth, d and f are rounded down.
// ---------------------------------------------------------------------------------------------

/// Domestic need: the sum over j of x(i,j), plus F(i); exports and the adjustment are not in it.
fn domestic_need(n: usize, x: &[u64], final_demand: &[u64], i: usize) -> u128 {
    total(row_of(x, n, i)) + u128::from(final_demand[i])
}

/// An amount as millionths of a whole, "to the nearest millionth, halves upward"; 0 where the whole is 0.
fn share(amount: u64, whole: u128) -> u128 {
    if whole == 0 {
        return 0;
    }
    let parts = u128::from(amount) * ONE;
    let (below, rest) = (parts / whole, parts % whole);
    // What is left over is at least half a millionth if twice the rest is at least the whole.
    if 2 * rest >= whole { below + 1 } else { below }
}

/// Sheets from a table: a, v, m, d, f. Asks 1 to 3, 16, 4 to 7.
pub fn coefficients(
    n: usize,
    x: &[u64],
    final_demand: &[u64],
    exports: &[u64],
    imports: &[u64],
    value_added: &[u64],
    production: &[u64],
    adjustment: &[u64],
    lent: &[usize],
) -> Result<Given, Refusal> {
    question_1(n)?;
    question_2(&[
        (x.len(), n * n),
        (final_demand.len(), n),
        (exports.len(), n),
        (imports.len(), n),
        (value_added.len(), n),
        (production.len(), n),
        (adjustment.len(), n),
        (lent[0], n * n),
        (lent[1], n),
        (lent[2], n),
        (lent[3], n * n),
        (lent[4], n),
    ])?;
    questions_of_table(n, [x, final_demand, exports, imports, value_added, production, adjustment])?;

    let mut a = vec![0; n * n];
    let mut v = vec![0; n];
    let mut m = vec![0; n];
    let mut d = vec![0; n * n];
    let mut f = vec![0; n];
    for i in 0..n {
        for j in 0..n {
            a[i * n + j] = cell(share(x[i * n + j], u128::from(production[j])));
        }
    }
    for j in 0..n {
        v[j] = cell(share(value_added[j], u128::from(production[j])));
    }
    for i in 0..n {
        m[i] = cell(share(imports[i], domestic_need(n, x, final_demand, i)));
    }
    // "d, f, the rounds and the induced amounts still round down."
    for i in 0..n {
        for j in 0..n {
            d[i * n + j] = cell((ONE - u128::from(m[i])) * u128::from(a[i * n + j]) / ONE);
        }
    }
    for i in 0..n {
        let inside = (ONE - u128::from(m[i])) * u128::from(final_demand[i]) / ONE;
        f[i] = cell(inside + u128::from(exports[i]) + u128::from(adjustment[i]));
    }
    question_7(n, &d)?;
    Ok(Given::of(vec![a, v, m, d, f], [0, 0]))
}

/// The demand for domestic goods of any final demand, from m, F, E and G. Asks 1, 2, 3, 16. Lent: demand.
pub fn domestic_demand(
    n: usize,
    m: &[u64],
    final_demand: &[u64],
    exports: &[u64],
    adjustment: &[u64],
    lent: &[usize],
) -> Result<Given, Refusal> {
    question_1(n)?;
    question_2(&[(m.len(), n), (final_demand.len(), n), (exports.len(), n), (adjustment.len(), n), (lent[0], n)])?;
    question_3(&[(m, ONE), (final_demand, AMOUNT_LIMIT), (exports, AMOUNT_LIMIT), (adjustment, AMOUNT_LIMIT)])?;
    question_16(exports, adjustment)?;
    let mut demand = vec![0; n];
    for i in 0..n {
        // What is imported is taken off F: rounded up, since what is left is rounded down. E and G are whole.
        let imported = (u128::from(m[i]) * u128::from(final_demand[i])).div_ceil(ONE);
        let used = u128::from(final_demand[i]) + u128::from(exports[i]) + u128::from(adjustment[i]);
        demand[i] = cell(used - imported);
    }
    Ok(Given::of(vec![demand], [0, 0]))
}

// ---------------------------------------------------------------------------------------------
// "Merging sectors" (document 02, ticket 7)
// ---------------------------------------------------------------------------------------------

/// A table x, F, E, M, V, X, G with its sectors merged. Asks 1 to 3, 16, 4 to 6, 18, 19. Lent: the merged table and the groups' sizes.
pub fn aggregate(n: usize, table: [&[u64]; 7], groups: &[u64], lent: &[usize]) -> Result<Given, Refusal> {
    question_1(n)?;
    // "The groups are given as a list of g words, g from 1 to n. Another g fails question 2."
    let g = groups.len();
    if !(1..=n).contains(&g) {
        return Err(Refusal { number: 2, place: 0 });
    }
    let mut lengths = vec![(table[0].len(), n * n), (lent[0], g * g)];
    lengths.extend(table[1..].iter().map(|column| (column.len(), n)));
    lengths.extend(lent[1..].iter().map(|length| (*length, g)));
    question_2(&lengths)?;
    questions_of_table(n, table)?;
    let homes = question_18(n, groups)?;

    // "Group k becomes sector k. Cells of merged rows and columns are added." Every cell goes to the groups of its row and column.
    let mut merged: Vec<Vec<u128>> = vec![vec![0; g * g]];
    for (at, amount) in table[0].iter().enumerate() {
        let (row, column) = (homes[at / n], homes[at % n]);
        merged[0][row * g + column] += u128::from(*amount);
    }
    for column in &table[1..] {
        let mut sums = vec![0; g];
        for (home, amount) in homes.iter().zip(*column) {
            sums[*home] += u128::from(*amount);
        }
        merged.push(sums);
    }
    question_19(&merged)?;

    let mut cells: Vec<Vec<u64>> = merged.into_iter().map(|sums| sums.into_iter().map(cell).collect()).collect();
    // "How many sectors each group took in."
    cells.push((0..g).map(|k| homes.iter().filter(|home| **home == k).count() as u64).collect());
    Ok(Given::of(cells, [0, 0]))
}

// ---------------------------------------------------------------------------------------------
// "Sector order for storage" (document 02, ticket 9)
// ---------------------------------------------------------------------------------------------

/// Cells in the order of the places to which they come.
fn in_places(cells: impl Iterator<Item = (usize, u64)>) -> Vec<u64> {
    let mut cells: Vec<(usize, u64)> = cells.collect();
    cells.sort();
    cells.into_iter().map(|(_, amount)| amount).collect()
}

/// A table x, F, E, M, V, X, G with its sectors in the order of a list: "entry k is the old sector that comes to place k". Asks 1, 2, 3,
/// 20: not whether the table balances. Lent: the table in the new order and the inverse list.
pub fn permute(n: usize, table: [&[u64]; 7], order: &[u64], lent: &[usize]) -> Result<Given, Refusal> {
    question_1(n)?;
    let mut lengths = vec![(table[0].len(), n * n), (order.len(), n), (lent[0], n * n)];
    lengths.extend(table[1..].iter().map(|column| (column.len(), n)));
    lengths.extend(lent[1..].iter().map(|length| (*length, n)));
    question_2(&lengths)?;
    question_3(&table.map(|slice| (slice, AMOUNT_LIMIT)))?;
    let places = question_20(n, order)?;

    // Every old cell goes to the places of its row and of its column.
    let flow = |(at, amount): (usize, &u64)| (places[at / n] * n + places[at % n], *amount);
    let mut cells = vec![in_places(table[0].iter().enumerate().map(flow))];
    for column in &table[1..] {
        cells.push(in_places(places.iter().copied().zip(column.iter().copied())));
    }
    // "Give the inverse list."
    cells.push(places.into_iter().map(|place| place as u64).collect());
    Ok(Given::of(cells, [0, 0]))
}

// ---------------------------------------------------------------------------------------------
// "Rounds"
// ---------------------------------------------------------------------------------------------

/// The whole sum of coefficient times amount along row i, divided once by one and rounded down.
fn taken(n: usize, sheet: &[u64], amounts: &[u64], i: usize) -> u128 {
    let mut sum: u128 = 0;
    for j in 0..n {
        sum += u128::from(sheet[i * n + j]) * u128::from(amounts[j]);
    }
    sum / ONE
}

/// A round: start(i) plus what is taken, every sector from the amounts of the round before.
pub fn round(n: usize, sheet: &[u64], start: &[u64], amounts: &[u64]) -> Vec<u64> {
    (0..n).map(|i| cell(u128::from(start[i]) + taken(n, sheet, amounts, i))).collect()
}

/// The first round that changes no sector settles; the count includes it. None beyond the budget.
pub fn settle(n: usize, sheet: &[u64], start: &[u64], budget: u32) -> Option<(Vec<u64>, u32)> {
    let mut amounts = start.to_vec();
    let mut count = 0;
    while count < budget {
        count += 1;
        let next = round(n, sheet, start, &amounts);
        if next == amounts {
            return Some((amounts, count));
        }
        amounts = next;
    }
    None
}

/// The sheet read down its columns.
pub fn turned(n: usize, sheet: &[u64]) -> Vec<u64> {
    (0..n).flat_map(|j| column_of(sheet, n, j)).collect()
}

/// Production from demand. Asks 1, 2, 7, 8, 9. Lent: production, work.
pub fn production(
    n: usize,
    d: &[u64],
    f: &[u64],
    budget: u32,
    lent: &[usize],
) -> Result<Given, Refusal> {
    question_1(n)?;
    question_2(&[(d.len(), n * n), (f.len(), n), (lent[0], n), (lent[1], n)])?;
    question_7(n, d)?;
    question_8_each(f, DEMAND_LIMIT)?;
    let (settled, count) = settle(n, d, f, budget).ok_or(Refusal { number: 9, place: 0 })?;
    Ok(Given::of(vec![settled, vec![0; n]], [count as usize, 0]))
}

/// "What a scheme adds" (document 02, ticket 4): the rise of each sector from the first demand to the second. Asks 1, 2, 7, 8, 17, 9:
/// "what production asks, of the first demand and then of the second, at each question". Lent: rise, work.
pub fn impact(
    n: usize,
    d: &[u64],
    before: &[u64],
    after: &[u64],
    budget: u32,
    lent: &[usize],
) -> Result<Given, Refusal> {
    question_1(n)?;
    question_2(&[(d.len(), n * n), (before.len(), n), (after.len(), n), (lent[0], n), (lent[1], n)])?;
    question_7(n, d)?;
    question_8_each(before, DEMAND_LIMIT)?;
    question_8_each(after, DEMAND_LIMIT)?;
    question_17(before, after)?;
    // "The budget holds for each demand separately, and the count is the larger of the two."
    let nine = Refusal { number: 9, place: 0 };
    let (without, first) = settle(n, d, before, budget).ok_or(nine)?;
    let (with, second) = settle(n, d, after, budget).ok_or(nine)?;
    let rise = (0..n).map(|i| with[i].checked_sub(without[i]).expect("a production that falls")).collect();
    Ok(Given::of(vec![rise, vec![0; n]], [first.max(second) as usize, 0]))
}

/// "Prices": as production, the sum running down the column. Asks 1, 2, 7, 8, 9. Lent: rise, work.
pub fn price(
    n: usize,
    d: &[u64],
    w: &[u64],
    budget: u32,
    lent: &[usize],
) -> Result<Given, Refusal> {
    question_1(n)?;
    question_2(&[(d.len(), n * n), (w.len(), n), (lent[0], n), (lent[1], n)])?;
    question_7(n, d)?;
    question_8_each(w, RISE_LIMIT)?;
    let columns = turned(n, d);
    let (settled, count) = settle(n, &columns, w, budget).ok_or(Refusal { number: 9, place: 0 })?;
    Ok(Given::of(vec![settled, vec![0; n]], [count as usize, 0]))
}

/// "Backwards": production less what industry takes, "a signed demand for each sector" (document 02, ticket 8).
/// Asks 1, 2, 7, 8. Lent: demand.
pub fn implied_demand(
    n: usize,
    d: &[u64],
    production: &[u64],
    lent: &[usize],
) -> Result<Given, Refusal> {
    question_1(n)?;
    question_2(&[(d.len(), n * n), (production.len(), n), (lent[0], n)])?;
    question_7(n, d)?;
    question_8_total(production)?;
    // What is taken is rounded down "before it is taken off".
    let demand = (0..n).map(|i| i128::from(production[i]) - taken(n, d, production, i) as i128).collect();
    Ok(Given { cells: vec![demand], counts: [0, 0] })
}

/// Induced value added and imports. Asks 1, 2, 3, 8. Lent: value, imports.
pub fn induced(
    n: usize,
    a: &[u64],
    m: &[u64],
    v: &[u64],
    final_demand: &[u64],
    production: &[u64],
    lent: &[usize],
) -> Result<Given, Refusal> {
    question_1(n)?;
    question_2(&[
        (a.len(), n * n),
        (m.len(), n),
        (v.len(), n),
        (final_demand.len(), n),
        (production.len(), n),
        (lent[0], n),
        (lent[1], n),
    ])?;
    question_3(&[(a, ONE), (m, ONE), (v, ONE), (final_demand, AMOUNT_LIMIT)])?;
    question_8_total(production)?;
    let mut value = vec![0; n];
    let mut imports = vec![0; n];
    for j in 0..n {
        value[j] = cell(u128::from(v[j]) * u128::from(production[j]) / ONE);
    }
    for i in 0..n {
        let need = taken(n, a, production, i);
        imports[i] = cell(u128::from(m[i]) * (need + u128::from(final_demand[i])) / ONE);
    }
    Ok(Given::of(vec![value, imports], [0, 0]))
}

/// The inverse sheet with its ratios. Asks 1, 2, 7, 9. Lent: sheet, influence, sensitivity.
pub fn inverse(n: usize, d: &[u64], budget: u32, lent: &[usize]) -> Result<Given, Refusal> {
    question_1(n)?;
    question_2(&[(d.len(), n * n), (lent[0], n * n), (lent[1], n), (lent[2], n)])?;
    question_7(n, d)?;
    let mut sheet = vec![0; n * n];
    let mut largest = 0;
    for j in 0..n {
        let mut demand = vec![0; n];
        demand[j] = cell(ONE);
        let (column, count) = settle(n, d, &demand, budget).ok_or(Refusal { number: 9, place: j })?;
        for i in 0..n {
            sheet[i * n + j] = column[i];
        }
        largest = largest.max(count);
    }
    let all = total(sheet.iter().copied());
    let ratio = |sum: u128| cell(sum * n as u128 * ONE / all);
    let influence = (0..n).map(|j| ratio(total(column_of(&sheet, n, j)))).collect();
    let sensitivity = (0..n).map(|i| ratio(total(row_of(&sheet, n, i)))).collect();
    Ok(Given::of(vec![sheet, influence, sensitivity], [largest as usize, 0]))
}

/// A sector's row: start and length of the stretch of the caller's own sheet; 0 and 0 where empty.
pub fn row(n: usize, sheet: &[u64], sector: usize) -> (usize, usize) {
    let asked = question_1(n).and_then(|()| question_2(&[(sheet.len(), n * n)]));
    if asked.is_err() || sector >= n { (0, 0) } else { (sector * n, n) }
}

// ---------------------------------------------------------------------------------------------
// "The table file"
// ---------------------------------------------------------------------------------------------

/// Question 11, first half: the length of a kind's body; None if the kind is not 1 to 10.
fn body_length(kind: u8) -> Option<usize> {
    match kind {
        1 => Some(1),
        2 => Some(6),
        3..=7 | 9 | 10 => Some(5),
        8 => Some(0),
        _ => None,
    }
}

/// 4 bytes, highest first.
fn amount(bytes: &[u8]) -> u64 {
    bytes.iter().fold(0, |before, byte| before * 256 + u64::from(*byte))
}

/// The reader. Asks 2, then 11 to 15 of each record.
/// Lent: x, F, E, M, V, X, G, rises, marks. Counts: n, named cells.
pub fn read_table(file: &[u8], lent: &[usize]) -> Result<Given, Refusal> {
    let lengths: Vec<_> = lent.iter().copied().zip(FILE_LENGTHS).collect();
    question_2(&lengths)?;
    let mut cells: Vec<Vec<u64>> = FILE_LENGTHS.iter().map(|length| vec![0; *length]).collect();
    let mut seen: Vec<Vec<bool>> = FILE_LENGTHS.iter().map(|length| vec![false; *length]).collect();
    let mut n = 0;
    let mut named = 0;
    let mut offset = 0;
    loop {
        let no = |number, place| Err(Refusal { number, place });
        // Question 15: no end came.
        if offset == file.len() {
            return no(15, offset);
        }
        // Question 11.
        let kind = file[offset];
        let Some(length) = body_length(kind) else { return no(11, offset) };
        let after = offset + 1 + length;
        if after > file.len() {
            return no(11, offset);
        }
        let body = &file[offset + 1..after];
        // Question 12.
        if offset == 0 {
            if kind != 1 || body[0] < 1 || usize::from(body[0]) > SECTORS {
                return no(12, offset);
            }
            n = usize::from(body[0]);
        } else if kind == 1 {
            return no(12, offset);
        }
        // Question 13.
        let sector_bytes = match kind {
            1 | 8 => 0,
            2 => 2,
            _ => 1,
        };
        let sectors: Vec<usize> = body[..sector_bytes].iter().map(|byte| usize::from(*byte)).collect();
        if sectors.iter().any(|sector| *sector < 1 || *sector > n) {
            return no(13, offset);
        }
        // Question 14. Lent slice 0 is x; kinds 3 to 7 are slices 1 to 5; kind 10 is slice 6, and kind 9 slice 7.
        if kind != 1 && kind != 8 {
            let (slice, at) = match kind {
                2 => (0, (sectors[0] - 1) * n + (sectors[1] - 1)),
                10 => (6, sectors[0] - 1),
                9 => (7, sectors[0] - 1),
                _ => (usize::from(kind) - 2, sectors[0] - 1),
            };
            if seen[slice][at] {
                return no(14, offset);
            }
            seen[slice][at] = true;
            cells[slice][at] = amount(&body[sector_bytes..]);
            named += 1;
        }
        // Question 15: kind 8, with no byte after it.
        if kind == 8 {
            if after != file.len() {
                return no(15, after);
            }
            return Ok(Given::of(cells, [n, named]));
        }
        offset = after;
    }
}

// ---------------------------------------------------------------------------------------------
// "A writer for table files", "the adjustment item" (document 02, tickets 1 and 3)
// ---------------------------------------------------------------------------------------------

/// The writer: x, F, E, M, V, X, G and the rises of n sectors, into so many lent bytes. Asks 1, 2, 3.
/// It gives the bytes of the file, without the zeros after them.
pub fn write_table(n: usize, slices: [&[u64]; 8], lent: usize) -> Result<Vec<u8>, Refusal> {
    question_1(n)?;
    // "n × n cells of x and n of each column", and the bytes.
    let mut lengths = vec![(lent, FILE_BYTES), (slices[0].len(), n * n)];
    lengths.extend(slices[1..].iter().map(|column| (column.len(), n)));
    question_2(&lengths)?;
    // "Question 3 reads G after X", and "the rises of kind 9 as a last column".
    question_3(&slices.map(|slice| (slice, AMOUNT_LIMIT)))?;

    // Every cell as its kind, its sector bytes and its amount.
    let mut cells: Vec<(u8, Vec<u8>, u64)> = Vec::new();
    for i in 0..n {
        for (j, amount) in row_of(slices[0], n, i).enumerate() {
            cells.push((2, vec![i as u8 + 1, j as u8 + 1], amount));
        }
    }
    for (kind, column) in [3, 4, 5, 6, 7, 10, 9].into_iter().zip(&slices[1..]) {
        for (sector, amount) in (1..).zip(*column) {
            cells.push((kind, vec![sector], *amount));
        }
    }
    // "Cells in ascending kind, row and column, zeros left out": so G is "written after the rises".
    cells.retain(|(_, _, amount)| *amount != 0);
    cells.sort();

    // "Kind 1, then cells …, then kind 8"; amounts are 4 bytes, highest first.
    let mut file = vec![1, n as u8];
    for (kind, sectors, amount) in cells {
        file.push(kind);
        file.extend(sectors);
        file.extend((0..4).rev().map(|place| (amount / 256_u64.pow(place) % 256) as u8));
    }
    file.push(8);
    Ok(file)
}

// ---------------------------------------------------------------------------------------------
// "The printed sheet"
// ---------------------------------------------------------------------------------------------

/// From the bytes of a table file to the bytes printed.
pub fn page(file: &[u8]) -> Vec<u8> {
    match page_lines(file) {
        Ok(lines) => lines,
        Err(no) => format!("refused {} {}\n", no.number, no.place),
    }
    .into_bytes()
}

fn page_lines(file: &[u8]) -> Result<String, Refusal> {
    let read = read_table(file, &FILE_LENGTHS)?;
    let (n, table) = (read.counts[0], amounts(&read.cells));
    let x = &table[0][..n * n];
    let column = |slice: usize| &table[slice][..n];
    let final_demand = column(1);
    let sheets = coefficients(
        n,
        x,
        final_demand,
        column(2),
        column(3),
        column(4),
        column(5),
        column(6),
        &[n * n, n, n, n * n, n],
    )?;
    let [a, v, m, d, f] = &amounts(&sheets.cells)[..] else { unreachable!() };
    let settled = production(n, d, f, PAGE_BUDGET, &[n, n])?;
    let made = &amounts(&settled.cells)[0];
    let induced = induced(n, a, m, v, final_demand, made, &[n, n])?;
    let mut lines = String::from("sector demand production value imports\n");
    for i in 0..n {
        let (value, imports) = (induced.cells[0][i], induced.cells[1][i]);
        lines += &format!("{} {} {} {} {}\n", i + 1, f[i], made[i], value, imports);
    }
    lines += &format!("rounds {}\n", settled.counts[0]);
    Ok(lines)
}
