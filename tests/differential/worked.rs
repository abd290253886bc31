//! The paper's worked cases P1 to P12, its slips and its printed sheet, with the paper's numbers; files
//! that name one cell or all; the worked table written as a file; tables with an adjustment; demands of
//! other final demands; what schemes add; shares to the nearest millionth; merged tables; productions that
//! leave a shortage; and tables in another order, with their sheets, production and prices.

use crate::calls::{Call, Case, Outcome, GROUPS, ORDER, PAGE_BYTES};
use crate::reference::{
    self, amounts, Refusal, AMOUNT_LIMIT, FILE_BYTES, ONE, PRICE_BUDGET, PRODUCTION_BUDGET, PRODUCTION_LIMIT, SECTORS,
};

// "Worked table and its neighbours"
const X: [u64; 4] = [100, 400, 300, 600];
const FINAL_DEMAND: [u64; 2] = [500, 900];
const EXPORTS: [u64; 2] = [250, 560];
const IMPORTS: [u64; 2] = [250, 360];
const VALUE_ADDED: [u64; 2] = [600, 1000];
const PRODUCTION: [u64; 2] = [1000, 2000];
const D: [u64; 4] = [75_000, 150_000, 240_000, 240_000];
const F: [u64; 2] = [625, 1280];
const LIMIT: u64 = AMOUNT_LIMIT as u64;

pub const PRINTED: &str = "sector demand production value imports\n\
                           1 625 999 599 249\n\
                           2 1280 1999 999 359\n\
                           rounds 9\n";

/// The page of the table with an adjustment. The exact balance is 1000 2000 here too.
const ADJUSTED: &str = "sector demand production value imports\n\
                        1 650 999 599 299\n\
                        2 1325 1999 999 449\n\
                        rounds 8\n";

/// A table of two sectors without an adjustment, as 91 bytes in ascending kind and cell.
fn file_of(table: &[Vec<u64>]) -> Vec<u8> {
    let mut file = vec![1, 2];
    for (k, amount) in table[0].iter().enumerate() {
        file.extend([2, k as u8 / 2 + 1, k as u8 % 2 + 1]);
        file.extend((*amount as u32).to_be_bytes());
    }
    for (kind, column) in (3..).zip(&table[1..G]) {
        for (sector, amount) in (1..).zip(column) {
            file.extend([kind, sector]);
            file.extend((*amount as u32).to_be_bytes());
        }
    }
    file.push(8);
    file
}

/// The worked table's file.
pub fn file() -> Vec<u8> {
    file_of(&table().given)
}

/// The worked table, with an adjustment of 0.
fn table() -> Case {
    let columns = [FINAL_DEMAND, EXPORTS, IMPORTS, VALUE_ADDED, PRODUCTION, [0, 0]];
    let mut given = vec![X.to_vec()];
    given.extend(columns.map(|column| column.to_vec()));
    Case::new(Call::Coefficients, 2, given)
}

fn rounds(call: Call, sheet: &[u64], start: &[u64], budget: u32) -> Case {
    let case = Case::new(call, start.len(), vec![sheet.to_vec(), start.to_vec()]);
    Case { budget, ..case }
}

fn accepted<T: Copy + Into<i128>>(count: usize, cells: &[&[T]]) -> Outcome {
    let cells = cells.iter().map(|slice| slice.iter().map(|cell| (*cell).into()).collect()).collect();
    Outcome { number: 0, place: 0, counts: [count, 0], cells, bytes: vec![] }
}

fn refused(case: &Case, number: u8, place: usize) -> Outcome {
    let cells = case.lent.iter().map(|length| vec![0; *length]).collect();
    Outcome { number, place, counts: [0, 0], cells, bytes: vec![] }
}

/// The cases with what the paper says of them.
pub fn cases() -> Vec<(&'static str, Case, Outcome)> {
    let mut cases = Vec::new();
    let (forward, prices, back) = (Call::Production, Call::Price, Call::ImpliedDemand);

    // P1 names m and d; a, v and f follow from the table by hand (f is in P2).
    let a = [100_000, 200_000, 300_000, 300_000];
    let sheets: [&[u64]; 5] = [&a, &[600_000, 500_000], &[250_000, 200_000], &D, &F];
    cases.push(("P1", table(), accepted(0, &sheets)));
    cases.push(("P2", rounds(forward, &D, &F, PRODUCTION_BUDGET), accepted(9, &[&[999, 1999], &[0, 0]])));
    cases.push(("P2 at 9", rounds(forward, &D, &F, 9), accepted(9, &[&[999, 1999], &[0, 0]])));
    let short = rounds(forward, &D, &F, 8);
    let nine = refused(&short, 9, 0);
    cases.push(("P3", short, nine));
    cases.push(("P4", rounds(back, &D, &[999, 1999], 0), accepted(0, &[&F])));
    cases.push(("P5", rounds(back, &D, &[1000, 2000], 0), accepted(0, &[&F])));
    cases.push(("P6", rounds(back, &D, &[0, 1000], 0), accepted(0, &[&[-150, 760]])));
    let rise = accepted(10, &[&[11_393, 2_248], &[0, 0]]);
    cases.push(("P7", rounds(prices, &D, &[10_000, 0], PRICE_BUDGET), rise));
    cases.push(("P8", rounds(forward, &[950_000], &[1], 1), accepted(1, &[&[1], &[0]])));
    for call in [forward, prices, back] {
        let over = rounds(call, &[950_001], &[1], 1);
        let seven = refused(&over, 7, 0);
        cases.push(("P9", over, seven));
    }
    cases.push(("P10", rounds(forward, &D, &[0, 0], 1), accepted(1, &[&[0, 0], &[0, 0]])));
    for n in [0, 41] {
        let tables = [Call::Coefficients, Call::DomesticDemand, Call::Aggregate, Call::Permute];
        let others = [forward, Call::Impact, prices, back, Call::Induced, Call::Inverse];
        for call in tables.into_iter().chain(others) {
            let given = call.given_lengths(n).iter().map(|length| vec![0; *length]).collect();
            let case = Case { budget: 1, ..Case::new(call, n, given) };
            let one = refused(&case, 1, 0);
            cases.push(("P11", case, one));
        }
    }
    let half = Case { budget: PRICE_BUDGET, ..Case::new(Call::Inverse, 1, vec![vec![500_000]]) };
    let count = settled_by_hand(500_000, 1_000_000);
    cases.push(("P12", half, accepted(count, &[&[1_999_999], &[1_000_000], &[1_000_000]])));

    // The printed sheet's induced amounts, and the worked table read from its file.
    let m = vec![250_000, 200_000];
    let v = vec![600_000, 500_000];
    let given = vec![a.to_vec(), m, v, FINAL_DEMAND.to_vec(), vec![999, 1999]];
    let induced = accepted(0, &[&[599, 999], &[249, 359]]);
    cases.push(("induced", Case::new(Call::Induced, 2, given), induced));
    let mut read: Vec<Vec<i128>> = reference::FILE_LENGTHS.iter().map(|k| vec![0; *k]).collect();
    read[0][..4].copy_from_slice(&X.map(i128::from));
    let columns = [FINAL_DEMAND, EXPORTS, IMPORTS, VALUE_ADDED, PRODUCTION];
    for (slice, column) in columns.iter().enumerate() {
        read[slice + 1][..2].copy_from_slice(&column.map(i128::from));
    }
    let whole = Outcome { number: 0, place: 0, counts: [2, 14], cells: read, bytes: vec![] };
    cases.push(("file", Case::of_file(Call::ReadTable, file()), whole));
    let empty = Case::of_file(Call::ReadTable, vec![]);
    let fifteen = refused(&empty, 15, 0);
    cases.push(("empty file", empty, fifteen));
    cases.extend(named_cases());
    cases.extend(writer_cases());
    cases.extend(adjustment_cases());
    cases.extend(demand_cases());
    cases.extend(impact_cases());
    cases.extend(nearest_cases());
    cases.extend(nearest_pages());
    cases.extend(merged_cases());
    cases.extend(groups_cases());
    cases.extend(merged_limit_cases());
    cases.extend(merging_order_cases());
    cases.extend(merged_sheets_cases());
    cases.extend(shortage_cases());
    cases.extend(shortage_of_forty_cases());
    cases.extend(permuted_cases());
    cases.extend(permuted_forty_cases());
    cases.extend(unasked_cases());
    cases.extend(list_cases());
    cases.extend(permuting_order_cases());
    cases.extend(permuted_sheets_cases());
    cases
}

/// A sheet and two demands.
fn scheme(sheet: &[u64], before: &[u64], after: &[u64], budget: u32) -> Case {
    let given = vec![sheet.to_vec(), before.to_vec(), after.to_vec()];
    Case { budget, ..Case::new(Call::Impact, before.len(), given) }
}

/// "What a scheme adds". The rises are those of productions worked by hand.
fn impact_cases() -> Vec<(&'static str, Case, Outcome)> {
    let mut cases = Vec::new();
    let mut rise = |name, case: Case, count, rise: &[u64]| {
        let work = vec![0; rise.len()];
        cases.push((name, case, accepted(count, &[rise, &work])));
    };
    // 635 1280 settles at 1011 2003 in 10 rounds.
    let more = [635, 1280];
    for budget in [10, PRODUCTION_BUDGET, u32::MAX] {
        rise("a scheme", scheme(&D, &F, &more, budget), 10, &[12, 4]);
    }
    rise("no scheme", scheme(&D, &F, &F, 9), 9, &[0, 0]);
    rise("no demand, no scheme", scheme(&D, &[0, 0], &[0, 0], 1), 1, &[0, 0]);
    rise("from no demand", scheme(&D, &[0, 0], &F, 9), 9, &[999, 1999]);
    // 41 24 settles at 86 58 in 9 rounds, and 42 24 at 87 58 in 8.
    let sheet = [259_750, 398_963, 235_662, 247_592];
    rise("the lower demand takes longer", scheme(&sheet, &[41, 24], &[42, 24], 9), 9, &[1, 0]);
    // At the limits of the sheet and of the demand: 1 settles at 1, and 2 at 21 after 19 rounds that change it.
    rise("a column at its limit", scheme(&[950_000], &[1], &[2], 20), 20, &[20]);
    let most = 2_000_000_000;
    rise("up to the limit", scheme(&[0; 4], &[0, 7], &[most, most], 1), 1, &[most, most - 7]);

    let mut no = |name, case: Case, number, place| {
        let outcome = refused(&case, number, place);
        cases.push((name, case, outcome));
    };
    no("the second does not settle", scheme(&D, &F, &more, 9), 9, 0);
    no("the first does not settle", scheme(&sheet, &[41, 24], &[42, 24], 8), 9, 0);
    no("neither settles", scheme(&D, &F, &more, 8), 9, 0);
    no("no rounds", scheme(&D, &[0, 0], &[0, 0], 0), 9, 0);
    // 17 is asked before 9 and after 8, and 8 of the first demand and then of the second.
    no("the second is below, no rounds", scheme(&D, &F, &[626, 1279], 0), 17, 1);
    no("the second is below in both", scheme(&D, &F, &[624, 1279], PRODUCTION_BUDGET), 17, 0);
    no("the second is below and over", scheme(&D, &F, &[624, most + 1], PRODUCTION_BUDGET), 8, 1);
    no("each is over in its own sector", scheme(&D, &[0, most + 1], &[most + 1, 0], PRODUCTION_BUDGET), 8, 1);
    no("the second is over in both", scheme(&D, &[0, most], &[most + 1, u64::MAX], PRODUCTION_BUDGET), 8, 0);
    no("a column is over, the second below", scheme(&[1, 475_000, 0, 475_001], &F, &[0, 0], 0), 7, 1);
    // Each slice with a cell less and a cell more, the lent ones too.
    for (slice, less, more_cells) in (0..5).flat_map(|slice| [(slice, 1, 0), (slice, 0, 1)]) {
        let mut case = scheme(&D, &F, &more, PRODUCTION_BUDGET);
        if slice < 3 {
            let length = case.given[slice].len() - less + more_cells;
            case.given[slice].resize(length, 0);
        } else {
            case.lent[slice - 3] = 2 - less + more_cells;
        }
        no("a scheme with other lengths", case, 2, 0);
    }
    cases
}

// The slices of a table.
const E: usize = 2;
const M: usize = 3;
const V: usize = 4;
const OUTPUT: usize = 5;
const G: usize = 6;

/// The worked table with an adjustment, by which its imports are higher.
fn adjusted() -> Case {
    let mut case = table();
    (case.given[M], case.given[G]) = (vec![300, 450], vec![50, 90]);
    case
}

/// Its file: in order of kind, the adjustment last.
fn adjusted_file() -> Vec<u8> {
    let mut file = file();
    file[58..60].copy_from_slice(&300_u16.to_be_bytes());
    file[64..66].copy_from_slice(&450_u16.to_be_bytes());
    file.splice(90.., [10, 1, 0, 0, 0, 50, 10, 2, 0, 0, 0, 90, 8]);
    file
}

/// A table without flows and final demand, with these exports and adjustments; X is V, and what X leaves is imported.
fn outflows(exports: &[u64], adjustment: &[u64]) -> Case {
    let n = exports.len();
    let production: Vec<u64> = exports.iter().zip(adjustment).map(|(e, g)| (e + g).min(LIMIT)).collect();
    let imports = (0..n).map(|i| exports[i] + adjustment[i] - production[i]).collect();
    let (exports, adjustment) = (exports.to_vec(), adjustment.to_vec());
    let given = vec![vec![0; n * n], vec![0; n], exports, imports, production.clone(), production, adjustment];
    Case::new(Call::Coefficients, n, given)
}

/// "The adjustment item".
fn adjustment_cases() -> Vec<(&'static str, Case, Outcome)> {
    let mut cases = Vec::new();
    // Exports that are told as adjustment change no sheet; an adjustment of its own is in the row balance and in f.
    let a = [100_000, 200_000, 300_000, 300_000];
    let sheets: [&[u64]; 5] = [&a, &[600_000, 500_000], &[250_000, 200_000], &D, &F];
    let mut moved = table();
    (moved.given[E], moved.given[G]) = (vec![200, 0], vec![50, 560]);
    cases.push(("exports as adjustment", moved, accepted(0, &sheets)));
    let d = [70_000, 140_000, 225_000, 225_000];
    let sheets: [&[u64]; 5] = [&a, &[600_000, 500_000], &[300_000, 250_000], &d, &[650, 1325]];
    cases.push(("an adjustment", adjusted(), accepted(0, &sheets)));

    let mut no = |name, case: Case, number, place| {
        let outcome = refused(&case, number, place);
        cases.push((name, case, outcome));
    };
    // Question 3 reads G after X: G(1) is place n × n + 5n + 1. Question 5: the row with G too much or too little.
    for (name, sector, amount, number, place) in [
        ("an adjustment over", 1, LIMIT + 1, 3, 2 * 2 + 5 * 2 + 1),
        ("an adjustment too much", 0, 51, 5, 0),
        ("an adjustment too little", 1, 89, 5, 1),
        ("an adjustment left out", 0, 0, 5, 0),
    ] {
        let mut case = adjusted();
        case.given[G][sector] = amount;
        no(name, case, number, place);
    }
    // Question 16 in the first sector, one between and the last; of two sectors the first; at its limit and one over it.
    for k in 0..3 {
        for (e, g) in [(LIMIT, 1), (1, LIMIT), (LIMIT, LIMIT), (LIMIT / 2, LIMIT / 2 + 1), (LIMIT / 2 + 1, LIMIT / 2)] {
            let (mut exports, mut adjustment) = ([5, 6, 7], [0, 1, LIMIT - 7]);
            (exports[k], adjustment[k]) = (e, g);
            no("E and G over", outflows(&exports, &adjustment), 16, k);
            // It is asked before 4, and after 3.
            let mut unbalanced = outflows(&exports, &adjustment);
            unbalanced.given[V][0] -= 1;
            no("E and G over, column 0 unbalanced", unbalanced, 16, k);
            for (slice, at, place) in [(0, 8, 8), (E, 0, 9 + 3), (OUTPUT, 2, 9 + 5 * 3 - 1), (G, 2, 9 + 6 * 3 - 1)] {
                let mut over = outflows(&exports, &adjustment);
                over.given[slice][at] = LIMIT + 1;
                no("E and G over, an amount over", over, 3, place);
            }
        }
        let mut two = ([LIMIT; 3], [LIMIT; 3]);
        two.1[..k].fill(0);
        no("E and G over in several sectors", outflows(&two.0, &two.1), 16, k);
    }
    for (e, g) in [(LIMIT, 0), (0, LIMIT), (1, LIMIT - 1), (LIMIT - 1, 1), (LIMIT / 2, LIMIT / 2)] {
        let sheets: [&[u64]; 5] = [&[0; 9], &[1_000_000; 3], &[0; 3], &[0; 9], &[LIMIT; 3]];
        cases.push(("E and G at their limit", outflows(&[e; 3], &[g; 3]), accepted(0, &sheets)));
    }

    // Reader and writer do not ask 16, a page shows it.
    let over = vec![1, 1, 4, 1, 0x3b, 0x9a, 0xca, 0x00, 10, 1, 0x3b, 0x9a, 0xca, 0x00, 8];
    let mut read: Vec<Vec<i128>> = reference::FILE_LENGTHS.iter().map(|k| vec![0; *k]).collect();
    (read[E][0], read[G][0]) = (LIMIT.into(), LIMIT.into());
    let whole = Outcome { number: 0, place: 0, counts: [1, 2], cells: read, bytes: vec![] };
    cases.push(("E and G over, read", Case::of_file(Call::ReadTable, over.clone()), whole));
    let mut given = vec![vec![0]; 8];
    (given[E][0], given[G][0]) = (LIMIT, LIMIT);
    let written = Outcome::in_bytes(FILE_BYTES, Ok(over.clone()));
    cases.push(("E and G over, written", Case::new(Call::WriteTable, 1, given), written));
    for (name, file, page) in [
        ("the page of E and G over", over, "refused 16 0\n"),
        ("the page of an adjustment", adjusted_file(), ADJUSTED),
    ] {
        let printed = Outcome::in_bytes(PAGE_BYTES, Ok(page.as_bytes().to_vec()));
        cases.push((name, Case::of_file(Call::Page, file), printed));
    }
    cases
}

// The worked table's import shares, and a final demand with a scheme of 100 in it.
const SHARES: [u64; 2] = [250_000, 200_000];
const SCHEME: [u64; 2] = [600, 900];

/// m, F, E and G.
fn demand(m: &[u64], final_demand: &[u64], exports: &[u64], adjustment: &[u64]) -> Case {
    let given = [m, final_demand, exports, adjustment].map(|slice| slice.to_vec());
    Case::new(Call::DomesticDemand, m.len(), given.to_vec())
}

/// "Demand for domestic goods", of tables and of other final demands, by hand.
fn demand_cases() -> Vec<(&'static str, Case, Outcome)> {
    let mut cases = Vec::new();
    let none = [0, 0];
    let of = |final_demand: [u64; 2]| demand(&SHARES, &final_demand, &EXPORTS, &none);
    for (name, case, f) in [
        ("the worked demand", of(FINAL_DEMAND), F),
        ("the demand with a scheme", of(SCHEME), [700, 1280]),
        // 375.75 and 720.8; 376.5 and 721.6.
        ("a unit more", of([501, 901]), [625, 1280]),
        ("two units more", of([502, 902]), [626, 1281]),
        ("no final demand", of(none), EXPORTS),
        ("the demand with an adjustment", demand(&[300_000, 250_000], &FINAL_DEMAND, &EXPORTS, &[50, 90]), [650, 1325]),
        ("nothing imported", demand(&none, &FINAL_DEMAND, &EXPORTS, &[50, 90]), [800, 1550]),
        ("all imported", demand(&[1_000_000; 2], &FINAL_DEMAND, &EXPORTS, &[50, 90]), [300, 650]),
        ("no amounts", demand(&SHARES, &none, &none, &none), none),
        ("the most", demand(&none, &[LIMIT; 2], &[LIMIT, 1], &[0, LIMIT - 1]), [2 * LIMIT; 2]),
        ("the least and the largest part", demand(&[1, 999_999], &[LIMIT; 2], &none, &none), [999_999_000, 1_000]),
        ("a unit, of which a little is imported", demand(&[1, 0], &[1, 1], &none, &none), [0, 1]),
        ("a millionth kept", demand(&[999_999; 2], &[999_999, 1_000_000], &none, &none), [0, 1]),
        ("rounded down", demand(&[315, 315], &[49_000, 0], &[1_015, 1_015], &none), [49_999, 1_015]),
    ] {
        cases.push((name, case, accepted(0, &[&f])));
    }

    let mut no = |name, case: Case, number, place| {
        let outcome = refused(&case, number, place);
        cases.push((name, case, outcome));
    };
    // Question 3 reads m, F, E, G: a cell over its limit, alone and with every one after it.
    for place in 0..8 {
        let mut over = of(SCHEME);
        over.given[place / 2][place % 2] = if place < 2 { 1_000_001 } else { LIMIT + 1 };
        no("a cell over", over.clone(), 3, place);
        (place..8).for_each(|later| over.given[later / 2][later % 2] = u64::MAX);
        no("every cell from here over", over, 3, place);
    }
    // Question 16 in the first sector, one between and the last, where the others are within; and in several.
    for k in 0..3 {
        let (mut exports, mut adjustment) = ([5, 6, LIMIT], [LIMIT - 5, 1, 0]);
        for (e, g) in [(LIMIT, 1), (1, LIMIT), (LIMIT, LIMIT), (LIMIT / 2, LIMIT / 2 + 1)] {
            (exports[k], adjustment[k]) = (e, g);
            let case = demand(&[1_000_000; 3], &[LIMIT; 3], &exports, &adjustment);
            no("E and G of a demand over", case.clone(), 16, k);
            // It is asked after 3.
            for (slice, at) in [(0, 2), (1, 2), (2, k), (3, 0)] {
                let mut over = case.clone();
                over.given[slice][at] = LIMIT + 1;
                no("E and G over, a cell over", over, 3, 3 * slice + at);
            }
        }
        exports[k..].fill(LIMIT);
        adjustment[k..].fill(1);
        no("E and G over from here", demand(&[0; 3], &[0; 3], &exports, &adjustment), 16, k);
    }
    // Each slice with other lengths, the lent one too, also where cells are over; and with another n.
    for slice in 0..5 {
        for length in [0, 1, 3, 4] {
            for mut case in [of(SCHEME), demand(&[u64::MAX; 2], &[u64::MAX; 2], &[LIMIT; 2], &[LIMIT; 2])] {
                if slice < 4 {
                    case.given[slice].resize(length, 0);
                } else {
                    case.lent[0] = length;
                }
                no("a demand with other lengths", case.clone(), 2, 0);
                no("1 before 2, of a demand", Case { n: 41, ..case }, 1, 0);
            }
        }
    }
    for n in [0, 41, usize::MAX] {
        no("1 before 3, of a demand", Case { n, ..demand(&[u64::MAX; 2], &[0; 2], &[0; 2], &[0; 2]) }, 1, 0);
    }
    cases
}

// Tables of one sector, without an adjustment: x, F, E, M, V, X. In most of them exports are as large as imports, so that domestic need
// is X.
const TWO_IN_THREE: [u64; 6] = [2, 1, 2, 2, 1, 3];
/// 1 in 2,000,000 is exactly half a millionth.
const HALVES: [u64; 6] = [1, 1_999_999, 1, 1, 1_999_999, 2_000_000];
/// a is 950,000.54, to the nearest over the column limit.
const OVER: [u64; 6] = [88_161, 4_640, 0, 0, 4_640, 92_801];
/// m is 104.69, and to the nearest 105, with which d is within the column limit. The need is 10,001,047.
const WITHIN: [u64; 6] = [9_501_000, 500_047, 0, 1_047, 499_000, 10_000_000];
/// d is 950,000.66, and f without exports 48,984.57.
const STILL_DOWN: [u64; 6] = [950_300, 49_000, 1_015, 315, 49_700, 1_000_000];
/// One less half a millionth lies between 999,999 and 1,000,000.
const COMPLEMENT: [u64; 6] = [1_900_002, 99_998, 1, 1, 99_998, 2_000_000];

const WITHIN_PRINTED: &str = "sector demand production value imports\n\
                              1 499994 9999861 498993 1050\n\
                              rounds 268\n";

fn one_sector(amounts: [u64; 6]) -> Case {
    let mut given: Vec<Vec<u64>> = amounts.iter().map(|amount| vec![*amount]).collect();
    given.push(vec![0]);
    Case::new(Call::Coefficients, 1, given)
}

/// "Coefficients to the nearest millionth": a, v, m, d and f by hand.
fn nearest_cases() -> Vec<(&'static str, Case, Outcome)> {
    let mut cases = Vec::new();
    for (name, amounts, [a, v, m, d, f]) in [
        ("2 in 3 and 1 in 3", TWO_IN_THREE, [666_667, 333_333, 666_667, 222_222, 2]),
        ("exactly a half", HALVES, [1, 1_000_000, 1, 0, 1_999_998]),
        ("just below a half", [1, 2_000_000, 1, 1, 2_000_000, 2_000_001], [0, 1_000_000, 0, 0, 2_000_001]),
        ("just above a half", [1, 1_999_998, 1, 1, 1_999_998, 1_999_999], [1, 999_999, 1, 0, 1_999_997]),
        ("1 in 128", [1, 127, 1, 1, 127, 128], [7_813, 992_188, 7_813, 7_751, 127]),
        ("a half at the limit", [500, LIMIT - 500, 500, 500, LIMIT - 500, LIMIT], [1, 1_000_000, 1, 0, 999_999_000]),
        ("below a half at the limit", [499, LIMIT - 499, 499, 499, LIMIT - 499, LIMIT], [0, 1_000_000, 0, 0, LIMIT]),
        ("within by the nearest m", WITHIN, [950_100, 49_900, 105, 950_000, 499_994]),
        ("d and f rounded down", STILL_DOWN, [950_300, 49_700, 315, 950_000, 49_999]),
        ("one less m", COMPLEMENT, [950_001, 49_999, 1, 950_000, 99_998]),
        ("no production, no need", [0; 6], [0; 5]),
    ] {
        cases.push((name, one_sector(amounts), accepted(0, &[&[a], &[v], &[m], &[d], &[f]])));
    }
    let over = one_sector(OVER);
    let seven = refused(&over, 7, 0);
    cases.push(("over by the nearest a", over, seven));
    // Both cells of the first column are half a millionth over, and together they are over one.
    let columns = [[1, 999_999], [1_100_000, 200_000], [100_000, 200_000], [0, 2_000_000], [2_000_000, 2_000_000], [0, 0]];
    let mut given = vec![vec![999_999, 0, 1_000_001, 0]];
    given.extend(columns.map(|column| column.to_vec()));
    let (a, d) = ([500_000, 0, 500_001, 0], [450_000, 0, 450_000, 0]);
    let sheets: [&[u64]; 5] = [&a, &[0, 1_000_000], &[100_000, 100_000], &d, &[1_100_000, 1_099_999]];
    cases.push(("inputs over one", Case::new(Call::Coefficients, 2, given), accepted(0, &sheets)));
    cases
}

/// The pages of the table that is over by its nearest a, and of the one that is within by its nearest m.
fn nearest_pages() -> Vec<(&'static str, Case, Outcome)> {
    let page = |name, amounts: [u64; 6], page: &str| {
        let mut file = vec![1, 1];
        for (kind, amount) in (2..).zip(amounts) {
            file.push(kind);
            file.extend(if kind == 2 { &[1, 1][..] } else { &[1] });
            file.extend((amount as u32).to_be_bytes());
        }
        file.push(8);
        let printed = Outcome::in_bytes(PAGE_BYTES, Ok(page.as_bytes().to_vec()));
        (name, Case::of_file(Call::Page, file), printed)
    };
    vec![
        page("the page of a table over", OVER, "refused 7 0\n"),
        page("the page of a table within", WITHIN, WITHIN_PRINTED),
    ]
}

/// A table x, F, E, M, V, X, G and groups of its sectors.
fn merging(table: &[Vec<u64>], groups: &[u64]) -> Case {
    let given = [table, &[groups.to_vec()]].concat();
    Case::new(Call::Aggregate, table[1].len(), given)
}

/// A table of three sectors, which balances.
fn three_sectors() -> Vec<Vec<u64>> {
    let x = vec![10, 20, 30, 5, 40, 15, 25, 10, 50];
    let columns = [[50, 80, 90], [20, 25, 45], [30, 20, 20], [60, 80, 105], [100, 150, 200], [0, 5, 0]];
    [vec![x], columns.map(|column| column.to_vec()).to_vec()].concat()
}

/// A table without flows, exports and imports: F, V and X are these.
fn made_and_used(amounts: &[u64]) -> Vec<Vec<u64>> {
    let (n, amounts) = (amounts.len(), amounts.to_vec());
    vec![vec![0; n * n], amounts.clone(), vec![0; n], vec![0; n], amounts.clone(), amounts, vec![0; n]]
}

/// "Merging sectors": merged x, F, E, M, V, X, G and the sizes, by hand.
fn merged_cases() -> Vec<(&'static str, Case, Outcome)> {
    let mut cases = Vec::new();
    let mut yes = |name, table: &[Vec<u64>], groups: &[u64], merged: [&[u64]; 8]| {
        cases.push((name, merging(table, groups), accepted(0, &merged)));
    };
    let (worked, adjusted, three) = (table().given, adjusted().given, three_sectors());
    yes("merged into one", &worked, &[0b11], [&[1400], &[1400], &[810], &[610], &[1600], &[3000], &[0], &[2]]);
    yes("an adjustment merged", &adjusted, &[0b11], [&[1400], &[1400], &[810], &[750], &[1600], &[3000], &[140], &[2]]);
    let ones: &[u64] = &[1, 1];
    let same: [&[u64]; 8] = [&X, &FINAL_DEMAND, &EXPORTS, &IMPORTS, &VALUE_ADDED, &PRODUCTION, &[0, 0], ones];
    yes("single sectors", &worked, &[0b01, 0b10], same);
    let swapped: [&[u64]; 8] =
        [&[600, 300, 400, 100], &[900, 500], &[560, 250], &[450, 300], &[1000, 600], &[2000, 1000], &[90, 50], ones];
    yes("single sectors backwards", &adjusted, &[0b10, 0b01], swapped);

    let outer: [&[u64]; 8] =
        [&[115, 30, 20, 40], &[140, 80], &[65, 25], &[50, 20], &[165, 80], &[300, 150], &[0, 5], &[2, 1]];
    yes("the outer sectors merged", &three, &[0b101, 0b010], outer);
    let turned: [&[u64]; 8] =
        [&[40, 20, 30, 115], &[80, 140], &[25, 65], &[20, 50], &[80, 165], &[150, 300], &[5, 0], &[1, 2]];
    yes("the outer sectors merged, as the second", &three, &[0b010, 0b101], turned);
    let last: [&[u64]; 8] = [&[10, 50, 30, 115], &[50, 170], &[20, 70], &[30, 40], &[60, 185], &[100, 350], &[0, 5], &[1, 2]];
    yes("the last sectors merged", &three, &[0b001, 0b110], last);
    yes("three merged into one", &three, &[0b111], [&[205], &[220], &[90], &[70], &[245], &[450], &[5], &[3]]);
    yes("one sector", &made_and_used(&[7]), &[1], [&[0], &[7], &[0], &[0], &[7], &[7], &[0], &[1]]);
    yes("zeros", &made_and_used(&[0, 0]), &[0b11], [&[0], &[0], &[0], &[0], &[0], &[0], &[0], &[2]]);

    // 40 sectors with 1 to 40: 820 together; the first, third and so on have 400, the others 420.
    let forty = made_and_used(&(1..=40).collect::<Vec<u64>>());
    let none: &[u64] = &[0, 0];
    yes("40 sectors in one", &forty, &[0xff_ffff_ffff], [&[0], &[820], &[0], &[0], &[820], &[820], &[0], &[40]]);
    let halves: [&[u64]; 8] = [&[0; 4], &[400, 420], none, none, &[400, 420], &[400, 420], none, &[20, 20]];
    yes("every other of 40 sectors", &forty, &[0x55_5555_5555, 0xaa_aaaa_aaaa], halves);
    let apart: [&[u64]; 8] = [&[0; 4], &[40, 780], none, none, &[40, 780], &[40, 780], none, &[1, 39]];
    yes("the last of 40 sectors", &forty, &[0x80_0000_0000, 0x7f_ffff_ffff], apart);
    cases
}

/// "18 if a sector is in no group or in two, a group is empty, or a bit at n or above is set", and g from 1 to n.
fn groups_cases() -> Vec<(&'static str, Case, Outcome)> {
    let mut cases = Vec::new();
    let mut no = |name, case: Case, number| {
        let outcome = refused(&case, number, 0);
        cases.push((name, case, outcome));
    };
    let (two, three) = (table().given, three_sectors());
    for (name, groups) in [
        ("a sector in both groups", &[0b11, 0b10][..]),
        ("both sectors in both groups", &[0b11, 0b11]),
        ("a sector twice, the other in none", &[0b01, 0b01]),
        ("a sector in no group", &[0b10]),
        ("no sector", &[0]),
        ("an empty group", &[0b11, 0]),
        ("an empty group first", &[0, 0b11]),
        ("a bit at n", &[0b01, 0b110]),
        ("a bit at n in place of a sector", &[0b01, 0b100]),
        ("a bit at n alone", &[0b11, 0b100]),
        ("bit 63", &[1 << 63 | 0b11]),
        ("bit 32", &[0b01, 1 << 32 | 0b10]),
        ("every bit", &[u64::MAX]),
    ] {
        no(name, merging(&two, groups), 18);
    }
    for (name, groups) in [
        ("a sector in three groups", &[0b011, 0b001, 0b101][..]),
        ("words with the sum of a partition", &[0b011, 0b011, 0b001]),
        ("as many bits as sectors", &[0b011, 0b001]),
        ("the middle sector in no group", &[0b001, 0b100]),
    ] {
        no(name, merging(&three, groups), 18);
    }
    let forty = made_and_used(&[1; 40]);
    for (name, groups) in [
        ("bit 40 of 40 sectors", &[0x1ff_ffff_ffff][..]),
        ("bit 63 of 40 sectors", &[1 << 63 | 0xff_ffff_ffff]),
        ("bit 63 of 40 sectors, in a group of its own", &[0xff_ffff_ffff, 1 << 63]),
        ("the last of 40 sectors in no group", &[0x7f_ffff_ffff]),
        ("the first of 40 sectors in no group", &[0xff_ffff_fffe]),
    ] {
        no(name, merging(&forty, groups), 18);
    }
    // No groups, and more than sectors.
    no("no groups", merging(&two, &[]), 2);
    no("a group more than sectors", merging(&two, &[0b01, 0b10, 0]), 2);
    no("two groups of one sector", merging(&made_and_used(&[7]), &[1, 1]), 2);
    no("41 groups", merging(&forty, &(0..41).map(|k| 1 << k).collect::<Vec<u64>>()), 2);
    no("65 groups", merging(&two, &[1; 65]), 2);
    cases
}

/// "19 if a merged amount exceeds its limit, or E plus G does": at the limit and one over it, in two sectors that are merged.
fn merged_limit_cases() -> Vec<(&'static str, Case, Outcome)> {
    let mut cases = Vec::new();
    let mut limit = |name, table: &[Vec<u64>], groups: &[u64], merged: Option<[&[u64]; 8]>| {
        let case = merging(table, groups);
        let outcome = merged.map_or_else(|| refused(&case, 19, 0), |merged| accepted(0, &merged));
        cases.push((name, case, outcome));
    };
    // X, with F and V.
    let at = made_and_used(&[LIMIT - 1, 1]);
    limit("X at its limit", &at, &[0b11], Some([&[0], &[LIMIT], &[0], &[0], &[LIMIT], &[LIMIT], &[0], &[2]]));
    limit("X over", &made_and_used(&[LIMIT - 1, 2]), &[0b11], None);
    limit("X over in the second group", &made_and_used(&[7, LIMIT, 1]), &[0b001, 0b110], None);
    // X alone: V is less by the unit that the second sector buys from the first, which imports it.
    let bought = |second: u64| {
        let columns = [[0, second + 1], [500, 0], [1, 0], [500, second], [500, second + 1], [0, 0]];
        [vec![vec![0, 1, 0, 0]], columns.map(|column| column.to_vec()).to_vec()].concat()
    };
    let within: [&[u64]; 8] = [&[1], &[LIMIT - 500], &[500], &[1], &[LIMIT - 1], &[LIMIT], &[0], &[2]];
    limit("X alone at its limit", &bought(LIMIT - 501), &[0b11], Some(within));
    limit("X alone over", &bought(LIMIT - 500), &[0b11], None);
    // F, of which the second sector imports its part.
    let imported = |second: u64| {
        let columns = [[LIMIT - 1, second], [0, 0], [0, second], [LIMIT - 1, 0], [LIMIT - 1, 0], [0, 0]];
        [vec![vec![0; 4]], columns.map(|column| column.to_vec()).to_vec()].concat()
    };
    let within: [&[u64]; 8] = [&[0], &[LIMIT], &[0], &[1], &[LIMIT - 1], &[LIMIT - 1], &[0], &[2]];
    limit("F at its limit", &imported(1), &[0b11], Some(within));
    limit("F alone over", &imported(2), &[0b11], None);
    // M: the first sector buys a unit of itself, exports one, and imports what it uses; the second imports what it uses.
    let used = |second: u64| {
        let columns = [[LIMIT - 1, second], [1, 0], [LIMIT, second], [0, 0], [1, 0], [0, 0]];
        [vec![vec![1, 0, 0, 0]], columns.map(|column| column.to_vec()).to_vec()].concat()
    };
    let within: [&[u64]; 8] = [&[1], &[LIMIT - 1], &[1], &[LIMIT], &[0], &[1], &[0], &[2]];
    limit("M at its limit", &used(0), &[0b11], Some(within));
    limit("M alone over", &used(1), &[0b11], None);
    // E and G, one sector each.
    let outflow = |e: u64, g: u64| outflows(&[e, 0], &[0, g]).given;
    let within: [&[u64]; 8] = [&[0], &[0], &[LIMIT - 1], &[0], &[LIMIT], &[LIMIT], &[1], &[2]];
    limit("merged E and G at their limit", &outflow(LIMIT - 1, 1), &[0b11], Some(within));
    limit("merged E and G over", &outflow(LIMIT - 1, 2), &[0b11], None);
    limit("merged E and G far over", &outflow(LIMIT, LIMIT), &[0b11], None);
    // 2^32 + 4 in five sectors; 40 sectors at the limit.
    limit("a sum beyond 32 bits", &made_and_used(&[858_993_460; 5]), &[0b11111], None);
    let full = made_and_used(&[LIMIT; 40]);
    let singles: Vec<u64> = (0..40).map(|sector| 1 << sector).collect();
    let most: &[u64] = &[LIMIT; 40];
    let none: &[u64] = &[0; 40];
    limit("40 sectors at the limit, single", &full, &singles, Some([&[0; 1600], most, none, none, most, most, none, &[1; 40]]));
    limit("40 sectors at the limit, in one", &full, &[0xff_ffff_ffff], None);
    cases
}

/// "It asks 1 to 6, with 16 after 3", then 18 and 19: of several that fail the first is told.
fn merging_order_cases() -> Vec<(&'static str, Case, Outcome)> {
    let mut cases = Vec::new();
    let mut no = |name, case: Case, number, place| {
        let outcome = refused(&case, number, place);
        cases.push((name, case, outcome));
    };
    // From the last question to the first, always with one thing more that is wrong. Merged, the amounts are over.
    let (good, bad) = ([0b11], [0b01, 0b01]);
    let mut wrong = made_and_used(&[LIMIT, 5]);
    no("19", merging(&wrong, &good), 19, 0);
    no("18 before 19", merging(&wrong, &bad), 18, 0);
    no("18 before 19, a bit at n", merging(&wrong, &[0b111]), 18, 0);
    // Of the second sector's goods 1 is used, and 2 are imported.
    (wrong[1][1], wrong[E][1], wrong[M][1]) = (1, 6, 2);
    no("6 before 19", merging(&wrong, &good), 6, 1);
    no("6 before 18", merging(&wrong, &bad), 6, 1);
    wrong[E][1] = 7;
    no("5 before 6", merging(&wrong, &bad), 5, 1);
    wrong[V][1] = 4;
    no("4 before 5", merging(&wrong, &bad), 4, 1);
    wrong[G][1] = LIMIT;
    no("16 before 4", merging(&wrong, &bad), 16, 1);
    wrong[G][0] = LIMIT + 1;
    no("3 before 16", merging(&wrong, &bad), 3, 4 + 5 * 2);
    no("2 before 3", merging(&wrong, &[]), 2, 0);
    no("2 before 3, three groups", merging(&wrong, &[0b01, 0b10, 0b11]), 2, 0);
    for n in [0, 41, usize::MAX] {
        no("1 before 2", Case { n, ..merging(&wrong, &[]) }, 1, 0);
    }
    // Each slice with a cell less and a cell more, the lent ones too; and lent as if no sectors were merged.
    for (slice, less, more) in (0..16).flat_map(|slice| [(slice, 1, 0), (slice, 0, 1)]) {
        let mut case = merging(&table().given, &[0b01, 0b10]);
        if slice <= GROUPS {
            let length = case.given[slice].len() - less + more;
            case.given[slice].resize(length, 0);
        } else {
            case.lent[slice - GROUPS - 1] += more;
            case.lent[slice - GROUPS - 1] -= less;
        }
        no("a merging with other lengths", case, 2, 0);
    }
    let unmerged = Case { lent: Call::Aggregate.lent_lengths(2), ..merging(&table().given, &[0b11]) };
    no("lent for two groups", unmerged, 2, 0);
    cases
}

/// Sheets from merged tables. Question 7 may refuse those of the one and accept those of the other.
fn merged_sheets_cases() -> Vec<(&'static str, Case, Outcome)> {
    let mut cases = Vec::new();
    let sheets = |table: &[&[u64]]| Case::new(Call::Coefficients, table[1].len(), table.iter().map(|cells| cells.to_vec()).collect());
    let one: [&[u64]; 7] = [&[1400], &[1400], &[810], &[610], &[1600], &[3000], &[0]];
    let given: [&[u64]; 5] = [&[466_667], &[533_333], &[217_857], &[365_000], &[1905]];
    cases.push(("the sheets of the worked table in one", sheets(&one), accepted(0, &given)));

    // The first sector buys what the second imports. Merged with the third, which imports nothing, that is no longer told apart.
    let none: &[u64] = &[0; 3];
    let (used, made) = ([100, 0, 10_000], [100, 0, 10_000]);
    let apart: [&[u64]; 7] = [&[0, 0, 0, 98, 0, 0, 0, 0, 0], &used, none, &[0, 98, 0], &[2, 0, 10_000], &made, none];
    let a: &[u64] = &[0, 0, 0, 980_000, 0, 0, 0, 0, 0];
    let given: [&[u64]; 5] = [a, &[20_000, 0, 1_000_000], &[0, 1_000_000, 0], &[0; 9], &used];
    cases.push(("within 7 before merging", sheets(&apart), accepted(0, &given)));
    let merged: [&[u64]; 8] = [&[0, 0, 98, 0], &[100, 10_000], &[0, 0], &[0, 98], &[2, 10_000], &[100, 10_000], &[0, 0], &[1, 2]];
    let table: Vec<Vec<u64>> = apart.iter().map(|cells| cells.to_vec()).collect();
    cases.push(("merged over 7", merging(&table, &[0b001, 0b110]), accepted(0, &merged)));
    let over = sheets(&merged[..GROUPS]);
    let seven = refused(&over, 7, 0);
    cases.push(("over 7 after merging", over, seven));

    // A sector that buys 96 in 100 of itself, merged with one that buys nothing.
    let million = 1_000_000;
    let before: [&[u64]; 7] =
        [&[960_000, 0, 0, 0], &[40_000, million], &[0, 0], &[0, 0], &[40_000, million], &[million, million], &[0, 0]];
    let over = sheets(&before);
    let seven = refused(&over, 7, 0);
    cases.push(("over 7 before merging", over, seven));
    let (kept, made) = ([1_040_000], [2_000_000]);
    let merged: [&[u64]; 8] = [&[960_000], &kept, &[0], &[0], &kept, &made, &[0], &[2]];
    let table: Vec<Vec<u64>> = before.iter().map(|cells| cells.to_vec()).collect();
    cases.push(("merged within 7", merging(&table, &[0b11]), accepted(0, &merged)));
    let given: [&[u64]; 5] = [&[480_000], &[520_000], &[0], &[480_000], &kept];
    cases.push(("within 7 after merging", sheets(&merged[..GROUPS]), accepted(0, &given)));
    cases
}

/// A sheet and a production, to go backwards.
fn backwards(sheet: &[u64], production: &[u64]) -> Case {
    rounds(Call::ImpliedDemand, sheet, production, 0)
}

/// "Productions that leave a shortage", beside P6.
fn shortage_cases() -> Vec<(&'static str, Case, Outcome)> {
    let mut cases = Vec::new();
    let most = PRODUCTION_LIMIT as u64;
    for (name, production, demand) in [
        // 150.15 and 240.24 are rounded down before they are taken off.
        ("a shortage and a fraction", [0, 1001], [-150_i64, 761]),
        // 0.975 and 150.15 are 151.125; 3.12 and 240.24 are 243.36.
        ("a shortage of two products", [13, 1001], [-138, 758]),
        // 162.15 are taken of the first sector, and 278.88 of the second; a unit less, 162.075 and 278.64.
        ("nothing left", [162, 1000], [0, 722]),
        ("a unit short", [161, 1000], [-1, 722]),
        ("the second sector short", [1000, 0], [925, -240]),
        // Of the first sector industry takes least, of the second most.
        ("the largest total in the first sector", [most, 0], [1_480_000_000_000, -384_000_000_000]),
        ("the largest total in the second sector", [0, most], [-240_000_000_000, 1_216_000_000_000]),
    ] {
        cases.push((name, backwards(&D, &production), accepted(0, &[&demand])));
    }
    let (limit, over) = ([0, 950_000, 0, 0], [0, 950_001, 0, 0]);
    let largest = accepted(0, &[&[-1_520_000_000_000_i64, 1_600_000_000_000]]);
    cases.push(("the largest shortage", backwards(&limit, &[0, most]), largest));

    let mut no = |name, case: Case, number, place| {
        let outcome = refused(&case, number, place);
        cases.push((name, case, outcome));
    };
    no("a column over, a sector short", backwards(&over, &[0, 1000]), 7, 1);
    no("7 before 8, a sector short", backwards(&over, &[0, most + 1]), 7, 1);
    no("a total over, a sector short", backwards(&limit, &[0, most + 1]), 8, 1);
    no("a running total over, a sector short", backwards(&limit, &[1, most]), 8, 1);
    no("a total over, the second sector short", backwards(&D, &[most + 1, 0]), 8, 0);
    // A cell lent too few, one too many, and none.
    for lent in [1, 3, 0] {
        for case in [backwards(&D, &[0, 1000]), backwards(&over, &[0, most + 1])] {
            no("a sector short, other cells lent", Case { lent: vec![lent], ..case }, 2, 0);
        }
    }
    cases
}

/// One sector short, and all but one. All cannot be: by question 7 industry takes at most 95 in 100 of the total, so
/// the demands of all sectors together are at least a twentieth of it.
fn shortage_of_forty_cases() -> Vec<(&'static str, Case, Outcome)> {
    let mut cases = Vec::new();
    let zeros = vec![0; SECTORS * SECTORS];
    for k in [0, 17, SECTORS - 1] {
        // Each of the others makes 1,000 and takes 10 of sector k, which makes nothing.
        let (mut d, mut production, mut demand) = (zeros.clone(), [1_000; SECTORS], [1_000_i64; SECTORS]);
        d[k * SECTORS..(k + 1) * SECTORS].fill(10_000);
        (production[k], demand[k]) = (0, -390);
        cases.push(("one of forty short", backwards(&d, &production), accepted(0, &[&demand])));
        // Sector k alone makes something, and takes 23,750 of each, itself too: together 50,000 are left, a twentieth.
        let (mut d, mut production, mut demand) = (zeros.clone(), [0; SECTORS], [-23_750_i64; SECTORS]);
        (0..SECTORS).for_each(|i| d[i * SECTORS + k] = 23_750);
        (production[k], demand[k]) = (1_000_000, 976_250);
        cases.push(("all but one of forty short", backwards(&d, &production), accepted(0, &[&demand])));
    }
    cases
}

/// A table x, F, E, M, V, X, G.
fn of_columns<const N: usize>(x: &[u64], columns: [[u64; N]; 6]) -> Vec<Vec<u64>> {
    [vec![x.to_vec()], columns.map(|column| column.to_vec()).to_vec()].concat()
}

/// A table and a list of its sectors.
fn ordering(table: &[Vec<u64>], order: &[u64]) -> Case {
    let given = [table, &[order.to_vec()]].concat();
    Case::new(Call::Permute, table[1].len(), given)
}

/// What is told of a table in a new order.
fn permuted(table: &[Vec<u64>], inverse: &[u64]) -> Outcome {
    accepted(0, &table.iter().map(Vec::as_slice).chain([inverse]).collect::<Vec<_>>())
}

/// The worked table by the list 1 0.
fn exchanged() -> Vec<Vec<u64>> {
    of_columns(&[600, 300, 400, 100], [[900, 500], [560, 250], [360, 250], [1000, 600], [2000, 1000], [0, 0]])
}

/// The table of three sectors by the list 1 2 0.
fn turned() -> Vec<Vec<u64>> {
    let columns = [[80, 90, 50], [25, 45, 20], [20, 20, 30], [80, 105, 60], [150, 200, 100], [5, 0, 0]];
    of_columns(&[40, 15, 5, 10, 50, 25, 20, 30, 10], columns)
}

/// The same by the list 2 0 1.
fn turned_on() -> Vec<Vec<u64>> {
    let columns = [[90, 50, 80], [45, 20, 25], [20, 30, 20], [105, 60, 80], [200, 100, 150], [0, 0, 5]];
    of_columns(&[50, 25, 10, 30, 10, 20, 15, 5, 40], columns)
}

/// "Sector order for storage": x, F, E, M, V, X, G in the new order and the inverse list, by hand.
fn permuted_cases() -> Vec<(&'static str, Case, Outcome)> {
    let mut cases = Vec::new();
    let mut yes = |name, table: &[Vec<u64>], order: &[u64], after: &[Vec<u64>], inverse: &[u64]| {
        cases.push((name, ordering(table, order), permuted(after, inverse)));
    };
    let worked = table().given;
    yes("the worked table exchanged", &worked, &[1, 0], &exchanged(), &[1, 0]);
    yes("exchanged again", &exchanged(), &[1, 0], &worked, &[1, 0]);
    yes("the worked table in its order", &worked, &[0, 1], &worked, &[0, 1]);
    let mut with_adjustment = exchanged();
    (with_adjustment[M], with_adjustment[G]) = (vec![450, 300], vec![90, 50]);
    yes("an adjustment exchanged", &adjusted().given, &[1, 0], &with_adjustment, &[1, 0]);

    // A list that is not its own inverse, there and back, on and round.
    let three = three_sectors();
    yes("three sectors turned", &three, &[1, 2, 0], &turned(), &[2, 0, 1]);
    yes("turned back", &turned(), &[2, 0, 1], &three, &[1, 2, 0]);
    yes("turned on", &turned(), &[1, 2, 0], &turned_on(), &[2, 0, 1]);
    yes("turned on at once", &three, &[2, 0, 1], &turned_on(), &[1, 2, 0]);
    yes("turned round", &turned_on(), &[1, 2, 0], &three, &[2, 0, 1]);
    yes("three sectors in their order", &three, &[0, 1, 2], &three, &[0, 1, 2]);
    let columns = [[50, 90, 80], [20, 45, 25], [30, 20, 20], [60, 105, 80], [100, 200, 150], [0, 0, 5]];
    let last_two = of_columns(&[10, 30, 20, 25, 50, 10, 5, 15, 40], columns);
    yes("the last two exchanged", &three, &[0, 2, 1], &last_two, &[0, 2, 1]);

    let one = of_columns(&[1], [[2], [3], [4], [5], [6], [7]]);
    yes("one sector", &one, &[0], &one, &[0]);
    yes("zeros", &made_and_used(&[0, 0]), &[1, 0], &made_and_used(&[0, 0]), &[1, 0]);
    let full = of_columns(&[LIMIT; 9], [[LIMIT; 3]; 6]);
    yes("every amount at the limit", &full, &[2, 0, 1], &full, &[1, 2, 0]);
    cases
}

/// A table that does not balance and has no two equal cells: a flow tells its row and its column, an amount its column and its sector.
fn told_apart(n: u64) -> Vec<Vec<u64>> {
    let flows = (0..n).flat_map(|i| (0..n).map(move |j| 100 * i + j)).collect();
    let columns = (1..=6).map(|column| (0..n).map(|i| 10_000 * column + i).collect());
    [flows].into_iter().chain(columns).collect()
}

/// Four sectors and forty, in which no cell is taken for another.
fn permuted_forty_cases() -> Vec<(&'static str, Case, Outcome)> {
    let mut cases = Vec::new();
    let four = of_columns(
        &[202, 200, 203, 201, 2, 0, 3, 1, 302, 300, 303, 301, 102, 100, 103, 101],
        [1, 2, 3, 4, 5, 6].map(|column| [2, 0, 3, 1].map(|sector| 10_000 * column + sector)),
    );
    cases.push(("four sectors in a ring", ordering(&told_apart(4), &[2, 0, 3, 1]), permuted(&four, &[1, 3, 0, 2])));

    // Backwards cell k is the last less k, and the list its own inverse. Turned by a place it is not: the first sector comes last.
    let forty = told_apart(40);
    let mut backwards = forty.clone();
    backwards.iter_mut().for_each(|cells| cells.reverse());
    let list: Vec<u64> = (0..40).rev().collect();
    cases.push(("forty sectors backwards", ordering(&forty, &list), permuted(&backwards, &list)));
    let mut turned = forty.clone();
    turned[0].chunks_exact_mut(40).for_each(|row| row.rotate_left(1));
    turned[0].rotate_left(40);
    turned[1..].iter_mut().for_each(|column| column.rotate_left(1));
    let (list, back): (Vec<u64>, Vec<u64>) = ((1..40).chain([0]).collect(), [39].into_iter().chain(0..39).collect());
    cases.push(("forty sectors turned", ordering(&forty, &list), permuted(&turned, &back)));
    cases.push(("forty sectors turned back", ordering(&turned, &back), permuted(&forty, &list)));
    let list: Vec<u64> = (0..40).collect();
    cases.push(("forty sectors in their order", ordering(&forty, &list), permuted(&forty, &list)));
    cases
}

/// "It asks 1, 2 and 3", and then 20: not 4, 5, 6, 7 and 16. The sheets are refused in both orders, at the place of the same sector.
fn unasked_cases() -> Vec<(&'static str, Case, Outcome)> {
    let mut cases = Vec::new();
    for (name, changes, number) in [
        ("a column that does not balance", &[(V, 599)][..], 4),
        ("a row that does not balance", &[(1, 501)], 5),
        ("imports over the need", &[(E, 1001), (M, 1001)], 6),
        ("E and G over their limit", &[(E, LIMIT), (G, 1)], 16),
        ("no column and no row that balances", &[(V, 0), (1, 0)], 4),
    ] {
        let (mut before, mut after) = (table().given, exchanged());
        for (slice, amount) in changes {
            (before[*slice][0], after[*slice][1]) = (*amount, *amount);
        }
        cases.push((name, ordering(&before, &[1, 0]), permuted(&after, &[1, 0])));
        for (table, place) in [(before, 0), (after, 1)] {
            let sheets = Case::new(Call::Coefficients, 2, table);
            let no = refused(&sheets, number, place);
            cases.push((name, sheets, no));
        }
    }
    // A sector that buys 96 in 100 of itself: 7.
    let million = 1_000_000;
    let columns = [[40_000, million], [0, 0], [0, 0], [40_000, million], [million, million], [0, 0]];
    let before = of_columns(&[960_000, 0, 0, 0], columns);
    let after = of_columns(&[0, 0, 0, 960_000], columns.map(|[first, second]| [second, first]));
    cases.push(("a column sum over its limit", ordering(&before, &[1, 0]), permuted(&after, &[1, 0])));
    for (table, place) in [(before, 0), (after, 1)] {
        let sheets = Case::new(Call::Coefficients, 2, table);
        let seven = refused(&sheets, 7, place);
        cases.push(("a column sum over its limit", sheets, seven));
    }
    cases
}

/// "20 if an entry of the list is not below n or repeats an earlier one, … place the first such entry."
fn list_cases() -> Vec<(&'static str, Case, Outcome)> {
    let mut cases = Vec::new();
    let mut no = |name, table: &[Vec<u64>], order: &[u64], place| {
        let case = ordering(table, order);
        let outcome = refused(&case, 20, place);
        cases.push((name, case, outcome));
    };
    const MOST: u64 = u64::MAX;
    let (one, two, three) = (made_and_used(&[7]), table().given, three_sectors());
    no("one sector, an entry n", &one, &[1], 0);
    no("one sector, the largest entry", &one, &[MOST], 0);
    for (name, order, place) in [
        ("an entry n", [0, 2], 1),
        ("an entry n first", [2, 0], 0),
        ("an entry n twice", [2, 2], 0),
        ("an entry n + 1", [0, 3], 1),
        ("the largest entry", [0, MOST], 1),
        ("the largest entry first", [MOST, 0], 0),
        ("the largest entry twice", [MOST, MOST], 0),
        ("sectors counted from 1", [1, 2], 1),
        ("the first sector twice", [0, 0], 1),
        ("the last sector twice", [1, 1], 1),
        // A part of their bits is a sector. Twice 2^63 is 0 in 64 bits.
        ("64", [1, 64], 1),
        ("65", [65, 0], 0),
        ("256", [1, 256], 1),
        ("2^16", [1, 1 << 16], 1),
        ("2^32", [1, 1 << 32], 1),
        ("2^32 + 1", [(1 << 32) + 1, 0], 0),
        ("2^63", [1, 1 << 63], 1),
        ("2^63 + 1", [(1 << 63) + 1, 0], 0),
    ] {
        no(name, &two, &order, place);
    }
    for (name, order, place) in [
        ("a repeat of a neighbour", [1, 1, 0], 1),
        ("a repeat of the last neighbour", [0, 2, 2], 2),
        ("a repeat of a sector not beside it", [2, 0, 2], 2),
        ("a sector three times", [1, 1, 1], 1),
        ("a repeat, then an entry n", [1, 1, 3], 1),
        ("an entry n, then a repeat", [3, 1, 1], 0),
        ("an entry n before the repeat of another", [1, 3, 1], 1),
        ("a repeat, then the largest entry", [0, 0, MOST], 1),
        ("the largest entry, then a repeat", [MOST, 0, 0], 0),
        ("an entry n, again at the end", [3, 0, 3], 0),
    ] {
        no(name, &three, &order, place);
    }
    let forty = told_apart(40);
    for (name, changes, place) in [
        ("the first of forty again at the end", &[(39, 0)][..], 39),
        ("the last of forty at the start", &[(0, 39)], 39),
        ("40 at the end", &[(39, 40)], 39),
        ("40 at the start", &[(0, 40)], 0),
        ("a neighbour within forty", &[(20, 19)], 20),
        ("the next within forty", &[(20, 21)], 21),
        ("a repeat and later 40", &[(20, 3), (30, 40)], 20),
        ("40 and later a repeat", &[(20, 40), (30, 3)], 20),
        ("two repeats", &[(35, 2), (33, 34)], 34),
    ] {
        let mut order: Vec<u64> = (0..40).collect();
        changes.iter().for_each(|(at, entry)| order[*at] = *entry);
        no(name, &forty, &order, place);
    }
    no("one of forty everywhere", &forty, &[39; 40], 1);
    cases
}

/// "It asks 1, 2 and 3", then 20: of several that fail the first is told.
fn permuting_order_cases() -> Vec<(&'static str, Case, Outcome)> {
    let mut cases = Vec::new();
    let mut no = |name, case: Case, number, place| {
        let outcome = refused(&case, number, place);
        cases.push((name, case, outcome));
    };
    let (good, bad) = ([1, 0], [0, 0]);
    // Question 3 reads x, F, E, M, V, X, G: a cell over its limit, alone and with every one after it.
    for place in 0..16 {
        let at = |place: usize| if place < 4 { (0, place) } else { (place / 2 - 1, place % 2) };
        let mut table = table().given;
        let (slice, cell) = at(place);
        table[slice][cell] = LIMIT + 1;
        no("an amount over, to be put in order", ordering(&table, &good), 3, place);
        no("3 before 20", ordering(&table, &bad), 3, place);
        (place..16).map(at).for_each(|(slice, cell)| table[slice][cell] = u64::MAX);
        no("3 before 20, every amount from here over", ordering(&table, &[u64::MAX; 2]), 3, place);
    }
    // Each slice with a cell less, a cell more and none, the lent ones too, also where an amount is over and the list is none.
    let mut over = table().given;
    over[0][0] = LIMIT + 1;
    for slice in 0..16 {
        for mut case in [ordering(&table().given, &good), ordering(&over, &bad)] {
            let lent = slice > ORDER;
            let exact = if lent { case.lent[slice - ORDER - 1] } else { case.given[slice].len() };
            for length in [exact - 1, exact + 1, 0] {
                if lent {
                    case.lent[slice - ORDER - 1] = length;
                } else {
                    case.given[slice].resize(length, 0);
                }
                no("an order with other lengths", case.clone(), 2, 0);
                no("1 before 2, of an order", Case { n: 41, ..case.clone() }, 1, 0);
            }
        }
    }
    for n in [1, 3, 40] {
        no("an order of another n", Case { n, ..ordering(&table().given, &good) }, 2, 0);
    }
    for n in [0, 41, 1 << 32, usize::MAX] {
        no("1 before 3, of an order", Case { n, ..ordering(&over, &bad) }, 1, 0);
    }
    cases
}

/// The page of the worked table by the list 1 0: its lines but for the sectors, in the new order.
const EXCHANGED: &str = "sector demand production value imports\n\
                         1 1280 1999 999 359\n\
                         2 625 999 599 249\n\
                         rounds 9\n";

/// "Where sheets from the old table are accepted, so are those from the new; production settled from f, and prices from direct rises
/// rearranged alike, are the old ones rearranged, with the same count of rounds": P1, P2, P3 and P7 by the list 1 0, and the three sectors
/// before and after they are turned.
fn permuted_sheets_cases() -> Vec<(&'static str, Case, Outcome)> {
    let mut cases = Vec::new();
    let (forward, prices) = (Call::Production, Call::Price);
    let sheets = |table: Vec<Vec<u64>>| Case::new(Call::Coefficients, table[1].len(), table);
    let (a, d) = ([300_000, 300_000, 200_000, 100_000], [240_000, 240_000, 150_000, 75_000]);
    let given: [&[u64]; 5] = [&a, &[500_000, 600_000], &[200_000, 250_000], &d, &[1280, 625]];
    cases.push(("P1 exchanged", sheets(exchanged()), accepted(0, &given)));
    let made = accepted(9, &[&[1999, 999], &[0, 0]]);
    cases.push(("P2 exchanged", rounds(forward, &d, &[1280, 625], 9), made));
    let rise = accepted(10, &[&[2_248, 11_393], &[0, 0]]);
    cases.push(("P7 exchanged", rounds(prices, &d, &[0, 10_000], 10), rise));
    let printed = Outcome::in_bytes(PAGE_BYTES, Ok(EXCHANGED.as_bytes().to_vec()));
    cases.push(("the page of the worked table exchanged", Case::of_file(Call::Page, file_of(&exchanged())), printed));

    let three = three_sectors();
    let a = [100_000, 133_333, 150_000, 50_000, 266_667, 75_000, 250_000, 66_667, 250_000];
    let d = [72_727, 96_969, 109_090, 42_857, 228_571, 64_285, 221_428, 59_047, 221_428];
    let given: [&[u64]; 5] = [&a, &[600_000, 533_333, 525_000], &[272_727, 142_857, 114_286], &d, &[56, 98, 124]];
    cases.push(("the sheets of three sectors", sheets(three), accepted(0, &given)));
    cases.push(("three sectors settled", rounds(forward, &d, &[56, 98, 124], 8), accepted(8, &[&[99, 148, 198], &[0; 3]])));
    let rise = accepted(10, &[&[11_426, 1_617, 2_376], &[0; 3]]);
    cases.push(("prices of three sectors", rounds(prices, &d, &[10_000, 0, 500], 10), rise));

    let a = [266_667, 75_000, 50_000, 66_667, 250_000, 250_000, 133_333, 150_000, 100_000];
    let d_turned = [228_571, 64_285, 42_857, 59_047, 221_428, 221_428, 96_969, 109_090, 72_727];
    let given: [&[u64]; 5] = [&a, &[533_333, 525_000, 600_000], &[142_857, 114_286, 272_727], &d_turned, &[98, 124, 56]];
    cases.push(("the sheets of three sectors turned", sheets(turned()), accepted(0, &given)));
    let made = accepted(8, &[&[148, 198, 99], &[0; 3]]);
    cases.push(("three sectors turned and settled", rounds(forward, &d_turned, &[98, 124, 56], 8), made));
    let rise = accepted(10, &[&[1_617, 2_376, 11_426], &[0; 3]]);
    cases.push(("prices of three sectors turned", rounds(prices, &d_turned, &[0, 500, 10_000], 10), rise));

    // With a round less none of them settles, in any order.
    for short in [
        rounds(forward, &[240_000, 240_000, 150_000, 75_000], &[1280, 625], 8),
        rounds(prices, &[240_000, 240_000, 150_000, 75_000], &[0, 10_000], 9),
        rounds(forward, &d, &[56, 98, 124], 7),
        rounds(forward, &d_turned, &[98, 124, 56], 7),
        rounds(prices, &d, &[10_000, 0, 500], 9),
        rounds(prices, &d_turned, &[0, 500, 10_000], 9),
    ] {
        let nine = refused(&short, 9, 0);
        cases.push(("a round less in any order", short, nine));
    }
    cases
}

/// "How many cells were named", of 40 sectors: each cell alone, named as 0, and then all of them.
fn named_cases() -> Vec<(&'static str, Case, Outcome)> {
    let sectors = 1..=40;
    let mut records: Vec<Vec<u8>> = Vec::new();
    for row in sectors.clone() {
        records.extend(sectors.clone().map(|column| vec![2, row, column, 0, 0, 0, 0]));
    }
    for kind in [3, 4, 5, 6, 7, 9, 10] {
        records.extend(sectors.clone().map(|sector| vec![kind, sector, 0, 0, 0, 0]));
    }
    let zeros: Vec<Vec<i128>> = reference::FILE_LENGTHS.iter().map(|k| vec![0; *k]).collect();
    let naming = |name, records: &[Vec<u8>]| {
        let file = [vec![1, 40], records.concat(), vec![8]].concat();
        let counts = [40, records.len()];
        let outcome = Outcome { number: 0, place: 0, counts, cells: zeros.clone(), bytes: vec![] };
        (name, Case::of_file(Call::ReadTable, file), outcome)
    };
    let mut cases: Vec<_> = records.chunks(1).map(|one| naming("one cell named", one)).collect();
    cases.push(naming("every cell named", &records));
    cases
}

/// The worked table with this adjustment and these rises, to be written.
fn to_write(adjustment: [u64; 2], rises: [u64; 2]) -> Case {
    let mut given = table().given;
    given[G] = adjustment.to_vec();
    given.push(rises.to_vec());
    Case::new(Call::WriteTable, 2, given)
}

/// "A writer for table files", of the worked table: 91 bytes in ascending kind and cell; "the adjustment item" after the rises.
fn writer_cases() -> Vec<(&'static str, Case, Outcome)> {
    let no = |number, place| Err(Refusal { number, place });
    let written = |bytes| Outcome::in_bytes(FILE_BYTES, Ok(bytes));
    let mut cases = vec![("written", to_write([0, 0], [0, 0]), written(file()))];
    // A rise is a last record of kind 9, 1,000,000,000 is 3b 9a ca 00, and a zero is left out.
    let mut rise = file();
    rise.splice(90.., [9, 2, 0x3b, 0x9a, 0xca, 0x00, 8]);
    cases.push(("written with a rise", to_write([0, 0], [0, 1_000_000_000]), written(rise)));
    // An adjustment is of kind 10, after a rise.
    let mut both = file();
    both.splice(90.., [9, 2, 0, 0, 1, 0, 10, 1, 0, 0, 0, 50, 10, 2, 0, 0, 0, 7, 8]);
    cases.push(("written with an adjustment and a rise", to_write([50, 7], [0, 256]), written(both)));
    let mut without = to_write([0, 0], [0, 0]);
    without.given[0][2] = 0;
    let mut left_out = file();
    left_out.drain(16..23);
    cases.push(("written without a zero", without, written(left_out)));
    let zeros = Call::WriteTable.given_lengths(40).iter().map(|length| vec![0; *length]).collect();
    cases.push(("written zeros", Case::new(Call::WriteTable, 40, zeros), written(vec![1, 40, 8])));
    // Refusals: the second adjustment is place n × n + 5n + 1, the second rise n × n + 6n + 1.
    for (name, adjustment, rises, place) in [
        ("an adjustment over, written", [0, LIMIT + 1], [0, 0], 2 * 2 + 5 * 2 + 1),
        ("an adjustment and a rise over", [LIMIT, LIMIT + 1], [LIMIT + 1, 0], 2 * 2 + 5 * 2 + 1),
        ("a rise over", [0, LIMIT], [0, LIMIT + 1], 2 * 2 + 6 * 2 + 1),
    ] {
        let over = to_write(adjustment, rises);
        cases.push((name, over, Outcome::in_bytes(FILE_BYTES, no(3, place))));
    }
    for lent in [0, FILE_BYTES - 1, FILE_BYTES + 1] {
        let case = Case { lent: vec![lent], ..to_write([0, 0], [0, 0]) };
        cases.push(("other bytes lent", case, Outcome::in_bytes(lent, no(2, 0))));
    }
    for n in [0, 41] {
        let case = Case { n, ..to_write([0, 0], [0, 0]) };
        cases.push(("n written", case, Outcome::in_bytes(FILE_BYTES, no(1, 0))));
    }
    cases
}

/// Rounds of one sector, by the words of the paper in a few plain lines.
fn settled_by_hand(d: u64, f: u64) -> usize {
    let (mut amount, mut count) = (f, 0);
    loop {
        count += 1;
        let next = f + d * amount / 1_000_000;
        if next == amount {
            return count;
        }
        amount = next;
    }
}

/// "Slips the worked table shows up", and the file's and page's lengths: what the slip would
/// give, and that the reference does not slip.
pub fn slips() -> Vec<(&'static str, bool)> {
    let mut slips = Vec::new();
    let d = |i: usize, j: usize| D[i * 2 + j];
    let one = ONE as u64;

    let cut = 750_000 * (FINAL_DEMAND[0] + EXPORTS[0]) / one;
    slips.push(("exports cut by the import share", cut == 562 && F[0] == 625));

    let need = X[0] + X[1] + FINAL_DEMAND[0];
    let divisor = IMPORTS[0] * one / (need + EXPORTS[0]) == 200_000;
    slips.push(("exports in the divisor", divisor && IMPORTS[0] * one / need == 250_000));

    let first = reference::round(2, &D, &F, &F);
    let second = reference::round(2, &D, &F, &first);
    let product = F[0] + d(0, 0) * first[0] / one + d(0, 1) * first[1] / one;
    slips.push(("each product rounded by itself", product == 949 && second[0] == 950));

    let (mut fresh, mut count) = (F, 0);
    loop {
        count += 1;
        let before = fresh;
        for i in 0..2 {
            fresh[i] = F[i] + (d(i, 0) * fresh[0] + d(i, 1) * fresh[1]) / one;
        }
        if fresh == before {
            break;
        }
    }
    slips.push(("fresh amounts within a round", fresh == [999, 1999] && count != 9));

    let rise = [10_000, 0];
    let along = reference::round(2, &D, &rise, &rise);
    let down = reference::round(2, &reference::turned(2, &D), &rise, &rise);
    slips.push(("prices along rows", along[1] == 2_400 && down[1] == 1_500));

    let (mut near, mut count) = (F.to_vec(), 0);
    loop {
        count += 1;
        let next = reference::round(2, &D, &F, &near);
        let moved = next.iter().zip(&near).map(|(new, old)| new.abs_diff(*old)).max().unwrap();
        near = next;
        if moved <= 1 {
            break;
        }
    }
    let unsettled = reference::round(2, &D, &F, &near) != near;
    slips.push(("stopping within 1", count == 7 && near == [999, 1998] && unsettled));

    // The adjustment in the divisor, cut by the import share, or left out of f.
    let asked = adjusted();
    let (imports, adjustment) = (asked.given[M][0], asked.given[G][0]);
    let divisor = imports * one / (need + adjustment) == 285_714;
    slips.push(("the adjustment in the divisor", divisor && imports * one / need == 300_000));
    let sheets = reference::coefficients(
        2, &X, &FINAL_DEMAND, &EXPORTS, &asked.given[M], &VALUE_ADDED, &PRODUCTION, &asked.given[G], &[4, 2, 2, 4, 2],
    );
    let f = sheets.map(|given| given.cells[4][0]);
    let inside = 700_000 * FINAL_DEMAND[0] / one;
    let cut = inside + EXPORTS[0] + 700_000 * adjustment / one;
    slips.push(("the adjustment cut by the import share", cut == 635 && f == Ok(650)));
    slips.push(("the adjustment left out", inside + EXPORTS[0] == 600 && f == Ok(650)));
    slips.push(("103 bytes", adjusted_file().len() == 103));

    slips.extend(demand_slips());

    // The scheme settled by itself, and the counts of both demands added.
    let more = [635, 1280];
    let given = reference::impact(2, &D, &F, &more, PRODUCTION_BUDGET, &[2, 2]);
    let right = given.map(|given| (given.cells[0].clone(), given.counts[0])) == Ok((vec![12, 4], 10));
    let alone = reference::settle(2, &D, &[10, 0], PRODUCTION_BUDGET);
    slips.push(("the scheme settled by itself", alone == Some((vec![11, 3], 4)) && right));
    let count = |demand: &[u64]| reference::settle(2, &D, demand, PRODUCTION_BUDGET).map_or(0, |(_, count)| count);
    slips.push(("the counts added", count(&F) + count(&more) == 19 && right));

    slips.extend(nearest_slips());
    slips.extend(merging_slips());
    slips.extend(shortage_slips());
    slips.extend(ordering_slips());
    slips.push(("91 bytes", file().len() == 91));
    slips.push(("the printed sheet", reference::page(&file()) == PRINTED.as_bytes()));
    slips.push(("the empty page", reference::page(&[]) == b"refused 15 0\n"));
    slips
}

/// A scheme that is not cut, that is cut and rounded by itself, with exports cut too, or rounded up.
fn demand_slips() -> Vec<(&'static str, bool)> {
    let one = ONE as u64;
    let first = |final_demand: u64| {
        let given = reference::domestic_demand(2, &SHARES, &[final_demand, 900], &EXPORTS, &[0, 0], &[2]);
        given.map_or(0, |given| amounts(&given.cells)[0][0])
    };
    let inside = |amount: u64| 750_000 * amount / one;
    let (before, with) = (first(501), first(502));
    vec![
        ("a scheme that is not cut", F[0] + 100 == 725 && first(600) == 700),
        ("a scheme rounded by itself", before + inside(1) == 625 && (before, with) == (625, 626)),
        ("a scheme with exports cut", inside(600 + EXPORTS[0]) == 637 && first(600) == 700),
        ("a final demand rounded up", (750_000 * 501_u64).div_ceil(one) + EXPORTS[0] == 626 && before == 625),
    ]
}

/// Shares in another rounding, and d, f or one less m to the nearest too.
fn nearest_slips() -> Vec<(&'static str, bool)> {
    let one = ONE as u64;
    let sheets = |amounts: [u64; 6]| {
        let [x, f, e, m, v, output] = amounts.map(|amount| [amount]);
        let given = reference::coefficients(1, &x, &f, &e, &m, &v, &output, &[0], &[1; 5]);
        given.map(|given| given.cells.concat()).map_err(|no| (no.number, no.place))
    };
    let half_down = |part: u64, whole: u64| (2 * part * one + whole - 1) / (2 * whole);
    let (down, up) = (|part: u64, whole: u64| part * one / whole, |part: u64, whole: u64| (part * one).div_ceil(whole));
    let nearest = |amount: u64| (amount + one / 2) / one;

    let halves = half_down(1, 2_000_000) == 0 && half_down(1_999_999, 2_000_000) == 999_999;
    let thirds = sheets(TWO_IN_THREE) == Ok(vec![666_667, 333_333, 666_667, 222_222, 2]);
    let over = sheets(OVER) == Err((7, 0));
    let within = sheets(WITHIN) == Ok(vec![950_100, 49_900, 105, 950_000, 499_994]);
    let still = sheets(STILL_DOWN) == Ok(vec![950_300, 49_700, 315, 950_000, 49_999]);
    let complement = sheets(COMPLEMENT) == Ok(vec![950_001, 49_999, 1, 950_000, 99_998]);
    let by_itself = nearest(one * one - one / 2);
    vec![
        ("halves downward", halves && sheets(HALVES) == Ok(vec![1, 1_000_000, 1, 0, 1_999_998])),
        ("halves downward, a column over", (one - half_down(1, 2_000_000)) * 950_001 / one == 950_001 && complement),
        ("rounded down", down(2, 3) == 666_666 && thirds),
        ("rounded down, a column within", down(88_161, 92_801) == 950_000 && over),
        ("rounded down, a column over", (one - down(1_047, 10_001_047)) * 950_100 / one == 950_001 && within),
        ("rounded up", up(1, 3) == 333_334 && thirds),
        ("d to the nearest too", nearest(999_685 * 950_300) == 950_001 && still),
        ("f to the nearest too", nearest(999_685 * 49_000) + 1_015 == 50_000 && still),
        ("one less m by itself", by_itself == one && by_itself * 950_001 / one == 950_001 && complement),
    ]
}

/// The worked table in one sector, with coefficients or shares merged in place of amounts, or without what its sectors sell each other.
fn merging_slips() -> Vec<(&'static str, bool)> {
    let one = ONE as u64;
    let worked = table().given;
    let merged = reference::aggregate(2, std::array::from_fn(|k| &worked[k][..]), &[0b11], &[1; 8]);
    let merged = merged.map_or(vec![vec![]; 8], |given| amounts(&given.cells));
    let [x, f, e, m, v, output, g, _] = &merged[..] else { unreachable!() };
    let sheets = reference::coefficients(1, x, f, e, m, v, output, g, &[1; 5]).map(|given| given.cells.concat());
    let right = sheets == Ok(vec![466_667, 533_333, 217_857, 365_000, 1905]);
    let shares = |cells: [u64; 2]| (cells[0] + cells[1]) / 2;
    let inside = X[1] + X[2];
    vec![
        ("coefficients added", X[0] * one / 1000 + X[1] * one / 2000 + X[2] * one / 1000 + X[3] * one / 2000 == 900_000 && right),
        ("import shares averaged", shares([250_000, 200_000]) == 225_000 && right),
        ("value shares averaged", shares([600_000, 500_000]) == 550_000 && right),
        ("flows between the merged sectors left out", 1400 - inside == 700 && *x == [1400]),
    ]
}

/// A shortage with the other sign or none, rounded otherwise, or refused.
fn shortage_slips() -> Vec<(&'static str, bool)> {
    // What a slip gives of a production: of each sector, from what it makes and both products of what is taken.
    fn slip(production: [u64; 2], of: impl Fn(i128, [i128; 2]) -> i128) -> [i128; 2] {
        [0, 1].map(|i| of(production[i].into(), [0, 1].map(|j| i128::from(D[i * 2 + j] * production[j]))))
    }
    let right = |production: [u64; 2], demand: [i128; 2]| {
        let given = reference::implied_demand(2, &D, &production, &[2]);
        given.map(|given| given.cells.concat()) == Ok(demand.to_vec())
    };
    let one = ONE as i128;
    let less = |made: i128, [a, b]: [i128; 2]| made - (a + b) / one;
    let up = |made: i128, [a, b]: [i128; 2]| less(made, [a, b + if less(made, [a, b]) < 0 { one - 1 } else { 0 }]);
    let (whole, fraction, two) = ([0, 1000], [0, 1001], [13, 1001]);
    let (short, down, both) = (right(whole, [-150, 760]), right(fraction, [-150, 761]), right(two, [-138, 758]));
    vec![
        ("a difference reversed", slip(whole, |made, taken| -less(made, taken)) == [150, -760] && short),
        ("a shortage clamped at 0", slip(whole, |made, taken| less(made, taken).max(0)) == [0, 760] && short),
        ("a shortage without its sign", slip(whole, |made, taken| less(made, taken).abs()) == [150, 760] && short),
        ("a shortage refused with 10", slip(whole, less)[0] < 0 && short),
        ("products of a shortage rounded", slip(two, |made, [a, b]| made - a / one - b / one) == [-137, 758] && both),
        ("a shortage rounded up", slip(fraction, up) == [-151, 761] && down),
        ("rounded when taken off", slip(fraction, |made, [a, b]| (made * one - a - b) / one) == [-150, 760] && down),
    ]
}

/// The three sectors by the list 1 2 0, which is not its own inverse: the list scattered, rows or columns left, the list given for its
/// inverse, the adjustment or direct rises left in the old order. Then other lists: sectors counted from 1, the place of an earlier
/// entry, only neighbours compared, and the two faults asked about in turn.
fn ordering_slips() -> Vec<(&'static str, bool)> {
    let (three, order) = (three_sectors(), [1, 2, 0]);
    let put = |table: &[Vec<u64>], order: [u64; 3]| {
        let given = reference::permute(3, std::array::from_fn(|k| &table[k][..]), &order, &[9, 3, 3, 3, 3, 3, 3, 3]);
        given.map(|given| amounts(&given.cells)).map_err(|no| (no.number, no.place))
    };
    let by = |order: [u64; 3]| put(&three, order);
    let back = |inverse: [u64; 3]| put(&turned(), inverse).map(|mut cells| cells.drain(..ORDER).collect::<Vec<_>>());
    let number = |table: &[Vec<u64>]| {
        let [x, f, e, m, v, output, g] = table else { unreachable!() };
        reference::coefficients(3, x, f, e, m, v, output, g, &[9, 3, 3, 9, 3]).map_or_else(|no| (no.number, no.place), |_| (0, 0))
    };
    let right = by([1, 2, 0]) == Ok([turned(), vec![vec![2, 0, 1]]].concat()) && number(&turned()) == (0, 0);

    let mut scattered = [0; 3];
    (0..3).for_each(|k| scattered[order[k]] = three[1][k]);
    let gathered = order.map(|sector| three[1][sector]);
    let flow = |i: usize, j: usize| three[0][i * 3 + j];
    let rows: Vec<u64> = order.iter().flat_map(|i| (0..3).map(|j| flow(*i, j))).collect();
    let columns: Vec<u64> = (0..3).flat_map(|i| order.map(|j| flow(i, j))).collect();
    let with = |slice: usize, cells: &[u64]| {
        let mut table = turned();
        table[slice] = cells.to_vec();
        number(&table)
    };
    let d = [228_571, 64_285, 42_857, 59_047, 221_428, 221_428, 96_969, 109_090, 72_727];
    let prices = |rises: [u64; 3]| reference::settle(3, &reference::turned(3, &d), &rises, PRICE_BUDGET);
    let alike = prices([0, 500, 10_000]) == Some((vec![1_617, 2_376, 11_426], 10));
    let beyond = |order: [u64; 3]| order.iter().position(|entry| *entry >= 3);
    let repeated = |order: [u64; 3]| (0..3).find(|k| order[k + 1..].contains(&order[*k]));
    let beside = |order: [u64; 3]| (1..3).find(|k| order[k - 1] == order[*k]);
    vec![
        ("the list scattered", scattered == [90, 50, 80] && gathered == [80, 90, 50] && right),
        ("rows moved and columns not", rows == [5, 40, 15, 25, 10, 50, 10, 20, 30] && with(0, &rows) == (4, 0) && right),
        ("columns moved and rows not", columns == [20, 30, 10, 40, 15, 5, 10, 50, 25] && with(0, &columns) == (5, 1) && right),
        ("the list given for its inverse", back([1, 2, 0]) == Ok(turned_on()) && back([2, 0, 1]) == Ok(three.clone()) && right),
        ("the adjustment left in the old order", with(G, &three[G]) == (5, 0) && right),
        ("direct rises left in the old order", prices([10_000, 0, 500]) == Some((vec![13_245, 1_298, 1_461], 12)) && alike),
        ("sectors counted from 1", [2, 3, 1].map(|entry| entry - 1) == order && by([2, 3, 1]) == Err((20, 1))),
        ("the earlier of two equal entries told", repeated([0, 2, 0]) == Some(0) && by([0, 2, 0]) == Err((20, 2))),
        ("only neighbours compared", beside([1, 0, 1]).is_none() && by([1, 0, 1]) == Err((20, 2))),
        ("entries not below n asked about first", beyond([1, 1, 3]) == Some(2) && by([1, 1, 3]) == Err((20, 1))),
        ("repeats asked about first", beside([3, 1, 1]) == Some(2) && by([3, 1, 1]) == Err((20, 0))),
    ]
}

/// The page's case for the library.
pub fn page() -> Case {
    Case::of_file(Call::Page, file())
}
