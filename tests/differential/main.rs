//! Differential test: the library, through its C interface, against the paper.
//!
//! `differential [cases]` first runs the paper's worked cases, then as many pseudo-random cases
//! (2,000,000 unless told otherwise), each accepted impact, each merged table, each table in another order, each
//! demand for domestic goods and each demand behind a production among them against what is promised of it and
//! each refusal for too few rounds against its budget, then settled amounts against exact balances, files that
//! are written and read, and the slowest sheets.
//! The seed is fixed and a case depends on its index alone, so every run is the same.

mod archives;
mod budgets;
mod calls;
mod demands;
mod exact;
mod generate;
mod impacts;
mod merging;
mod ordering;
mod reference;
mod shortages;
#[path = "../../include/tawqeshim.rs"]
mod tawqeshim;
mod worked;

use calls::{by_library, by_reference, number_seen, Call, Case, Outcome, CALLS};
use std::process::exit;

const SEED: u64 = 0x7461_7771_6573_6869;
const CASES: u64 = 2_000_000;
const THREADS: u64 = 2;
const SHEETS: usize = 10_000;
const TABLES: usize = 10_000;
/// Every number that an answer can have, 0 with them.
const NUMBERS: usize = reference::QUESTIONS + 1;

/// What a run has seen: cases for each call and number, productions with a sector short, tables in another order, the
/// most rounds, and what differs.
struct Tally {
    cases: u64,
    seen: [[u64; NUMBERS]; CALLS.len()],
    short: u64,
    orders: ordering::Seen,
    most_rounds: usize,
    differences: u64,
    smallest: Vec<(Case, String)>,
}

impl Tally {
    fn new() -> Tally {
        Tally {
            cases: 0,
            seen: [[0; NUMBERS]; CALLS.len()],
            short: 0,
            orders: ordering::Seen::default(),
            most_rounds: 0,
            differences: 0,
            smallest: vec![],
        }
    }

    fn case(&mut self, name: &str, case: Case) {
        let paper = by_reference(&case);
        self.cases += 1;
        self.seen[case.call as usize][usize::from(number_seen(&case, &paper))] += 1;
        if matches!(case.call, Call::Production | Call::Impact | Call::Price | Call::Inverse) {
            self.most_rounds = self.most_rounds.max(paper.counts[0]);
        }
        if case.call == Call::ImpliedDemand && paper.cells[0].iter().any(|cell| *cell < 0) {
            self.short += 1;
        }
        let told = match checked(&case, &paper, &mut self.orders) {
            Ok(library) if library == paper => return,
            Ok(library) => format!("{name}: paper {paper:?}, library {library:?}"),
            Err(what) => format!("{name}: {what}"),
        };
        self.differences += 1;
        self.keep(case, told);
    }

    /// The smallest differing case of each call.
    fn keep(&mut self, case: Case, told: String) {
        match self.smallest.iter_mut().find(|(other, _)| other.call == case.call) {
            None => self.smallest.push((case, told)),
            Some(kept) if case.size() < kept.0.size() => *kept = (case, told),
            Some(_) => {}
        }
    }

    fn add(&mut self, other: Tally) {
        self.cases += other.cases;
        self.short += other.short;
        self.orders.add(other.orders);
        self.most_rounds = self.most_rounds.max(other.most_rounds);
        self.differences += other.differences;
        for (row, theirs) in self.seen.iter_mut().zip(other.seen) {
            for (count, more) in row.iter_mut().zip(theirs) {
                *count += more;
            }
        }
        for (case, told) in other.smallest {
            self.keep(case, told);
        }
    }
}

/// What the library gives, if that and what the paper gives keep what is promised.
fn checked(case: &Case, paper: &Outcome, orders: &mut ordering::Seen) -> Result<Outcome, &'static str> {
    budgets::check(case, paper)?;
    let library = by_library(case)?;
    budgets::check(case, &library)?;
    demands::check(case, &library)?;
    impacts::check(case, &library)?;
    merging::check(case, &library)?;
    ordering::check(case, &library, orders)?;
    shortages::check(case, &library)?;
    Ok(library)
}

/// The constants that are declared for callers, each with what the paper says. A page's length is the library's own choice.
fn declared() -> [(&'static str, u128, u128); 17] {
    use reference::*;
    use tawqeshim::*;
    let [cells, column, .., marks] = FILE_LENGTHS;
    // After all but the end of the longest file, a further record of at most 7 bytes decides.
    let decided = FILE_BYTES - 1 + 7;
    [
        ("questions", TAWQESHIM_QUESTIONS.into(), QUESTIONS as u128),
        ("sectors", TAWQESHIM_SECTORS as u128, SECTORS as u128),
        ("cells of a column", TAWQESHIM_SECTORS as u128, column as u128),
        ("cells", TAWQESHIM_CELLS as u128, cells as u128),
        ("marks", TAWQESHIM_MARKS as u128, marks as u128),
        ("bytes of a file", TAWQESHIM_FILE as u128, FILE_BYTES as u128),
        ("bytes that are read", TAWQESHIM_FILE_READ as u128, decided as u128),
        ("one", TAWQESHIM_ONE.into(), ONE),
        ("amount", TAWQESHIM_AMOUNT_LIMIT.into(), AMOUNT_LIMIT),
        ("share", TAWQESHIM_SHARE_LIMIT.into(), ONE),
        ("column sum", TAWQESHIM_COLUMN_LIMIT.into(), COLUMN_LIMIT),
        ("demand", TAWQESHIM_DEMAND_LIMIT.into(), DEMAND_LIMIT),
        ("direct rise", TAWQESHIM_RISE_LIMIT.into(), RISE_LIMIT),
        ("total of a production", TAWQESHIM_PRODUCTION_LIMIT.into(), PRODUCTION_LIMIT),
        ("budget of production", TAWQESHIM_PRODUCTION_BUDGET.into(), PRODUCTION_BUDGET.into()),
        ("budget of price", TAWQESHIM_PRICE_BUDGET.into(), PRICE_BUDGET.into()),
        ("budget of a page", TAWQESHIM_PAGE_BUDGET.into(), PAGE_BUDGET.into()),
    ]
}

/// The worked cases and slips through the reference, and the constants that are declared. Returns how many are wrong.
fn self_test() -> u64 {
    let mut all = 0;
    let mut wrong = 0;
    for (name, case, expected) in worked::cases() {
        all += 1;
        let got = by_reference(&case);
        if got != expected {
            wrong += 1;
            println!("{name}: paper {expected:?}, reference {got:?}");
        }
    }
    for (name, right) in worked::slips() {
        all += 1;
        if !right {
            wrong += 1;
            println!("{name}: wrong");
        }
    }
    for (name, declared, paper) in declared() {
        all += 1;
        if declared != paper {
            wrong += 1;
            println!("{name}: paper {paper}, declared {declared}");
        }
    }
    println!("reference: {all} worked cases, {wrong} wrong");
    wrong
}

/// The worked cases and as many pseudo-random ones.
fn compare(cases: u64) -> Tally {
    let mut tally = Tally::new();
    for (name, case, _) in worked::cases() {
        tally.case(name, case);
    }
    tally.case("the printed sheet", worked::page());
    std::thread::scope(|scope| {
        let part = |thread| {
            let mut tally = Tally::new();
            for index in (thread..cases).step_by(THREADS as usize) {
                tally.case(&format!("case {index}"), generate::case(SEED, index));
            }
            tally
        };
        let threads: Vec<_> = (0..THREADS).map(|k| scope.spawn(move || part(k))).collect();
        for thread in threads {
            tally.add(thread.join().expect("a thread of the test"));
        }
    });
    tally
}

/// Tells how often each number was seen. Returns how many never were.
fn tell_numbers(tally: &Tally) -> u64 {
    let mut unseen = 0;
    for call in CALLS {
        let seen = &tally.seen[call as usize];
        let counts: Vec<String> = (0..NUMBERS)
            .filter(|number| seen[*number] > 0 || call.numbers().contains(&(*number as u8)))
            .map(|number| format!("{number}: {}", seen[number]))
            .collect();
        println!("{:<15} {}", call.name(), counts.join("  "));
        for number in call.numbers().iter().filter(|number| seen[usize::from(**number)] == 0) {
            unseen += 1;
            println!("{}: number {number} was never seen", call.name());
        }
    }
    unseen
}

/// Tells how many of the productions that are given, refused ones among them, leave a sector short. Returns 1 if fewer than
/// a third do.
fn tell_shortages(tally: &Tally) -> u64 {
    let given: u64 = tally.seen[Call::ImpliedDemand as usize].iter().sum();
    println!("shortages: {} of {given} given productions leave a sector short", tally.short);
    let few = 3 * tally.short < given;
    if few {
        println!("shortages: fewer than a third");
    }
    u64::from(few)
}

/// Tells how many of the accepted lists of sectors are not their own inverse, how many of the tables have sheets, and how
/// many of these were settled in both orders. Returns 1 if fewer than a fifth are not their own inverse or have sheets.
fn tell_orders(tally: &Tally) -> u64 {
    let accepted = tally.seen[Call::Permute as usize][0];
    let ordering::Seen { other_inverse, sheets, settled } = tally.orders;
    println!("orders: {other_inverse} of {accepted} lists are not their own inverse, {sheets} tables have sheets, {settled} settled");
    let few = 5 * other_inverse < accepted || 5 * sheets < accepted;
    if few {
        println!("orders: fewer than a fifth");
    }
    u64::from(few)
}

fn main() {
    let cases = match std::env::args().nth(1) {
        None => CASES,
        Some(word) => word.parse().expect("the number of cases"),
    };
    let wrong = self_test();
    let tally = compare(cases);
    let exact = exact::run(SEED, SHEETS);
    let archives = archives::run(SEED, TABLES);
    let slow = budgets::run();

    for (case, told) in &tally.smallest {
        println!("{told}\n  {case:?}");
    }
    let unseen = tell_numbers(&tally);
    let few = tell_shortages(&tally) + tell_orders(&tally);
    println!("most rounds: {}", tally.most_rounds);
    println!(
        "exact balances: {} sheets, {} pairs of demands, {} broken",
        exact.sheets, exact.pairs, exact.broken
    );
    println!(
        "archives: {} tables, {} pairs of tables, {} broken",
        archives.tables, archives.pairs, archives.broken
    );
    let [production, impact, price, inverse] = slow.most;
    println!(
        "slow sheets: {}, rounds at most: production {production}, impact {impact}, price {price}, inverse {inverse}, {} broken",
        slow.sheets, slow.broken
    );
    let broken = (exact.broken + archives.broken + slow.broken) as u64;
    let differences = tally.differences + wrong + unseen + few + broken;
    println!("differential: {} cases, {differences} differences", tally.cases);
    if differences > 0 {
        exit(1);
    }
}
