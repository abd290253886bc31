//! A search for slow sheets (document 02, ticket 5): which sheet and which start take the most rounds?
//!
//! `slow [seconds [seed]]` looks for production, price and a column of the inverse in turn. A sheet is built from
//! a family and a few numbers; numbers are drawn, then changed one at a time as long as the count does not fall.
//! The slowest is settled again by the reference of `tests/differential`. It is printed with its family and
//! numbers, from which it can be built again, and with a count that no sheet can pass (`bound`).
//!
//! Searched so far: 1 to 40 sectors, amounts up to the limits, for some 11 minutes on one processor (seeds 1, 2, 3, 5, 7 and 11).
//! Slowest, all of 40 sectors: production 1,244 (loop and ring; the ring alone has 1,189), price 1,175 (ring),
//! a column of the inverse 1,022 (loop and ring of units). `tests/differential/budgets.rs` builds these.

#[allow(dead_code)]
#[path = "../differential/reference.rs"]
mod reference;

use std::process::exit;
use std::time::{Duration, Instant};

const MILLION: u64 = reference::ONE as u64;
const LIMIT: u64 = reference::COLUMN_LIMIT as u64;
const MOST: u64 = reference::SECTORS as u64;
/// A count at which settling is given up; far over all that is expected.
const STOP: u32 = 10_000;
/// Changes tried on one draw.
const TRIES: usize = 60;

#[derive(Clone, Copy, PartialEq)]
enum Kind {
    Production,
    Price,
    Inverse,
}

const KINDS: [(Kind, &str); 3] =
    [(Kind::Production, "production"), (Kind::Price, "price"), (Kind::Inverse, "inverse column")];

impl Kind {
    fn limit(self) -> u64 {
        match self {
            Kind::Production => reference::DEMAND_LIMIT as u64,
            Kind::Price => reference::RISE_LIMIT as u64,
            Kind::Inverse => MILLION,
        }
    }

    /// The budget that always suffices.
    fn enough(self) -> u32 {
        if self == Kind::Production { reference::PRODUCTION_BUDGET } else { reference::PRICE_BUDGET }
    }
}

/// A sheet as the calls take it, and a start.
struct Sheet {
    n: usize,
    d: Vec<u64>,
    start: Vec<u64>,
}

impl Sheet {
    fn new(n: usize) -> Sheet {
        Sheet { n, d: vec![0; n * n], start: vec![0; n] }
    }

    /// What sector j buys from sector i.
    fn put(&mut self, i: usize, j: usize, cell: u64) {
        self.d[i * self.n + j] = cell;
    }

    /// Row by row the cells that are not 0; for prices the sheet is read down its columns.
    fn rows(&self, kind: Kind) -> Vec<Vec<(usize, u64)>> {
        let n = self.n;
        let at = |i: usize, j: usize| if kind == Kind::Price { self.d[j * n + i] } else { self.d[i * n + j] };
        (0..n).map(|i| (0..n).map(|j| (j, at(i, j))).filter(|cell| cell.1 > 0).collect()).collect()
    }

    /// The count of rounds. Sums stay below 2^61: no column is over its limit, and productions total at most 1.6 × 10^12.
    fn rounds(&self, kind: Kind) -> u32 {
        let rows = self.rows(kind);
        let mut amounts = self.start.clone();
        let mut next = amounts.clone();
        for count in 1..STOP {
            for (i, row) in rows.iter().enumerate() {
                let sum: u64 = row.iter().map(|(j, cell)| cell * amounts[*j]).sum();
                next[i] = self.start[i] + sum / MILLION;
            }
            if next == amounts {
                return count;
            }
            std::mem::swap(&mut next, &mut amounts);
        }
        STOP
    }

    /// The same by the reference, with its questions. Of the inverse it is the count of the slowest column.
    fn confirmed(&self, kind: Kind) -> Option<u32> {
        let (n, d, start) = (self.n, &self.d, &self.start);
        let given = match kind {
            Kind::Production => reference::production(n, d, start, STOP, &[n, n]),
            Kind::Price => reference::price(n, d, start, STOP, &[n, n]),
            Kind::Inverse => reference::inverse(n, d, STOP, &[n * n, n, n]),
        };
        given.ok().map(|given| given.counts[0] as u32)
    }
}

/// A count that no sheet can pass, by an argument that is not proved; what is proved is 1,400. Let the gap of a sector be what it still lacks of its settled amount. At the start no price lacks over
/// 19 times the limit, and all productions together no more than 19 times all demands. A round leaves of the largest gap of a price at
/// most 95 of 100, rounded up; of all gaps of a production together as much and less than a unit for each sector. Besides, it
/// lowers the sum of gaps by 1, or changes nothing and is the last.
fn bound(kind: Kind) -> u32 {
    let sectors = if kind == Kind::Production { MOST } else { 1 };
    let (mut gap, mut count) = (19 * sectors * kind.limit(), 1);
    if kind == Kind::Price {
        while gap > 19 {
            gap = (95 * gap).div_ceil(100);
            count += 1;
        }
        return count + 19 * MOST as u32;
    }
    while gap > 0 {
        gap = (gap - 1).min((95 * gap + 100 * MOST - 1) / 100);
        count += 1;
    }
    count
}

/// Xorshift, 64 bits.
struct Rng(u64);

impl Rng {
    fn new(seed: u64) -> Rng {
        let z = (seed + 1).wrapping_mul(0x9e37_79b9_7f4a_7c15);
        Rng((z ^ z >> 31).wrapping_mul(0xbf58_476d_1ce4_e5b9) | 1)
    }

    /// 0 to `most`, both included.
    fn upto(&mut self, most: u64) -> u64 {
        self.0 ^= self.0 >> 12;
        self.0 ^= self.0 << 25;
        self.0 ^= self.0 >> 27;
        (self.0.wrapping_mul(0x2545_f491_4f6c_dd1d) >> 1) % (most + 1)
    }
}

/// A family: its numbers, each with a name, a least and a most, and how a sheet is built from them, if it can be.
struct Family {
    name: &'static str,
    numbers: &'static [(&'static str, u64, u64)],
    build: fn(Kind, &[u64]) -> Option<Sheet>,
}

/// How the amounts of a start are drawn: all near the limit, one at the limit and the others small, or of any size.
/// A column of the inverse has no choice.
fn draw_start(kind: Kind, sheet: &mut Sheet, way: u64, less: u64, rng: &mut Rng) {
    let limit = kind.limit();
    if kind == Kind::Inverse {
        sheet.start[0] = MILLION;
        return;
    }
    for amount in &mut sheet.start {
        *amount = match way {
            0 => limit - rng.upto(less),
            1 => rng.upto(less).min(limit),
            _ => limit >> rng.upto(30),
        };
    }
    if way == 1 {
        sheet.start[0] = limit;
    }
}

/// Equal amounts, one of them a unit more.
fn ring(kind: Kind, p: &[u64]) -> Option<Sheet> {
    let n = p[0] as usize;
    let mut sheet = Sheet::new(n);
    (0..n).for_each(|j| sheet.put((j + 1) % n, j, LIMIT - p[1]));
    if kind == Kind::Inverse {
        sheet.start[0] = MILLION;
        return Some(sheet);
    }
    sheet.start.fill(kind.limit() - 1 - p[2]);
    sheet.start[p[3] as usize % n] += 1;
    Some(sheet)
}

/// Several rings of nearly one length, whose sums are a little below the limit.
fn rings(kind: Kind, p: &[u64]) -> Option<Sheet> {
    let (n, length) = (p[0] as usize, (p[0] as usize).div_ceil(p[1] as usize));
    let mut rng = Rng::new(p[5]);
    let mut sheet = Sheet::new(n);
    for j in 0..n {
        let first = j / length * length;
        let next = if j + 1 == n || j + 1 == first + length { first } else { j + 1 };
        sheet.put(next, j, LIMIT - rng.upto(p[2]));
    }
    draw_start(kind, &mut sheet, p[3], p[4], &mut rng);
    Some(sheet)
}

/// A chain whose last sector feeds a ring.
fn chain(kind: Kind, p: &[u64]) -> Option<Sheet> {
    let (n, long) = (p[0] as usize, (p[1] % p[0]) as usize);
    let mut rng = Rng::new(p[5]);
    let mut sheet = Sheet::new(n);
    (0..n).for_each(|j| sheet.put(if j + 1 == n { long } else { j + 1 }, j, LIMIT - rng.upto(p[2])));
    draw_start(kind, &mut sheet, p[3], p[4], &mut rng);
    Some(sheet)
}

/// A ring whose sectors also buy from themselves.
fn loops(kind: Kind, p: &[u64]) -> Option<Sheet> {
    let n = p[0] as usize;
    let mut rng = Rng::new(p[5]);
    let mut sheet = Sheet::new(n);
    for j in 0..n {
        let own = rng.upto(p[1]);
        sheet.put((j + 1) % n, j, LIMIT - own);
        sheet.d[j * n + j] += own - rng.upto(p[2].min(own));
    }
    draw_start(kind, &mut sheet, p[3], p[4], &mut rng);
    Some(sheet)
}

/// Columns of a few cells at any places that sum to the limit.
fn few(kind: Kind, p: &[u64]) -> Option<Sheet> {
    let n = p[0] as usize;
    let mut rng = Rng::new(p[5]);
    let mut sheet = Sheet::new(n);
    for j in 0..n {
        let mut left = LIMIT - rng.upto(p[2]);
        for _ in 1..p[1] {
            let part = rng.upto(left);
            sheet.d[rng.upto(p[0] - 1) as usize * n + j] += part;
            left -= part;
        }
        sheet.d[rng.upto(p[0] - 1) as usize * n + j] += left;
    }
    draw_start(kind, &mut sheet, p[3], p[4], &mut rng);
    Some(sheet)
}

// ---------------------------------------------------------------------------------------------
// A loop and a ring. Sector 0, the loop, buys mostly from itself and settles last. The other sectors buy
// in a ring that rests before that, each where a unit more is passed on 19 times. The last unit of the loop
// lifts sector 1 by a unit, and that unit goes round. Each sector buys a little from sector 1 too, without which
// the unit would stop there when it comes back.
// ---------------------------------------------------------------------------------------------

/// Production. What the ring buys from the loop makes it large and lifts it by a unit each time round, for
/// which sector 1 waits a round. The demands follow from the amounts at which the ring rests; of those below
/// the limit that fit the first are taken, after some that are skipped.
fn loop_ring(kind: Kind, p: &[u64]) -> Option<Sheet> {
    if kind != Kind::Production {
        return None;
    }
    let (n, next, first) = (p[0] as usize, p[1], p[2]);
    let last = n - 1;
    let mut sheet = Sheet::new(n);
    sheet.put(1, 0, 1);
    (1..last).for_each(|j| sheet.put(j + 1, j, next));
    (2..last).for_each(|j| sheet.put(1, j, first));
    sheet.put(1, last, (MILLION - 1).checked_sub((n as u64 - 3) * first)?);
    for j in 0..n {
        let sum = (1..n).map(|i| sheet.d[i * n + j]).sum();
        sheet.put(0, j, LIMIT.checked_sub(sum)?);
    }
    let rest = loop_rest(&sheet, next, p[3])?;
    for i in 0..n {
        let taken: u64 = (0..n).map(|j| sheet.d[i * n + j] * rest[j]).sum();
        sheet.start[i] = rest[i].checked_sub(taken / MILLION)?;
    }
    // Sector 1 rests until the loop has its last unit.
    sheet.start[1] += 1;
    if sheet.start.iter().all(|amount| *amount <= kind.limit()) { Some(sheet) } else { None }
}

/// Amounts of the loop and of the ring: each sector can pass a unit on 19 times, sector 1 lacks the millionth of
/// the loop's last unit, and the loop is lifted when the unit reaches the last sector, each time round.
fn loop_rest(sheet: &Sheet, next: u64, skipped: u64) -> Option<Vec<u64>> {
    let (n, top) = (sheet.n, reference::DEMAND_LIMIT as u64);
    let passes = |amount: u64| next * amount % MILLION >= 19 * (MILLION - next);
    let given = sheet.d[n - 1];
    let short = 50_001_u64.checked_sub(sheet.d[1..n].iter().sum())?;
    if 19 * (MILLION - next) >= MILLION || 18 * short >= given {
        return None;
    }
    let low = top * MILLION / (MILLION - next) - 1_000;
    let level = (low - 500_000..low).rev().filter(|level| passes(*level)).nth(skipped as usize)?;
    let ring = (sheet.d[n + n - 1] + (2..n - 1).map(|j| sheet.d[n + j]).sum::<u64>()) * level;
    let entry = ring / MILLION + 90_000;
    for entry in (entry..entry + 1_000_000).filter(|entry| passes(*entry)) {
        let left = sheet.d[1] * entry + sheet.d[2..n].iter().sum::<u64>() * level;
        let most = ((top - 100_000) * MILLION + left) / 50_001;
        let looped = most - most % MILLION - ring % MILLION;
        let over = (sheet.d[0] * looped + left) % MILLION;
        if over >= 949_999 + 18 * short && over < 949_999 + given {
            let mut rest = vec![level; n];
            (rest[0], rest[1]) = (looped, entry);
            return Some(rest);
        }
    }
    None
}

/// A column of the inverse: nothing is demanded of the ring but what the loop buys from sector 1. Of the amounts of sector 1
/// that fit the largest are taken, after some that are skipped.
fn unit_loop(kind: Kind, p: &[u64]) -> Option<Sheet> {
    if kind != Kind::Inverse {
        return None;
    }
    let (outlet, own) = (p[1], LIMIT - p[1]);
    let mut looped = MILLION;
    while MILLION + own * looped / MILLION != looped {
        looped = MILLION + own * looped / MILLION;
    }
    let entry = outlet * looped / MILLION;
    (entry * 9 / 8..entry * 5 / 4).rev().filter_map(|entry| unit_ring(p[0] as usize, outlet, p[2], looped, entry)).nth(p[3] as usize)
}

/// The same with an amount of sector 1. Each sector passes on as much as it can so that it rests where a unit more is passed on 19 times.
fn unit_ring(n: usize, outlet: u64, first: u64, looped: u64, entry: u64) -> Option<Sheet> {
    let last = n - 1;
    let mut sheet = Sheet::new(n);
    sheet.start[0] = MILLION;
    sheet.put(0, 0, LIMIT - outlet);
    sheet.put(1, 0, outlet);
    let (mut amount, mut left) = (entry, 0);
    for j in 1..last {
        let most = if j == 1 { LIMIT } else { LIMIT - first };
        let cell = (most - 2_000..=most).rev().find(|cell| cell * amount % MILLION >= 19 * (MILLION - cell))?;
        sheet.put(j + 1, j, cell);
        if j > 1 {
            sheet.put(1, j, first);
            left += first * amount;
        }
        amount = cell * amount / MILLION;
    }
    // Sector 1 lacks less than what the loop's last unit gives it.
    let lacks = ((entry + 1) * MILLION - 1).checked_sub(left + outlet * (looped - 1))?;
    let cell = lacks / amount.max(1);
    sheet.put(1, last, cell);
    let fits = cell <= LIMIT && cell + (n as u64 - 3) * first >= MILLION && lacks - cell * amount < outlet;
    if fits { Some(sheet) } else { None }
}

const FAMILIES: &[Family] = &[
    Family { name: "ring", numbers: &[("sectors", 1, MOST), ("below", 0, 3), ("less", 0, 400), ("at", 0, 39)], build: ring },
    Family { name: "rings", numbers: &[("sectors", 1, MOST), ("rings", 1, 4), SUMS, START, LESS, DRAW], build: rings },
    Family { name: "chain into a ring", numbers: &[("sectors", 1, MOST), ("chain", 0, 39), SUMS, START, LESS, DRAW], build: chain },
    Family { name: "loops", numbers: &[("sectors", 1, MOST), ("own", 0, LIMIT), SUMS, START, LESS, DRAW], build: loops },
    Family { name: "few cells", numbers: &[("sectors", 1, MOST), ("cells", 1, 4), SUMS, START, LESS, DRAW], build: few },
    Family {
        name: "loop and ring",
        numbers: &[("sectors", 38, MOST), ("next", 947_369, 947_430), ("first", 1_900, 2_450), ("skipped", 0, 20)],
        build: loop_ring,
    },
    Family {
        name: "loop and ring of units",
        numbers: &[("sectors", 38, MOST), ("outlet", 40, 900), ("first", 1_352, 1_500), ("skipped", 0, 3)],
        build: unit_loop,
    },
];
const SUMS: (&str, u64, u64) = ("sums", 0, 60);
const START: (&str, u64, u64) = ("start", 0, 2);
const LESS: (&str, u64, u64) = ("less", 0, 60);
const DRAW: (&str, u64, u64) = ("draw", 0, 1_000_000);

/// One that was found: its count, and from what it is built.
#[derive(Clone)]
struct Found {
    count: u32,
    family: usize,
    numbers: Vec<u64>,
}

impl Found {
    fn of(kind: Kind, family: usize, numbers: Vec<u64>) -> Found {
        let sheet = (FAMILIES[family].build)(kind, &numbers);
        Found { count: sheet.map_or(0, |sheet| sheet.rounds(kind)), family, numbers }
    }

    /// Drawn numbers; often as many sectors as there can be.
    fn drawn(kind: Kind, family: usize, rng: &mut Rng) -> Found {
        let mut numbers: Vec<u64> =
            FAMILIES[family].numbers.iter().map(|(_, least, most)| least + rng.upto(most - least)).collect();
        if rng.upto(3) > 0 {
            numbers[0] = MOST;
        }
        Found::of(kind, family, numbers)
    }

    /// One number changed: a step, or drawn again.
    fn changed(&self, kind: Kind, rng: &mut Rng) -> Found {
        let ranges = FAMILIES[self.family].numbers;
        let at = rng.upto(ranges.len() as u64 - 1) as usize;
        let (_, least, most) = ranges[at];
        let mut numbers = self.numbers.clone();
        numbers[at] = match rng.upto(2) {
            0 => (numbers[at] + 1).min(most),
            1 => numbers[at].saturating_sub(1).max(least),
            _ => least + rng.upto(most - least),
        };
        Found::of(kind, self.family, numbers)
    }

    fn told(&self) -> String {
        let family = &FAMILIES[self.family];
        let numbers = family.numbers.iter().zip(&self.numbers).map(|((name, _, _), number)| format!("{name} {number}"));
        format!("{}: {}", family.name, numbers.collect::<Vec<_>>().join(", "))
    }
}

/// The slowest of each family within the time.
fn search(kind: Kind, time: Duration, rng: &mut Rng) -> Vec<Found> {
    let end = Instant::now() + time;
    let mut best: Vec<Found> = (0..FAMILIES.len()).map(|family| Found { count: 0, family, numbers: vec![] }).collect();
    while Instant::now() < end {
        let family = rng.upto(FAMILIES.len() as u64 - 1) as usize;
        let mut found = Found::drawn(kind, family, rng);
        for _ in 0..TRIES {
            let other = found.changed(kind, rng);
            if other.count >= found.count {
                found = other;
            }
            if Instant::now() >= end {
                break;
            }
        }
        if found.count > best[family].count {
            best[family] = found;
        }
    }
    best.sort_by_key(|found| std::cmp::Reverse(found.count));
    best
}

fn main() {
    let word = |k: usize, or: u64| std::env::args().nth(k).map_or(or, |word| word.parse().expect("a number"));
    let (seconds, mut rng) = (word(1, 60), Rng::new(word(2, 1)));
    let (mut over, mut wrong) = (false, false);
    for (kind, name) in KINDS {
        let best = search(kind, Duration::from_millis(seconds * 1_000 / 3), &mut rng);
        for found in best.iter().filter(|found| found.count > 0) {
            println!("  {name}, {} rounds, {}", found.count, found.told());
        }
        let slowest = &best[0];
        let Some(sheet) = (FAMILIES[slowest.family].build)(kind, &slowest.numbers) else {
            println!("{name}: nothing found");
            continue;
        };
        let confirmed = sheet.confirmed(kind);
        // Another column of the inverse may be slower still.
        let agree = confirmed.is_some_and(|count| count == slowest.count || kind == Kind::Inverse && count > slowest.count);
        let count = confirmed.unwrap_or(slowest.count);
        wrong |= !agree;
        over |= count > kind.enough();
        println!("{name}: slowest {count} rounds, n {}, {}; none can take over {}", sheet.n, slowest.told(), bound(kind));
        if !agree {
            println!("{name}: the reference gives {confirmed:?}, the search {}", slowest.count);
        }
    }
    println!("slow: {}", if over { "over 1,400 rounds" } else { "none over 1,400 rounds" });
    if over || wrong {
        exit(1);
    }
}
