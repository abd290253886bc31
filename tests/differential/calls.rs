//! The calls as data: one case is one call with all its inputs and lent lengths. A case is
//! answered twice, by the reference and by the library, and the two outcomes are compared.

use crate::reference::{self, Refusal, FILE_BYTES};
use crate::tawqeshim::*;

/// The bytes that `tawqeshim_page` asks for.
pub const PAGE_BYTES: usize = TAWQESHIM_PAGE;

#[derive(Clone, Copy, Debug, PartialEq, Eq)]
pub enum Call {
    Coefficients,
    DomesticDemand,
    Aggregate,
    Permute,
    Production,
    Impact,
    Price,
    ImpliedDemand,
    Induced,
    Inverse,
    Row,
    ReadTable,
    WriteTable,
    Page,
}

pub const CALLS: [Call; 14] = [
    Call::Coefficients,
    Call::DomesticDemand,
    Call::Aggregate,
    Call::Permute,
    Call::Production,
    Call::Impact,
    Call::Price,
    Call::ImpliedDemand,
    Call::Induced,
    Call::Inverse,
    Call::Row,
    Call::ReadTable,
    Call::WriteTable,
    Call::Page,
];

impl Call {
    pub fn name(self) -> &'static str {
        match self {
            Call::Coefficients => "coefficients",
            Call::DomesticDemand => "domestic_demand",
            Call::Aggregate => "aggregate",
            Call::Permute => "permute",
            Call::Production => "production",
            Call::Impact => "impact",
            Call::Price => "price",
            Call::ImpliedDemand => "implied_demand",
            Call::Induced => "induced",
            Call::Inverse => "inverse",
            Call::Row => "row",
            Call::ReadTable => "read_table",
            Call::WriteTable => "write_table",
            Call::Page => "page",
        }
    }

    /// The numbers the call can give. A row gives none; here 0 stands for a stretch, 1 for none.
    /// A page shows the number that refused; 2 is the call's own, for a buffer of another length. It
    /// cannot show 1 and 8, nor 9, since its budget is enough for every table. 10 is reserved, and no call's.
    pub fn numbers(self) -> &'static [u8] {
        match self {
            Call::Coefficients => &[0, 1, 2, 3, 4, 5, 6, 7, 16],
            Call::DomesticDemand => &[0, 1, 2, 3, 16],
            Call::Aggregate => &[0, 1, 2, 3, 4, 5, 6, 16, 18, 19],
            Call::Permute => &[0, 1, 2, 3, 20],
            Call::Production | Call::Price => &[0, 1, 2, 7, 8, 9],
            Call::Impact => &[0, 1, 2, 7, 8, 9, 17],
            Call::ImpliedDemand => &[0, 1, 2, 7, 8],
            Call::Induced => &[0, 1, 2, 3, 8],
            Call::Inverse => &[0, 1, 2, 7, 9],
            Call::Row => &[0, 1],
            Call::ReadTable => &[0, 2, 11, 12, 13, 14, 15],
            Call::WriteTable => &[0, 1, 2, 3],
            Call::Page => &[0, 2, 3, 4, 5, 6, 7, 11, 12, 13, 14, 15, 16],
        }
    }

    /// The exact lengths of the input slices. Of groups there may be fewer than n.
    pub fn given_lengths(self, n: usize) -> Vec<usize> {
        match self {
            Call::Coefficients => vec![n * n, n, n, n, n, n, n],
            Call::DomesticDemand => vec![n, n, n, n],
            Call::Aggregate | Call::Permute => vec![n * n, n, n, n, n, n, n, n],
            Call::Production | Call::Price | Call::ImpliedDemand => vec![n * n, n],
            Call::Impact => vec![n * n, n, n],
            Call::Induced => vec![n * n, n, n, n, n],
            Call::WriteTable => vec![n * n, n, n, n, n, n, n, n],
            Call::Inverse | Call::Row => vec![n * n],
            Call::ReadTable | Call::Page => vec![],
        }
    }

    /// The exact lengths of the output and work slices; a file and a page are bytes. Of a merged table, n is the number of groups.
    pub fn lent_lengths(self, n: usize) -> Vec<usize> {
        match self {
            Call::Coefficients => vec![n * n, n, n, n * n, n],
            Call::Aggregate | Call::Permute => vec![n * n, n, n, n, n, n, n, n],
            Call::Production | Call::Impact | Call::Price | Call::Induced => vec![n, n],
            Call::DomesticDemand | Call::ImpliedDemand => vec![n],
            Call::Inverse => vec![n * n, n, n],
            Call::Row => vec![],
            Call::ReadTable => reference::FILE_LENGTHS.to_vec(),
            Call::WriteTable => vec![FILE_BYTES],
            Call::Page => vec![PAGE_BYTES],
        }
    }
}

/// Which slice holds the groups, after a table.
pub const GROUPS: usize = 7;
/// Which slice holds the list of sectors, and of the lent ones the inverse list, after a table.
pub const ORDER: usize = 7;

/// One call: what it is given, and the lengths of the slices it is lent.
#[derive(Clone, Debug)]
pub struct Case {
    pub call: Call,
    pub n: usize,
    pub budget: u32,
    pub sector: usize,
    pub file: Vec<u8>,
    pub given: Vec<Vec<u64>>,
    pub lent: Vec<usize>,
}

impl Case {
    /// A case with exact lengths; budget, sector and file are set by who needs them.
    pub fn new(call: Call, n: usize, given: Vec<Vec<u64>>) -> Case {
        let lent = call.lent_lengths(if call == Call::Aggregate { given[GROUPS].len() } else { n });
        Case { call, n, budget: 0, sector: 0, file: vec![], given, lent }
    }

    pub fn of_file(call: Call, file: Vec<u8>) -> Case {
        Case { file, ..Case::new(call, 0, vec![]) }
    }

    /// How much there is to read in a report of the case.
    pub fn size(&self) -> usize {
        self.file.len() + self.given.iter().map(Vec::len).sum::<usize>() + self.lent.len()
    }
}

/// Everything a caller can see after a call: lent cells, unsigned or signed, or the lent bytes of a file or a page.
#[derive(Clone, Debug, PartialEq, Eq)]
pub struct Outcome {
    pub number: u8,
    pub place: usize,
    pub counts: [usize; 2],
    pub cells: Vec<Vec<i128>>,
    pub bytes: Vec<u8>,
}

impl Outcome {
    /// The outcome of a call that gives bytes: they are told by their length, and zeros follow them.
    pub fn in_bytes(lent: usize, answer: Result<Vec<u8>, Refusal>) -> Outcome {
        let (number, place, mut bytes) = match answer {
            Ok(bytes) => (0, 0, bytes),
            Err(no) => (no.number, no.place, vec![]),
        };
        let counts = [bytes.len(), 0];
        bytes.resize(lent, 0);
        Outcome { number, place, counts, cells: vec![], bytes }
    }
}

/// What lies in lent cells before a call; in signed cells it is of either sign.
fn junk(k: usize) -> u64 {
    (k as u64 + 3).wrapping_mul(0x9e37_79b9_7f4a_7c15) | 1
}

fn junk_bytes(length: usize) -> Vec<u8> {
    (0..length).map(|k| (junk(k) >> 56) as u8 | 1).collect()
}

/// The outcome the paper gives.
pub fn by_reference(case: &Case) -> Outcome {
    let Case { call, n, budget, given, lent, .. } = case;
    let answer = match call {
        Call::Coefficients => reference::coefficients(
            *n, &given[0], &given[1], &given[2], &given[3], &given[4], &given[5], &given[6], lent,
        ),
        Call::DomesticDemand => reference::domestic_demand(*n, &given[0], &given[1], &given[2], &given[3], lent),
        Call::Aggregate => reference::aggregate(*n, std::array::from_fn(|k| &given[k][..]), &given[GROUPS], lent),
        Call::Permute => reference::permute(*n, std::array::from_fn(|k| &given[k][..]), &given[ORDER], lent),
        Call::Production => reference::production(*n, &given[0], &given[1], *budget, lent),
        Call::Impact => reference::impact(*n, &given[0], &given[1], &given[2], *budget, lent),
        Call::Price => reference::price(*n, &given[0], &given[1], *budget, lent),
        Call::ImpliedDemand => reference::implied_demand(*n, &given[0], &given[1], lent),
        Call::Induced => reference::induced(
            *n, &given[0], &given[1], &given[2], &given[3], &given[4], lent,
        ),
        Call::Inverse => reference::inverse(*n, &given[0], *budget, lent),
        Call::ReadTable => reference::read_table(&case.file, lent),
        Call::Row => {
            let (start, length) = reference::row(*n, &given[0], case.sector);
            Ok(reference::Given { cells: vec![], counts: [start, length] })
        }
        Call::WriteTable => {
            let slices = std::array::from_fn(|k| &given[k][..]);
            return Outcome::in_bytes(lent[0], reference::write_table(*n, slices, lent[0]));
        }
        Call::Page => {
            let asked = if lent[0] == PAGE_BYTES { Ok(()) } else { Err(Refusal { number: 2, place: 0 }) };
            return Outcome::in_bytes(lent[0], asked.map(|()| reference::page(&case.file)));
        }
    };
    match answer {
        Ok(given) => Outcome {
            number: 0,
            place: 0,
            counts: given.counts,
            cells: given.cells,
            bytes: vec![],
        },
        Err(no) => Outcome {
            number: no.number,
            place: no.place,
            counts: [0, 0],
            cells: lent.iter().map(|length| vec![0; *length]).collect(),
            bytes: vec![],
        },
    }
}

/// The number to count a case under: the outcome's, or what a row or a page shows.
pub fn number_seen(case: &Case, outcome: &Outcome) -> u8 {
    match case.call {
        Call::Row => u8::from(outcome.counts[1] == 0),
        Call::Page if outcome.number != 0 => outcome.number,
        Call::Page => {
            let page = String::from_utf8_lossy(&outcome.bytes[..outcome.counts[0]]);
            let mut words = page.split_whitespace();
            match words.next() {
                Some("refused") => words.next().and_then(|word| word.parse().ok()).unwrap_or(0),
                _ => 0,
            }
        }
        _ => outcome.number,
    }
}

/// Cells kept on both sides of every lent slice; a call must leave them alone.
const GUARD: usize = 3;

/// The outcome the library gives. An error names an input or a foreign cell that was changed.
pub fn by_library(case: &Case) -> Result<Outcome, &'static str> {
    if matches!(case.call, Call::WriteTable | Call::Page) {
        return bytes_by_library(case);
    }
    let given = case.given.clone();
    let file = case.file.clone();
    let g = |k: usize| given[k].as_ptr();
    let gl = |k: usize| given[k].len();
    let mut lent: Vec<Vec<u64>> =
        case.lent.iter().map(|length| (0..length + 2 * GUARD).map(junk).collect()).collect();
    let starts: Vec<*mut u64> =
        lent.iter_mut().map(|cells| cells[GUARD..].as_mut_ptr()).collect();
    let l = |k: usize| starts[k];
    let ll = |k: usize| case.lent[k];

    let n = case.n;
    let (mut number, mut place) = (0xa5_u8, 0xa5a5_a5a5_usize);
    let mut rounds = 0xa5a5_a5a5_u32;
    let mut counts = [0xa5a5_a5a5_usize; 2];
    unsafe {
        match case.call {
            Call::Coefficients => {
                tawqeshim_coefficients(
                    n, g(0), gl(0), g(1), gl(1), g(2), gl(2), g(3), gl(3), g(4), gl(4), g(5), gl(5), g(6), gl(6),
                    l(0), ll(0), l(1), ll(1), l(2), ll(2), l(3), ll(3), l(4), ll(4),
                    &mut number, &mut place,
                );
                counts = [0, 0];
            }
            Call::DomesticDemand => {
                tawqeshim_domestic_demand(
                    n, g(0), gl(0), g(1), gl(1), g(2), gl(2), g(3), gl(3), l(0), ll(0), &mut number, &mut place,
                );
                counts = [0, 0];
            }
            Call::Aggregate => {
                tawqeshim_aggregate(
                    n, g(0), gl(0), g(1), gl(1), g(2), gl(2), g(3), gl(3), g(4), gl(4), g(5), gl(5), g(6), gl(6), g(7), gl(7),
                    l(0), ll(0), l(1), ll(1), l(2), ll(2), l(3), ll(3), l(4), ll(4), l(5), ll(5), l(6), ll(6), l(7), ll(7),
                    &mut number, &mut place,
                );
                counts = [0, 0];
            }
            Call::Permute => {
                tawqeshim_permute(
                    n, g(0), gl(0), g(1), gl(1), g(2), gl(2), g(3), gl(3), g(4), gl(4), g(5), gl(5), g(6), gl(6), g(7), gl(7),
                    l(0), ll(0), l(1), ll(1), l(2), ll(2), l(3), ll(3), l(4), ll(4), l(5), ll(5), l(6), ll(6), l(7), ll(7),
                    &mut number, &mut place,
                );
                counts = [0, 0];
            }
            Call::Production => {
                tawqeshim_production(
                    n, g(0), gl(0), g(1), gl(1), case.budget, l(0), ll(0), l(1), ll(1),
                    &mut number, &mut place, &mut rounds,
                );
                counts = [rounds as usize, 0];
            }
            Call::Impact => {
                tawqeshim_impact(
                    n, g(0), gl(0), g(1), gl(1), g(2), gl(2), case.budget, l(0), ll(0), l(1), ll(1),
                    &mut number, &mut place, &mut rounds,
                );
                counts = [rounds as usize, 0];
            }
            Call::Price => {
                tawqeshim_price(
                    n, g(0), gl(0), g(1), gl(1), case.budget, l(0), ll(0), l(1), ll(1),
                    &mut number, &mut place, &mut rounds,
                );
                counts = [rounds as usize, 0];
            }
            Call::ImpliedDemand => {
                tawqeshim_implied_demand(
                    n, g(0), gl(0), g(1), gl(1), l(0).cast(), ll(0), &mut number, &mut place,
                );
                counts = [0, 0];
            }
            Call::Induced => {
                tawqeshim_induced(
                    n, g(0), gl(0), g(1), gl(1), g(2), gl(2), g(3), gl(3), g(4), gl(4),
                    l(0), ll(0), l(1), ll(1), &mut number, &mut place,
                );
                counts = [0, 0];
            }
            Call::Inverse => {
                tawqeshim_inverse(
                    n, g(0), gl(0), case.budget, l(0), ll(0), l(1), ll(1), l(2), ll(2),
                    &mut number, &mut place, &mut rounds,
                );
                counts = [rounds as usize, 0];
            }
            Call::Row => {
                let [start, length] = &mut counts;
                tawqeshim_row(n, g(0), gl(0), case.sector, start, length);
                (number, place) = (0, 0);
            }
            Call::ReadTable => {
                let [sectors, named] = &mut counts;
                tawqeshim_read_table(
                    file.as_ptr(), file.len(),
                    l(0), ll(0), l(1), ll(1), l(2), ll(2), l(3), ll(3),
                    l(4), ll(4), l(5), ll(5), l(6), ll(6), l(7), ll(7), l(8), ll(8),
                    &mut number, &mut place, sectors, named,
                );
            }
            Call::WriteTable | Call::Page => unreachable!(),
        }
    }
    if given != case.given || file != case.file {
        return Err("an input changed");
    }
    for cells in &lent {
        let inside = GUARD..cells.len() - GUARD;
        if (0..cells.len()).any(|k| !inside.contains(&k) && cells[k] != junk(k)) {
            return Err("a cell beyond a lent slice changed");
        }
    }
    // The cells of a demand behind a production were lent as signed ones.
    let signed = case.call == Call::ImpliedDemand;
    let read = |cell: &u64| if signed { i128::from(*cell as i64) } else { i128::from(*cell) };
    let cells = lent.iter().map(|cells| cells[GUARD..cells.len() - GUARD].iter().map(read).collect()).collect();
    Ok(Outcome { number, place, counts, cells, bytes: vec![] })
}

/// The same of a call that gives bytes.
fn bytes_by_library(case: &Case) -> Result<Outcome, &'static str> {
    let given = case.given.clone();
    let file = case.file.clone();
    let g = |k: usize| given[k].as_ptr();
    let gl = |k: usize| given[k].len();

    let length = case.lent[0];
    let mut out = vec![0xa5; GUARD];
    out.extend(junk_bytes(length));
    out.extend([0xa5; GUARD]);
    let start = out[GUARD..].as_mut_ptr();
    let (mut number, mut place, mut written) = (0xa5, 0xa5, 0xa5);
    unsafe {
        if case.call == Call::WriteTable {
            tawqeshim_write_table(
                case.n, g(0), gl(0), g(1), gl(1), g(2), gl(2), g(3), gl(3), g(4), gl(4), g(5), gl(5), g(6), gl(6),
                g(7), gl(7), start, length, &mut number, &mut place, &mut written,
            );
        } else {
            tawqeshim_page(file.as_ptr(), file.len(), start, length, &mut number, &mut place, &mut written);
        }
    }
    if given != case.given || file != case.file {
        return Err("an input changed");
    }
    let kept = out[..GUARD].iter().chain(&out[GUARD + length..]).all(|byte| *byte == 0xa5);
    if !kept {
        return Err("a byte beyond the lent slice changed");
    }
    let bytes = out[GUARD..GUARD + length].to_vec();
    Ok(Outcome { number, place, counts: [written, 0], cells: vec![], bytes })
}
