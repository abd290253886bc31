//! The worked table of two sectors, from its flows to its printed sheet: coefficients, production, induced amounts.
//!
//! After scripts/shared-library, from the repository's folder:
//!   rustc --edition 2021 -o target/worked-rust examples/rust/worked.rs -L target -C link-arg='-Wl,-rpath,$ORIGIN' && target/worked-rust
//! `-L` says where the library is when the program is built, the rest that it is in the program's own folder when it runs.

// The C functions and the constants of the header. Each array is handed over as a pointer, then its length.
#[path = "../../include/tawqeshim.rs"]
mod tawqeshim;

use std::process::exit;
use tawqeshim::{tawqeshim_coefficients, tawqeshim_induced, tawqeshim_production, TAWQESHIM_ACCEPTED, TAWQESHIM_PAGE_BUDGET};

const N: usize = 2;

fn accept(number: u8, place: usize) {
    if number != TAWQESHIM_ACCEPTED {
        println!("refused {number} {place}");
        exit(1);
    }
}

fn main() {
    let x: [u64; N * N] = [100, 400, 300, 600];
    let (final_demand, exports, imports): ([u64; N], [u64; N], [u64; N]) = ([500, 900], [250, 560], [250, 360]);
    let (value_added, production, adjustment): ([u64; N], [u64; N], [u64; N]) = ([600, 1000], [1000, 2000], [0, 0]);
    let (mut number, mut place, mut rounds) = (0, 0, 0);

    let (mut a, mut d) = ([0; N * N], [0; N * N]);
    let (mut v, mut m, mut f) = ([0; N], [0; N], [0; N]);
    // Every pointer is of a live array of the stated length, and no array that is written is handed over twice. `coefficients` has v
    // before m, `induced` below has m before v.
    unsafe {
        tawqeshim_coefficients(
            N, x.as_ptr(), N * N, final_demand.as_ptr(), N, exports.as_ptr(), N, imports.as_ptr(), N,
            value_added.as_ptr(), N, production.as_ptr(), N, adjustment.as_ptr(), N, a.as_mut_ptr(), N * N, v.as_mut_ptr(), N,
            m.as_mut_ptr(), N, d.as_mut_ptr(), N * N, f.as_mut_ptr(), N, &mut number, &mut place,
        );
    }
    accept(number, place);

    let (mut settled, mut work) = ([0; N], [0; N]);
    unsafe {
        tawqeshim_production(
            N, d.as_ptr(), N * N, f.as_ptr(), N, TAWQESHIM_PAGE_BUDGET, settled.as_mut_ptr(), N, work.as_mut_ptr(), N,
            &mut number, &mut place, &mut rounds,
        );
    }
    accept(number, place);

    let (mut value, mut imported) = ([0; N], [0; N]);
    unsafe {
        tawqeshim_induced(
            N, a.as_ptr(), N * N, m.as_ptr(), N, v.as_ptr(), N, final_demand.as_ptr(), N, settled.as_ptr(), N,
            value.as_mut_ptr(), N, imported.as_mut_ptr(), N, &mut number, &mut place,
        );
    }
    accept(number, place);

    println!("sector demand production value imports");
    for i in 0..N {
        println!("{} {} {} {} {}", i + 1, f[i], settled[i], value[i], imported[i]);
    }
    println!("rounds {rounds}");
}
