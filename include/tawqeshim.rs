//! Tawqeshim for Rust: the C functions and the constants of include/tawqeshim.h, which says what each function takes, asks and gives.
//!
//! Name this file as a module, by its path from the folder of the file that does so. Here from examples/rust/worked.rs, a program to start from:
//!
//! ```text
//! #[path = "../../include/tawqeshim.rs"]
//! mod tawqeshim;
//! ```
//!
//! Then link with one of the two libraries that scripts/shared-library builds, target/libtawqeshim.so or target/libtawqeshim.a:
//!
//! ```text
//! rustc --edition 2021 -o target/program program.rs -L target -C link-arg='-Wl,-rpath,$ORIGIN'
//! rustc --edition 2021 -o target/program program.rs -L target -l static=tawqeshim
//! ```
//!
//! In a project of cargo, build.rs says where the library is. For libtawqeshim.so:
//!
//! ```text
//! println!("cargo:rustc-link-search=native=/folder/of/the/library");
//! println!("cargo:rustc-link-arg=-Wl,-rpath,/folder/of/the/library");
//! ```
//!
//! For libtawqeshim.a the second line is `println!("cargo:rustc-link-lib=static=tawqeshim");`. Any edition will do, with Rust 1.82 or later.
//!
//! Every function is unsafe to call: the caller sees to the duties that the header states. After each pointer to an array comes the length
//! of the array in cells, or in bytes for `file` and a page. No pointer is null, also where the length is 0. What is `*mut` overlaps
//! nothing else that is handed to the same call. `as_ptr` and `as_mut_ptr` of arrays and vectors, each with its own length, keep to that.
//!
//! Take this file and the library from the same version: with another library a call can have other parameters.
#![allow(dead_code)]

// Sizes of arrays.
pub const TAWQESHIM_SECTORS: usize = 40;
pub const TAWQESHIM_CELLS: usize = 1_600;
pub const TAWQESHIM_MARKS: usize = 47;
pub const TAWQESHIM_PAGE: usize = 2_851;
pub const TAWQESHIM_FILE: usize = 12_883;
pub const TAWQESHIM_FILE_READ: usize = 12_889;

// One, in millionths, and the limits of the questions.
pub const TAWQESHIM_ONE: u64 = 1_000_000;
pub const TAWQESHIM_AMOUNT_LIMIT: u64 = 1_000_000_000;
pub const TAWQESHIM_SHARE_LIMIT: u64 = TAWQESHIM_ONE;
pub const TAWQESHIM_COLUMN_LIMIT: u64 = 950_000;
pub const TAWQESHIM_DEMAND_LIMIT: u64 = 2_000_000_000;
pub const TAWQESHIM_RISE_LIMIT: u64 = 1_000_000_000;
pub const TAWQESHIM_PRODUCTION_LIMIT: u64 = 1_600_000_000_000;

// Budgets that always suffice, and the rounds that a page allows.
pub const TAWQESHIM_PRODUCTION_BUDGET: u32 = 1_400;
pub const TAWQESHIM_PRICE_BUDGET: u32 = 1_400;
pub const TAWQESHIM_PAGE_BUDGET: u32 = TAWQESHIM_PRODUCTION_BUDGET;

// What `number` tells: that the call was accepted, or which question was answered no.
pub const TAWQESHIM_ACCEPTED: u8 = 0;
pub const TAWQESHIM_REFUSED_SIZE: u8 = 1;
pub const TAWQESHIM_REFUSED_LENGTH: u8 = 2;
pub const TAWQESHIM_REFUSED_AMOUNT: u8 = 3;
pub const TAWQESHIM_REFUSED_COLUMN_BALANCE: u8 = 4;
pub const TAWQESHIM_REFUSED_ROW_BALANCE: u8 = 5;
pub const TAWQESHIM_REFUSED_IMPORTS: u8 = 6;
pub const TAWQESHIM_REFUSED_COLUMN_SUM: u8 = 7;
pub const TAWQESHIM_REFUSED_LIMIT: u8 = 8;
pub const TAWQESHIM_REFUSED_ROUNDS: u8 = 9;
pub const TAWQESHIM_REFUSED_SHORTAGE: u8 = 10; // reserved: no function answers it
pub const TAWQESHIM_REFUSED_RECORD: u8 = 11;
pub const TAWQESHIM_REFUSED_FIRST_RECORD: u8 = 12;
pub const TAWQESHIM_REFUSED_SECTOR: u8 = 13;
pub const TAWQESHIM_REFUSED_SECOND_NAMING: u8 = 14;
pub const TAWQESHIM_REFUSED_END: u8 = 15;
pub const TAWQESHIM_REFUSED_EXPORTS: u8 = 16;
pub const TAWQESHIM_REFUSED_LOWER_DEMAND: u8 = 17;
pub const TAWQESHIM_REFUSED_GROUPS: u8 = 18;
pub const TAWQESHIM_REFUSED_MERGED_AMOUNT: u8 = 19;
pub const TAWQESHIM_REFUSED_ORDER: u8 = 20;
/// The last number.
pub const TAWQESHIM_QUESTIONS: u8 = 20;

#[link(name = "tawqeshim")]
unsafe extern "C" {
    /// From a table to its sheets. v comes before m here, and m before v in `tawqeshim_induced`: the compiler does not see them exchanged.
    pub fn tawqeshim_coefficients(
        n: usize,
        x: *const u64, x_length: usize,
        final_demand: *const u64, final_demand_length: usize,
        exports: *const u64, exports_length: usize,
        imports: *const u64, imports_length: usize,
        value_added: *const u64, value_added_length: usize,
        production: *const u64, production_length: usize,
        adjustment: *const u64, adjustment_length: usize,
        a: *mut u64, a_length: usize,
        v: *mut u64, v_length: usize,
        m: *mut u64, m_length: usize,
        d: *mut u64, d_length: usize,
        f: *mut u64, f_length: usize,
        number: *mut u8, place: *mut usize,
    );

    /// The demand for domestic goods of a final demand, also of one that no table has.
    pub fn tawqeshim_domestic_demand(
        n: usize,
        m: *const u64, m_length: usize,
        final_demand: *const u64, final_demand_length: usize,
        exports: *const u64, exports_length: usize,
        adjustment: *const u64, adjustment_length: usize,
        out: *mut u64, out_length: usize,
        number: *mut u8, place: *mut usize,
    );

    /// Merges sectors: from a table to one that has a sector for each group of its sectors.
    pub fn tawqeshim_aggregate(
        n: usize,
        x: *const u64, x_length: usize,
        final_demand: *const u64, final_demand_length: usize,
        exports: *const u64, exports_length: usize,
        imports: *const u64, imports_length: usize,
        value_added: *const u64, value_added_length: usize,
        production: *const u64, production_length: usize,
        adjustment: *const u64, adjustment_length: usize,
        groups: *const u64, groups_length: usize,
        merged_x: *mut u64, merged_x_length: usize,
        merged_final_demand: *mut u64, merged_final_demand_length: usize,
        merged_exports: *mut u64, merged_exports_length: usize,
        merged_imports: *mut u64, merged_imports_length: usize,
        merged_value_added: *mut u64, merged_value_added_length: usize,
        merged_production: *mut u64, merged_production_length: usize,
        merged_adjustment: *mut u64, merged_adjustment_length: usize,
        sizes: *mut u64, sizes_length: usize,
        number: *mut u8, place: *mut usize,
    );

    /// Puts the sectors of a table in another order, and gives the inverse list.
    pub fn tawqeshim_permute(
        n: usize,
        x: *const u64, x_length: usize,
        final_demand: *const u64, final_demand_length: usize,
        exports: *const u64, exports_length: usize,
        imports: *const u64, imports_length: usize,
        value_added: *const u64, value_added_length: usize,
        production: *const u64, production_length: usize,
        adjustment: *const u64, adjustment_length: usize,
        order: *const u64, order_length: usize,
        permuted_x: *mut u64, permuted_x_length: usize,
        permuted_final_demand: *mut u64, permuted_final_demand_length: usize,
        permuted_exports: *mut u64, permuted_exports_length: usize,
        permuted_imports: *mut u64, permuted_imports_length: usize,
        permuted_value_added: *mut u64, permuted_value_added_length: usize,
        permuted_production: *mut u64, permuted_production_length: usize,
        permuted_adjustment: *mut u64, permuted_adjustment_length: usize,
        inverse: *mut u64, inverse_length: usize,
        number: *mut u8, place: *mut usize,
    );

    /// Production from a demand for domestic goods.
    pub fn tawqeshim_production(
        n: usize,
        d: *const u64, d_length: usize,
        f: *const u64, f_length: usize,
        budget: u32,
        out: *mut u64, out_length: usize,
        work: *mut u64, work_length: usize,
        number: *mut u8, place: *mut usize, rounds: *mut u32,
    );

    /// What a scheme adds: the rise of each sector's production from one demand to a second.
    pub fn tawqeshim_impact(
        n: usize,
        d: *const u64, d_length: usize,
        before: *const u64, before_length: usize,
        after: *const u64, after_length: usize,
        budget: u32,
        out: *mut u64, out_length: usize,
        work: *mut u64, work_length: usize,
        number: *mut u8, place: *mut usize, rounds: *mut u32,
    );

    /// Price rises from direct rises, both in millionths.
    pub fn tawqeshim_price(
        n: usize,
        d: *const u64, d_length: usize,
        w: *const u64, w_length: usize,
        budget: u32,
        out: *mut u64, out_length: usize,
        work: *mut u64, work_length: usize,
        number: *mut u8, place: *mut usize, rounds: *mut u32,
    );

    /// The demand for domestic goods behind a production: signed cells, below 0 in a sector that it leaves short.
    pub fn tawqeshim_implied_demand(
        n: usize,
        d: *const u64, d_length: usize,
        production: *const u64, production_length: usize,
        out: *mut i64, out_length: usize,
        number: *mut u8, place: *mut usize,
    );

    /// Value added and imports that a production induces. m comes before v here, and v before m in `tawqeshim_coefficients`.
    pub fn tawqeshim_induced(
        n: usize,
        a: *const u64, a_length: usize,
        m: *const u64, m_length: usize,
        v: *const u64, v_length: usize,
        final_demand: *const u64, final_demand_length: usize,
        production: *const u64, production_length: usize,
        value: *mut u64, value_length: usize,
        imports: *mut u64, imports_length: usize,
        number: *mut u8, place: *mut usize,
    );

    /// The Leontief inverse, and the power and the sensitivity of dispersion of its sectors.
    pub fn tawqeshim_inverse(
        n: usize,
        d: *const u64, d_length: usize,
        budget: u32,
        sheet: *mut u64, sheet_length: usize,
        power: *mut u64, power_length: usize,
        sensitivity: *mut u64, sensitivity_length: usize,
        number: *mut u8, place: *mut usize, rounds: *mut u32,
    );

    /// A sector's row of a sheet: the cells from `start` on, `length` of them.
    pub fn tawqeshim_row(
        n: usize,
        sheet: *const u64, sheet_length: usize,
        sector: usize,
        start: *mut usize, length: *mut usize,
    );

    /// Reads a table file of any bytes.
    pub fn tawqeshim_read_table(
        file: *const u8, file_length: usize,
        x: *mut u64, x_length: usize,
        final_demand: *mut u64, final_demand_length: usize,
        exports: *mut u64, exports_length: usize,
        imports: *mut u64, imports_length: usize,
        value_added: *mut u64, value_added_length: usize,
        production: *mut u64, production_length: usize,
        adjustment: *mut u64, adjustment_length: usize,
        rises: *mut u64, rises_length: usize,
        marks: *mut u64, marks_length: usize,
        number: *mut u8, place: *mut usize, sectors: *mut usize, named: *mut usize,
    );

    /// Writes a table as a table file.
    pub fn tawqeshim_write_table(
        n: usize,
        x: *const u64, x_length: usize,
        final_demand: *const u64, final_demand_length: usize,
        exports: *const u64, exports_length: usize,
        imports: *const u64, imports_length: usize,
        value_added: *const u64, value_added_length: usize,
        production: *const u64, production_length: usize,
        adjustment: *const u64, adjustment_length: usize,
        rises: *const u64, rises_length: usize,
        file: *mut u8, file_length: usize,
        number: *mut u8, place: *mut usize, length: *mut usize,
    );

    /// Reads a table file of any bytes and writes the sheet that is printed of it.
    pub fn tawqeshim_page(
        file: *const u8, file_length: usize,
        out: *mut u8, out_length: usize,
        number: *mut u8, place: *mut usize, length: *mut usize,
    );
}
