/*
 * Tawqeshim for C: input-output sheets, production, prices and multipliers of a region, in whole numbers.
 *
 * Each function does what the library's call of the same name does, and is proved to (the crates of crates/c_*).
 * Link with libtawqeshim.so or with libtawqeshim.a, which scripts/shared-library builds. Both are for x86-64 Linux.
 *
 * A table has n sectors, 1 to 40, counted from 0. Matrices have n * n cells, row by row: the cell of row i and column j is cell i * n +
 * j. Those of a merged table of g sectors have g * g likewise. Amounts are whole numbers of one money unit, 0 or above; only the demand
 * that tawqeshim_implied_demand gives may be below 0. Shares and coefficients are whole millionths: "one" is 1,000,000. Input
 * coefficients, value shares and import shares are to the nearest millionth, halves upward; all other quotients are rounded down.
 *
 * Arrays. Each array is a pointer, then its length in cells (of `file` and a page, in bytes). Any lengths, cells, n and budget may be
 * handed over; a wrong length is refused with number 2.
 *
 * Answers. `*number` is 0 if the call was accepted, and only then; `*place` is then 0. Otherwise `*number` is that of the first question
 * answered no, `*place` says where, and every count is 0. Questions are asked in the order that a function states; they are listed below,
 * at enum tawqeshim_number. Places of questions without one are 0.
 *
 * The caller's duties, which no function can ask about:
 *   - no pointer is NULL, also where its length is 0; each is aligned for its type;
 *   - each array is readable, and where it is not const writable, for its whole length;
 *   - what is not const, arrays and numbers alike, overlaps nothing else that is handed to the same call;
 *   - during a call no other thread writes what is handed to it, or reads what is not const.
 *
 * Why no NULL with length 0: an array reaches the proved code as a slice, which is a pointer and a count. In the machine that the proofs
 * speak of a pointer is a place in some block of memory, and there is no NULL; the language has nothing to compare a pointer with. So
 * nothing is proved of a call with NULL. For an empty file hand over the address of any byte, with length 0.
 *
 * No function allocates, keeps anything between calls, or writes to what is const. Whatever outputs, work and numbers held before is
 * overwritten. Several threads may call at once.
 */
#ifndef TAWQESHIM_H
#define TAWQESHIM_H

#include <stddef.h>
#include <stdint.h>

#ifdef __cplusplus
extern "C" {
#endif

/* The version of this header; scripts/version prints and sets it. A change of the first number changes what callers see. */
#define TAWQESHIM_VERSION "4.1.0"

/* The version of the library that a program runs with. */
extern const char tawqeshim_version[];

/* Sizes of arrays. Those of read_table, of a file and of a page do not depend on n. */
#define TAWQESHIM_SECTORS 40      /* the most sectors; the cells of each column that read_table fills */
#define TAWQESHIM_CELLS 1600      /* the cells of x that read_table fills; every matrix fits */
#define TAWQESHIM_MARKS 47        /* the work words of read_table */
#define TAWQESHIM_PAGE 2851       /* the bytes of a page's buffer */
#define TAWQESHIM_FILE 12883      /* the bytes of the longest accepted table file, which write_table is lent */
#define TAWQESHIM_FILE_READ 12889 /* a longer input is answered as its first 12,889 bytes are: a buffer of these is enough */

/* One, in millionths, and the limits of the questions. */
#define TAWQESHIM_ONE UINT64_C(1000000)
#define TAWQESHIM_AMOUNT_LIMIT UINT64_C(1000000000)        /* 3, 19: an amount of a table, a final demand; 16, 19: exports and adjustment */
#define TAWQESHIM_SHARE_LIMIT TAWQESHIM_ONE                /* 3: an input coefficient, an import share, a value share */
#define TAWQESHIM_COLUMN_LIMIT UINT64_C(950000)            /* 7: the column sum of domestic coefficients */
#define TAWQESHIM_DEMAND_LIMIT UINT64_C(2000000000)        /* 8: a demand for domestic goods */
#define TAWQESHIM_RISE_LIMIT UINT64_C(1000000000)          /* 8: a direct rise */
#define TAWQESHIM_PRODUCTION_LIMIT UINT64_C(1600000000000) /* 8: the total of a given production */

/* Budgets that always suffice: with these rounds allowed, or more, no call is refused with 9. */
#define TAWQESHIM_PRODUCTION_BUDGET UINT32_C(1400) /* of production and impact */
#define TAWQESHIM_PRICE_BUDGET UINT32_C(1400)      /* of price and inverse */

/* The rounds that a page allows. */
#define TAWQESHIM_PAGE_BUDGET TAWQESHIM_PRODUCTION_BUDGET

/* What `*number` tells: that the call was accepted, or which question was answered no. Before each stands what it asks, and its place. */
enum tawqeshim_number {
    TAWQESHIM_ACCEPTED = 0,
    /* n is from 1 to 40 */
    TAWQESHIM_REFUSED_SIZE = 1,
    /* every array has its exact length, outputs and work included */
    TAWQESHIM_REFUSED_LENGTH = 2,
    /* every amount is within 1,000,000,000, and every share within one. Place: the first cell over, counted on through the arrays */
    TAWQESHIM_REFUSED_AMOUNT = 3,
    /* every column balances: purchases and value added are production. Place: the first column that does not */
    TAWQESHIM_REFUSED_COLUMN_BALANCE = 4,
    /* every row balances: sales, final demand, exports and adjustment are production and imports. Place: the first row that does not */
    TAWQESHIM_REFUSED_ROW_BALANCE = 5,
    /* a sector's imports are at most its sales and final demand. Place: the first sector over */
    TAWQESHIM_REFUSED_IMPORTS = 6,
    /* every column sum of domestic coefficients is at most 950,000. Place: the first column over */
    TAWQESHIM_REFUSED_COLUMN_SUM = 7,
    /* every demand is at most 2,000,000,000, every direct rise at most 1,000,000,000, and a given production totals at most
       1,600,000,000,000. Place: the first sector over, or at which the running total is */
    TAWQESHIM_REFUSED_LIMIT = 8,
    /* the rounds settle within the budget. Place: 0; of the inverse, the first column that does not settle */
    TAWQESHIM_REFUSED_ROUNDS = 9,
    /* reserved: no function asks it any more. Before version 4 tawqeshim_implied_demand refused a production that leaves a sector's demand
       below 0; it gives that demand now. No other question will have the number */
    TAWQESHIM_REFUSED_SHORTAGE = 10,
    /* a record's kind is 1 to 10, and its body is whole. Place of 11 to 14: the offset of the record's kind byte */
    TAWQESHIM_REFUSED_RECORD = 11,
    /* the first record is kind 1 with n from 1 to 40, and no later record is kind 1 */
    TAWQESHIM_REFUSED_FIRST_RECORD = 12,
    /* every sector byte is from 1 to n */
    TAWQESHIM_REFUSED_SECTOR = 13,
    /* the cell is named for the first time */
    TAWQESHIM_REFUSED_SECOND_NAMING = 14,
    /* kind 8 comes, with no byte after it. Place: the file's length if no end came, otherwise the offset after the end */
    TAWQESHIM_REFUSED_END = 15,
    /* a sector's exports and adjustment together are within 1,000,000,000; asked after 3, before 4. Place: the first sector over */
    TAWQESHIM_REFUSED_EXPORTS = 16,
    /* the second demand is nowhere below the first; asked after 8, before 9. Place: the first sector below */
    TAWQESHIM_REFUSED_LOWER_DEMAND = 17,
    /* every sector is in exactly one group, no group is empty, and no bit at n or above is set; asked after 6. Place: 0 */
    TAWQESHIM_REFUSED_GROUPS = 18,
    /* every merged amount is within 1,000,000,000, and so are merged exports and adjustment together; asked after 18. Place: 0 */
    TAWQESHIM_REFUSED_MERGED_AMOUNT = 19,
    /* every entry of a list of sectors is below n, and none repeats an earlier one; asked after 3. Place: the first entry that is not below
       n, or repeats one */
    TAWQESHIM_REFUSED_ORDER = 20,
    /* the last number */
    TAWQESHIM_QUESTIONS = 20
};

/* The question of a number, as text to show; an empty text for 0 and for a number that no question has. */
static inline const char *tawqeshim_question(uint8_t number) {
    static const char *const texts[TAWQESHIM_QUESTIONS + 1] = {
        "",
        "is n from 1 to 40?",
        "has every array its exact length?",
        "is every amount within 1,000,000,000 and every share within one?",
        "does every column balance?",
        "does every row balance?",
        "are a sector's imports at most its domestic need?",
        "is every column sum of domestic coefficients at most 950,000?",
        "is every demand, direct rise or total of a production within its limit?",
        "do the rounds settle within the budget?",
        "reserved, no longer asked: does the production leave every sector's demand at 0 or above?",
        "is the record's kind 1 to 10, and its body whole?",
        "is the first record kind 1 with n from 1 to 40, and no later one?",
        "is every sector byte from 1 to n?",
        "is the cell named for the first time?",
        "does kind 8 come, with no byte after it?",
        "are a sector's exports and adjustment together within 1,000,000,000?",
        "is the second demand nowhere below the first?",
        "is every sector in exactly one group, no group empty and no bit at n or above set?",
        "is every merged amount, and merged exports and adjustment together, within 1,000,000,000?",
        "is every entry of the list of sectors below n, and none a repeat of an earlier one?",
    };
    return number <= TAWQESHIM_QUESTIONS ? texts[number] : "";
}

/*
 * From a table to its sheets. Asks 1, 2, 3, 16, 4, 5, 6, 7.
 *
 * Takes x, n * n cells: what sector j buys from sector i; and final_demand, exports, imports (as positive numbers), value_added,
 * production and adjustment, n cells each. Places of 3 run on through these seven in this order, so adjustment[0] is place
 * n * n + 5 * n. The adjustment item, the tax on indirect exports, is an amount of 0 or above. It stands beside exports in the row balance,
 * is no part of domestic need, and is whole in f. A table without one has n zeros.
 * Gives input coefficients a and domestic coefficients d, n * n cells each; value shares v, import shares m and the demand for domestic
 * goods f, n cells each. Question 7 is about d.
 *
 * a, v and m are to the nearest millionth, halves upward: 2 in 3 are 666,667 millionths, and 1 in 2,000,000 is 1. They are 0 where the
 * divisor is 0. A column of a and its v need not sum to one. d and f are worked out from the rounded a and m, and are rounded down.
 *
 * TAKE CARE: here v comes BEFORE m. tawqeshim_induced takes m BEFORE v. All are of one type, so the compiler does not see them exchanged.
 * tawqeshim_table_sheets and tawqeshim_sheets_induced, below, go by names instead.
 *
 * A refusal sets every cell of a, v, m, d and f to 0.
 */
void tawqeshim_coefficients(
    size_t n,
    const uint64_t *x, size_t x_length,
    const uint64_t *final_demand, size_t final_demand_length,
    const uint64_t *exports, size_t exports_length,
    const uint64_t *imports, size_t imports_length,
    const uint64_t *value_added, size_t value_added_length,
    const uint64_t *production, size_t production_length,
    const uint64_t *adjustment, size_t adjustment_length,
    uint64_t *a, size_t a_length,
    uint64_t *v, size_t v_length,
    uint64_t *m, size_t m_length,
    uint64_t *d, size_t d_length,
    uint64_t *f, size_t f_length,
    uint8_t *number, size_t *place);

/*
 * The demand for domestic goods of a final demand, also of one that no table has, as that with a scheme in it. Asks 1, 2, 3, 16.
 *
 * Takes import shares m, final_demand, exports and adjustment, n cells each. Places of 3 run on through these four in this order, so
 * exports[0] is place 2 * n. m is within one, an amount within its limit.
 * Gives the demand in out, n cells: what is not imported of final demand, (TAWQESHIM_ONE - m) * final_demand / TAWQESHIM_ONE rounded
 * down, plus exports and adjustment whole. With what tawqeshim_coefficients took and gave of a table it is that table's f.
 *
 * It passes question 8 of tawqeshim_production and of tawqeshim_impact. With the same m, exports and adjustment, a final demand that is
 * nowhere below another has a demand that is nowhere below the other's, so tawqeshim_impact does not refuse the two with 17. What is
 * added to a sector's demand is then at most what was added to its final demand, and all of it where m is 0: it is what is not imported
 * of the addition, rounded down, or one more.
 *
 * A refusal sets every cell of out to 0, also where it has another length.
 */
void tawqeshim_domestic_demand(
    size_t n,
    const uint64_t *m, size_t m_length,
    const uint64_t *final_demand, size_t final_demand_length,
    const uint64_t *exports, size_t exports_length,
    const uint64_t *adjustment, size_t adjustment_length,
    uint64_t *out, size_t out_length,
    uint8_t *number, size_t *place);

/*
 * Merges sectors: from a table to one that has a sector for each group of its sectors. Asks 1, 2, 3, 16, 4, 5, 6, 18, 19.
 *
 * Takes the table as tawqeshim_coefficients does, with the same places of 3; and groups, g words of 64 bits, where g, their length, is
 * from 1 to n. Another g is refused with 2. Bit i of a word, which counts 2 to the power of i, says that sector i is in the group. Every
 * sector is in exactly one group, every group has a sector, and no bit at n or above is set, bit 63 neither; otherwise 18 refuses. A
 * group's sectors need not be neighbours.
 * Gives the merged table, in which group k is sector k: merged_x, g * g cells, and the six merged columns, g cells each. A merged cell is
 * the sum of all cells that meet in it: merged_x[k * g + l] of the cells of x with their row in group k and their column in group l. So
 * what the sectors of a group buy from each other stands on the diagonal. A sum above 1,000,000,000 is refused with 19.
 * Gives in sizes, g cells, how many sectors each group took in.
 *
 * The merged table passes 1 to 6 and 16. The totals of x and of each column are those before, and the sizes sum to n. The rises that a
 * table file may carry are no part of merging.
 * Question 7 is not asked: a table that it refuses can be merged too. Nothing is promised of 7 after merging, or of multipliers: sheets
 * from the merged table may be refused, by 7 alone, also where those of the table before are accepted. Its coefficients, its inverse and
 * what is worked out with them are figures of their own, not sums of those before.
 *
 * A refusal sets every cell of the eight outputs to 0, also of one that has another length.
 */
void tawqeshim_aggregate(
    size_t n,
    const uint64_t *x, size_t x_length,
    const uint64_t *final_demand, size_t final_demand_length,
    const uint64_t *exports, size_t exports_length,
    const uint64_t *imports, size_t imports_length,
    const uint64_t *value_added, size_t value_added_length,
    const uint64_t *production, size_t production_length,
    const uint64_t *adjustment, size_t adjustment_length,
    const uint64_t *groups, size_t groups_length,
    uint64_t *merged_x, size_t merged_x_length,
    uint64_t *merged_final_demand, size_t merged_final_demand_length,
    uint64_t *merged_exports, size_t merged_exports_length,
    uint64_t *merged_imports, size_t merged_imports_length,
    uint64_t *merged_value_added, size_t merged_value_added_length,
    uint64_t *merged_production, size_t merged_production_length,
    uint64_t *merged_adjustment, size_t merged_adjustment_length,
    uint64_t *sizes, size_t sizes_length,
    uint8_t *number, size_t *place);

/*
 * Puts the sectors of a table in another order, as an archive or a client has them. Asks 1, 2, 3, 20.
 *
 * Takes the table as tawqeshim_coefficients does, with the same places of 3; and order, n cells, a list of all sectors, counted from 0:
 * order[k] is the old sector that comes to place k. An entry that is not below n, or that repeats an earlier one, is refused with 20. Its
 * place is the first such entry: of two equal ones it is the later.
 * Gives the table in the new order: permuted_x, n * n cells, and the six permuted columns, n cells each. permuted_x[k * n + l] is
 * x[order[k] * n + order[l]], and permuted_exports[k] is exports[order[k]]. Gives in inverse, n cells, the inverse list: the place to
 * which each old sector came. So inverse[order[k]] is k and order[inverse[s]] is s. The rises that a table file may carry are no part of it.
 *
 * With the new table and inverse as the list the call gives the old table back, and order as its inverse list. For the way back lend
 * other arrays: what is not const overlaps nothing else. Whether the table balances is not asked, nor are 6, 7 and 16. If
 * tawqeshim_coefficients accepts the old table, it accepts the new one, and its sheets are the old ones rearranged alike. So are the
 * production settled from f, and the prices settled from direct rises that are rearranged alike, and each has the same count of rounds.
 *
 * A refusal sets every cell of the eight outputs to 0, also of one that has another length.
 */
void tawqeshim_permute(
    size_t n,
    const uint64_t *x, size_t x_length,
    const uint64_t *final_demand, size_t final_demand_length,
    const uint64_t *exports, size_t exports_length,
    const uint64_t *imports, size_t imports_length,
    const uint64_t *value_added, size_t value_added_length,
    const uint64_t *production, size_t production_length,
    const uint64_t *adjustment, size_t adjustment_length,
    const uint64_t *order, size_t order_length,
    uint64_t *permuted_x, size_t permuted_x_length,
    uint64_t *permuted_final_demand, size_t permuted_final_demand_length,
    uint64_t *permuted_exports, size_t permuted_exports_length,
    uint64_t *permuted_imports, size_t permuted_imports_length,
    uint64_t *permuted_value_added, size_t permuted_value_added_length,
    uint64_t *permuted_production, size_t permuted_production_length,
    uint64_t *permuted_adjustment, size_t permuted_adjustment_length,
    uint64_t *inverse, size_t inverse_length,
    uint8_t *number, size_t *place);

/*
 * Production from a demand for domestic goods. Asks 1, 2, 7, 8, 9.
 *
 * Takes domestic coefficients d, n * n cells; a demand f, n cells; and the rounds allowed.
 * Gives the settled production in out, n cells, and in *rounds the first round that changes no sector, counted from 1. Against an exact
 * balance no sector is too high, and all n together are less than 20 * n short. A budget of TAWQESHIM_PRODUCTION_BUDGET rounds always
 * suffices.
 * A refusal sets every cell of out to 0. Every cell of work, n cells, is 0 after every call.
 */
void tawqeshim_production(
    size_t n,
    const uint64_t *d, size_t d_length,
    const uint64_t *f, size_t f_length,
    uint32_t budget,
    uint64_t *out, size_t out_length,
    uint64_t *work, size_t work_length,
    uint8_t *number, size_t *place, uint32_t *rounds);

/*
 * What a scheme adds: the rise of each sector's production from one demand to a second. Asks 1, 2, 7, 8, 17, 9.
 *
 * Takes domestic coefficients d, n * n cells; the demands before and after, n cells each, of which the second is nowhere below the first;
 * and the rounds allowed for each demand. 8 and 9 are asked of the first demand and then of the second. The place of 8 is the sector, in
 * both alike. Both are demands for domestic goods. A scheme is final demand, of which the import share is bought elsewhere:
 * tawqeshim_domestic_demand gives before of the final demand without it, and after of that with it.
 * Gives in out, n cells, the production settled from after less that settled from before; in *rounds the larger of the two counts, which
 * may be that of the first. No sector falls, each rises by at least what was added to it, and all n together rise by less than
 * 20 * T + 20 * n, with T the total added. Equal demands give 0 in every sector. A budget of TAWQESHIM_PRODUCTION_BUDGET rounds always
 * suffices.
 * A refusal sets every cell of out to 0. Every cell of work, n cells, is 0 after every call.
 */
void tawqeshim_impact(
    size_t n,
    const uint64_t *d, size_t d_length,
    const uint64_t *before, size_t before_length,
    const uint64_t *after, size_t after_length,
    uint32_t budget,
    uint64_t *out, size_t out_length,
    uint64_t *work, size_t work_length,
    uint8_t *number, size_t *place, uint32_t *rounds);

/*
 * Price rises from direct rises, both in millionths. Asks 1, 2, 7, 8, 9.
 *
 * Takes domestic coefficients d, n * n cells; direct rises w, n cells; and the rounds allowed.
 * Gives the settled rises in out, n cells, and their count of rounds. Against an exact balance no rise is above it, and each is less than
 * 20 millionths below. A budget of TAWQESHIM_PRICE_BUDGET rounds always suffices.
 * A refusal sets every cell of out to 0. Every cell of work, n cells, is 0 after every call.
 */
void tawqeshim_price(
    size_t n,
    const uint64_t *d, size_t d_length,
    const uint64_t *w, size_t w_length,
    uint32_t budget,
    uint64_t *out, size_t out_length,
    uint64_t *work, size_t work_length,
    uint8_t *number, size_t *place, uint32_t *rounds);

/*
 * The demand for domestic goods behind a production, below 0 in a sector that it leaves short. Asks 1, 2, 7, 8.
 *
 * Takes domestic coefficients d, n * n cells, and a production, n cells.
 * Gives the demand in out, n SIGNED cells: the production of each sector less what industry takes of it, which is the whole sum of
 * d[i * n + j] * production[j] over j, divided once by one and rounded down. A cell below 0 is a shortage: industry takes so many units
 * of the sector more than it makes.
 *
 * A production that tawqeshim_production gave is accepted, and returns its demand. Of another production, where no cell is below 0, what
 * settles from the demand need not be the production again, but is nowhere above it. A demand with a cell below 0 is no input of
 * tawqeshim_production, and nothing is promised of it.
 * A refusal sets every cell of out to 0, also where it has another length.
 */
void tawqeshim_implied_demand(
    size_t n,
    const uint64_t *d, size_t d_length,
    const uint64_t *production, size_t production_length,
    int64_t *out, size_t out_length,
    uint8_t *number, size_t *place);

/*
 * Value added and imports that a production induces. Asks 1, 2, 3, 8.
 *
 * Takes input coefficients a, n * n cells; import shares m, value shares v, final_demand and a production, n cells each. Places of 3 count
 * on through a, m, v and final_demand.
 * Gives induced value added in value and induced imports in imports, n cells each.
 *
 * TAKE CARE: here m comes BEFORE v. tawqeshim_coefficients gives v BEFORE m. All are of one type, so the compiler does not see them
 * exchanged. tawqeshim_table_sheets and tawqeshim_sheets_induced, below, go by names instead.
 *
 * A refusal sets every cell of value and imports to 0.
 */
void tawqeshim_induced(
    size_t n,
    const uint64_t *a, size_t a_length,
    const uint64_t *m, size_t m_length,
    const uint64_t *v, size_t v_length,
    const uint64_t *final_demand, size_t final_demand_length,
    const uint64_t *production, size_t production_length,
    uint64_t *value, size_t value_length,
    uint64_t *imports, size_t imports_length,
    uint8_t *number, size_t *place);

/*
 * The Leontief inverse, and the power and the sensitivity of dispersion of its sectors. Asks 1, 2, 7, 9.
 *
 * Takes domestic coefficients d, n * n cells, and the rounds allowed for each column.
 * Gives in sheet, n * n cells, the inverse, whose column j is the production settled from a demand of one in sector j; in power and
 * sensitivity, n cells each, each column sum and each row sum against their mean, in millionths; in *rounds the largest count of a column.
 * A budget of TAWQESHIM_PRICE_BUDGET rounds always suffices.
 * A refusal sets every cell of sheet, power and sensitivity to 0.
 */
void tawqeshim_inverse(
    size_t n,
    const uint64_t *d, size_t d_length,
    uint32_t budget,
    uint64_t *sheet, size_t sheet_length,
    uint64_t *power, size_t power_length,
    uint64_t *sensitivity, size_t sensitivity_length,
    uint8_t *number, size_t *place, uint32_t *rounds);

/*
 * A sector's row of a sheet of n * n cells: the cells sheet[*start] to sheet[*start + *length - 1]. It has no number.
 *
 * Gives sector * n and n. Where n is not from 1 to 40, the sheet has not n * n cells or the sector is not below n, gives 0 and 0.
 */
void tawqeshim_row(
    size_t n,
    const uint64_t *sheet, size_t sheet_length,
    size_t sector,
    size_t *start, size_t *length);

/*
 * Reads a table file of any bytes. Asks 2, then 11, 12, 13, 14, 15 of each record in turn.
 *
 * Takes the bytes of the file. The lengths that 2 asks for are fixed: TAWQESHIM_CELLS (1,600) for x, TAWQESHIM_SECTORS (40) for each of the
 * seven columns, TAWQESHIM_MARKS (47) for marks.
 * Gives x, whose row i starts at cell i * n; final_demand, exports, imports, value_added, production, adjustment and rises; n in *sectors,
 * and in *named how many cells the file names. Cells that are not named are 0: a file without kind 10 has an adjustment of 0. Amounts are
 * not checked here: tawqeshim_coefficients, tawqeshim_aggregate, tawqeshim_permute and tawqeshim_write_table ask 3, and the first two 16.
 * A refusal sets every cell of x and of the seven columns to 0. Every cell of marks, which are work, is 0 after every call.
 */
void tawqeshim_read_table(
    const uint8_t *file, size_t file_length,
    uint64_t *x, size_t x_length,
    uint64_t *final_demand, size_t final_demand_length,
    uint64_t *exports, size_t exports_length,
    uint64_t *imports, size_t imports_length,
    uint64_t *value_added, size_t value_added_length,
    uint64_t *production, size_t production_length,
    uint64_t *adjustment, size_t adjustment_length,
    uint64_t *rises, size_t rises_length,
    uint64_t *marks, size_t marks_length,
    uint8_t *number, size_t *place, size_t *sectors, size_t *named);

/*
 * Writes a table as a table file: n, then the cells that are not 0 in ascending kind, row and column, then the end. Asks 1, 2, 3.
 *
 * Takes x, n * n cells; and final_demand, exports, imports, value_added, production, adjustment and rises, n cells each. Places of 3 run
 * on through these eight in this order, so adjustment[0] is place n * n + 5 * n and rises[0] is place n * n + 6 * n. In the file the rises
 * (kind 9) come before the adjustment (kind 10). Question 16 and whether the table balances are not asked here: tawqeshim_coefficients
 * and tawqeshim_aggregate ask them. Question 2 asks for TAWQESHIM_FILE (12,883) bytes of file, which hold every table file.
 * Gives in *length how many bytes the file has, and in file the file from the start; every byte after it is 0. The table file is the first
 * *length bytes alone: keep and hand on these, since a reader refuses a byte after the end.
 * Reading the file gives n and the cells back. Two written files have the same bytes exactly if n and all cells are the same; that holds of
 * the whole 12,883 bytes too. So a file in another order, or one that names zeros, takes the one written form of its table when it is read
 * and written again.
 * A refusal sets every byte of file to 0, also if it has another length.
 */
void tawqeshim_write_table(
    size_t n,
    const uint64_t *x, size_t x_length,
    const uint64_t *final_demand, size_t final_demand_length,
    const uint64_t *exports, size_t exports_length,
    const uint64_t *imports, size_t imports_length,
    const uint64_t *value_added, size_t value_added_length,
    const uint64_t *production, size_t production_length,
    const uint64_t *adjustment, size_t adjustment_length,
    const uint64_t *rises, size_t rises_length,
    uint8_t *file, size_t file_length,
    uint8_t *number, size_t *place, size_t *length);

/*
 * Reads a table file of any bytes and writes the sheet that is printed of it, as the program roadsheet does: demand, production with
 * TAWQESHIM_PAGE_BUDGET rounds allowed, and induced value added and imports, a line a sector; or the one line `refused`, a number and a
 * place. The number is never 9: the rounds always suffice.
 *
 * Asks 2: out has exactly TAWQESHIM_PAGE (2,851) bytes, which hold every page.
 * Gives in *length how many bytes the page has, and in out the page from the start; every byte after it is 0. A page of `refused` is a
 * page: its number and place stand in its text, and *number is 0.
 * A refusal sets every byte of out to 0.
 */
void tawqeshim_page(
    const uint8_t *file, size_t file_length,
    uint8_t *out, size_t out_length,
    uint8_t *number, size_t *place, size_t *length);

/*
 * A table, its sheets, what it is merged into and what it is in another order by names, for tawqeshim_coefficients,
 * tawqeshim_domestic_demand, tawqeshim_aggregate, tawqeshim_permute, tawqeshim_write_table and tawqeshim_induced without a word about
 * lengths or the order of arguments. Each pointer is to n cells, or where it says so to n * n; of what is merged to g, or to g * g. These
 * lengths are handed over as they are, so the arrays must have them; those that tawqeshim_read_table filled are longer, and will do.
 * A table without adjustment has n zeros there: an initializer of five columns leaves NULL.
 */
struct tawqeshim_table {
    const uint64_t *flows; /* n * n: x */
    const uint64_t *final_demand, *exports, *imports, *value_added, *production, *adjustment;
};

struct tawqeshim_sheets {
    uint64_t *inputs;        /* n * n: a */
    uint64_t *value_shares;  /* v */
    uint64_t *import_shares; /* m */
    uint64_t *domestic;      /* n * n: d */
    uint64_t *demand;        /* f */
};

struct tawqeshim_merged {
    uint64_t *flows; /* g * g: merged x */
    uint64_t *final_demand, *exports, *imports, *value_added, *production, *adjustment;
    uint64_t *sizes; /* how many sectors each group took in */
};

struct tawqeshim_permuted {
    uint64_t *flows; /* n * n: permuted x */
    uint64_t *final_demand, *exports, *imports, *value_added, *production, *adjustment;
    uint64_t *inverse; /* the place to which each old sector came */
};

/* tawqeshim_coefficients: fills the sheets of a table. */
static inline void tawqeshim_table_sheets(
    size_t n, const struct tawqeshim_table *table, const struct tawqeshim_sheets *sheets, uint8_t *number, size_t *place) {
    tawqeshim_coefficients(
        n, table->flows, n * n, table->final_demand, n, table->exports, n, table->imports, n, table->value_added, n, table->production, n,
        table->adjustment, n,
        sheets->inputs, n * n, sheets->value_shares, n, sheets->import_shares, n, sheets->domestic, n * n, sheets->demand, n,
        number, place);
}

/* tawqeshim_domestic_demand: the demand of any final demand, as the table's with a scheme in it, with the table's exports and adjustment
   and the import_shares of its sheets, which are only read. */
static inline void tawqeshim_table_demand(
    size_t n, const struct tawqeshim_table *table, const struct tawqeshim_sheets *sheets, const uint64_t *final_demand,
    uint64_t *out, uint8_t *number, size_t *place) {
    tawqeshim_domestic_demand(
        n, sheets->import_shares, n, final_demand, n, table->exports, n, table->adjustment, n, out, n, number, place);
}

/* tawqeshim_aggregate: merges the sectors of a table into g groups, one word each. */
static inline void tawqeshim_table_aggregate(
    size_t n, const struct tawqeshim_table *table, size_t g, const uint64_t *groups, const struct tawqeshim_merged *merged,
    uint8_t *number, size_t *place) {
    tawqeshim_aggregate(
        n, table->flows, n * n, table->final_demand, n, table->exports, n, table->imports, n, table->value_added, n, table->production, n,
        table->adjustment, n, groups, g,
        merged->flows, g * g, merged->final_demand, g, merged->exports, g, merged->imports, g, merged->value_added, g,
        merged->production, g, merged->adjustment, g, merged->sizes, g,
        number, place);
}

/* What was merged as a table of g sectors, for the functions that read one. The arrays stay the same. */
static inline struct tawqeshim_table tawqeshim_merged_table(const struct tawqeshim_merged *merged) {
    struct tawqeshim_table table;
    table.flows = merged->flows;
    table.final_demand = merged->final_demand;
    table.exports = merged->exports;
    table.imports = merged->imports;
    table.value_added = merged->value_added;
    table.production = merged->production;
    table.adjustment = merged->adjustment;
    return table;
}

/* tawqeshim_permute: the sectors of a table in another order, by a list of n sectors. */
static inline void tawqeshim_table_permute(
    size_t n, const struct tawqeshim_table *table, const uint64_t *order, const struct tawqeshim_permuted *permuted,
    uint8_t *number, size_t *place) {
    tawqeshim_permute(
        n, table->flows, n * n, table->final_demand, n, table->exports, n, table->imports, n, table->value_added, n, table->production, n,
        table->adjustment, n, order, n,
        permuted->flows, n * n, permuted->final_demand, n, permuted->exports, n, permuted->imports, n, permuted->value_added, n,
        permuted->production, n, permuted->adjustment, n, permuted->inverse, n,
        number, place);
}

/* What is in another order as a table of n sectors, for the functions that read one. The arrays stay the same. */
static inline struct tawqeshim_table tawqeshim_permuted_table(const struct tawqeshim_permuted *permuted) {
    struct tawqeshim_table table;
    table.flows = permuted->flows;
    table.final_demand = permuted->final_demand;
    table.exports = permuted->exports;
    table.imports = permuted->imports;
    table.value_added = permuted->value_added;
    table.production = permuted->production;
    table.adjustment = permuted->adjustment;
    return table;
}

/* tawqeshim_write_table: a table and its n rises as a file, in TAWQESHIM_FILE bytes. A table without rises has n zeros. */
static inline void tawqeshim_table_file(
    size_t n, const struct tawqeshim_table *table, const uint64_t *rises, uint8_t *file, uint8_t *number, size_t *place, size_t *length) {
    tawqeshim_write_table(
        n, table->flows, n * n, table->final_demand, n, table->exports, n, table->imports, n, table->value_added, n, table->production, n,
        table->adjustment, n, rises, n, file, TAWQESHIM_FILE, number, place, length);
}

/* tawqeshim_induced: what a production induces by the inputs, import_shares and value_shares of sheets, which are only read. */
static inline void tawqeshim_sheets_induced(
    size_t n, const struct tawqeshim_sheets *sheets, const uint64_t *final_demand, const uint64_t *production,
    uint64_t *value, uint64_t *imports, uint8_t *number, size_t *place) {
    tawqeshim_induced(
        n, sheets->inputs, n * n, sheets->import_shares, n, sheets->value_shares, n, final_demand, n, production, n, value, n, imports, n,
        number, place);
}

#ifdef __cplusplus
}
#endif

#endif
