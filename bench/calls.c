// The timed calls in C, with the checks of the proved ones. Sums of accepted inputs fit 64 bits.
#include "calls.h"

#include <stdbool.h>
#include <string.h>

enum { ONE = 1000000, COLUMN = 950000, AMOUNT = 1000000000, DEMAND = 2000000000, SECTORS = 40, COLUMNS = 7, MARKS = SECTORS + COLUMNS };

static const uint64_t TOTAL = 1600000000000;

// One round along the rows. Did it change no sector?
static bool turn_rows(
    size_t n, const uint64_t *restrict d, const uint64_t *restrict start, uint64_t *restrict out, uint64_t *restrict work)
{
    bool unchanged = true;
    for (size_t i = 0; i < n; i++) {
        uint64_t sum = 0;
        for (size_t j = 0; j < n; j++)
            sum += d[i * n + j] * out[j];
        work[i] = start[i] + sum / ONE;
        unchanged &= work[i] == out[i];
    }
    memcpy(out, work, n * sizeof *out);
    return unchanged;
}

// One round down the columns, all columns at once, so that cells are read in their order.
static bool turn_columns(
    size_t n, const uint64_t *restrict d, const uint64_t *restrict start, uint64_t *restrict out, uint64_t *restrict work)
{
    bool unchanged = true;
    memset(work, 0, n * sizeof *work);
    for (size_t i = 0; i < n; i++)
        for (size_t j = 0; j < n; j++)
            work[j] += d[i * n + j] * out[i];
    for (size_t j = 0; j < n; j++) {
        uint64_t amount = start[j] + work[j] / ONE;
        unchanged &= amount == out[j];
        out[j] = amount;
    }
    return unchanged;
}

// Rounds from the start until one changes no sector: their count, or 0 past the budget.
static uint32_t settle(
    size_t n, const uint64_t *d, bool transposed, const uint64_t *start, uint32_t budget, uint64_t *out, uint64_t *work)
{
    memcpy(out, start, n * sizeof *out);
    for (uint32_t done = 0; done < budget; done++)
        if (transposed ? turn_columns(n, d, start, out, work) : turn_rows(n, d, start, out, work))
            return done + 1;
    return 0;
}

// The first column over the limit, or n.
static size_t column_over(size_t n, const uint64_t *d)
{
    for (size_t j = 0; j < n; j++) {
        uint64_t sum = 0;
        for (size_t i = 0; i < n; i++) {
            uint64_t cell = d[i * n + j];
            if (COLUMN - sum < cell)
                return j;
            sum += cell;
        }
    }
    return n;
}

// The first cell over the limit, or n.
static size_t cell_over(size_t n, const uint64_t *s, uint64_t limit)
{
    for (size_t i = 0; i < n; i++)
        if (limit < s[i])
            return i;
    return n;
}

// Questions 1 and 7 of a sheet: the number of the first answered no, or 0.
static uint8_t ask_sheet(size_t n, const uint64_t *d, size_t *place)
{
    *place = 0;
    if (n < 1 || SECTORS < n)
        return 1;
    size_t column = column_over(n, d);
    if (column == n)
        return 0;
    *place = column;
    return 7;
}

// Question 8 of the amounts that the rounds start from.
static uint8_t ask_start(size_t n, const uint64_t *start, uint64_t limit, size_t *place)
{
    size_t cell = cell_over(n, start, limit);
    if (cell == n)
        return 0;
    *place = cell;
    return 8;
}

static void solve(
    size_t n, const uint64_t *d, bool transposed, uint64_t limit, const uint64_t *start, uint32_t budget, uint64_t *out,
    uint64_t *work, uint8_t *number, size_t *place, uint32_t *rounds)
{
    *rounds = 0;
    *number = ask_sheet(n, d, place);
    if (*number == 0)
        *number = ask_start(n, start, limit, place);
    if (*number == 0) {
        *rounds = settle(n, d, transposed, start, budget, out, work);
        if (*rounds == 0)
            *number = 9;
    }
    if (*number != 0)
        memset(out, 0, n * sizeof *out);
    memset(work, 0, n * sizeof *work);
}

void c_production(
    size_t n, const uint64_t *d, size_t d_length, const uint64_t *start, size_t start_length, uint32_t budget,
    uint64_t *out, size_t out_length, uint64_t *work, size_t work_length,
    uint8_t *number, size_t *place, uint32_t *rounds)
{
    (void)d_length, (void)start_length, (void)out_length, (void)work_length;
    solve(n, d, false, DEMAND, start, budget, out, work, number, place, rounds);
}

void c_price(
    size_t n, const uint64_t *d, size_t d_length, const uint64_t *start, size_t start_length, uint32_t budget,
    uint64_t *out, size_t out_length, uint64_t *work, size_t work_length,
    uint8_t *number, size_t *place, uint32_t *rounds)
{
    (void)d_length, (void)start_length, (void)out_length, (void)work_length;
    solve(n, d, true, 1000000000, start, budget, out, work, number, place, rounds);
}

// Question 17: is the second demand nowhere below the first?
static uint8_t ask_second(size_t n, const uint64_t *before, const uint64_t *after, size_t *place)
{
    for (size_t i = 0; i < n; i++)
        if (after[i] < before[i]) {
            *place = i;
            return 17;
        }
    return 0;
}

// Both productions, and in out the second less the first: the larger count, or 0 past the budget.
static uint32_t settle_both(
    size_t n, const uint64_t *d, const uint64_t *before, const uint64_t *after, uint32_t budget, uint64_t *out, uint64_t *work)
{
    uint64_t without[SECTORS];
    uint32_t first = settle(n, d, false, before, budget, without, work);
    uint32_t second = first == 0 ? 0 : settle(n, d, false, after, budget, out, work);
    if (second == 0)
        return 0;
    for (size_t i = 0; i < n; i++)
        out[i] -= without[i];
    return first < second ? second : first;
}

void c_impact(
    size_t n, const uint64_t *d, size_t d_length, const uint64_t *before, size_t before_length,
    const uint64_t *after, size_t after_length, uint32_t budget,
    uint64_t *out, size_t out_length, uint64_t *work, size_t work_length,
    uint8_t *number, size_t *place, uint32_t *rounds)
{
    (void)d_length, (void)before_length, (void)after_length, (void)out_length, (void)work_length;
    *rounds = 0;
    *number = ask_sheet(n, d, place);
    if (*number == 0)
        *number = ask_start(n, before, DEMAND, place);
    if (*number == 0)
        *number = ask_start(n, after, DEMAND, place);
    if (*number == 0)
        *number = ask_second(n, before, after, place);
    if (*number == 0) {
        *rounds = settle_both(n, d, before, after, budget, out, work);
        if (*rounds == 0)
            *number = 9;
    }
    if (*number != 0)
        memset(out, 0, n * sizeof *out);
    memset(work, 0, n * sizeof *work);
}

// Question 8 of a given production: the first sector at which the running total is over.
static uint8_t ask_total(size_t n, const uint64_t *production, size_t *place)
{
    uint64_t total = 0;
    for (size_t i = 0; i < n; i++) {
        if (TOTAL - total < production[i]) {
            *place = i;
            return 8;
        }
        total += production[i];
    }
    return 0;
}

void c_implied_demand(
    size_t n, const uint64_t *d, size_t d_length, const uint64_t *production, size_t production_length,
    int64_t *out, size_t out_length, uint8_t *number, size_t *place)
{
    (void)d_length, (void)production_length, (void)out_length;
    *number = ask_sheet(n, d, place);
    if (*number == 0)
        *number = ask_total(n, production, place);
    if (*number != 0) {
        memset(out, 0, n * sizeof *out);
        return;
    }
    for (size_t i = 0; i < n; i++) {
        uint64_t sum = 0;
        for (size_t j = 0; j < n; j++)
            sum += d[i * n + j] * production[j];
        out[i] = (int64_t)production[i] - (int64_t)(sum / ONE);
    }
}

// Each column sum and each row sum of a sheet against their mean, in millionths.
static void disperse(size_t n, const uint64_t *sheet, uint64_t *power, uint64_t *sensitivity)
{
    uint64_t total = 0;
    memset(power, 0, n * sizeof *power);
    for (size_t i = 0; i < n; i++) {
        uint64_t row = 0;
        for (size_t j = 0; j < n; j++) {
            row += sheet[i * n + j];
            power[j] += sheet[i * n + j];
        }
        sensitivity[i] = row;
        total += row;
    }
    for (size_t j = 0; j < n; j++) {
        power[j] = power[j] * n * ONE / total;
        sensitivity[j] = sensitivity[j] * n * ONE / total;
    }
}

// The columns of the inverse: the largest count, or 0 with the place of the column that does not settle.
static uint32_t fill_columns(size_t n, const uint64_t *d, uint32_t budget, uint64_t *sheet, size_t *place)
{
    uint64_t demand[SECTORS] = {0}, amounts[SECTORS], work[SECTORS];
    uint32_t most = 0;
    for (size_t j = 0; j < n; j++) {
        demand[j] = ONE;
        uint32_t count = settle(n, d, false, demand, budget, amounts, work);
        demand[j] = 0;
        if (count == 0) {
            *place = j;
            return 0;
        }
        if (most < count)
            most = count;
        for (size_t i = 0; i < n; i++)
            sheet[i * n + j] = amounts[i];
    }
    return most;
}

void c_inverse(
    size_t n, const uint64_t *d, size_t d_length, uint32_t budget, uint64_t *sheet, size_t sheet_length,
    uint64_t *power, size_t power_length, uint64_t *sensitivity, size_t sensitivity_length,
    uint8_t *number, size_t *place, uint32_t *rounds)
{
    (void)d_length;
    *rounds = 0;
    *number = ask_sheet(n, d, place);
    if (*number == 0) {
        *rounds = fill_columns(n, d, budget, sheet, place);
        if (*rounds == 0)
            *number = 9;
    }
    if (*number == 0) {
        disperse(n, sheet, power, sensitivity);
        return;
    }
    memset(sheet, 0, sheet_length * sizeof *sheet);
    memset(power, 0, power_length * sizeof *power);
    memset(sensitivity, 0, sensitivity_length * sizeof *sensitivity);
}

static uint64_t amount_from(const uint8_t *s)
{
    return (uint64_t)s[0] << 24 | (uint64_t)s[1] << 16 | (uint64_t)s[2] << 8 | s[3];
}

// The records, into lines of cells: the number of the first question answered no, or 0.
static uint8_t walk(
    const uint8_t *file, size_t length, uint64_t *x, uint64_t *const columns[COLUMNS], uint64_t *marks, size_t *place,
    size_t *sectors, size_t *named)
{
    static const uint8_t lengths[11] = {0, 2, 7, 6, 6, 6, 6, 6, 1, 6, 6};
    static const uint8_t lines[11] = {0, 0, 0, 40, 41, 42, 43, 44, 0, 46, 45};
    size_t n = 0, at = 0, count = 0;
    while (at < length) {
        uint8_t kind = file[at];
        *place = at;
        if (kind < 1 || 10 < kind || length - at < lengths[kind])
            return 11;
        if ((at == 0) != (kind == 1))
            return 12;
        if (kind == 1) {
            n = file[1];
            if (n < 1 || SECTORS < n)
                return 12;
        } else if (kind == 8) {
            *place = at + 1;
            if (at + 1 != length)
                return 15;
            *place = 0;
            *sectors = n;
            *named = count;
            return 0;
        } else {
            size_t row = file[at + 1], position = kind == 2 ? file[at + 2] : row;
            if (row < 1 || n < row || position < 1 || n < position)
                return 13;
            size_t line = kind == 2 ? row - 1 : lines[kind];
            uint64_t bit = (uint64_t)1 << (position - 1);
            if (marks[line] & bit)
                return 14;
            marks[line] |= bit;
            count++;
            if (kind == 2)
                x[line * n + position - 1] = amount_from(file + at + 3);
            else
                columns[line - 40][position - 1] = amount_from(file + at + 2);
        }
        at += lengths[kind];
    }
    *place = length;
    return 15;
}

static void clear(uint64_t *x, uint64_t *const columns[COLUMNS])
{
    memset(x, 0, SECTORS * SECTORS * sizeof *x);
    for (int k = 0; k < COLUMNS; k++)
        memset(columns[k], 0, SECTORS * sizeof *columns[k]);
}

void c_read_table(
    const uint8_t *file, size_t file_length, uint64_t *x, size_t x_length,
    uint64_t *final_demand, size_t final_demand_length, uint64_t *exports, size_t exports_length,
    uint64_t *imports, size_t imports_length, uint64_t *value_added, size_t value_added_length,
    uint64_t *production, size_t production_length, uint64_t *adjustment, size_t adjustment_length,
    uint64_t *rises, size_t rises_length, uint64_t *marks, size_t marks_length,
    uint8_t *number, size_t *place, size_t *sectors, size_t *named)
{
    uint64_t *const columns[COLUMNS] = {final_demand, exports, imports, value_added, production, adjustment, rises};
    (void)x_length, (void)final_demand_length, (void)exports_length, (void)imports_length, (void)value_added_length;
    (void)production_length, (void)adjustment_length, (void)rises_length, (void)marks_length;
    *sectors = 0;
    *named = 0;
    clear(x, columns);
    memset(marks, 0, MARKS * sizeof *marks);
    *number = walk(file, file_length, x, columns, marks, place, sectors, named);
    if (*number != 0)
        clear(x, columns);
    memset(marks, 0, MARKS * sizeof *marks);
}

// Questions 1 and 3 of a table: the number of the first answered no, or 0.
static uint8_t ask_table(size_t n, const uint64_t *x, const uint64_t *const columns[COLUMNS], size_t *place)
{
    *place = 0;
    if (n < 1 || SECTORS < n)
        return 1;
    size_t cell = cell_over(n * n, x, AMOUNT), before = n * n;
    for (int k = 0; k < COLUMNS && cell == before; k++) {
        cell += cell_over(n, columns[k], AMOUNT);
        before += n;
    }
    if (cell == before)
        return 0;
    *place = cell;
    return 3;
}

static uint8_t *put_amount(uint8_t *p, uint64_t amount)
{
    p[0] = (uint8_t)(amount >> 24), p[1] = (uint8_t)(amount >> 16), p[2] = (uint8_t)(amount >> 8), p[3] = (uint8_t)amount;
    return p + 4;
}

// The cells that are not 0, kind by kind: the rises, which are the last column, before the adjustment. The end of what was written.
static uint8_t *put_cells(size_t n, const uint64_t *x, const uint64_t *const columns[COLUMNS], uint8_t *p)
{
    static const uint8_t kinds[COLUMNS] = {3, 4, 5, 6, 7, 9, 10}, order[COLUMNS] = {0, 1, 2, 3, 4, 6, 5};
    for (size_t i = 0; i < n; i++)
        for (size_t j = 0; j < n; j++)
            if (x[i * n + j] != 0) {
                *p++ = 2, *p++ = (uint8_t)(i + 1), *p++ = (uint8_t)(j + 1);
                p = put_amount(p, x[i * n + j]);
            }
    for (int k = 0; k < COLUMNS; k++) {
        const uint64_t *column = columns[order[k]];
        for (size_t i = 0; i < n; i++)
            if (column[i] != 0) {
                *p++ = kinds[k], *p++ = (uint8_t)(i + 1);
                p = put_amount(p, column[i]);
            }
    }
    return p;
}

void c_write_table(
    size_t n, const uint64_t *x, size_t x_length,
    const uint64_t *final_demand, size_t final_demand_length, const uint64_t *exports, size_t exports_length,
    const uint64_t *imports, size_t imports_length, const uint64_t *value_added, size_t value_added_length,
    const uint64_t *production, size_t production_length, const uint64_t *adjustment, size_t adjustment_length,
    const uint64_t *rises, size_t rises_length, uint8_t *file, size_t file_length,
    uint8_t *number, size_t *place, size_t *length)
{
    const uint64_t *const columns[COLUMNS] = {final_demand, exports, imports, value_added, production, adjustment, rises};
    (void)x_length, (void)final_demand_length, (void)exports_length, (void)imports_length, (void)value_added_length;
    (void)production_length, (void)adjustment_length, (void)rises_length;
    uint8_t *p = file;
    *number = ask_table(n, x, columns, place);
    if (*number == 0) {
        *p++ = 1, *p++ = (uint8_t)n;
        p = put_cells(n, x, columns, p);
        *p++ = 8;
    }
    *length = (size_t)(p - file);
    memset(p, 0, file_length - *length);
}
