// The timed calls, as include/tawqeshim.h declares them, once in C (calls.c) and once in Rust (calls.rs). Every array has its exact
// length: question 2 is not asked again.
#ifndef BENCH_CALLS_H
#define BENCH_CALLS_H

#include <stddef.h>
#include <stdint.h>

typedef void settling(
    size_t n, const uint64_t *d, size_t d_length, const uint64_t *start, size_t start_length, uint32_t budget,
    uint64_t *out, size_t out_length, uint64_t *work, size_t work_length,
    uint8_t *number, size_t *place, uint32_t *rounds);

typedef void adding(
    size_t n, const uint64_t *d, size_t d_length, const uint64_t *before, size_t before_length,
    const uint64_t *after, size_t after_length, uint32_t budget,
    uint64_t *out, size_t out_length, uint64_t *work, size_t work_length,
    uint8_t *number, size_t *place, uint32_t *rounds);

typedef void inverting(
    size_t n, const uint64_t *d, size_t d_length, uint32_t budget, uint64_t *sheet, size_t sheet_length,
    uint64_t *power, size_t power_length, uint64_t *sensitivity, size_t sensitivity_length,
    uint8_t *number, size_t *place, uint32_t *rounds);

typedef void implying(
    size_t n, const uint64_t *d, size_t d_length, const uint64_t *production, size_t production_length,
    int64_t *out, size_t out_length, uint8_t *number, size_t *place);

typedef void reading(
    const uint8_t *file, size_t file_length, uint64_t *x, size_t x_length,
    uint64_t *final_demand, size_t final_demand_length, uint64_t *exports, size_t exports_length,
    uint64_t *imports, size_t imports_length, uint64_t *value_added, size_t value_added_length,
    uint64_t *production, size_t production_length, uint64_t *adjustment, size_t adjustment_length,
    uint64_t *rises, size_t rises_length, uint64_t *marks, size_t marks_length,
    uint8_t *number, size_t *place, size_t *sectors, size_t *named);

typedef void writing(
    size_t n, const uint64_t *x, size_t x_length,
    const uint64_t *final_demand, size_t final_demand_length, const uint64_t *exports, size_t exports_length,
    const uint64_t *imports, size_t imports_length, const uint64_t *value_added, size_t value_added_length,
    const uint64_t *production, size_t production_length, const uint64_t *adjustment, size_t adjustment_length,
    const uint64_t *rises, size_t rises_length, uint8_t *file, size_t file_length,
    uint8_t *number, size_t *place, size_t *length);

settling c_production, c_price, rust_production, rust_price;
adding c_impact, rust_impact;
inverting c_inverse, rust_inverse;
implying c_implied_demand, rust_implied_demand;
reading c_read_table, rust_read_table;
writing c_write_table, rust_write_table;

#endif
