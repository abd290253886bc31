// Times the proved calls beside the same calls in C and in Rust, and LAPACK's solve. First the three are compared, cell by cell, on the
// timed inputs and on inputs that are refused.
#include "calls.h"
#include "tawqeshim.h"

#include <stdio.h>
#include <stdlib.h>
#include <string.h>
#include <time.h>

enum { SECTORS = TAWQESHIM_SECTORS, CELLS = TAWQESHIM_CELLS, MARKS = TAWQESHIM_MARKS, FILE_BYTES = TAWQESHIM_FILE, COLUMNS = 7 };
enum { WAYS = 3, REPETITIONS = 31 };
static const uint32_t BUDGET = UINT32_MAX;

static const struct {
    const char *name;
    settling *production, *price;
    inverting *inverse;
    adding *impact;
    implying *implied_demand;
    reading *read_table;
    writing *write_table;
} ways[WAYS] = {
    {"ours", tawqeshim_production, tawqeshim_price, tawqeshim_inverse, tawqeshim_impact, tawqeshim_implied_demand, tawqeshim_read_table,
        tawqeshim_write_table},
    {"C", c_production, c_price, c_inverse, c_impact, c_implied_demand, c_read_table, c_write_table},
    {"Rust", rust_production, rust_price, rust_inverse, rust_impact, rust_implied_demand, rust_read_table, rust_write_table},
};

// Those up to IMPACT settle, and LAPACK has those up to INVERSE; those from READ on are about files.
enum call { PRODUCTION, PRICE, INVERSE, IMPACT, IMPLIED, READ, WRITE, CALLS };
static const char *const call_names[CALLS] = {"production", "price", "inverse", "impact", "implied", "read_table", "write_table"};

// What a call is handed.
struct input {
    const char *name;
    size_t n;
    uint32_t budget;
    uint64_t d[CELLS], start[2][SECTORS]; // a demand, and direct rises
    uint64_t after[SECTORS];              // the demand with a scheme
    uint64_t production[SECTORS];         // what the demand settles at
    uint8_t file[FILE_BYTES];
    size_t length;
    uint64_t x[CELLS], columns[COLUMNS][SECTORS]; // the table of the file, the adjustment and the rises last
};

// What it gives. Unused cells stay 0.
struct output {
    uint8_t number;
    size_t place, sectors, named, length;
    uint32_t rounds;
    uint64_t sheet[CELLS], columns[COLUMNS][SECTORS], work[MARKS];
    int64_t demand[SECTORS];
    uint8_t file[FILE_BYTES];
};

static void run(enum call call, int way, const struct input *in, struct output *out)
{
    size_t n = in->n;
    uint64_t (*c)[SECTORS] = out->columns;
    if (call == READ)
        ways[way].read_table(
            in->file, in->length, out->sheet, CELLS, c[0], SECTORS, c[1], SECTORS, c[2], SECTORS, c[3], SECTORS, c[4],
            SECTORS, c[5], SECTORS, c[6], SECTORS, out->work, MARKS, &out->number, &out->place, &out->sectors, &out->named);
    else if (call == WRITE)
        ways[way].write_table(
            n, in->x, n * n, in->columns[0], n, in->columns[1], n, in->columns[2], n, in->columns[3], n, in->columns[4], n,
            in->columns[5], n, in->columns[6], n, out->file, FILE_BYTES, &out->number, &out->place, &out->length);
    else if (call == INVERSE)
        ways[way].inverse(
            n, in->d, n * n, in->budget, out->sheet, n * n, c[0], n, c[1], n, &out->number, &out->place, &out->rounds);
    else if (call == IMPACT)
        ways[way].impact(
            n, in->d, n * n, in->start[0], n, in->after, n, in->budget, c[0], n, out->work, n, &out->number,
            &out->place, &out->rounds);
    else if (call == IMPLIED)
        ways[way].implied_demand(n, in->d, n * n, in->production, n, out->demand, n, &out->number, &out->place);
    else
        (call == PRICE ? ways[way].price : ways[way].production)(
            n, in->d, n * n, in->start[call == PRICE], n, in->budget, c[0], n, out->work, n, &out->number, &out->place,
            &out->rounds);
}

// Inputs.

static uint64_t random_state = 1;

static uint64_t random_below(uint64_t most)
{
    random_state += 0x9e3779b97f4a7c15;
    uint64_t z = random_state;
    z = (z ^ z >> 30) * 0xbf58476d1ce4e5b9;
    z = (z ^ z >> 27) * 0x94d049bb133111eb;
    return (z ^ z >> 31) % most;
}

// Column j with the given sum, shared out by weights of which some are 0.
static void fill_column(struct input *in, size_t j, uint64_t sum, unsigned zeros)
{
    uint64_t weights[SECTORS], total = 0, left = sum;
    for (size_t i = 0; i < in->n; i++) {
        weights[i] = random_below(100) < zeros ? 0 : 1 + random_below(1000) * random_below(1000) / 1000;
        weights[i] *= i == j ? 4 : 1;
        total += weights[i];
    }
    for (size_t i = 0; i < in->n; i++) {
        in->d[i * in->n + j] = total == 0 ? 0 : sum * weights[i] / total;
        left -= in->d[i * in->n + j];
    }
    in->d[j * in->n + j] += left;
}

// A region: half of its cells small or 0, column sums near 400,000, demands up to a few millions, rises of a few per cent.
static void region(struct input *in, const char *name, size_t n)
{
    *in = (struct input){.name = name, .n = n, .budget = BUDGET};
    for (size_t j = 0; j < n; j++) {
        fill_column(in, j, 350000 + random_below(100000), 30);
        in->start[0][j] = 1000 + random_below(2000) * random_below(2000);
        in->start[1][j] = random_below(50000);
    }
}

// Every cell filled, every column sum at its limit, demands and rises up to the given ones.
static void dense(struct input *in, const char *name, uint64_t demand, uint64_t rise)
{
    *in = (struct input){.name = name, .n = SECTORS, .budget = BUDGET};
    for (size_t j = 0; j < SECTORS; j++) {
        fill_column(in, j, 950000, 0);
        in->start[0][j] = random_below(demand + 1);
        in->start[1][j] = random_below(rise + 1);
    }
}

// Each sector buys from the next alone. The last unit goes round many times before nothing changes.
static void ring(struct input *in, const char *name, uint64_t demand, uint64_t rise)
{
    *in = (struct input){.name = name, .n = SECTORS, .budget = BUDGET};
    for (size_t j = 0; j < SECTORS; j++) {
        in->d[(j + 1) % SECTORS * SECTORS + j] = 950000;
        in->start[0][j] = demand - 20;
        in->start[1][j] = rise - 20;
    }
    in->start[0][0]++;
    in->start[1][0]++;
}

// A scheme that adds a hundredth to every demand, as far as its limit.
static void add_scheme(struct input *in)
{
    for (size_t j = 0; j < in->n; j++) {
        uint64_t more = in->start[0][j] + in->start[0][j] / 100;
        in->after[j] = more < 2000000000 ? more : 2000000000;
    }
}

// Every cell named, by rows and then by columns, none of them 0: the longest file that is accepted, as it is written.
static void full_file(struct input *in)
{
    // the column of each kind that has one
    static const uint8_t column[11] = {0, 0, 0, 0, 1, 2, 3, 4, 0, 6, 5};
    uint8_t *p = in->file;
    *in = (struct input){.name = "full file", .n = SECTORS};
    *p++ = 1, *p++ = SECTORS;
    for (int kind = 2; kind <= 10; kind++)
        for (int i = 0; kind != 8 && i < (kind == 2 ? CELLS : SECTORS); i++) {
            uint32_t amount = (uint32_t)random_below(1000000000) + 1;
            *(kind == 2 ? &in->x[i] : &in->columns[column[kind]][i]) = amount;
            *p++ = (uint8_t)kind;
            if (kind == 2)
                *p++ = (uint8_t)(i / SECTORS + 1);
            *p++ = (uint8_t)(i % SECTORS + 1);
            for (int shift = 24; shift >= 0; shift -= 8)
                *p++ = (uint8_t)(amount >> shift);
        }
    *p++ = 8;
    in->length = (size_t)(p - in->file);
}

// Comparing.

// Do the three ways give the same? Answers ours.
static struct output compare(enum call call, const struct input *in)
{
    static struct output got[WAYS];
    for (int way = 0; way < WAYS; way++) {
        memset(&got[way], 0, sizeof got[way]);
        run(call, way, in, &got[way]);
        if (memcmp(&got[way], &got[0], sizeof got[0]) != 0) {
            printf("%s of %s: %s gives something else than ours\n", call_names[call], in->name, ways[way].name);
            exit(1);
        }
    }
    return got[0];
}

// The neighbours of an input that are refused, and damaged files.
static int compare_refused(const struct input *in)
{
    static struct input bad;
    int seen = 0;
    for (enum call call = PRODUCTION; call <= IMPACT; call++) {
        bad = *in;
        bad.budget = compare(call, in).rounds - 1;
        seen += compare(call, &bad).number == 9;
        bad = *in;
        bad.d[random_below(in->n * in->n)] += 950001;
        seen += compare(call, &bad).number == 7;
        bad = *in;
        bad.start[call == PRICE][random_below(in->n)] = call == PRICE ? 1000000001 : 2000000001;
        seen += compare(call, &bad).number == 8;
    }
    size_t sector = random_below(in->n);
    bad = *in;
    bad.after[sector] = 2000000001;
    seen += compare(IMPACT, &bad).number == 8;
    bad.after[sector] = in->start[0][sector] / 2;
    seen += compare(IMPACT, &bad).number == 17;
    return seen;
}

// What the demand settles at; and productions near it, in which a sector makes nothing or the total is over.
static int compare_implied(struct input *in)
{
    static struct input other;
    int seen = 0;
    struct output settled = compare(PRODUCTION, in);
    memcpy(in->production, settled.columns[0], sizeof in->production);
    compare(IMPLIED, in);
    for (size_t i = 0; i < in->n; i++) {
        other = *in;
        other.production[i] = 0;
        compare(IMPLIED, &other);
        other.production[i] = TAWQESHIM_PRODUCTION_LIMIT + 1;
        seen += compare(IMPLIED, &other).number == 8;
        other.d[i] += TAWQESHIM_COLUMN_LIMIT + 1;
        seen += compare(IMPLIED, &other).number == 7;
    }
    return seen;
}

static int compare_damaged(const struct input *in)
{
    static struct input bad;
    int seen = 0;
    for (int k = 0; k < 2000; k++) {
        bad = *in;
        bad.file[random_below(k % 2 ? 20 : in->length)] = (uint8_t)random_below(k % 3 ? 12 : 256);
        if (k % 5 == 0)
            bad.length = random_below(in->length);
        seen += compare(READ, &bad).number != 0;
    }
    return seen;
}

// Tables with other cells: zeros, which are left out, and amounts over the limit.
static int compare_written(const struct input *in)
{
    static struct input other;
    int seen = 0;
    for (int k = 0; k < 2000; k++) {
        other = *in;
        for (int cells = 0; cells < k % 500; cells++)
            other.x[random_below(CELLS)] = 0;
        if (k % 4 == 0)
            other.n = 1 + random_below(SECTORS);
        if (k % 2)
            *(k % 3 ? &other.x[random_below(CELLS)] : &other.columns[random_below(COLUMNS)][random_below(SECTORS)]) =
                1000000001 + random_below(k % 7 ? 2 : UINT64_MAX / 2);
        seen += compare(WRITE, &other).number != 0;
    }
    return seen;
}

// LAPACK. The build says by LAPACK, 1 or 0, whether it is installed.

static double solution[CELLS];

#if LAPACK
void dgesv_(
    const int *n, const int *columns, double *a, const int *lda, int *pivots, double *b, const int *ldb, int *info);
#else
static void dgesv_(
    const int *n, const int *columns, double *a, const int *lda, int *pivots, double *b, const int *ldb, int *info)
{
    (void)n, (void)columns, (void)a, (void)lda, (void)pivots, (void)b, (void)ldb;
    *info = 1;
}
#endif

// Solves (1 - d) x = b, or its transpose for prices, or for every unit at once. The matrix is made anew: dgesv overwrites it.
static void lapack(enum call call, const struct input *in, double *b)
{
    static double a[CELLS];
    static int pivots[SECTORS];
    int n = (int)in->n, columns = call == INVERSE ? n : 1, info;
    for (int i = 0; i < n; i++)
        for (int j = 0; j < n; j++)
            a[call == PRICE ? i * n + j : j * n + i] = (i == j) - (double)in->d[i * n + j] / 1e6;
    if (call == INVERSE)
        for (int i = 0; i < n * n; i++)
            b[i] = i % (n + 1) == 0 ? 1e6 : 0;
    else
        for (int i = 0; i < n; i++)
            b[i] = (double)in->start[call == PRICE][i];
    dgesv_(&n, &columns, a, &n, pivots, b, &n, &info);
    if (info != 0) {
        printf("dgesv refused %s\n", in->name);
        exit(1);
    }
}

// Settled amounts are not above LAPACK's, and in all sectors together less than 20 n below.
static void compare_lapack(enum call call, const struct input *in)
{
    struct output got = compare(call, in);
    lapack(call, in, solution);
    for (size_t j = 0; j < (call == INVERSE ? in->n : 1); j++) {
        double lack = 0;
        for (size_t i = 0; i < in->n; i++)
            lack += solution[j * in->n + i] - (double)(call == INVERSE ? got.sheet[i * in->n + j] : got.columns[0][i]);
        if (lack < -1e-2 || 20.0 * (double)in->n <= lack) {
            printf("%s of %s: %g away from LAPACK's solve\n", call_names[call], in->name, lack);
            exit(1);
        }
    }
}

// Timing.

static double now(void)
{
    struct timespec t;
    clock_gettime(CLOCK_PROCESS_CPUTIME_ID, &t);
    return (double)t.tv_sec * 1e9 + (double)t.tv_nsec;
}

// Nanoseconds a call, over some calls. The way after the three is LAPACK.
static double timed(enum call call, int way, const struct input *in, int times)
{
    static struct output out;
    double began = now();
    for (int k = 0; k < times; k++)
        if (way < WAYS)
            run(call, way, in, &out);
        else
            lapack(call, in, solution);
    return (now() - began) / times;
}

static int ascending(const void *a, const void *b)
{
    double x = *(const double *)a, y = *(const double *)b;
    return (x > y) - (x < y);
}

// The median, and half the distance between the quartiles in *spread.
static double median(const double *list, double *spread)
{
    double sorted[REPETITIONS];
    memcpy(sorted, list, sizeof sorted);
    qsort(sorted, REPETITIONS, sizeof *sorted, ascending);
    *spread = (sorted[REPETITIONS * 3 / 4] - sorted[REPETITIONS / 4]) / 2;
    return sorted[REPETITIONS / 2];
}

// All rounds of a call; of the inverse those of all columns, of an impact those of both demands.
static uint64_t rounds_of(enum call call, const struct input *in, uint32_t *told)
{
    static struct input unit;
    struct output got = compare(call, in);
    uint64_t all = 0;
    *told = got.rounds;
    if (got.number != 0) {
        printf("%s of %s is refused with %d\n", call_names[call], in->name, got.number);
        exit(1);
    }
    if (call == IMPACT) {
        unit = *in;
        memcpy(unit.start[0], in->after, sizeof in->after);
        return compare(PRODUCTION, in).rounds + compare(PRODUCTION, &unit).rounds;
    }
    if (call != INVERSE)
        return got.rounds;
    for (size_t j = 0; j < in->n; j++) {
        unit = *in;
        memset(unit.start, 0, sizeof unit.start);
        unit.start[0][j] = 1000000;
        all += compare(PRODUCTION, &unit).rounds;
    }
    return all;
}

static void row(enum call call, const struct input *in)
{
    static double took[WAYS + 1][REPETITIONS], against[REPETITIONS];
    double each[WAYS + 1], spread;
    uint32_t told;
    uint64_t rounds = rounds_of(call, in, &told);
    int used = call > INVERSE || !LAPACK ? WAYS : WAYS + 1;
    int times = 1 + (int)(1e6 / timed(call, 0, in, 3));
    for (int k = 0; k < REPETITIONS; k++)
        for (int way = 0; way < used; way++)
            took[way][k] = timed(call, way, in, times);
    for (int way = 0; way < used; way++)
        each[way] = median(took[way], &spread);
    printf("%-11s %-14s %2zu ", call_names[call], in->name, in->n);
    if (call > IMPACT)
        printf("%6s", "-");
    else
        printf("%6u", told);
    for (int way = 0; way <= WAYS; way++)
        if (way < used)
            printf(" %9.0f", each[way]);
        else
            printf(" %9s", "-");
    for (int way = 0; way < WAYS; way++)
        if (call > IMPACT)
            printf(" %5s", "-");
        else
            printf(" %5.0f", each[way] / (double)rounds);
    for (int way = 1; way < WAYS; way++) {
        for (int k = 0; k < REPETITIONS; k++)
            against[k] = took[0][k] / took[way][k];
        printf("  %5.2f", median(against, &spread));
        printf(" ± %4.2f", spread);
    }
    printf("\n");
    fflush(stdout);
}

int main(void)
{
    enum { SHEETS = 6, PLAIN = 4 };
    static struct input sheets[SHEETS], file;
    int refused = 0;
    region(&sheets[0], "region", 13);
    region(&sheets[1], "region", 37);
    dense(&sheets[2], "dense", 100000000, 100000);
    ring(&sheets[3], "ring", 100000000, 100000000);
    dense(&sheets[4], "dense, largest", 2000000000, 1000000000);
    ring(&sheets[5], "ring, largest", 2000000000, 1000000000);
    full_file(&file);
    for (int k = 0; k < SHEETS; k++) {
        add_scheme(&sheets[k]);
        refused += compare_refused(&sheets[k]) + compare_implied(&sheets[k]);
        for (enum call call = PRODUCTION; LAPACK && call <= INVERSE; call++)
            compare_lapack(call, &sheets[k]);
    }
    refused += compare_damaged(&file) + compare_written(&file);
    printf("Ours, C and Rust give the same cells, bytes, numbers, places and counts, on the timed inputs and on %d refused ones.\n", refused);
    printf("Nanoseconds of processor time, median of %d. ± is half the distance between the quartiles.\n\n", REPETITIONS);
    printf("%-35s %39s %17s %14s %14s\n", "", "a call", "a round", "ratio", "ratio");
    printf("%-11s %-14s %2s %6s %9s %9s %9s %9s %5s %5s %5s %14s %14s\n", "call", "sheet", "n", "rounds", "ours", "C", "Rust", "LAPACK",
        "ours", "C", "Rust", "ours/C", "ours/Rust");
    // the inverse takes no demand
    for (enum call call = PRODUCTION; call <= INVERSE; call++)
        for (int k = 0; k < (call == INVERSE ? PLAIN : SHEETS); k++)
            row(call, &sheets[k]);
    row(IMPACT, &sheets[2]);
    for (int k = 1; k <= 2; k++)
        row(IMPLIED, &sheets[k]);
    for (enum call call = READ; call < CALLS; call++)
        row(call, &file);
    return 0;
}
