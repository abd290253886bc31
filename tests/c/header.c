/*
 * Tests of include/tawqeshim.h: its constants against what the library accepts and refuses, how shares are rounded, what a final demand
 * demands of domestic goods, what a production leaves, below 0 too, how sectors are merged, how they are put in another order and back, the
 * questions' texts, the version, and the functions that go by names. tests/run compiles it as C99 and as C++, with every warning an error.
 */
#include "tawqeshim.h"

#include <stdio.h>
#include <string.h>

static int failures;

static void expect(int right, const char *what) {
    if (!right) {
        printf("header: %s\n", what);
        failures++;
    }
}

static uint8_t number;
static size_t place;
static uint32_t rounds;

/* A given number, at a given place. */
static void answers(int expected, size_t at, const char *what) {
    expect(number == expected && place == at, what);
}

static void questions(void) {
    expect(tawqeshim_question(TAWQESHIM_ACCEPTED)[0] == 0, "0 has a question");
    for (int k = 1; k <= 255; k++) {
        const char *text = tawqeshim_question((uint8_t)k);
        if (k > TAWQESHIM_QUESTIONS) {
            expect(text[0] == 0, "a number after the last has a question");
            continue;
        }
        expect(text[0] != 0 && text[strlen(text) - 1] == '?', "a question has no text, or one that asks nothing");
        for (int other = 1; other < k; other++)
            expect(strcmp(text, tawqeshim_question((uint8_t)other)) != 0, "two questions have one text");
    }
    expect(TAWQESHIM_REFUSED_MERGED_AMOUNT == 19, "the last question before that of a list is not 19");
    expect(TAWQESHIM_REFUSED_ORDER == TAWQESHIM_QUESTIONS, "the last question is not the last number");
    expect(strcmp(tawqeshim_question(TAWQESHIM_REFUSED_ROUNDS), "do the rounds settle within the budget?") == 0, "the text of question 9");
    expect(strstr(tawqeshim_question(TAWQESHIM_REFUSED_SHORTAGE), "reserved") != NULL, "the text of question 10");
    expect(strcmp(tawqeshim_question(TAWQESHIM_REFUSED_END), "does kind 8 come, with no byte after it?") == 0, "the text of question 15");
    expect(strstr(tawqeshim_question(TAWQESHIM_REFUSED_EXPORTS), "exports and adjustment") != NULL, "the text of question 16");
    expect(strstr(tawqeshim_question(TAWQESHIM_REFUSED_LOWER_DEMAND), "second demand") != NULL, "the text of question 17");
    expect(strstr(tawqeshim_question(TAWQESHIM_REFUSED_GROUPS), "exactly one group") != NULL, "the text of question 18");
    expect(strstr(tawqeshim_question(TAWQESHIM_REFUSED_MERGED_AMOUNT), "every merged amount") != NULL, "the text of question 19");
    expect(strcmp(tawqeshim_question(TAWQESHIM_REFUSED_ORDER),
                  "is every entry of the list of sectors below n, and none a repeat of an earlier one?") == 0, "the text of question 20");
}

/* One sector, whose coefficient, demand and rise may be at a limit or one over it. */
static void produce(uint64_t d, uint64_t f) {
    uint64_t out, work;
    tawqeshim_production(1, &d, 1, &f, 1, TAWQESHIM_PRODUCTION_BUDGET, &out, 1, &work, 1, &number, &place, &rounds);
}

/* Its rise from one demand to a second. */
static uint64_t add(uint64_t before, uint64_t after) {
    uint64_t d = TAWQESHIM_COLUMN_LIMIT, out = 7, work = 7;
    tawqeshim_impact(1, &d, 1, &before, 1, &after, 1, TAWQESHIM_PRODUCTION_BUDGET, &out, 1, &work, 1, &number, &place, &rounds);
    expect(work == 0, "the work of a scheme is not 0");
    return out;
}

static void rise(uint64_t w) {
    uint64_t d = 0, out, work;
    tawqeshim_price(1, &d, 1, &w, 1, TAWQESHIM_PRICE_BUDGET, &out, 1, &work, 1, &number, &place, &rounds);
}

static void imply(uint64_t production) {
    uint64_t d = 0;
    int64_t out;
    tawqeshim_implied_demand(1, &d, 1, &production, 1, &out, 1, &number, &place);
}

static void induce(uint64_t share, uint64_t final_demand) {
    uint64_t a = 0, v = 0, production = 0, value, imports;
    tawqeshim_induced(1, &a, 1, &share, 1, &v, 1, &final_demand, 1, &production, 1, &value, 1, &imports, 1, &number, &place);
}

/* One sector: its a, v, m, d and f. */
static uint64_t sheet_cells[5];
static void fill(uint64_t x, uint64_t final_demand, uint64_t exports, uint64_t imports, uint64_t value_added, uint64_t production,
                 uint64_t adjustment) {
    uint64_t *c = sheet_cells;
    c[0] = c[1] = c[2] = c[3] = c[4] = 7;
    tawqeshim_coefficients(1, &x, 1, &final_demand, 1, &exports, 1, &imports, 1, &value_added, 1, &production, 1, &adjustment, 1,
                           &c[0], 1, &c[1], 1, &c[2], 1, &c[3], 1, &c[4], 1, &number, &place);
}

/* One sector with exports and an adjustment alone. What production leaves of the two is imported. */
static void adjust(uint64_t exports, uint64_t adjustment) {
    uint64_t imports = 0, production = exports + adjustment;
    if (production > TAWQESHIM_AMOUNT_LIMIT) {
        imports = production - TAWQESHIM_AMOUNT_LIMIT;
        production = TAWQESHIM_AMOUNT_LIMIT;
    }
    fill(0, 0, exports, imports, production, production, adjustment);
}

static int sheets_are(uint64_t a, uint64_t v, uint64_t m, uint64_t d, uint64_t f) {
    const uint64_t *c = sheet_cells;
    return c[0] == a && c[1] == v && c[2] == m && c[3] == d && c[4] == f;
}

/* a, v and m to the nearest millionth, halves upward; d and f rounded down. */
static void nearest(void) {
    const uint64_t limit = TAWQESHIM_AMOUNT_LIMIT;
    fill(2, 1, 2, 2, 1, 3, 0);
    answers(TAWQESHIM_ACCEPTED, 0, "2 in 3");
    expect(sheets_are(666667, 333333, 666667, 222222, 2), "2 in 3 or 1 in 3 is not the nearest");
    fill(1, 1999999, 1, 1, 1999999, 2000000, 0);
    answers(TAWQESHIM_ACCEPTED, 0, "1 in 2,000,000");
    expect(sheets_are(1, 1000000, 1, 0, 1999998), "a half is not rounded upward");
    fill(1, 2000000, 1, 1, 2000000, 2000001, 0);
    expect(sheets_are(0, 1000000, 0, 0, 2000001), "less than a half is rounded upward");
    fill(500, limit - 500, 500, 500, limit - 500, limit, 0);
    expect(sheets_are(1, 1000000, 1, 0, 999999000), "a half of amounts at their limit");
    fill(950300, 49000, 1015, 315, 49700, 1000000, 0);
    expect(sheets_are(950300, 49700, 315, 950000, 49999), "d or f is not rounded down");
    fill(1900002, 99998, 1, 1, 99998, 2000000, 0);
    expect(sheets_are(950001, 49999, 1, 950000, 99998), "d or f is not by one less the rounded m");

    /* Near the limit of a column sum: 950,000.54 is over it; with an import share of 104.69, which is 105, the sum is within it. */
    fill(88161, 4640, 0, 0, 4640, 92801, 0);
    answers(TAWQESHIM_REFUSED_COLUMN_SUM, 0, "a column sum that is rounded over its limit");
    expect(sheets_are(0, 0, 0, 0, 0), "a sheet that is refused with 7 is not 0");
    fill(9501000, 500047, 0, 1047, 499000, 10000000, 0);
    answers(TAWQESHIM_ACCEPTED, 0, "a column sum within its limit by a rounded import share");
    expect(sheets_are(950100, 49900, 105, 950000, 499994), "the sheets of a column sum at its limit");
}

static void limits(void) {
    const uint64_t limit = TAWQESHIM_AMOUNT_LIMIT;
    adjust(limit - 1, 1);
    answers(TAWQESHIM_ACCEPTED, 0, "exports and adjustment at their limit");
    expect(sheets_are(0, TAWQESHIM_ONE, 0, 0, limit), "the adjustment is not whole in the demand");
    adjust(0, limit);
    answers(TAWQESHIM_ACCEPTED, 0, "an adjustment at its limit");
    adjust(limit, 1);
    answers(TAWQESHIM_REFUSED_EXPORTS, 0, "exports and adjustment over their limit");
    expect(sheets_are(0, 0, 0, 0, 0), "a sheet that is refused with 16 is not 0");
    adjust(0, limit + 1);
    answers(TAWQESHIM_REFUSED_AMOUNT, 6, "an adjustment over its limit");
    produce(TAWQESHIM_COLUMN_LIMIT, 1);
    answers(TAWQESHIM_ACCEPTED, 0, "a column sum at its limit");
    produce(TAWQESHIM_COLUMN_LIMIT + 1, 1);
    answers(TAWQESHIM_REFUSED_COLUMN_SUM, 0, "a column sum over its limit");
    produce(0, TAWQESHIM_DEMAND_LIMIT);
    answers(TAWQESHIM_ACCEPTED, 0, "a demand at its limit");
    produce(0, TAWQESHIM_DEMAND_LIMIT + 1);
    answers(TAWQESHIM_REFUSED_LIMIT, 0, "a demand over its limit");
    expect(add(1, 2) == 20 && rounds == 20, "a rise at a column sum's limit");
    answers(TAWQESHIM_ACCEPTED, 0, "a scheme");
    expect(add(0, TAWQESHIM_DEMAND_LIMIT) > TAWQESHIM_DEMAND_LIMIT, "a rise below what was added");
    answers(TAWQESHIM_ACCEPTED, 0, "a second demand at its limit");
    expect(add(TAWQESHIM_DEMAND_LIMIT, TAWQESHIM_DEMAND_LIMIT) == 0, "a rise without a scheme");
    answers(TAWQESHIM_ACCEPTED, 0, "both demands at their limit");
    expect(add(0, TAWQESHIM_DEMAND_LIMIT + 1) == 0 && rounds == 0, "a scheme that is refused with 8 is not 0");
    answers(TAWQESHIM_REFUSED_LIMIT, 0, "a second demand over its limit");
    expect(add(TAWQESHIM_DEMAND_LIMIT + 1, 0) == 0, "a scheme that is refused with 8 is not 0");
    answers(TAWQESHIM_REFUSED_LIMIT, 0, "a first demand over its limit");
    expect(add(2, 1) == 0 && rounds == 0, "a scheme that is refused with 17 is not 0");
    answers(TAWQESHIM_REFUSED_LOWER_DEMAND, 0, "a second demand below the first");
    rise(TAWQESHIM_RISE_LIMIT);
    answers(TAWQESHIM_ACCEPTED, 0, "a rise at its limit");
    rise(TAWQESHIM_RISE_LIMIT + 1);
    answers(TAWQESHIM_REFUSED_LIMIT, 0, "a rise over its limit");
    imply(TAWQESHIM_PRODUCTION_LIMIT);
    answers(TAWQESHIM_ACCEPTED, 0, "a production at its limit");
    imply(TAWQESHIM_PRODUCTION_LIMIT + 1);
    answers(TAWQESHIM_REFUSED_LIMIT, 0, "a production over its limit");
    induce(TAWQESHIM_SHARE_LIMIT, TAWQESHIM_AMOUNT_LIMIT);
    answers(TAWQESHIM_ACCEPTED, 0, "a share and an amount at their limits");
    induce(TAWQESHIM_ONE + 1, 0);
    answers(TAWQESHIM_REFUSED_AMOUNT, 1, "a share over its limit");
    induce(0, TAWQESHIM_AMOUNT_LIMIT + 1);
    answers(TAWQESHIM_REFUSED_AMOUNT, 3, "an amount over its limit");
}

/* The demand of two sectors for domestic goods, from m, final demand, exports and adjustment, into so many cells. */
static uint64_t demanded[4];
static void demand(uint64_t inputs[4][2], size_t lent) {
    memset(demanded, 7, sizeof demanded);
    tawqeshim_domestic_demand(2, inputs[0], 2, inputs[1], 2, inputs[2], 2, inputs[3], 2, demanded, lent, &number, &place);
}

/* These two cells, and nothing else. */
static int demand_is(uint64_t first, uint64_t second) {
    return demanded[0] == first && demanded[1] == second && demanded[2] == demanded[3] && demanded[2] != 0;
}

/* Everything lent is 0, and nothing else. */
static int nothing_demanded(size_t lent) {
    for (size_t i = 0; i < 4; i++)
        if ((demanded[i] == 0) != (i < lent))
            return 0;
    return 1;
}

static void demands(void) {
    const uint64_t limit = TAWQESHIM_AMOUNT_LIMIT;
    uint64_t worked[4][2] = {{250000, 200000}, {500, 900}, {250, 560}, {0, 0}};
    demand(worked, 2);
    answers(TAWQESHIM_ACCEPTED, 0, "the worked final demand");
    expect(demand_is(625, 1280), "the worked demand");
    worked[1][0] = 600;
    demand(worked, 2);
    answers(TAWQESHIM_ACCEPTED, 0, "a final demand with a scheme");
    expect(demand_is(700, 1280), "the demand with a scheme");
    worked[1][0] = 501;
    worked[3][1] = 90;
    demand(worked, 2);
    expect(demand_is(625, 1370), "a demand is not rounded down, or the adjustment is not whole in it");

    uint64_t most[4][2] = {{0, TAWQESHIM_SHARE_LIMIT}, {limit, limit}, {limit, 1}, {0, limit - 1}};
    demand(most, 2);
    answers(TAWQESHIM_ACCEPTED, 0, "shares and amounts of a demand at their limits");
    expect(demand_is(TAWQESHIM_DEMAND_LIMIT, limit), "the largest demand, and one of a sector that imports all it needs");
    produce(TAWQESHIM_COLUMN_LIMIT, demanded[0]);
    answers(TAWQESHIM_ACCEPTED, 0, "production from the largest demand");

    for (size_t k = 0; k < 8; k++) {
        uint64_t over[4][2] = {{250000, 200000}, {500, 900}, {250, 560}, {0, 0}};
        over[k / 2][k % 2] = k < 2 ? TAWQESHIM_SHARE_LIMIT + 1 : limit + 1;
        demand(over, 2);
        answers(TAWQESHIM_REFUSED_AMOUNT, k, "a share or an amount of a demand over its limit");
        expect(nothing_demanded(2), "a demand that is refused with 3 is not 0");
    }
    most[3][1] = limit;
    demand(most, 2);
    answers(TAWQESHIM_REFUSED_EXPORTS, 1, "exports and adjustment of a demand over their limit");
    expect(nothing_demanded(2), "a demand that is refused with 16 is not 0");
    most[3][0] = 1;
    demand(most, 2);
    answers(TAWQESHIM_REFUSED_EXPORTS, 0, "exports and adjustment over their limit in both sectors");
    most[1][1] = limit + 1;
    demand(most, 2);
    answers(TAWQESHIM_REFUSED_AMOUNT, 3, "a final demand over its limit, and exports and adjustment over theirs");
    for (size_t lent = 0; lent <= 4; lent++) {
        if (lent == 2)
            continue;
        demand(worked, lent);
        answers(TAWQESHIM_REFUSED_LENGTH, 0, "a demand into another length");
        expect(nothing_demanded(lent), "a demand that is refused with 2 is not 0");
    }
}

/* What a production of two sectors leaves for demand on the worked sheet, in so many cells. */
static int64_t left[4];
static void leave(uint64_t first, uint64_t second, size_t lent) {
    const uint64_t d[4] = {75000, 150000, 240000, 240000};
    const uint64_t production[2] = {first, second};
    memset(left, 0x87, sizeof left);
    tawqeshim_implied_demand(2, d, 4, production, 2, left, lent, &number, &place);
}

/* So many cells are these, and nothing else is written. */
static int left_is(int64_t first, int64_t second, size_t lent) {
    const int64_t cells[4] = {first, second, 0, 0};
    int64_t untouched;
    memset(&untouched, 0x87, sizeof untouched);
    for (size_t i = 0; i < 4; i++)
        if (left[i] != (i < lent ? cells[i] : untouched))
            return 0;
    return 1;
}

static void shortages(void) {
    leave(999, 1999, 2);
    answers(TAWQESHIM_ACCEPTED, 0, "a settled production");
    expect(left_is(625, 1280, 2), "the demand behind a settled production");
    leave(0, 1000, 2);
    answers(TAWQESHIM_ACCEPTED, 0, "a production that leaves a shortage");
    expect(left_is(-150, 760, 2), "the demand with a shortage");
    leave(0, 1001, 2);
    expect(left_is(-150, 761, 2), "what industry takes of a short sector is not rounded down");
    leave(0, TAWQESHIM_PRODUCTION_LIMIT + 1, 2);
    answers(TAWQESHIM_REFUSED_LIMIT, 1, "a production over its limit that leaves a shortage");
    expect(left_is(0, 0, 2), "a demand that is refused with 8 is not 0");
    for (size_t lent = 0; lent <= 4; lent++) {
        if (lent == 2)
            continue;
        leave(0, 1000, lent);
        answers(TAWQESHIM_REFUSED_LENGTH, 0, "a demand behind a production into another length");
        expect(left_is(0, 0, lent), "a demand behind a production that is refused with 2 is not 0");
    }
}

/* Two sectors, of whose goods this is made and used, merged into g groups. So many cells are lent for x, and for the rest. */
static uint64_t merged[8][10];
static void merge(uint64_t first, uint64_t second, const uint64_t *groups, size_t g, size_t cells, size_t rest) {
    const uint64_t x[4] = {0, 0, 0, 0}, none[2] = {0, 0};
    const uint64_t amounts[2] = {first, second};
    memset(merged, 7, sizeof merged);
    tawqeshim_aggregate(2, x, 4, amounts, 2, none, 2, none, 2, amounts, 2, amounts, 2, none, 2, groups, g, merged[0], cells,
                        merged[1], rest, merged[2], rest, merged[3], rest, merged[4], rest, merged[5], rest, merged[6], rest,
                        merged[7], rest, &number, &place);
}

/* Everything lent is 0, and nothing else. */
static int nothing_merged(size_t cells, size_t rest) {
    for (size_t k = 0; k < 8; k++)
        for (size_t i = 0; i < 10; i++)
            if ((merged[k][i] == 0) != (i < (k == 0 ? cells : rest)))
                return 0;
    return 1;
}

static void merging(void) {
    const uint64_t limit = TAWQESHIM_AMOUNT_LIMIT, high = (uint64_t)1 << 63;
    const uint64_t both[1] = {3}, backwards[2] = {2, 1};
    merge(limit - 1, 1, both, 1, 1, 1);
    answers(TAWQESHIM_ACCEPTED, 0, "merged amounts at their limit");
    expect(merged[0][0] == 0 && merged[1][0] == limit && merged[4][0] == limit && merged[5][0] == limit && merged[7][0] == 2,
           "two sectors merged");
    merge(5, 9, backwards, 2, 4, 2);
    answers(TAWQESHIM_ACCEPTED, 0, "single sectors");
    expect(merged[1][0] == 9 && merged[1][1] == 5 && merged[7][0] == 1 && merged[7][1] == 1, "single sectors backwards");
    merge(limit - 1, 2, both, 1, 1, 1);
    answers(TAWQESHIM_REFUSED_MERGED_AMOUNT, 0, "merged amounts over their limit");
    expect(nothing_merged(1, 1), "a merging that is refused with 19 is not 0");

    const uint64_t wrong[8][2] = {{3, 2}, {1, 1}, {3, 0}, {0, 3}, {1, 6}, {1, 4}, {1, 2 | high}, {high, 3}};
    for (size_t k = 0; k < 8; k++) {
        merge(limit, limit, wrong[k], 2, 4, 2);
        answers(TAWQESHIM_REFUSED_GROUPS, 0, "groups with a sector twice or not at all, without one, or with a bit at n or above");
        expect(nothing_merged(4, 2), "a merging that is refused with 18 is not 0");
    }
    const uint64_t groups[3] = {1, 2, 0};
    for (size_t g = 0; g <= 3; g += 3) {
        merge(5, 9, groups, g, g * g, g);
        answers(TAWQESHIM_REFUSED_LENGTH, 0, "no groups, or more than sectors");
        expect(nothing_merged(g * g, g), "a merging that is refused with 2 is not 0");
    }
    merge(5, 9, groups, 2, 3, 2);
    answers(TAWQESHIM_REFUSED_LENGTH, 0, "a cell of the merged x less");
    merge(5, 9, groups, 2, 4, 3);
    answers(TAWQESHIM_REFUSED_LENGTH, 0, "a cell of each merged column more");
    expect(nothing_merged(4, 3), "a merging into other lengths is not 0");
    merge(limit + 1, limit + 1, wrong[0], 2, 4, 2);
    answers(TAWQESHIM_REFUSED_AMOUNT, 4, "an amount over its limit, with groups that are wrong");
}

/* A table of n sectors by a list of so many entries. So many cells are lent for x, for each column, and for the inverse list. */
static uint64_t permuted[8][11];
static const size_t lent_for_three[8] = {9, 3, 3, 3, 3, 3, 3, 3};
static void permute(size_t n, uint64_t (*table)[9], const uint64_t *order, size_t entries, const size_t *lent) {
    uint64_t (*const t)[9] = table, (*const p)[11] = permuted;
    memset(permuted, 7, sizeof permuted);
    tawqeshim_permute(n, t[0], n * n, t[1], n, t[2], n, t[3], n, t[4], n, t[5], n, t[6], n, order, entries, p[0], lent[0], p[1], lent[1],
                      p[2], lent[2], p[3], lent[3], p[4], lent[4], p[5], lent[5], p[6], lent[6], p[7], lent[7], &number, &place);
}

/* These cells of three sectors and this inverse list, and nothing else is written. */
static int permuted_is(uint64_t (*table)[9], const uint64_t *list) {
    uint64_t untouched;
    memset(&untouched, 7, sizeof untouched);
    for (size_t k = 0; k < 8; k++)
        for (size_t i = 0; i < 11; i++)
            if (permuted[k][i] != (i >= lent_for_three[k] ? untouched : k == 7 ? list[i] : table[k][i]))
                return 0;
    return 1;
}

/* Everything lent is 0, and nothing else. */
static int nothing_permuted(const size_t *lent) {
    for (size_t k = 0; k < 8; k++)
        for (size_t i = 0; i < 11; i++)
            if ((permuted[k][i] == 0) != (i < lent[k]))
                return 0;
    return 1;
}

static void ordering(void) {
    const uint64_t limit = TAWQESHIM_AMOUNT_LIMIT;
    const uint64_t same[3] = {0, 1, 2}, there[4] = {1, 2, 0, 3}, back[3] = {2, 0, 1};
    /* In row 2 and column 3 of x, counted from 1, is 23, and so on; then the columns. Neither rows nor columns balance. */
    uint64_t three[7][9] = {{11, 12, 13, 21, 22, 23, 31, 32, 33}, {41, 42, 43}, {51, 52, 53}, {61, 62, 63}, {71, 72, 73}, {81, 82, 83},
                            {91, 92, 93}};
    uint64_t turned[7][9] = {{22, 23, 21, 32, 33, 31, 12, 13, 11}, {42, 43, 41}, {52, 53, 51}, {62, 63, 61}, {72, 73, 71}, {82, 83, 81},
                             {92, 93, 91}};
    permute(3, three, there, 3, lent_for_three);
    answers(TAWQESHIM_ACCEPTED, 0, "three sectors in another order");
    expect(permuted_is(turned, back), "a cell in another order, or an entry of the inverse list");
    permute(3, turned, back, 3, lent_for_three);
    answers(TAWQESHIM_ACCEPTED, 0, "three sectors by the inverse list");
    expect(permuted_is(three, there), "by the inverse list another table or another list comes back");
    permute(3, three, same, 3, lent_for_three);
    answers(TAWQESHIM_ACCEPTED, 0, "three sectors in their own order");
    expect(permuted_is(three, same), "a cell in its own order");

    /* The first entry that is not below n, or repeats an earlier one; its place is after the list. */
    const uint64_t wrong[12][4] = {{3, 0, 1, 0}, {0, 3, 1, 1}, {0, 1, 3, 2}, {UINT64_MAX, 0, 1, 0}, {1, 2, UINT64_MAX, 2}, {0, 0, 1, 1},
                                   {1, 2, 1, 2}, {0, 2, 2, 2}, {1, 1, 1, 1}, {2, 2, UINT64_MAX, 1}, {0, 3, 0, 1},
                                   {0, 1, ((uint64_t)1 << 32) + 2, 2}};
    for (size_t k = 0; k < 12; k++) {
        permute(3, three, wrong[k], 3, lent_for_three);
        answers(TAWQESHIM_REFUSED_ORDER, (size_t)wrong[k][3], "an entry that is not below n, or repeats an earlier one");
        expect(nothing_permuted(lent_for_three), "an order that is refused with 20 is not 0");
    }

    /* Exports and adjustment both at their limit, which 16 would refuse; then, from the last column to x, an amount over it. */
    for (size_t k = 0; k < 7; k++)
        for (size_t i = 0; i < 9; i++)
            three[k][i] = limit;
    permute(3, three, there, 3, lent_for_three);
    answers(TAWQESHIM_ACCEPTED, 0, "amounts at their limit in another order");
    expect(permuted_is(three, back), "a cell at its limit in another order");
    for (size_t k = 7; k-- > 0;) {
        three[k][k == 0 ? 8 : 2] = limit + 1;
        permute(3, three, wrong[0], 3, lent_for_three);
        answers(TAWQESHIM_REFUSED_AMOUNT, 9 + 3 * k - 1, "an amount over its limit, with a list that is wrong");
        expect(nothing_permuted(lent_for_three), "an order that is refused with 3 is not 0");
    }

    /* Cells of x, of each column and of the inverse list, and last the entries: one less, and one more. */
    for (size_t k = 0; k < 9; k++)
        for (size_t more = 0; more <= 2; more += 2) {
            size_t lengths[9] = {9, 3, 3, 3, 3, 3, 3, 3, 3};
            lengths[k] += more - 1;
            permute(3, turned, there, lengths[8], lengths);
            answers(TAWQESHIM_REFUSED_LENGTH, 0, "a list, or a table in another order, of another length");
            expect(nothing_permuted(lengths), "an order that is refused with 2 is not 0");
            permute(3, three, wrong[0], lengths[8], lengths);
            answers(TAWQESHIM_REFUSED_LENGTH, 0, "another length, with an amount over its limit and a list that is wrong");
        }
    permute(0, turned, wrong[0], 3, lent_for_three);
    answers(TAWQESHIM_REFUSED_SIZE, 0, "no sectors in another order");
    expect(nothing_permuted(lent_for_three), "an order that is refused with 1 is not 0");
}

static uint64_t sheet[TAWQESHIM_CELLS + 1], inverse[TAWQESHIM_CELLS + 1];
static uint64_t columns[7][TAWQESHIM_SECTORS + 1], marks[TAWQESHIM_MARKS + 1];
static uint8_t file[TAWQESHIM_FILE_READ + 1], archive[TAWQESHIM_FILE + 2], page[TAWQESHIM_PAGE + 1];
static size_t count;

static void invert(size_t n) {
    memset(sheet, 0, sizeof sheet);
    tawqeshim_inverse(n, sheet, n * n <= TAWQESHIM_CELLS ? n * n : 0, 1, inverse, n * n <= TAWQESHIM_CELLS ? n * n : 0, columns[0], n,
                      columns[1], n, &number, &place, &rounds);
}

static void read_file(size_t length, size_t cells, size_t sectors, size_t words) {
    size_t n, named;
    tawqeshim_read_table(file, length, sheet, cells, columns[0], sectors, columns[1], sectors, columns[2], sectors, columns[3], sectors,
                         columns[4], sectors, columns[5], sectors, columns[6], sectors, marks, words, &number, &place, &n, &named);
}

/* The longest file: every cell of 40 sectors, all 0. */
static size_t longest_file(void) {
    static const uint8_t kinds[7] = {3, 4, 5, 6, 7, 9, 10};
    size_t at = 0;
    file[at++] = 1;
    file[at++] = TAWQESHIM_SECTORS;
    for (uint8_t i = 1; i <= TAWQESHIM_SECTORS; i++)
        for (uint8_t j = 1; j <= TAWQESHIM_SECTORS; j++, at += 7) {
            file[at] = 2;
            file[at + 1] = i;
            file[at + 2] = j;
        }
    for (size_t k = 0; k < 7; k++)
        for (uint8_t i = 1; i <= TAWQESHIM_SECTORS; i++, at += 6) {
            file[at] = kinds[k];
            file[at + 1] = i;
        }
    file[at++] = 8;
    return at;
}

/* A table with this amount in every cell, and this one in the last rise, into so many bytes; the rises are the last column. */
static void write_file(size_t n, uint64_t amount, uint64_t last, size_t length) {
    size_t cells = n * n <= TAWQESHIM_CELLS ? n * n : 0;
    for (size_t k = 0; k < cells; k++)
        sheet[k] = amount;
    for (size_t k = 0; k < 7; k++)
        for (size_t i = 0; i < n; i++)
            columns[k][i] = amount;
    columns[6][n - 1] = last;
    memset(archive, 7, sizeof archive);
    count = 7;
    tawqeshim_write_table(n, sheet, cells, columns[0], n, columns[1], n, columns[2], n, columns[3], n, columns[4], n, columns[5], n,
                          columns[6], n, archive, length, &number, &place, &count);
}

/* A refused file: nothing but zeros, as far as it was lent. */
static int is_refused(size_t length) {
    for (size_t k = 0; k < length; k++)
        if (archive[k] != 0)
            return 0;
    return count == 0 && archive[length] == 7;
}

static void files(void) {
    const uint64_t limit = TAWQESHIM_AMOUNT_LIMIT;
    static const uint8_t first[9] = {1, 40, 2, 1, 1, 0x3b, 0x9a, 0xca, 0x00}, rise[6] = {9, 40, 0, 0, 0, 1};
    static const uint8_t end[7] = {10, 40, 0x3b, 0x9a, 0xca, 0x00, 8};
    write_file(TAWQESHIM_SECTORS, limit, 1, TAWQESHIM_FILE);
    answers(TAWQESHIM_ACCEPTED, 0, "a table of the most sectors, with amounts at their limit");
    expect(count == TAWQESHIM_FILE, "a table without a zero is not the longest file");
    expect(memcmp(archive, first, 9) == 0 && memcmp(archive + count - 7, end, 7) == 0, "the longest file's first cell or its end");
    expect(memcmp(archive + count - 1 - 41 * 6, rise, 6) == 0, "the last rise is not before the adjustment");
    expect(archive[TAWQESHIM_FILE] == 7, "a byte beyond a file changed");
    write_file(1, 0, 0, TAWQESHIM_FILE);
    answers(TAWQESHIM_ACCEPTED, 0, "a table of zeros");
    expect(count == 3 && memcmp(archive, "\1\1\10", 4) == 0 && archive[TAWQESHIM_FILE - 1] == 0, "the file of zeros");

    write_file(TAWQESHIM_SECTORS, limit, limit + 1, TAWQESHIM_FILE);
    answers(TAWQESHIM_REFUSED_AMOUNT, 40 * 40 + 6 * 40 + 39, "a rise over its limit");
    expect(is_refused(TAWQESHIM_FILE), "a file that is refused with 3 is not 0");
    write_file(TAWQESHIM_SECTORS + 1, 0, 0, TAWQESHIM_FILE);
    answers(TAWQESHIM_REFUSED_SIZE, 0, "a table of a sector more than the most");
    expect(is_refused(TAWQESHIM_FILE), "a file that is refused with 1 is not 0");
    for (size_t other = TAWQESHIM_FILE - 1; other <= TAWQESHIM_FILE + 1; other += 2) {
        write_file(1, 1, 1, other);
        answers(TAWQESHIM_REFUSED_LENGTH, 0, "a file's bytes of another length");
        expect(is_refused(other), "a file that is refused with 2 is not 0");
    }
}

static void sizes(void) {
    invert(TAWQESHIM_SECTORS);
    answers(TAWQESHIM_ACCEPTED, 0, "the most sectors");
    invert(TAWQESHIM_SECTORS + 1);
    answers(TAWQESHIM_REFUSED_SIZE, 0, "a sector more than the most");
    expect(TAWQESHIM_CELLS == TAWQESHIM_SECTORS * TAWQESHIM_SECTORS, "the cells of the most sectors");

    size_t length = longest_file();
    expect(length == TAWQESHIM_FILE, "the longest file has another length");
    read_file(length, TAWQESHIM_CELLS, TAWQESHIM_SECTORS, TAWQESHIM_MARKS);
    answers(TAWQESHIM_ACCEPTED, 0, "the longest file");
    read_file(length, TAWQESHIM_CELLS + 1, TAWQESHIM_SECTORS, TAWQESHIM_MARKS);
    answers(TAWQESHIM_REFUSED_LENGTH, 0, "a cell of x more");
    read_file(length, TAWQESHIM_CELLS, TAWQESHIM_SECTORS + 1, TAWQESHIM_MARKS);
    answers(TAWQESHIM_REFUSED_LENGTH, 0, "a cell of each column more");
    read_file(length, TAWQESHIM_CELLS, TAWQESHIM_SECTORS, TAWQESHIM_MARKS + 1);
    answers(TAWQESHIM_REFUSED_LENGTH, 0, "a work word more");
    read_file(length + 1, TAWQESHIM_CELLS, TAWQESHIM_SECTORS, TAWQESHIM_MARKS);
    answers(TAWQESHIM_REFUSED_END, length, "a byte after the longest file");
    /* In place of the end the first cell once more, and a byte after it. */
    memcpy(file + length - 1, file + 2, 7);
    for (size_t longer = TAWQESHIM_FILE_READ; longer <= TAWQESHIM_FILE_READ + 1; longer++) {
        read_file(longer, TAWQESHIM_CELLS, TAWQESHIM_SECTORS, TAWQESHIM_MARKS);
        answers(TAWQESHIM_REFUSED_SECOND_NAMING, length - 1, "an input that is longer than any file");
    }

    size_t written = 7;
    memset(page, 7, sizeof page);
    tawqeshim_page(file, 0, page, TAWQESHIM_PAGE, &number, &place, &written);
    answers(TAWQESHIM_ACCEPTED, 0, "a page");
    expect(written == 13 && memcmp(page, "refused 15 0\n", 14) == 0 && page[TAWQESHIM_PAGE - 1] == 0, "the page of the empty file");
    expect(page[TAWQESHIM_PAGE] == 7, "a byte beyond a page changed");
    for (size_t other = TAWQESHIM_PAGE - 1; other <= TAWQESHIM_PAGE + 1; other += 2) {
        tawqeshim_page(file, 0, page, other, &number, &place, &written);
        answers(TAWQESHIM_REFUSED_LENGTH, 0, "a page's buffer of another length");
        expect(written == 0 && page[0] == 0 && page[other - 1] == 0, "a refused page is not 0");
    }
}

/* The worked table by names gives what it gives by order. */
static void by_names(void) {
    const uint64_t flows[4] = {100, 400, 300, 600}, settled[2] = {999, 1999};
    const uint64_t columns_of[6][2] = {{500, 900}, {250, 560}, {250, 360}, {600, 1000}, {1000, 2000}, {0, 0}};
    struct tawqeshim_table table = {flows, columns_of[0], columns_of[1], columns_of[2], columns_of[3], columns_of[4], columns_of[5]};
    uint64_t a[4], v[2], m[2], d[4], f[2], value[2], imports[2];
    const struct tawqeshim_sheets sheets = {a, v, m, d, f};
    tawqeshim_table_sheets(2, &table, &sheets, &number, &place);
    answers(TAWQESHIM_ACCEPTED, 0, "the worked table");
    expect(v[0] == 600000 && m[0] == 250000 && d[1] == 150000 && f[1] == 1280, "the worked table's sheets");
    tawqeshim_sheets_induced(2, &sheets, columns_of[0], settled, value, imports, &number, &place);
    answers(TAWQESHIM_ACCEPTED, 0, "the worked production");
    expect(value[0] == 599 && value[1] == 999 && imports[0] == 249 && imports[1] == 359, "the worked table's induced amounts");

    const uint64_t with_scheme[2] = {600, 900}, over[2] = {600, TAWQESHIM_AMOUNT_LIMIT + 1};
    uint64_t after[2], out[2], work[2];
    tawqeshim_table_demand(2, &table, &sheets, columns_of[0], after, &number, &place);
    answers(TAWQESHIM_ACCEPTED, 0, "the worked table's own final demand");
    expect(after[0] == f[0] && after[1] == f[1], "the demand of the worked table's own final demand");
    tawqeshim_table_demand(2, &table, &sheets, with_scheme, after, &number, &place);
    answers(TAWQESHIM_ACCEPTED, 0, "the worked table's final demand with a scheme");
    expect(after[0] == 700 && after[1] == 1280, "the worked table's demand with a scheme");
    tawqeshim_impact(2, d, 4, f, 2, after, 2, TAWQESHIM_PRODUCTION_BUDGET, out, 2, work, 2, &number, &place, &rounds);
    answers(TAWQESHIM_ACCEPTED, 0, "what a final demand with a scheme adds");
    expect(out[0] == 86 && out[1] == 27, "what a final demand with a scheme adds to the worked production");
    tawqeshim_table_demand(2, &table, &sheets, over, after, &number, &place);
    answers(TAWQESHIM_REFUSED_AMOUNT, 3, "a final demand over its limit");
    expect(after[0] == 0 && after[1] == 0, "the demand of a final demand over its limit is not 0");

    const uint64_t more[2] = {f[0] + 10, f[1]}, less[2] = {f[0] + 10, f[1] - 1};
    tawqeshim_impact(2, d, 4, f, 2, more, 2, 10, out, 2, work, 2, &number, &place, &rounds);
    answers(TAWQESHIM_ACCEPTED, 0, "a scheme for the worked table");
    expect(out[0] == 12 && out[1] == 4 && rounds == 10, "what a scheme adds to the worked production");
    tawqeshim_impact(2, d, 4, f, 2, more, 2, 9, out, 2, work, 2, &number, &place, &rounds);
    answers(TAWQESHIM_REFUSED_ROUNDS, 0, "a scheme that does not settle");
    tawqeshim_impact(2, d, 4, f, 2, less, 2, 0, out, 2, work, 2, &number, &place, &rounds);
    answers(TAWQESHIM_REFUSED_LOWER_DEMAND, 1, "a scheme that takes a unit away");

    static const char printed[] = "sector demand production value imports\n1 625 999 599 249\n2 1280 1999 999 359\nrounds 9\n";
    const uint64_t rises[2] = {0, 0};
    tawqeshim_table_file(2, &table, rises, archive, &number, &place, &count);
    answers(TAWQESHIM_ACCEPTED, 0, "the worked table's file");
    expect(count == 91 && archive[90] == 8 && archive[91] == 0, "the worked file's length");
    tawqeshim_page(archive, count, page, TAWQESHIM_PAGE, &number, &place, &count);
    expect(count == strlen(printed) && memcmp(page, printed, count) == 0, "the page of the worked table's file");

    /* With an adjustment, by which imports are higher. */
    const uint64_t adjustment[2] = {50, 90}, more_imports[2] = {300, 450};
    static const uint8_t end[13] = {10, 1, 0, 0, 0, 50, 10, 2, 0, 0, 0, 90, 8};
    table.adjustment = adjustment;
    tawqeshim_table_sheets(2, &table, &sheets, &number, &place);
    answers(TAWQESHIM_REFUSED_ROW_BALANCE, 0, "an adjustment without imports");
    table.imports = more_imports;
    tawqeshim_table_sheets(2, &table, &sheets, &number, &place);
    answers(TAWQESHIM_ACCEPTED, 0, "the table with an adjustment");
    expect(m[0] == 300000 && m[1] == 250000 && f[0] == 650 && f[1] == 1325, "the sheets of the table with an adjustment");
    tawqeshim_table_demand(2, &table, &sheets, with_scheme, after, &number, &place);
    answers(TAWQESHIM_ACCEPTED, 0, "a scheme for the table with an adjustment");
    expect(after[0] == 720 && after[1] == 1325, "the demand of the table with an adjustment and a scheme");
    tawqeshim_table_file(2, &table, rises, archive, &number, &place, &count);
    expect(count == 103 && memcmp(archive + 90, end, 13) == 0, "the file of the table with an adjustment");

    /* Both sectors of it merged, and the sheets of what that gives. */
    const uint64_t both[1] = {3};
    uint64_t one[8];
    const struct tawqeshim_merged in_one = {&one[0], &one[1], &one[2], &one[3], &one[4], &one[5], &one[6], &one[7]};
    tawqeshim_table_aggregate(2, &table, 1, both, &in_one, &number, &place);
    answers(TAWQESHIM_ACCEPTED, 0, "the table with an adjustment, merged");
    expect(one[0] == 1400 && one[1] == 1400 && one[2] == 810 && one[3] == 750, "merged flows, final demand, exports and imports");
    expect(one[4] == 1600 && one[5] == 3000 && one[6] == 140 && one[7] == 2, "merged value added, production, adjustment, and the size");
    const struct tawqeshim_table smaller = tawqeshim_merged_table(&in_one);
    tawqeshim_table_sheets(1, &smaller, &sheets, &number, &place);
    answers(TAWQESHIM_ACCEPTED, 0, "the sheets of a merged table");
    expect(a[0] == 466667 && v[0] == 533333 && m[0] == 267857 && d[0] == 341666 && f[0] == 1975, "the figures of a merged table");

    /* It in another order, its sheets and production there, and the way back to the same file. */
    const uint64_t order[2] = {1, 0}, twice[2] = {1, 1};
    uint64_t there[8][4], back[8][4];
    const struct tawqeshim_permuted turned = {there[0], there[1], there[2], there[3], there[4], there[5], there[6], there[7]};
    const struct tawqeshim_permuted returned = {back[0], back[1], back[2], back[3], back[4], back[5], back[6], back[7]};
    tawqeshim_table_permute(2, &table, order, &turned, &number, &place);
    answers(TAWQESHIM_ACCEPTED, 0, "the table with an adjustment in another order");
    static const uint64_t flows_there[4] = {600, 300, 400, 100};
    static const uint64_t columns_there[7][2] = {{900, 500}, {560, 250}, {450, 300}, {1000, 600}, {2000, 1000}, {90, 50}, {1, 0}};
    expect(memcmp(there[0], flows_there, sizeof flows_there) == 0, "flows in another order");
    for (size_t k = 0; k < 7; k++)
        expect(memcmp(there[k + 1], columns_there[k], sizeof columns_there[k]) == 0, "a column in another order, or the inverse list");
    const struct tawqeshim_table theirs = tawqeshim_permuted_table(&turned);
    tawqeshim_table_sheets(2, &theirs, &sheets, &number, &place);
    answers(TAWQESHIM_ACCEPTED, 0, "the sheets of a table in another order");
    expect(a[0] == 300000 && a[1] == 300000 && a[2] == 200000 && a[3] == 100000, "input coefficients in another order");
    expect(v[0] == 500000 && v[1] == 600000 && m[0] == 250000 && m[1] == 300000, "shares in another order");
    expect(d[0] == 225000 && d[1] == 225000 && d[2] == 140000 && d[3] == 70000, "domestic coefficients in another order");
    expect(f[0] == 1325 && f[1] == 650, "the demand in another order");
    tawqeshim_production(2, d, 4, f, 2, TAWQESHIM_PRODUCTION_BUDGET, out, 2, work, 2, &number, &place, &rounds);
    answers(TAWQESHIM_ACCEPTED, 0, "production in another order");
    expect(out[0] == 1999 && out[1] == 999 && rounds == 8, "production in another order, or its rounds");
    tawqeshim_table_permute(2, &theirs, turned.inverse, &returned, &number, &place);
    answers(TAWQESHIM_ACCEPTED, 0, "the table with an adjustment by the inverse list");
    expect(memcmp(back[7], order, sizeof order) == 0, "the inverse of the inverse list is not the list");
    const struct tawqeshim_table ours = tawqeshim_permuted_table(&returned);
    tawqeshim_table_file(2, &ours, rises, file, &number, &place, &count);
    answers(TAWQESHIM_ACCEPTED, 0, "the file after the way back");
    expect(count == 103 && memcmp(file, archive, TAWQESHIM_FILE) == 0, "the file after the way back is another");
    tawqeshim_table_permute(2, &table, twice, &turned, &number, &place);
    answers(TAWQESHIM_REFUSED_ORDER, 1, "a sector that comes to two places");
    expect(there[0][3] == 0 && there[1][0] == 0 && there[6][1] == 0 && there[7][0] == 0, "a refused order by names is not 0");

    size_t start, length;
    tawqeshim_row(2, flows, 4, 1, &start, &length);
    expect(start == 2 && length == 2, "a row");
    tawqeshim_row(2, flows, 4, 2, &start, &length);
    expect(start == 0 && length == 0, "a row that there is not");
}

int main(void) {
    expect(strcmp(tawqeshim_version, TAWQESHIM_VERSION) == 0, "the library is of another version");
    questions();
    limits();
    nearest();
    demands();
    shortages();
    merging();
    ordering();
    sizes();
    files();
    by_names();
    if (failures == 0)
        printf("header: constants, questions, rounding, demands, shortages, merging, order and names as the library has them\n");
    return failures != 0;
}
