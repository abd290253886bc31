/* A fuzz harness of the calls that take a table file or give one, the reader, the writer and the page: any bytes as a file, in slices full
   of junk. A refusal leaves every cell, byte and count at 0; the marks are 0 after every call, and so is every byte after a page or a
   written file; a file that the reader refuses prints that refusal, and one whose amounts questions 3 or 16 refuse prints theirs; the file
   is never changed; nothing is written beside a slice. What was read is written, unless question 3 refuses it; the written file is read as
   the same cells, and written again as the same bytes. */
#include <stddef.h>
#include <stdint.h>
#include <stdio.h>
#include <string.h>
#include <sys/mman.h>

#undef NDEBUG
#include <assert.h>

#include "tawqeshim.h"

#define SLICES 9
#define MARKS (SLICES - 1) /* the slice of the marks, after x and the columns */
#define GUARD 2
#define JUNK UINT64_C(0xa5c35a3c96f00f69)

static const size_t exact[SLICES] = {TAWQESHIM_CELLS,   TAWQESHIM_SECTORS, TAWQESHIM_SECTORS, TAWQESHIM_SECTORS,
                                     TAWQESHIM_SECTORS, TAWQESHIM_SECTORS, TAWQESHIM_SECTORS, TAWQESHIM_SECTORS,
                                     TAWQESHIM_MARKS};

/* What a call tells serves libFuzzer as coverage, since the library itself carries no counters. */
__attribute__((section("__libfuzzer_extra_counters"), used)) static volatile uint8_t
    told[(TAWQESHIM_QUESTIONS + 1) * 64 + 2048];

/* Room for a file, with a page behind it that cannot be read: a reading past the end stops here. */
#define ROOM (1 << 16)
static uint8_t *room(void) {
    static uint8_t *start;
    if (!start) {
        void *pages = mmap(0, 2 * ROOM, PROT_READ | PROT_WRITE, MAP_PRIVATE | MAP_ANONYMOUS, -1, 0);
        assert(pages != MAP_FAILED);
        start = pages;
        assert(mprotect(start + ROOM, ROOM, PROT_NONE) == 0);
    }
    return start;
}

static uint8_t one_call(const uint8_t *file, size_t length, const size_t lengths[SLICES], size_t *where) {
    static uint64_t cells[SLICES][TAWQESHIM_CELLS + 1 + 2 * GUARD];
    for (size_t s = 0; s < SLICES; s++)
        for (size_t k = 0; k < lengths[s] + 2 * GUARD; k++) cells[s][k] = JUNK;

    uint8_t *copy = room() + ROOM - length;
    if (length) memcpy(copy, file, length);

    uint8_t number = 0xa5;
    size_t place = SIZE_MAX, sectors = SIZE_MAX, named = SIZE_MAX;
#define SLICE(s) cells[s] + GUARD, lengths[s]
    tawqeshim_read_table(copy, length, SLICE(0), SLICE(1), SLICE(2), SLICE(3), SLICE(4), SLICE(5),
                         SLICE(6), SLICE(7), SLICE(8), &number, &place, &sectors, &named);

    assert(length == 0 || memcmp(copy, file, length) == 0);
    for (size_t s = 0; s < SLICES; s++)
        for (size_t k = 0; k < GUARD; k++) {
            assert(cells[s][k] == JUNK);
            assert(cells[s][GUARD + lengths[s] + k] == JUNK);
        }
    for (size_t k = 0; k < lengths[MARKS]; k++) assert(cells[MARKS][GUARD + k] == 0);

    int right = memcmp(lengths, exact, sizeof exact) == 0;
    assert(number == TAWQESHIM_ACCEPTED || number == TAWQESHIM_REFUSED_LENGTH ||
           (number >= TAWQESHIM_REFUSED_RECORD && number <= TAWQESHIM_REFUSED_END));
    assert((number == TAWQESHIM_REFUSED_LENGTH) == !right);
    if (number != 0) {
        assert(sectors == 0 && named == 0);
        assert(place <= length);
        assert(number != TAWQESHIM_REFUSED_LENGTH || place == 0);
        for (size_t s = 0; s < SLICES; s++)
            for (size_t k = 0; k < lengths[s]; k++) assert(cells[s][GUARD + k] == 0);
    } else {
        assert(place == 0);
        assert(sectors >= 1 && sectors <= TAWQESHIM_SECTORS);
        assert(named <= sectors * sectors + 7 * sectors);
        assert(length >= 3 + 6 * named && length <= TAWQESHIM_FILE);
        for (size_t s = 0; s < MARKS; s++) {
            size_t used = s == 0 ? sectors * sectors : sectors;
            for (size_t k = 0; k < lengths[s]; k++) {
                assert(cells[s][GUARD + k] <= UINT32_MAX);
                assert(k < used || cells[s][GUARD + k] == 0);
            }
        }
    }

    size_t deep = 0;
    for (size_t rest = place + 8 * named; rest > 0; rest -= (rest + 7) / 8) deep++;
    told[number * 64 + (deep < 64 ? deep : 63)] = 1;
    told[(TAWQESHIM_QUESTIONS + 1) * 64 + (named < 2048 ? named : 2047)] = 1;
    *where = place;
    return number;
}

/* The page of a file whose reading, or whose amounts, are refused with this number at this place, or with 0 are not. */
static void one_page(const uint8_t *file, size_t length, size_t out_length, uint8_t refusal, size_t refused_place) {
    static uint8_t bytes[TAWQESHIM_PAGE + 1 + 2 * GUARD];
    memset(bytes, (uint8_t)JUNK, sizeof bytes);
    uint8_t *copy = room() + ROOM - length, *out = bytes + GUARD;
    if (length) memcpy(copy, file, length);

    uint8_t number = 0xa5;
    size_t place = SIZE_MAX, count = SIZE_MAX;
    tawqeshim_page(copy, length, out, out_length, &number, &place, &count);

    assert(length == 0 || memcmp(copy, file, length) == 0);
    for (size_t k = 0; k < GUARD; k++) assert(bytes[k] == (uint8_t)JUNK && out[out_length + k] == (uint8_t)JUNK);
    assert(place == 0);
    if (out_length != TAWQESHIM_PAGE) {
        assert(number == TAWQESHIM_REFUSED_LENGTH && count == 0);
    } else {
        assert(number == TAWQESHIM_ACCEPTED && count >= 1 && count <= TAWQESHIM_PAGE);
        assert(memchr(out, 0, count) == NULL && out[count - 1] == '\n');
        char line[64];
        int written = snprintf(line, sizeof line, "refused %u %zu\n", refusal, refused_place);
        if (refusal != 0) assert(count == (size_t)written && memcmp(out, line, count) == 0);
    }
    for (size_t k = count; k < out_length; k++) assert(out[k] == 0);
}

/* A table as the reader leaves it: x, and the seven columns. */
struct table {
    size_t n, named;
    uint64_t cells[MARKS][TAWQESHIM_CELLS];
};

static size_t cells_of(const struct table *t, size_t s) {
    return s == 0 ? t->n * t->n : t->n;
}

static uint8_t read_into(const uint8_t *file, size_t length, struct table *t) {
    uint64_t marks[TAWQESHIM_MARKS];
    uint8_t number;
    size_t place;
#define COLUMN(s) t->cells[s], TAWQESHIM_SECTORS
    tawqeshim_read_table(file, length, t->cells[0], TAWQESHIM_CELLS, COLUMN(1), COLUMN(2), COLUMN(3), COLUMN(4), COLUMN(5), COLUMN(6),
                         COLUMN(7), marks, TAWQESHIM_MARKS, &number, &place, &t->n, &t->named);
    return number;
}

/* The place of the first cell over the limit in so many slices, or SIZE_MAX. */
static size_t first_over(const struct table *t, size_t slices) {
    size_t place = 0;
    for (size_t s = 0; s < slices; s++)
        for (size_t k = 0; k < cells_of(t, s); k++, place++)
            if (t->cells[s][k] > TAWQESHIM_AMOUNT_LIMIT) return place;
    return SIZE_MAX;
}

/* Questions 3 and 16 of the table in an accepted file, whose rises they do not ask about. */
static uint8_t ask_amounts(const uint8_t *file, size_t length, size_t *place) {
    static struct table t;
    assert(read_into(file, length, &t) == TAWQESHIM_ACCEPTED);
    *place = first_over(&t, MARKS - 1);
    if (*place != SIZE_MAX) return TAWQESHIM_REFUSED_AMOUNT;
    for (*place = 0; *place < t.n; ++*place)
        if (t.cells[2][*place] + t.cells[6][*place] > TAWQESHIM_AMOUNT_LIMIT) return TAWQESHIM_REFUSED_EXPORTS;
    return TAWQESHIM_ACCEPTED;
}

/* Writes a table into the bytes behind a guard, where one column may be a cell short. The number, and the file's length in *count. */
static uint8_t write_from(const struct table *t, size_t short_column, uint8_t *bytes, size_t out_length, size_t *count) {
    static struct table before;
    before = *t;
    memset(bytes, (uint8_t)JUNK, out_length + 2 * GUARD);
    uint8_t number = 0xa5, *out = bytes + GUARD;
    size_t place = SIZE_MAX;
    *count = SIZE_MAX;
#define GIVEN(s) t->cells[s], cells_of(t, s) - (s == short_column)
    tawqeshim_write_table(t->n, GIVEN(0), GIVEN(1), GIVEN(2), GIVEN(3), GIVEN(4), GIVEN(5), GIVEN(6), GIVEN(7), out, out_length,
                          &number, &place, count);

    assert(memcmp(&before, t, sizeof before) == 0);
    for (size_t k = 0; k < GUARD; k++) assert(bytes[k] == (uint8_t)JUNK && out[out_length + k] == (uint8_t)JUNK);
    size_t over = first_over(t, MARKS);
    if (short_column < MARKS || out_length != TAWQESHIM_FILE)
        assert(number == TAWQESHIM_REFUSED_LENGTH && place == 0 && *count == 0);
    else if (over != SIZE_MAX)
        assert(number == TAWQESHIM_REFUSED_AMOUNT && place == over && *count == 0);
    else
        assert(number == TAWQESHIM_ACCEPTED && place == 0 && *count >= 3 && *count <= TAWQESHIM_FILE && out[*count - 1] == 8);
    for (size_t k = *count; k < out_length; k++) assert(out[k] == 0);
    return number;
}

/* What was read from an accepted file, written; read from there, and written again. */
static void one_archive(const uint8_t *file, size_t length) {
    static struct table read, again;
    static uint8_t first[TAWQESHIM_FILE + 1 + 2 * GUARD], second[TAWQESHIM_FILE + 1 + 2 * GUARD];
    size_t count, second_count;
    assert(read_into(file, length, &read) == TAWQESHIM_ACCEPTED);
    /* Now and then a column is a cell short, or there is a byte too many or too few. */
    if (length % 8 == 7) {
        size_t column = file[length / 2] % (MARKS + 2);
        write_from(&read, column, first, column < MARKS ? TAWQESHIM_FILE : TAWQESHIM_FILE + (column == MARKS ? 1 : -1), &count);
    }
    if (write_from(&read, SIZE_MAX, first, TAWQESHIM_FILE, &count) != TAWQESHIM_ACCEPTED) return;
    assert(count <= length);
    assert(read_into(first + GUARD, count, &again) == TAWQESHIM_ACCEPTED);
    assert(again.n == read.n && again.named <= read.named);
    assert(memcmp(again.cells[0], read.cells[0], sizeof read.cells[0]) == 0);
    for (size_t s = 1; s < MARKS; s++) assert(memcmp(again.cells[s], read.cells[s], TAWQESHIM_SECTORS * sizeof read.cells[s][0]) == 0);
    assert(write_from(&again, SIZE_MAX, second, TAWQESHIM_FILE, &second_count) == TAWQESHIM_ACCEPTED);
    assert(second_count == count && memcmp(first + GUARD, second + GUARD, TAWQESHIM_FILE) == 0);
}

int LLVMFuzzerTestOneInput(const uint8_t *file, size_t length) {
    if (length > ROOM) return 0;
    size_t place;
    uint8_t number = one_call(file, length, exact, &place);
    if (number == TAWQESHIM_ACCEPTED) {
        one_archive(file, length);
        number = ask_amounts(file, length, &place);
    }
    one_page(file, length, TAWQESHIM_PAGE, number, place);
    /* Now and then one slice is a cell short or a cell long, and so is the page. */
    if (length % 8 == 7) {
        size_t lengths[SLICES];
        memcpy(lengths, exact, sizeof lengths);
        size_t s = file[0] % SLICES;
        lengths[s] = file[length - 1] % 2 ? lengths[s] + 1 : lengths[s] - 1;
        one_call(file, length, lengths, &place);
        one_page(file, length, file[length - 1] % 2 ? TAWQESHIM_PAGE + 1 : TAWQESHIM_PAGE - 1, number, place);
    }
    return 0;
}
