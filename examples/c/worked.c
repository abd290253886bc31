/*
 * The worked table of two sectors, from its flows to its printed sheet: coefficients, production, induced amounts.
 *
 * After scripts/shared-library, from the repository's folder:
 *   gcc -I include -o target/worked-c examples/c/worked.c -L target -ltawqeshim -Wl,-rpath,'$ORIGIN' && target/worked-c
 */
#include <inttypes.h>
#include <stdio.h>
#include <stdlib.h>

#include "tawqeshim.h"

#define N 2

static void accept(uint8_t number, size_t place) {
    if (number != TAWQESHIM_ACCEPTED) {
        printf("refused %d %zu: %s\n", number, place, tawqeshim_question(number));
        exit(1);
    }
}

int main(void) {
    const uint64_t flows[N * N] = {100, 400, 300, 600};
    const uint64_t final_demand[N] = {500, 900}, exports[N] = {250, 560}, imports[N] = {250, 360};
    const uint64_t value_added[N] = {600, 1000}, production[N] = {1000, 2000}, adjustment[N] = {0, 0};
    const struct tawqeshim_table table = {flows, final_demand, exports, imports, value_added, production, adjustment};
    uint8_t number;
    size_t place;

    uint64_t a[N * N], v[N], m[N], d[N * N], f[N];
    const struct tawqeshim_sheets sheets = {.inputs = a, .value_shares = v, .import_shares = m, .domestic = d, .demand = f};
    tawqeshim_table_sheets(N, &table, &sheets, &number, &place);
    accept(number, place);

    uint64_t settled[N], work[N];
    uint32_t rounds;
    tawqeshim_production(N, d, N * N, f, N, TAWQESHIM_PAGE_BUDGET, settled, N, work, N, &number, &place, &rounds);
    accept(number, place);

    uint64_t value[N], imported[N];
    tawqeshim_sheets_induced(N, &sheets, final_demand, settled, value, imported, &number, &place);
    accept(number, place);

    printf("sector demand production value imports\n");
    for (size_t i = 0; i < N; i++)
        printf("%zu %" PRIu64 " %" PRIu64 " %" PRIu64 " %" PRIu64 "\n", i + 1, f[i], settled[i], value[i], imported[i]);
    printf("rounds %" PRIu32 "\n", rounds);
    return 0;
}
