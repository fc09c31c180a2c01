/* Maps document 01's ring file by the calls of sceolandra.h alone, and prints the lines that the map program prints for it. */
#include "sceolandra.h"

#include <stdio.h>

/* One cabinet, two unknowns, two records with the symbol 7, and 0 = 7(0), 1 = 7(1). */
static const uint8_t ring[] = {1, 2, 2, 7, 1, 0, 7, 1, 1, 2, 0, 0, 2, 0, 1, 3};

static uint8_t run[SC_RUN_BYTES];
static uint8_t map[SC_MAP_BYTES];

static size_t pending_count(void)
{
    return run[SC_RUN_PENDING] + 256u * run[SC_RUN_PENDING + 1];
}

/* Takes the first place that does not wait, until the run clashes or nothing is pending. The map program draws its
 * places; the map is the same in every order, so the simplest will do. Gives the refusal that stopped it, or SC_DONE. */
static size_t run_to_end(void)
{
    while (run[SC_RUN_CLASHED] == 0 && pending_count() > 0) {
        size_t place = 0;
        sc_step_reply reply = sc_step(run, sizeof run, place);
        while (reply.number == SC_WAITS)
            reply = sc_step(run, sizeof run, ++place);
        if (reply.number != SC_DONE)
            return reply.number;
    }
    return SC_DONE;
}

static void print_row(unsigned unknown, const uint8_t *row)
{
    printf("%u %u", unknown, (unsigned)row[SC_ROW_LOWEST]);
    if (row[SC_ROW_KIND] == 0) {
        printf(" open\n");
        return;
    }
    uint32_t symbol = 0;
    for (unsigned i = 4; i > 0; i--)
        symbol = symbol << 8 | row[SC_ROW_SYMBOL + i - 1];
    printf(" plate %lu", (unsigned long)symbol);
    for (unsigned part = 0; part < row[SC_ROW_PART_COUNT]; part++)
        printf(" %u", (unsigned)row[SC_ROW_PARTS + part]);
    printf("\n");
}

int main(void)
{
    sc_load_reply loaded = sc_load(ring, sizeof ring, run, sizeof run);
    if (loaded.number != SC_DONE) {
        printf("refused %zu at %zu\n", loaded.number, loaded.position);
        return 0;
    }
    size_t stopped = run_to_end();
    if (stopped != SC_DONE) {
        fprintf(stderr, "ring: a step was refused, %zu\n", stopped);
        return 1;
    }
    sc_map_reply mapped = sc_map(run, sizeof run, map, sizeof map);
    if (mapped.number == SC_CLASHED) {
        printf("clash\n");
        return 0;
    }
    if (mapped.number != SC_DONE) {
        fprintf(stderr, "ring: the map was refused, %zu\n", mapped.number);
        return 1;
    }
    printf("items %u\n", (unsigned)run[SC_RUN_V]);
    for (unsigned unknown = 0; unknown < run[SC_RUN_V]; unknown++)
        print_row(unknown, map + SC_ROW_BYTES * unknown);
    return 0;
}
