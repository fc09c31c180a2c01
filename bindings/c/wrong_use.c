/* A test of wrong use: what is lent is short, absent, damaged or out of range; each call refuses by number and changes nothing. */
#include "sceolandra.h"

#include <stdio.h>
#include <stdlib.h>
#include <string.h>

static const uint8_t ring[] = {1, 2, 2, 7, 1, 0, 7, 1, 1, 2, 0, 0, 2, 0, 1, 3};

static unsigned long seen, wrong;

/* Counts one comparison, and says where one differs. */
static void expect(const char *what, size_t got, size_t wanted)
{
    seen++;
    if (got != wanted) {
        wrong++;
        printf("%s: %zu, and %zu was expected\n", what, got, wanted);
    }
}

/* A buffer of exactly this length, so that valgrind sees a read or a write beyond it; no byte of it is 0. */
static uint8_t *buffer(size_t length)
{
    uint8_t *bytes = malloc(length > 0 ? length : 1);
    if (bytes == NULL) {
        printf("no memory for the test\n");
        exit(1);
    }
    for (size_t i = 0; i < length; i++)
        bytes[i] = (uint8_t)(i % 251 + 1);
    return bytes;
}

static uint8_t *loaded(const uint8_t *file, size_t length)
{
    uint8_t *run = buffer(SC_RUN_BYTES);
    expect("the file is accepted", sc_load(file, length, run, SC_RUN_BYTES).number, SC_DONE);
    return run;
}

/* The four calls that take a run, each of which must give `number` and leave the run, and what it would write, as they were. */
static void expect_refused(const char *what, uint8_t *run, size_t length, size_t number)
{
    static const uint32_t places[] = {0, 0};
    uint8_t *before = buffer(length), *map = buffer(SC_MAP_BYTES), *file = buffer(SC_FILE_BYTES);
    uint8_t *same_map = buffer(SC_MAP_BYTES), *same_file = buffer(SC_FILE_BYTES);
    if (length > 0)
        memcpy(before, run, length);
    sc_step_reply step = sc_step(run, length, 0);
    expect(what, step.number, number);
    expect(what, step.rule, 0);
    sc_steps_reply steps = sc_steps(run, length, places, 2);
    expect(what, steps.number, number);
    expect(what, steps.done, 0);
    expect(what, sc_map(run, length, map, SC_MAP_BYTES).number, number);
    sc_write_reply written = sc_write(run, length, file, SC_FILE_BYTES);
    expect(what, written.number, number);
    expect(what, written.length, 0);
    if (length > 0)
        expect(what, memcmp(run, before, length) != 0, 0);
    expect(what, memcmp(map, same_map, SC_MAP_BYTES) != 0, 0);
    expect(what, memcmp(file, same_file, SC_FILE_BYTES) != 0, 0);
    free(before);
    free(map);
    free(file);
    free(same_map);
    free(same_file);
}

/* One lent buffer of each call has another length than it should. */
static void wrong_lengths(void)
{
    static const size_t run_lengths[] = {0, 1, SC_RUN_BYTES - 1, SC_RUN_BYTES + 1};
    static const size_t map_lengths[] = {0, 1, SC_MAP_BYTES - 1, SC_MAP_BYTES + 1};
    static const size_t file_lengths[] = {0, 1, SC_FILE_BYTES - 1, SC_FILE_BYTES + 1};
    uint8_t *run = loaded(ring, sizeof ring);
    for (size_t i = 0; i < 4; i++) {
        uint8_t *other = buffer(run_lengths[i]), *same = buffer(run_lengths[i]);
        sc_load_reply load = sc_load(ring, sizeof ring, other, run_lengths[i]);
        expect("load into a wrong length", load.number, SC_WRONG_LENGTH);
        expect("load into a wrong length, position", load.position, 0);
        expect("load into a wrong length, bytes", memcmp(other, same, run_lengths[i]) != 0, 0);
        expect_refused("a run of a wrong length", other, run_lengths[i], SC_WRONG_LENGTH);
        free(other);
        free(same);

        other = buffer(map_lengths[i]);
        same = buffer(map_lengths[i]);
        expect("map into a wrong length", sc_map(run, SC_RUN_BYTES, other, map_lengths[i]).number, SC_WRONG_LENGTH);
        expect("map into a wrong length, bytes", memcmp(other, same, map_lengths[i]) != 0, 0);
        free(other);
        free(same);

        other = buffer(file_lengths[i]);
        same = buffer(file_lengths[i]);
        expect("write into a wrong length", sc_write(run, SC_RUN_BYTES, other, file_lengths[i]).number, SC_WRONG_LENGTH);
        expect("write into a wrong length, bytes", memcmp(other, same, file_lengths[i]) != 0, 0);
        free(other);
        free(same);
    }
    free(run);
}

/* NULL for each buffer, with length 0. */
static void absent_buffers(void)
{
    uint8_t *run = loaded(ring, sizeof ring);
    sc_load_reply load = sc_load(NULL, 0, run, SC_RUN_BYTES);
    expect("no file", load.number, SC_FILE_ENDS);
    expect("no file, position", load.position, 0);
    expect("no run to load into", sc_load(ring, sizeof ring, NULL, 0).number, SC_WRONG_LENGTH);
    expect("no file and no run", sc_load(NULL, 0, NULL, 0).number, SC_WRONG_LENGTH);
    sc_statement_reply statement = sc_statement(NULL, 0, 0);
    expect("statement of no file", statement.start, 0);
    expect("statement of no file, size", statement.size, 0);
    expect_refused("no run", NULL, 0, SC_WRONG_LENGTH);
    expect("no run and no places", sc_steps(NULL, 0, NULL, 0).number, SC_WRONG_LENGTH);
    sc_steps_reply steps = sc_steps(run, SC_RUN_BYTES, NULL, 0);
    expect("no places", steps.number, SC_DONE);
    expect("no places, done", steps.done, 0);
    expect("no map", sc_map(run, SC_RUN_BYTES, NULL, 0).number, SC_WRONG_LENGTH);
    expect("no run and no map", sc_map(NULL, 0, NULL, 0).number, SC_WRONG_LENGTH);
    expect("no file to write", sc_write(run, SC_RUN_BYTES, NULL, 0).number, SC_WRONG_LENGTH);
    expect("no run and no file to write", sc_write(NULL, 0, NULL, 0).number, SC_WRONG_LENGTH);
    free(run);
}

/* A file for each refusal of a load, and the position of its fault. */
static void refused_files(void)
{
    static const struct { size_t number, position, length; uint8_t bytes[6]; } files[] = {
        {SC_FILE_ENDS, 0, 1, {0x80}},
        {SC_NOT_A_NUMBER, 0, 2, {0x80, 0x00}},
        {SC_CABINETS_OUT_OF_RANGE, 0, 1, {0x00}},
        {SC_UNKNOWNS_OUT_OF_RANGE, 1, 4, {0x01, 0x21, 0x00, 0x00}},
        {SC_RECORDS_OUT_OF_RANGE, 2, 3, {0x01, 0x00, 0x41}},
        {SC_TOO_MANY_PARTS, 4, 5, {0x01, 0x00, 0x01, 0x00, 0x05}},
        {SC_PART_NOT_AN_UNKNOWN, 5, 6, {0x01, 0x01, 0x01, 0x00, 0x01, 0x01}},
        {SC_TOO_MANY_STATEMENTS, 3, 4, {0x01, 0x00, 0x00, 0x41}},
        {SC_NO_SUCH_CABINET, 4, 5, {0x01, 0x01, 0x00, 0x01, 0x01}},
        {SC_NO_SUCH_ENTRY, 5, 6, {0x01, 0x01, 0x00, 0x01, 0x00, 0x01}},
        {SC_BYTES_LEFT, 4, 5, {0x01, 0x00, 0x00, 0x00, 0x00}},
    };
    uint8_t *run = buffer(SC_RUN_BYTES), *same = buffer(SC_RUN_BYTES);
    for (size_t i = 0; i < sizeof files / sizeof files[0]; i++) {
        sc_load_reply load = sc_load(files[i].bytes, files[i].length, run, SC_RUN_BYTES);
        expect("a refused file", load.number, files[i].number);
        expect("a refused file, position", load.position, files[i].position);
        expect("a refused file, statement", sc_statement(files[i].bytes, files[i].length, 0).size, 0);
    }
    expect("refused files leave the run", memcmp(run, same, SC_RUN_BYTES) != 0, 0);
    free(run);
    free(same);
}

/* Every cut of the ring file ends too early. */
static void cut_files(void)
{
    uint8_t *run = buffer(SC_RUN_BYTES);
    for (size_t length = 0; length < sizeof ring; length++) {
        uint8_t *cut = buffer(length);
        memcpy(cut, ring, length);
        sc_load_reply load = sc_load(cut, length, run, SC_RUN_BYTES);
        expect("a cut file", load.number, SC_FILE_ENDS);
        expect("a cut file, position", load.position, length);
        expect("a cut file, statement", sc_statement(cut, length, 0).size, 0);
        free(cut);
    }
    free(run);
}

/* Places and statements that are not there, and calls that come too early or too late. */
static void wrong_moments(void)
{
    static const uint8_t clash[] = {2, 1, 2, 10, 0, 11, 0, 2, 0, 0, 1, 1, 0, 2};
    static const uint32_t places[] = {0, 0, 2, 0, 2, 0, 2, 0}, far[] = {UINT32_MAX};
    uint8_t *run = loaded(clash, sizeof clash), *map = buffer(SC_MAP_BYTES), *file = buffer(SC_FILE_BYTES);
    expect("a statement far out", sc_statement(clash, sizeof clash, SIZE_MAX).size, 0);
    expect("a place far out", sc_step(run, SC_RUN_BYTES, SIZE_MAX).number, SC_NO_SUCH_PLACE);
    expect("a listed place far out", sc_steps(run, SC_RUN_BYTES, far, 1).number, SC_NO_SUCH_PLACE);
    expect("two steps", sc_steps(run, SC_RUN_BYTES, places, 2).done, 2);
    expect("a statement that waits", sc_step(run, SC_RUN_BYTES, 1).number, SC_WAITS);
    expect("a place at the count", sc_step(run, SC_RUN_BYTES, 4).number, SC_NO_SUCH_PLACE);
    expect("a map too early", sc_map(run, SC_RUN_BYTES, map, SC_MAP_BYTES).number, SC_ITEMS_PENDING);
    expect("a write too late", sc_write(run, SC_RUN_BYTES, file, SC_FILE_BYTES).number, SC_NOT_AS_LOADED);
    sc_steps_reply steps = sc_steps(run, SC_RUN_BYTES, places + 2, 6);
    expect("steps past a clash", steps.number, SC_CLASHED);
    expect("steps past a clash, done", steps.done, 5);
    expect("a map of a clashed run", sc_map(run, SC_RUN_BYTES, map, SC_MAP_BYTES).number, SC_CLASHED);
    free(run);
    free(map);
    free(file);
}

/* A run made by hand whose pending list is full of statements 0 = 1: Initiate would leave one item more. */
static void full_list(void)
{
    const size_t items = 9064, most = 12672;
    uint8_t *run = loaded((const uint8_t[]){0x01, 0x01, 0x01, 0x07, 0x00, 0x00}, 6);
    run[SC_RUN_PENDING] = most % 256;
    run[SC_RUN_PENDING + 1] = most / 256;
    for (size_t i = 0; i < most; i++) {
        run[items + 4 * i] = 1;
        run[items + 4 * i + 3] = 1;
    }
    expect("a full list", sc_step(run, SC_RUN_BYTES, most - 1).number, SC_LIST_FULL);
    free(run);
}

/* A run with one byte damaged: every byte up to the first memo, and some of all the others. Symbols alone may have any value. */
static void damaged_runs(void)
{
    uint8_t *run = loaded(ring, sizeof ring);
    for (size_t at = 0; at < SC_RUN_BYTES; at += at < 872 ? 1 : 997) {
        const uint8_t before = run[at];
        const int symbol = (at >= 8 && at < 12) || (at >= 17 && at < 21);
        run[at] = 0xA5;
        if (symbol)
            expect("another symbol", sc_steps(run, SC_RUN_BYTES, NULL, 0).number, SC_DONE);
        else
            expect_refused("a damaged run", run, SC_RUN_BYTES, SC_NOT_SOUND);
        run[at] = before;
    }
    expect("the run mended", sc_step(run, SC_RUN_BYTES, 0).number, SC_DONE);
    free(run);
}

/* Runs of noise. */
static void noise(void)
{
    uint8_t *run = buffer(SC_RUN_BYTES);
    uint32_t x = 1;
    for (int round = 0; round < 16; round++) {
        for (size_t i = 0; i < SC_RUN_BYTES; i++) {
            x = 1664525u * x + 1013904223u;
            run[i] = (uint8_t)(x >> 24);
        }
        expect_refused("noise", run, SC_RUN_BYTES, SC_NOT_SOUND);
    }
    free(run);
}

int main(void)
{
    wrong_lengths();
    absent_buffers();
    refused_files();
    cut_files();
    wrong_moments();
    full_list();
    damaged_runs();
    noise();
    printf("wrong use: %lu comparisons, %lu wrong\n", seen, wrong);
    return wrong > 0;
}
