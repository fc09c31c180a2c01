/* The six calls of Sceolandra, for C and C++ on x86-64, of the level x86-64-v2 or above. Link
 * target/staticlib/libsceolandra.a, which `tools/build library` writes.
 *
 * Words and numbers are document 01's. What a call replies and every byte that it leaves follow from what it is given,
 * for every input:
 *
 * - `number` is 0 for done, else a refusal. The other member of a refused call's reply is 0, but for a load's position
 *   and a list's finished steps.
 * - A refused call leaves every lent byte as it was, but for the steps of a list before the refused one.
 * - A buffer of another length than the call asks for is refused, SC_WRONG_LENGTH. No call reads or writes beyond the
 *   lengths it is given.
 *
 * What C cannot check, and the caller sees to:
 *
 * - A buffer has the length that is given with it. One of length 0 may be NULL: nothing is read or written through it.
 * - The buffer that a call writes does not overlap the one that it reads, and nobody else writes either until the call
 *   returns.
 * - The stack has room. sc_map nests deepest, and 1 MiB was enough for all that was tried; the other calls need little.
 *
 * The calls keep nothing between them and allocate nothing, so threads may call them at once, each on its own run. */
#ifndef SCEOLANDRA_H
#define SCEOLANDRA_H

#include <stddef.h>
#include <stdint.h>

#ifdef __cplusplus
extern "C" {
#endif

/* The lengths of a run, a map, and a file to be written. A file to be loaded may have any length. */
#define SC_RUN_BYTES 59752
#define SC_MAP_BYTES 352
#define SC_FILE_BYTES 836

/* The refusals by name; SC_DONE is none of them. */
enum sc_refusal {
    SC_DONE = 0,
    SC_FILE_ENDS = 1,              /* file ends in or before a number */
    SC_NOT_A_NUMBER = 2,           /* number not shortest or too large */
    SC_CABINETS_OUT_OF_RANGE = 3,  /* S outside its range, 1 to 8 */
    SC_UNKNOWNS_OUT_OF_RANGE = 4,  /* V outside its range, 0 to 32 */
    SC_RECORDS_OUT_OF_RANGE = 5,   /* R outside its range, 0 to 64 */
    SC_TOO_MANY_PARTS = 6,         /* more than 4 parts */
    SC_PART_NOT_AN_UNKNOWN = 7,    /* part not an unknown */
    SC_TOO_MANY_STATEMENTS = 8,    /* E above 64 */
    SC_NO_SUCH_CABINET = 9,        /* cabinet not below S */
    SC_NO_SUCH_ENTRY = 10,         /* side not below V+R */
    SC_BYTES_LEFT = 11,            /* bytes left after the last statement */
    SC_WRONG_LENGTH = 12,          /* a lent buffer has the wrong length */
    SC_NO_SUCH_PLACE = 13,         /* place not below the pending count */
    SC_WAITS = 14,                 /* the statement waits */
    SC_CLASHED = 15,               /* run has clashed */
    SC_ITEMS_PENDING = 16,         /* map asked with items pending */
    SC_NOT_SOUND = 17,             /* run not sound */
    SC_LIST_FULL = 18,             /* step would leave more than 12,672 items */
    SC_NOT_AS_LOADED = 19          /* write asked of a sound run that isn't as loaded */
};

/* The ten rules by name: what a step that is done replies. */
enum sc_rule {
    SC_INTERCHANGE = 1,
    SC_MEMO = 2,
    SC_DEREFERENCE = 3,
    SC_IDENTIFY = 4,
    SC_CONFLICT = 5,
    SC_DECOMPOSE = 6,
    SC_INITIATE = 7,
    SC_WIN = 8,
    SC_LOSE = 9,
    SC_ARRIVE = 10
};

/* Where a run says how it stands. Its other bytes are in document 01. */
enum sc_run_offset {
    SC_RUN_CLASHED = 0,       /* 0 running, 1 clashed */
    SC_RUN_CLASH_CABINET = 1, /* cabinet of the clash, else 0 */
    SC_RUN_S = 2,             /* cabinets */
    SC_RUN_V = 3,             /* unknowns */
    SC_RUN_R = 4,             /* records */
    SC_RUN_E = 5,             /* statements */
    SC_RUN_PENDING = 6        /* pending count, two bytes, low first */
};

/* A map has 32 rows of SC_ROW_BYTES, one for each unknown; rows from V on hold 0. What stands where in a row: */
#define SC_ROW_BYTES 11
enum sc_row_offset {
    SC_ROW_LOWEST = 0,     /* the lowest unknown that is the same item */
    SC_ROW_KIND = 1,       /* 0 open or 1 record; an open row holds 0 from here on */
    SC_ROW_SYMBOL = 2,     /* symbol, four bytes, low first */
    SC_ROW_PART_COUNT = 6, /* part count, 0 to 4 */
    SC_ROW_PARTS = 7       /* for each part its lowest same item; places beyond the count hold 0 */
};

/* The replies. `number` is SC_DONE or a refusal. */
typedef struct { size_t number, position; } sc_load_reply;
typedef struct { size_t start, size; } sc_statement_reply;
typedef struct { size_t number, rule; } sc_step_reply;
typedef struct { size_t number, done; } sc_steps_reply;
typedef struct { size_t number; } sc_map_reply;
typedef struct { size_t number, length; } sc_write_reply;

/* The file into the run, of SC_RUN_BYTES: the refusal, and the position where the faulty number starts (SC_BYTES_LEFT:
 * the first byte left over; SC_DONE and SC_WRONG_LENGTH: 0). What the run held before does not matter. Order: 12, then
 * the first fault in reading order, 1 to 11. */
sc_load_reply sc_load(const uint8_t *file, size_t file_len, uint8_t *run, size_t run_len);

/* Where statement n, from 0, of the file stands: its own bytes are the `size` bytes from file + start. 0 and 0 exactly
 * when the file is refused or n is not below E. */
sc_statement_reply sc_statement(const uint8_t *file, size_t file_len, size_t n);

/* One step, at a place of the pending list, from 0: the refusal, or SC_DONE and the rule's number. Order: 12, 17, 15,
 * 13, 14, 18. */
sc_step_reply sc_step(uint8_t *run, size_t run_len, size_t place);

/* A list of steps, at `count` places, each in the run as the one before left it: SC_DONE or the first refusal, and how
 * many were done before it. Those done stay done. Order: 12, 17, then at each place 15, 13, 14, 18. */
sc_steps_reply sc_steps(uint8_t *run, size_t run_len, const uint32_t *places, size_t count);

/* The map of a run that has come to its end unclashed, into SC_MAP_BYTES. Order: 12, 17, 15, 16. */
sc_map_reply sc_map(const uint8_t *run, size_t run_len, uint8_t *map, size_t map_len);

/* A run that is as loaded, back into its file: SC_FILE_BYTES, the file and then zeros; the reply has the file's length.
 * Order: 12, 17, 19. */
sc_write_reply sc_write(const uint8_t *run, size_t run_len, uint8_t *file, size_t file_len);

#ifdef __cplusplus
}
#endif

#endif
