/*
 * Prints where the numbers of a state and of a row stand, as `name first count`
 * in cells, one a line. rust/library/tests/state_layout.rs compares this with
 * the state in Rust. It needs no archive. To build and run it in the repository
 * root:
 *
 *   gcc -std=c11 -Wall -Wextra -Wpedantic -Wconversion -Werror \
 *       -o target/state_layout c/state_layout.c
 *   target/state_layout
 */
#include "drift.h"

#include <stdio.h>

struct part {
    const char *name;
    int first;
    int count;
};

/* Each macro must go on to the last cell of its own, as it is printed. */
#define CELLS(name, macro, count)                                          \
    {                                                                      \
        name, macro(0), macro(count) - macro(0)                            \
    }

static const struct part state_parts[] = {
    {"state", 0, DRIFT_STATE_CELLS},
    {"posts", DRIFT_STATE_POSTS, 1},
    {"sources", DRIFT_STATE_SOURCES, 1},
    {"frames", DRIFT_STATE_FRAMES, 1},
    CELLS("beacons", DRIFT_STATE_BEACONS, DRIFT_LANES),
    CELLS("first", DRIFT_STATE_FIRST_FRAME, DRIFT_POST_ORDERS),
    CELLS("rows", DRIFT_STATE_ROW, DRIFT_LANES),
};

static const struct part row_parts[] = {
    {"row", 0, DRIFT_ROW_CELLS},
    {"row.lane", DRIFT_ROW_LANE, 1},
    {"row.sources", DRIFT_ROW_SOURCES, 1},
    {"row.dests", DRIFT_ROW_DESTS, 1},
    {"row.clock", DRIFT_ROW_CLOCK, 1},
    {"row.serial", DRIFT_ROW_SERIAL, 1},
    {"row.logged", DRIFT_ROW_LOGGED, 1},
    CELLS("row.last", DRIFT_ROW_LAST, DRIFT_LANES),
    CELLS("row.known", DRIFT_ROW_KNOWN, DRIFT_LANES),
    CELLS("row.table", DRIFT_ROW_TABLE, DRIFT_POST_TABLE_LENGTH),
    CELLS("row.stamps", DRIFT_ROW_STAMP, DRIFT_POST_ORDERS),
    CELLS("row.words", DRIFT_ROW_WORD, DRIFT_POST_ORDERS),
    CELLS("row.log", DRIFT_ROW_LOG, DRIFT_POST_ORDERS),
    {"row.posts", DRIFT_ROW_POSTS, 1},
};

static void print_parts(const struct part *parts, size_t count)
{
    for (size_t i = 0; i < count; i++) {
        printf("%s %d %d\n", parts[i].name, parts[i].first, parts[i].count);
    }
}

int main(void)
{
    print_parts(state_parts, sizeof state_parts / sizeof state_parts[0]);
    print_parts(row_parts, sizeof row_parts / sizeof row_parts[0]);
    return fflush(stdout) == 0 ? 0 : 1;
}
