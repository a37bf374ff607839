/*
 * DRIFT for a host: a yard, run by a script, its printout and the state behind
 * it. Answers and refusals are in drift_answer.h. Link with
 * target/staticlib/libscript.a. Included by drift.h.
 */
#ifndef DRIFT_SCRIPT_H
#define DRIFT_SCRIPT_H

#include "drift_answer.h"
/* For DRIFT_LANES, and the places of serials and orders, DRIFT_POST_... */
#include "drift_post.h"

#ifdef __cplusplus
extern "C" {
#endif

/* The longest script that is not refused, in bytes (refusal 1). */
#define DRIFT_LONGEST_SCRIPT 48000

/* Number of bytes of the air (refusal 13). */
#define DRIFT_AIR_LENGTH 65536

/* Number of bytes of the output. Every printout fits. */
#define DRIFT_OUTPUT_LENGTH 131072

/*
 * Runs a script over a fresh yard and the lent air, and prints into the lent
 * output: what the yard program prints for the same script.
 *
 * Returns the number of bytes printed, which are the first of the output; the
 * bytes after them keep what they held. Every script prints something: one
 * that is refused prints `(bad LINE NUMBER)`, and the air keeps its bytes.
 * Returns 0 only if output_length is not DRIFT_OUTPUT_LENGTH; then air and
 * output keep their bytes.
 *
 * The air's bytes may be anything at first, and hold the broadcast frames
 * afterwards. If air_length is not DRIFT_AIR_LENGTH each step is refused by 13
 * and the air keeps its bytes.
 *
 * script must point to script_length readable bytes, air and output to
 * air_length and output_length readable and writable ones; the three do not
 * overlap. With length 0 a pointer may be NULL. No pointer is kept.
 *
 * It has no state, needs no initialisation and no heap. It uses some 10 KB of
 * the caller's stack: have 16 KB free.
 */
size_t drift_run_script(const uint8_t *script, size_t script_length,
                        uint8_t *air, size_t air_length,
                        uint8_t *output, size_t output_length);

/*
 * A state is the yard that a script leaves: a row of DRIFT_STATE_CELLS cells of
 * 16 bits, each a number in the machine's own byte order. A set of lanes has bit
 * i for lane i, and an order stands at its place, DRIFT_POST_PLACE.
 *
 *   cell          of a state
 *   0             the set of posts
 *   1             the set of sources
 *   2             how many frames are on the air
 *   3 .. 10       for each lane how many beacons its post has sent, at most 128
 *   11 .. 138     for each order the number of its first frame; 0 where there
 *                 is no order
 *   139 .. 4482   a row of DRIFT_ROW_CELLS cells for each of the lanes 0 to 7
 *
 *   cell          of a lane's row
 *   0             the lane
 *   1             the set of sources
 *   2             the set of destinations
 *   3             the clock
 *   4             the own serial: how many orders the post has sent
 *   5             the length of the log
 *   6 .. 13       for each lane the last serial taken from it
 *   14 .. 21      for each lane the serial up to which its orders are known to
 *                 be in the log: at a destination how many of them are there,
 *                 elsewhere 0
 *   22 .. 157     the newest-stamp table, at DRIFT_POST_TABLE_PLACE
 *   158 .. 285    the stamp of each order taken; else 0
 *   286 .. 413    its word; else 0
 *   414 .. 541    the log: the places of the orders delivered, in the order of
 *                 delivery, then 0
 *   542           the set of posts
 *
 * Cells 14 to 21 are a note of the runner's own; all others of a row are the
 * post's record, with the meaning that they have in struct drift_post. A lane
 * without a post has a fresh row with the yard's sets.
 *
 * So post 2's clock is state[DRIFT_STATE_ROW(2) + DRIFT_ROW_CLOCK].
 */
#define DRIFT_STATE_CELLS 4483
#define DRIFT_ROW_CELLS 543

/* Single cells of a state; the beacons of a lane's post; the first frame of the
 * order at a place; where the row of a lane begins. */
enum drift_state_cell {
    DRIFT_STATE_POSTS = 0,
    DRIFT_STATE_SOURCES = 1,
    DRIFT_STATE_FRAMES = 2
};
#define DRIFT_STATE_BEACONS(lane) (3 + (lane))
#define DRIFT_STATE_FIRST_FRAME(place) (11 + (place))
#define DRIFT_STATE_ROW(lane) (139 + DRIFT_ROW_CELLS * (lane))

/* Single cells of a row, and those that it has for each lane, for each place of
 * the table, for each place of an order and for each order of the log, from 0. */
enum drift_row_cell {
    DRIFT_ROW_LANE = 0,
    DRIFT_ROW_SOURCES = 1,
    DRIFT_ROW_DESTS = 2,
    DRIFT_ROW_CLOCK = 3,
    DRIFT_ROW_SERIAL = 4,
    DRIFT_ROW_LOGGED = 5,
    DRIFT_ROW_POSTS = 542
};
#define DRIFT_ROW_LAST(lane) (6 + (lane))
#define DRIFT_ROW_KNOWN(lane) (14 + (lane))
#define DRIFT_ROW_TABLE(table_place) (22 + (table_place))
#define DRIFT_ROW_STAMP(place) (158 + (place))
#define DRIFT_ROW_WORD(place) (286 + (place))
#define DRIFT_ROW_LOG(number) (414 + (number))

/*
 * Runs a script as drift_run_script does, prints nothing and leaves the yard in
 * the lent state.
 *
 * Returns the answer of the last line, taken apart by DRIFT_ANSWER_...; of a
 * step that was refused the code is DRIFT_REFUSED, of a script that is its yard
 * line alone DRIFT_NO_STEP. Every cell of the state is written, whatever it held,
 * and the air holds the broadcast frames, as after drift_run_script.
 *
 * Nothing runs, and state and air keep their contents, with two codes alone:
 * DRIFT_STATE_REFUSED, number 12, if state_cells is not DRIFT_STATE_CELLS, which
 * is judged first; DRIFT_SCRIPT_REFUSED, with the number of the refusal, 1 to 5,
 * and the line, if the script is refused: what `(bad LINE NUMBER)` prints.
 *
 * If air_length is not DRIFT_AIR_LENGTH each step is refused by 13, the air keeps
 * its bytes, and the state is that of the fresh yard.
 *
 * script must point to script_length readable bytes, air to air_length readable
 * and writable ones, and state to state_cells readable and writable cells,
 * aligned as uint16_t is; the three do not overlap. With length 0 a pointer may
 * be NULL. No pointer is kept.
 *
 * For the rest it is as drift_run_script.
 */
uint64_t drift_script_state(const uint8_t *script, size_t script_length,
                            uint8_t *air, size_t air_length,
                            uint16_t *state, size_t state_cells);

#ifdef __cplusplus
}
#endif

#endif
