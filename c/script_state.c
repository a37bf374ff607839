/*
 * A host in C that looks behind a printout: runs the script of a file, prints
 * each post from the state as document 01 prints it, how many beacons each
 * lane's post has sent, and what the last line answered. Tries the library's
 * answers to states of other lengths too, and exits with 1 if one differs. To
 * build and run it in the repository root:
 *
 *   tools/archives script
 *   gcc -std=c11 -Wall -Wextra -Wpedantic -Wconversion -Werror \
 *       -o target/script_state c/script_state.c target/staticlib/libscript.a
 *   target/script_state examples/09-roll-call.drift
 *
 * It then prints what c/script_state.out has.
 */
#define PROGRAM "script_state"
#include "script_host.h"

/* One cell more than a state has, to see that a longer one is refused. */
static uint16_t state[DRIFT_STATE_CELLS + 1];

/* A state of another length is refused by 12, before the script is judged. */
static int try_wrong_states(size_t length)
{
    const uint64_t refused = DRIFT_STATE_REFUSED << 8 | DRIFT_BAD_RECORD;
    const size_t cells[] = {0, DRIFT_STATE_CELLS - 1, DRIFT_STATE_CELLS + 1};

    for (size_t i = 0; i < sizeof cells / sizeof cells[0]; i++) {
        if (drift_script_state(script, length, air, sizeof air, state, cells[i]) != refused) {
            return differs("a state of another length was not refused");
        }
    }
    if (drift_script_state(NULL, 0, NULL, 0, NULL, 0) != refused) {
        return differs("no state was not refused");
    }
    if (!is_rest(air, 0, sizeof air) || !is_rest(state, 0, sizeof state)) {
        return differs("a refused call wrote something");
    }
    return 0;
}

/* The post of a row, with the orders of its log as stamp, lane, word. */
static void print_post(const uint16_t *row)
{
    printf("(post %u (clock %u) (sent %u) (log", row[DRIFT_ROW_LANE],
           row[DRIFT_ROW_CLOCK], row[DRIFT_ROW_SERIAL]);
    for (size_t i = 0; i < row[DRIFT_ROW_LOGGED]; i++) {
        uint16_t place = row[DRIFT_ROW_LOG(i)];

        printf(" (%u %d %u)", row[DRIFT_ROW_STAMP(place)],
               DRIFT_POST_PLACE_LANE(place), row[DRIFT_ROW_WORD(place)]);
    }
    printf("))\n");
}

/* The beacons of the posts of lanes 0 to 7; 0 where there is no post. */
static void print_beacons(void)
{
    printf("beacons sent:");
    for (int lane = 0; lane < DRIFT_LANES; lane++) {
        printf(" %u", state[DRIFT_STATE_BEACONS(lane)]);
    }
    printf("\n");
}

/* What a hearing answered. */
static void print_heard(const char *what, uint64_t answer)
{
    printf("last line: %s, delivered %u\n", what, DRIFT_ANSWER_DELIVERED(answer));
}

/* What the last line answered; 1 if there is no such answer. */
static int print_answer(uint64_t answer)
{
    switch (DRIFT_ANSWER_CODE(answer)) {
    case DRIFT_REFUSED:
        printf("last line: refused by %u\n", DRIFT_ANSWER_REFUSAL(answer));
        return 0;
    case DRIFT_ORDER_SENT:
        printf("last line: order sent, serial %u, stamp %u, delivered %u\n",
               DRIFT_ANSWER_SERIAL(answer), DRIFT_ANSWER_STAMP(answer),
               DRIFT_ANSWER_DELIVERED(answer));
        return 0;
    case DRIFT_TAKEN:
        print_heard("taken", answer);
        return 0;
    case DRIFT_AGAIN:
        print_heard("again", answer);
        return 0;
    case DRIFT_EARLY:
        print_heard("early", answer);
        return 0;
    case DRIFT_BEACON_HEARD:
        print_heard("beacon heard", answer);
        return 0;
    case DRIFT_BEACON_SENT:
        printf("last line: beacon sent\n");
        return 0;
    case DRIFT_NO_STEP:
        printf("no step\n");
        return 0;
    case DRIFT_ROLL_CALL_RAN:
        printf("last line: roll call ran, %u single steps\n", DRIFT_ANSWER_STEPS(answer));
        return 0;
    default:
        return differs("there is no such answer");
    }
}

/* Runs the script; a refused one leaves state and air as they were. */
static int print_state(size_t length)
{
    uint64_t answer = drift_script_state(script, length, air, sizeof air, state, DRIFT_STATE_CELLS);

    if (DRIFT_ANSWER_CODE(answer) == DRIFT_SCRIPT_REFUSED) {
        printf("script refused by %u at line %u\n", DRIFT_ANSWER_REFUSAL(answer),
               DRIFT_ANSWER_LINE(answer));
        return is_rest(air, 0, sizeof air) && is_rest(state, 0, sizeof state)
                   ? 0
                   : differs("a refused script wrote something");
    }
    for (int lane = 0; lane < DRIFT_LANES; lane++) {
        if (state[DRIFT_STATE_POSTS] & DRIFT_POST_SET(lane)) {
            print_post(&state[DRIFT_STATE_ROW(lane)]);
        }
    }
    print_beacons();
    if (!is_rest(state, DRIFT_STATE_CELLS * sizeof state[0], sizeof state)) {
        return differs("a cell behind the state was written");
    }
    return print_answer(answer);
}

int main(int argc, char **argv)
{
    size_t length = 0;

    if (read_script(argc, argv, &length) != 0) {
        return 1;
    }
    /* What air and state hold beforehand does not matter. */
    memset(air, REST, sizeof air);
    memset(state, REST, sizeof state);
    if (try_wrong_states(length) != 0 || print_state(length) != 0) {
        return 1;
    }
    return fflush(stdout) == 0 ? 0 : differs("the state cannot be printed");
}
