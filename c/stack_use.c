/*
 * Measures how much of the caller's stack each function on posts, on scripts and
 * on CSV files uses, and exits with 1 where it is more than its header says. Needs
 * the contexts of the GNU C library. To build and run it in the repository root:
 *
 *   tools/archives
 *   gcc -std=gnu11 -Wall -Wextra -Wpedantic -Wconversion -Werror -Wl,-z,now \
 *       -o target/stack_use c/stack_use.c target/staticlib/liblent_post.a \
 *       target/staticlib/libscript.a target/staticlib/libcsv.a
 *   target/stack_use
 */
#include "drift.h"

#include <stdbool.h>
#include <stdio.h>
#include <string.h>
#include <ucontext.h>

#define STACK_LENGTH 65536
#define PAINT 0xA5

static uint8_t stack[STACK_LENGTH];
static ucontext_t caller, callee;

/* A source's post and a destination's, whose steps reach each way. */
static struct drift_post source, dest;
static uint8_t frame[DRIFT_FRAME_LENGTH], broadcast[DRIFT_FRAME_LENGTH];

/* A script, and what it runs on. */
static const char script[] = "(yard (0 both) (1 source) (2 dest))\n(order 0 417)\n"
                             "(order 1 90)\n(hear 1 0)\n(beacon 1)\n(roll)\n(hear 2 9)\n";
static uint8_t air[DRIFT_AIR_LENGTH], output[DRIFT_OUTPUT_LENGTH];
static uint16_t state[DRIFT_STATE_CELLS];

static const uint16_t log[] = {1, 0, 417, 3, 1, 90};
static uint8_t file[DRIFT_CSV_BUFFER];
static uint16_t numbers[DRIFT_CSV_NUMBERS];
static uint32_t written;

#define TEXT (const uint8_t *)script, sizeof script - 1

static void nothing(void) {}
static void fresh(void) { drift_post_fresh(&dest, 2, 7, 3, 5); }
static void fresh_refused(void) { drift_post_fresh(&dest, 8, 7, 3, 5); }
static void order(void) { drift_post_order(&source, 417, frame, sizeof frame); }
static void hear(void)
{
    drift_post_hear(&dest, frame, sizeof frame, broadcast, sizeof broadcast);
}
static void beacon(void) { drift_post_beacon(&dest, broadcast, sizeof broadcast); }
static void run(void) { drift_run_script(TEXT, air, sizeof air, output, sizeof output); }
static void leave(void) { drift_script_state(TEXT, air, sizeof air, state, DRIFT_STATE_CELLS); }
static void csv_write(void)
{
    written = drift_csv_write(log, sizeof log / sizeof log[0], file, sizeof file);
}
static void csv_read(void)
{
    drift_csv_read(file, DRIFT_CSV_LENGTH(written), numbers, DRIFT_CSV_NUMBERS);
}
static void csv_first_bad(void) { drift_csv_first_bad(file, DRIFT_CSV_LENGTH(written)); }

/* How many bytes of its stack a call has written to. */
static size_t used(void (*call)(void))
{
    size_t left = 0;

    memset(stack, PAINT, sizeof stack);
    getcontext(&callee);
    callee.uc_stack.ss_sp = stack;
    callee.uc_stack.ss_size = sizeof stack;
    callee.uc_link = &caller;
    makecontext(&callee, call, 0);
    swapcontext(&caller, &callee);
    while (left < sizeof stack && stack[left] == PAINT) {
        left++;
    }
    return sizeof stack - left;
}

int main(void)
{
    /* In this order: an order is sent, heard, and heard again. The limits are the headers'. */
    static const struct {
        const char *name;
        void (*call)(void);
        size_t limit;
    } calls[] = {
        {"drift_post_fresh", fresh, 7168},
        {"drift_post_fresh, refused", fresh_refused, 7168},
        {"drift_post_order", order, 7168},
        {"drift_post_hear, taken", hear, 7168},
        {"drift_post_hear, again", hear, 7168},
        {"drift_post_beacon", beacon, 7168},
        {"drift_run_script", run, 16384},
        {"drift_script_state", leave, 16384},
        {"drift_csv_write", csv_write, 1024},
        {"drift_csv_read", csv_read, 1024},
        {"drift_csv_first_bad", csv_first_bad, 1024},
    };
    size_t none = used(nothing);
    bool within = true;

    drift_post_fresh(&source, 0, 7, 3, 5);
    for (size_t i = 0; i < sizeof calls / sizeof calls[0]; i++) {
        size_t bytes = used(calls[i].call) - none;

        printf("%-26s %5zu bytes of stack\n", calls[i].name, bytes);
        if (bytes == 0 || bytes > calls[i].limit) {
            fprintf(stderr, "stack_use: not within %zu bytes: %s\n", calls[i].limit, calls[i].name);
            within = false;
        }
    }
    return within ? 0 : 1;
}
