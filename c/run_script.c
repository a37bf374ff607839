/*
 * A host in C: runs the script of a file and prints its printout. Tries the
 * library's answers to wrong buffers too, and exits with 1 if one differs.
 * To build and run it in the repository root:
 *
 *   tools/archives script
 *   gcc -std=c11 -Wall -Wextra -Wpedantic -Wconversion -Werror \
 *       -o target/run_script c/run_script.c target/staticlib/libscript.a
 *   target/run_script examples/03-document-01.drift
 */
#define PROGRAM "run_script"
#include "script_host.h"

static uint8_t output[DRIFT_OUTPUT_LENGTH];

/* An output of another length is refused, and nothing is written. */
static int try_wrong_output(size_t script_length)
{
    memset(air, REST, sizeof air);
    memset(output, REST, sizeof output);
    if (drift_run_script(script, script_length, air, sizeof air, output, sizeof output - 1) != 0) {
        return differs("a short output was taken");
    }
    if (drift_run_script(script, script_length, air, sizeof air, NULL, 0) != 0) {
        return differs("no output was taken");
    }
    if (!is_rest(air, 0, sizeof air) || !is_rest(output, 0, sizeof output)) {
        return differs("a refused call wrote something");
    }
    return 0;
}

/* A yard and one order, on an air of another length: 13, and the air stays. */
static int try_wrong_air(void)
{
    static const char order[] = "(yard (0 both))\n(order 0 5)\n";
    static const char expected[] = "(refused 2 13)\n(post 0 (clock 0) (sent 0) (log))\n";
    size_t printed = drift_run_script((const uint8_t *)order, sizeof order - 1, air, sizeof air - 1,
                                      output, sizeof output);
    if (printed != sizeof expected - 1 || memcmp(output, expected, printed) != 0) {
        return differs("a short air was not refused by 13");
    }
    if (!is_rest(air, 0, sizeof air) || !is_rest(output, printed, sizeof output)) {
        return differs("a short air or the rest of the output was written");
    }
    return 0;
}

int main(int argc, char **argv)
{
    size_t length = 0;

    if (read_script(argc, argv, &length) != 0) {
        return 1;
    }
    if (try_wrong_output(length) != 0 || try_wrong_air() != 0) {
        return 1;
    }
    size_t printed = drift_run_script(script, length, air, sizeof air, output, sizeof output);
    if (fwrite(output, 1, printed, stdout) != printed || fflush(stdout) != 0) {
        return differs("the printout cannot be written");
    }
    return 0;
}
