/*
 * What the hosts run_script.c and script_state.c share: the script of a file,
 * the air, and a filling by which they see what a call has written. Each names
 * itself as PROGRAM before it includes this.
 */
#ifndef DRIFT_SCRIPT_HOST_H
#define DRIFT_SCRIPT_HOST_H

#include "drift.h"

#include <stdbool.h>
#include <stdio.h>
#include <string.h>

/* One byte more than the longest script: so much is read that 1 is noticed. */
static uint8_t script[DRIFT_LONGEST_SCRIPT + 1];
static uint8_t air[DRIFT_AIR_LENGTH];

/* The byte that buffers are filled with beforehand. */
#define REST 0xA5

static int differs(const char *what)
{
    fprintf(stderr, PROGRAM ": %s\n", what);
    return 1;
}

/* Whether each byte from a position on is as it was filled. */
static bool is_rest(const void *bytes, size_t from, size_t length)
{
    for (size_t i = from; i < length; i++) {
        if (((const uint8_t *)bytes)[i] != REST) {
            return false;
        }
    }
    return true;
}

/* Reads the script of the file that the program is given; 1 if it cannot. */
static int read_script(int argc, char **argv, size_t *length)
{
    if (argc != 2) {
        return differs("usage: " PROGRAM " SCRIPT");
    }
    FILE *file = fopen(argv[1], "rb");
    if (file == NULL) {
        perror(argv[1]);
        return 1;
    }
    *length = fread(script, 1, sizeof script, file);
    int failed = ferror(file);
    fclose(file);
    return failed ? differs("the script cannot be read") : 0;
}

#endif
