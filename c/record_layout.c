/*
 * Prints where a post's record and its fields stand, as `name offset size`, one
 * a line. rust/library/tests/record_layout.rs compares this with the record in
 * Rust. It needs no archive. To build and run it in the repository root:
 *
 *   gcc -std=c11 -Wall -Wextra -Wpedantic -Wconversion -Werror \
 *       -o target/record_layout c/record_layout.c
 *   target/record_layout
 */
#include "drift.h"

#include <stdio.h>

_Static_assert(_Alignof(struct drift_post) == 2, "alignment of a record");

struct field {
    const char *name;
    size_t offset;
    size_t size;
};

#define FIELD(name)                                                        \
    {                                                                      \
        #name, offsetof(struct drift_post, name),                          \
            sizeof(((struct drift_post *)0)->name)                         \
    }

static const struct field fields[] = {
    {"post", 0, sizeof(struct drift_post)},
    FIELD(lane),
    FIELD(posts),
    FIELD(sources),
    FIELD(dests),
    FIELD(clock),
    FIELD(serial),
    FIELD(logged),
    FIELD(last),
    FIELD(table),
    FIELD(stamps),
    FIELD(words),
    FIELD(log),
};

int main(void)
{
    for (size_t i = 0; i < sizeof fields / sizeof fields[0]; i++) {
        printf("%s %zu %zu\n", fields[i].name, fields[i].offset, fields[i].size);
    }
    return fflush(stdout) == 0 ? 0 : 1;
}
