/*
 * kernel FILE [BUDGET]: lists a kernel, encodes it again, and runs it for at most BUDGET steps.
 *
 * From the top of a release, in one line:
 * cc -std=c99 -Wall -Wextra -Werror -pedantic -Iinclude examples/c/kernel.c examples/c/listing.c examples/c/running.c
 *     lib/libreedtassel.a -o kernel
 * In the sources the library is target/staticlib/libreedtassel.a, after `./reedtassel lib`.
 */
#include <errno.h>
#include <stdio.h>
#include <stdlib.h>
#include <string.h>

#include "kernel.h"

static enum outcome fail(const char *what, const char *why) {
    fprintf(stderr, "kernel: %s: %s\n", what, why);
    return OUTCOME_FAILED;
}

/* Reads the file, and one byte more than a kernel may have, by which one that is too long is seen. */
static enum outcome load(const char *name, uint8_t code[REEDTASSEL_CODE_MOST + 1], size_t *length) {
    FILE *file = fopen(name, "rb");
    int unread;

    if (file == NULL) return fail(name, strerror(errno));
    errno = 0;
    *length = fread(code, 1, REEDTASSEL_CODE_MOST + 1, file);
    unread = ferror(file) ? errno : 0;
    fclose(file);
    if (unread != 0) return fail(name, strerror(unread));
    if (*length > REEDTASSEL_CODE_MOST) return fail(name, "longer than a kernel may be, 8,192 bytes");
    return OUTCOME_FINISHED;
}

/* Whether the text is a number, and which. */
static int read_number(const char *text, size_t *number) {
    char *rest;

    if (text[0] < '0' || text[0] > '9') return 0;
    errno = 0;
    *number = strtoul(text, &rest, 10);
    return errno == 0 && *rest == '\0';
}

int main(int argc, char **argv) {
    static uint8_t code[REEDTASSEL_CODE_MOST + 1];
    size_t length, budget = REEDTASSEL_BUDGET_MOST;
    enum outcome outcome;

    if (argc < 2 || argc > 3) return fail("wrong usage", "kernel FILE [BUDGET]");
    if (argc == 3 && !read_number(argv[2], &budget)) return fail(argv[2], "not a number of steps");
    outcome = load(argv[1], code, &length);
    if (outcome == OUTCOME_FINISHED) outcome = list_kernel(code, length);
    if (outcome == OUTCOME_FINISHED) outcome = run_kernel(code, length, budget);
    if (fflush(stdout) != 0 || ferror(stdout)) return fail("standard output", "can't be written");
    return outcome;
}
