/*
 * compare FIRST SECOND: compares two kernel files and prints the line. Exit status: 0 same; 1 they differ, or one
 * ended first; 2 refused, wrong usage, or a file that can't be read.
 *
 * From the top of a release, in one line:
 * cc -std=c99 -Wall -Wextra -Werror -pedantic -Iinclude examples/c/compare.c lib/libreedtassel_compare.a -o compare
 * In the sources the library is target/staticlib/libreedtassel_compare.a, after `./reedtassel lib`.
 */
#include <errno.h>
#include <stdio.h>
#include <string.h>

#include "reedtassel_compare.h"

/* One byte more than a kernel may have, by which one that is too long is seen. */
enum { READ_MOST = REEDTASSEL_COMPARE_CODE_MOST + 1 };

enum { SAME = 0, DIFFERENT = 1, FAILED = 2 };

static int fail(const char *what, const char *why) {
    fprintf(stderr, "compare: %s: %s\n", what, why);
    return FAILED;
}

/* Whether the file was read. */
static int load(const char *name, uint8_t code[READ_MOST], size_t *length) {
    FILE *file = fopen(name, "rb");
    int unread = errno;

    if (file != NULL) {
        errno = 0;
        *length = fread(code, 1, READ_MOST, file);
        unread = ferror(file) ? errno : 0;
        fclose(file);
        if (unread == 0) return 1;
    }
    fail(name, strerror(unread));
    return 0;
}

int main(int argc, char **argv) {
    static uint8_t first[READ_MOST], second[READ_MOST];
    uint8_t line[REEDTASSEL_COMPARE_LINE_MOST];
    size_t first_length, second_length;
    int32_t length;

    if (argc != 3) return fail("wrong usage", "compare FIRST SECOND");
    if (!load(argv[1], first, &first_length) || !load(argv[2], second, &second_length)) return FAILED;
    length = reedtassel_compare(first, first_length, second, second_length, line, sizeof line);
    if (length < 0) return fail("the line", "no room"); /* not with room for every line */
    printf("%.*s\n", (int)length, (const char *)line);
    if (fflush(stdout) != 0) return fail("standard output", strerror(errno));
    if (length == 4 && memcmp(line, "same", 4) == 0) return SAME;
    return length > 12 && memcmp(line + 5, "refused", 7) == 0 ? FAILED : DIFFERENT;
}
