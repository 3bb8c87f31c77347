/* The parts of the example: listing.c and running.c. */
#ifndef KERNEL_H
#define KERNEL_H

#include "reedtassel.h"

/* The exit statuses of the program. */
enum outcome {
    OUTCOME_FINISHED = 0,
    OUTCOME_NOT_FINISHED = 1, /* refused or spent */
    OUTCOME_FAILED = 2        /* wrong usage, a file that can't be taken, an answer that can't be */
};

/*
 * Prints a line for each instruction, as the lister does, then `end` or `refused N` at the place where it stopped. Encodes each
 * instruction again, and fails where the bytes are not the code's.
 */
enum outcome list_kernel(const uint8_t *code, size_t length);

/*
 * Runs the code from address 0 with all threads active. Prints the answer, the records, the registers that changed, and the halves
 * that are marked.
 */
enum outcome run_kernel(const uint8_t *code, size_t length, size_t budget);

#endif
