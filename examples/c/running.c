/* A run, its records, and the registers and marks that it changed. */
#include <stdio.h>
#include <string.h>

#include "kernel.h"

enum { REGISTERS = 32, SPECIALS = 8 };

/* The refusals of a run. */
static const char *const refusals[] = {
    [REEDTASSEL_BAD_SIZE] = "a size is not as it must be",
    [REEDTASSEL_CUT_SHORT] = "the instruction is cut short",
    [REEDTASSEL_NO_DIAGRAM] = "no instruction that is built has these bytes",
    [REEDTASSEL_NO_MEANING] = "an operand or a condition has no meaning",
    [REEDTASSEL_NO_REGISTER] = "a register is not lent",
    [REEDTASSEL_NO_SPECIAL] = "a special register is not lent",
    [REEDTASSEL_BAD_TARGET] = "the target of a jump is odd or outside of the code",
    [REEDTASSEL_DISCARDED] = "a half is read that is marked",
};

static const char *const endings[] = {"finished", "spent", "refused"};

static const char *const classes[] = {"", "data", "mask", "jump not taken", "jump taken"};

/* What is lent to the run. On this machine a word's bytes in memory are little-endian, so words are lent as they are. */
static struct {
    uint32_t registers[REGISTERS][REEDTASSEL_THREADS];
    uint8_t marks[2 * REGISTERS][REEDTASSEL_THREADS];
    uint32_t uniforms[REEDTASSEL_UNIFORMS];
    uint32_t specials[SPECIALS][REEDTASSEL_THREADS];
    struct reedtassel_record records[REEDTASSEL_BUDGET_MOST];
    struct reedtassel_answer answer;
} lent;

/* r0 is 0, so r0l agrees with the mask; every other register of thread t is t. */
static uint32_t first_value(unsigned r, unsigned t) {
    return r == 0 ? 0 : t;
}

/* All marks are clear; uniform u is u; special register k of thread t is 256 x k + t. */
static void fill(void) {
    unsigned i, t;

    for (i = 0; i < REGISTERS; i++)
        for (t = 0; t < REEDTASSEL_THREADS; t++) lent.registers[i][t] = first_value(i, t);
    memset(lent.marks, 0, sizeof lent.marks);
    for (i = 0; i < REEDTASSEL_UNIFORMS; i++) lent.uniforms[i] = i;
    for (i = 0; i < SPECIALS; i++)
        for (t = 0; t < REEDTASSEL_THREADS; t++) lent.specials[i][t] = 256 * i + t;
}

static void print_records(void) {
    uint32_t k;

    for (k = 0; k < lent.answer.steps; k++) {
        const struct reedtassel_record *record = &lent.records[k];
        printf("%04X %d %-14s %08X %08X\n", (unsigned)record->address, record->length, classes[record->step_class],
               (unsigned)record->mask_before, (unsigned)record->mask_after);
    }
}

/* Prints a blank, then some neighbouring threads. */
static void print_threads(unsigned first, unsigned last) {
    printf(" %u", first);
    if (last > first) printf("-%u", last);
}

/*
 * Prints in one line which threads' values of register r changed, neighbours with the same value together. Answers the number of
 * groups.
 */
static int print_changes(unsigned r) {
    const uint32_t *values = lent.registers[r];
    unsigned t, last;
    int groups = 0;

    for (t = 0; t < REEDTASSEL_THREADS; t = last + 1) {
        last = t;
        if (values[t] == first_value(r, t)) continue;
        while (last + 1 < REEDTASSEL_THREADS && values[last + 1] == values[t] && first_value(r, last + 1) != values[t]) last++;
        if (groups++ == 0) printf("r%u:", r);
        print_threads(t, last);
        printf("=%08X", (unsigned)values[t]);
    }
    if (groups != 0) putchar('\n');
    return groups;
}

/* Prints in one line in which threads half h is marked; nothing where it is clear in all. */
static void print_marks(unsigned h) {
    const uint8_t *marks = lent.marks[h];
    unsigned t, last;
    int groups = 0;

    for (t = 0; t < REEDTASSEL_THREADS; t = last + 1) {
        last = t;
        if (marks[t] == 0) continue;
        while (last + 1 < REEDTASSEL_THREADS && marks[last + 1] != 0) last++;
        if (groups++ == 0) printf("r%u%c marked:", h / 2, h % 2 == 0 ? 'l' : 'h');
        print_threads(t, last);
    }
    if (groups != 0) putchar('\n');
}

static void print_answer(void) {
    const struct reedtassel_answer *answer = &lent.answer;

    printf("%s", endings[answer->ending]);
    if (answer->ending == REEDTASSEL_REFUSED) printf(" %u, %s", (unsigned)answer->refusal, refusals[answer->refusal]);
    printf(": steps %u, address %04X, mask %08X\n", (unsigned)answer->steps, (unsigned)answer->address, (unsigned)answer->mask);
}

enum outcome run_kernel(const uint8_t *code, size_t length, size_t budget) {
    int32_t answer;
    unsigned r, h;
    int groups = 0;

    fill();
    answer = reedtassel_run(code, length, (uint8_t *)lent.registers, sizeof lent.registers, (uint8_t *)lent.marks, sizeof lent.marks,
                            (const uint8_t *)lent.uniforms, sizeof lent.uniforms, (const uint8_t *)lent.specials, sizeof lent.specials,
                            0, 0xFFFFFFFF, budget, (uint8_t *)lent.records, sizeof lent.records,
                            (uint8_t *)&lent.answer, sizeof lent.answer);
    if (answer == -REEDTASSEL_BAD_SIZE) {
        printf("refused 1, %s: nothing was run\n", refusals[REEDTASSEL_BAD_SIZE]);
        return OUTCOME_NOT_FINISHED;
    }
    print_answer();
    print_records();
    for (r = 0; r < REGISTERS; r++) groups += print_changes(r);
    if (groups == 0) printf("no register changed\n");
    for (h = 0; h < 2 * REGISTERS; h++) print_marks(h);
    return lent.answer.ending == REEDTASSEL_FINISHED ? OUTCOME_FINISHED : OUTCOME_NOT_FINISHED;
}
