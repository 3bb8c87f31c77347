/* Decoding and encoding: the listing of a kernel, and its bytes made again. */
#include <stdio.h>
#include <string.h>

#include "kernel.h"

/* The words of the instructions, by their kind. */
static const char *const words[] = {
    "",     "mov16",        "mov32",         "get_sr",   "iadd",    "imadd",      "bfi",       "bfeil",
    "extr", "shlhi",        "shrhi",         "asr",      "asrh",    "bitop",      "bitrev",    "popcount",
    "ffs",  "jmp_exec_any", "jmp_exec_none", "pop_exec", "if_icmp", "while_icmp", "else_icmp",
};

static void print_line(size_t at, const uint8_t *bytes, size_t length, const char *word) {
    size_t i;

    printf("%04zX ", at);
    for (i = 0; i < length; i++) printf("%02X", bytes[i]);
    printf(" %s\n", word);
}

/* Whether the instruction's encoding has these bytes, all of them and no more. */
static int encodes_to(const struct reedtassel_instruction *instruction, const uint8_t *bytes, int32_t length) {
    uint8_t out[REEDTASSEL_ENCODING_MOST];
    int32_t wrote = reedtassel_encode((const uint8_t *)instruction, sizeof *instruction, out, sizeof out);

    return wrote == length && memcmp(out, bytes, (size_t)wrote) == 0;
}

enum outcome list_kernel(const uint8_t *code, size_t length) {
    struct reedtassel_instruction instruction;
    size_t at = 0, count = 0;
    int32_t answer = 0;

    while (at < length) {
        answer = reedtassel_decode(code, length, at, (uint8_t *)&instruction, sizeof instruction);
        if (answer < 0) break;
        print_line(at, code + at, (size_t)answer, words[instruction.kind]);
        if (!encodes_to(&instruction, code + at, answer)) {
            fprintf(stderr, "kernel: the instruction at %04zX does not encode to its own bytes\n", at);
            return OUTCOME_FAILED;
        }
        at += (size_t)answer;
        count++;
    }
    if (answer < 0)
        printf("%04zX refused %d\n", at, (int)-answer);
    else
        printf("%04zX end\n", at);
    printf("encoded again: instructions %zu, bytes %zu, all as in the file\n", count, at);
    return OUTCOME_FINISHED;
}
