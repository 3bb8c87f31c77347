/*
 * reedtassel.h: decodes, encodes and runs kernels of the G13 GPU, and reads and writes them as Intel HEX.
 *
 * Link libreedtassel.a (Linux on x86-64). A release has it in lib/; in the sources `./reedtassel lib` builds it.
 * docs/c-interface.md has worked examples, docs/byte-form.md the byte form of an instruction, docs/run.md what a run
 * does.
 *
 * What holds for all five functions:
 *
 * - An answer below 0 is minus a refusal number (enum reedtassel_refusal), and the lowest that applies is given.
 * - A buffer is lent as a pointer and its length in bytes. Numbers in it are little-endian, and it may stand at any
 *   address. The structs below have the layout of the bytes; lend one as (uint8_t *)&it, sizeof it.
 * - Sizes are checked, pointers can't be. The caller answers for them: each has as many bytes as its length says, and
 *   may be NULL where that is 0. A buffer that is written must not overlap another that is lent in the same call.
 * - During a call nothing else may write to a lent buffer, nor read one that the call writes.
 * - Nothing outside the lent buffers is read or written, and every call returns, whatever stands in them.
 * - No state is kept and no memory is allocated: calls on different buffers may be made at the same time. Code and
 *   tables that are only read may be shared. A run takes about 80 KB of stack, the others less.
 */
#ifndef REEDTASSEL_H
#define REEDTASSEL_H

#include <stddef.h>
#include <stdint.h>

#include "reedtassel_version.h"

#ifdef __cplusplus
extern "C" {
#endif

/* Bytes of an instruction's byte form, of a run's answer, of one record; bytes that hold every encoding. */
#define REEDTASSEL_INSTRUCTION_BYTES 48
#define REEDTASSEL_ANSWER_BYTES 24
#define REEDTASSEL_RECORD_BYTES 16
#define REEDTASSEL_ENCODING_MOST 8

/*
 * The sizes of what is lent to a run. Register r of thread t is word 32 x r + t, special registers likewise; the mark
 * of half h of thread t is byte 32 x h + t.
 */
#define REEDTASSEL_THREADS 32
#define REEDTASSEL_CODE_MOST 8192     /* bytes */
#define REEDTASSEL_REGISTERS_MOST 128 /* for each thread, at least 1 */
#define REEDTASSEL_UNIFORMS 256       /* words, exactly */
#define REEDTASSEL_SPECIALS_MOST 256  /* for each thread, 0 allowed */
#define REEDTASSEL_BUDGET_MOST 4096   /* steps, at least 1 */

/* Intel HEX: bytes of a kernel, characters of the longest text that is written, bytes of the number of a row. */
#define REEDTASSEL_HEX_CODE_MOST 8192
#define REEDTASSEL_HEX_TEXT_MOST 22540
#define REEDTASSEL_HEX_ROW_BYTES 8

/* Why a call is refused; the answer is minus this number. */
enum reedtassel_refusal {
    REEDTASSEL_BAD_SIZE = 1,     /* a length, the offset, the budget or the start address is not as it must be */
    REEDTASSEL_CUT_SHORT = 2,    /* the instruction is cut short: the input ends inside it */
    REEDTASSEL_NO_DIAGRAM = 3,   /* no instruction that is built has these bytes */
    REEDTASSEL_NO_MEANING = 4,   /* an operand or a condition of the instruction has no meaning */
    REEDTASSEL_NO_REGISTER = 5,  /* a register, or the second of a pair, is not lent */
    REEDTASSEL_NO_SPECIAL = 6,   /* a special register is not lent */
    REEDTASSEL_BAD_TARGET = 7,   /* a taken jump to an odd address, below 0 or above the code length */
    REEDTASSEL_NO_ENCODING = 8,  /* the bytes spell no instruction, or one that has no encoding */
    REEDTASSEL_SHORT_BUFFER = 9, /* the buffer is shorter than the encoding */
    REEDTASSEL_DISCARDED = 10,   /* a register half is read that was marked before the step */
    REEDTASSEL_BAD_ROW = 12,     /* a row of Intel HEX is not as it has to be */
    REEDTASSEL_BAD_SUM = 13,     /* the sum of the row is wrong */
    REEDTASSEL_BAD_ORDER = 14    /* the row is out of place */
};

/* Which instruction, by its word in a listing: kind of struct reedtassel_instruction. */
enum reedtassel_kind {
    REEDTASSEL_MOV16 = 1,
    REEDTASSEL_MOV32 = 2,
    REEDTASSEL_GET_SR = 3,
    REEDTASSEL_IADD = 4,
    REEDTASSEL_IMADD = 5,
    REEDTASSEL_BFI = 6,
    REEDTASSEL_BFEIL = 7,
    REEDTASSEL_EXTR = 8,
    REEDTASSEL_SHLHI = 9,
    REEDTASSEL_SHRHI = 10,
    REEDTASSEL_ASR = 11,
    REEDTASSEL_ASRH = 12,
    REEDTASSEL_BITOP = 13,
    REEDTASSEL_BITREV = 14,
    REEDTASSEL_POPCOUNT = 15,
    REEDTASSEL_FFS = 16,
    REEDTASSEL_JMP_EXEC_ANY = 17,
    REEDTASSEL_JMP_EXEC_NONE = 18,
    REEDTASSEL_POP_EXEC = 19,
    REEDTASSEL_IF_ICMP = 20,
    REEDTASSEL_WHILE_ICMP = 21,
    REEDTASSEL_ELSE_ICMP = 22
};

/* Which operand, and what its number counts: kind of struct reedtassel_operand. */
enum reedtassel_operand_kind {
    REEDTASSEL_OPERAND_NONE = 0,
    REEDTASSEL_OPERAND_REGISTER_HALF = 1, /* 2r the low half of register r, 2r + 1 the high half */
    REEDTASSEL_OPERAND_REGISTER = 2,
    REEDTASSEL_OPERAND_REGISTER_PAIR = 3, /* the first register, with the low 32 bits */
    REEDTASSEL_OPERAND_UNIFORM_HALF = 4,  /* as a register half */
    REEDTASSEL_OPERAND_UNIFORM_REGISTER = 5,
    REEDTASSEL_OPERAND_UNIFORM_PAIR = 6, /* as a register pair */
    REEDTASSEL_OPERAND_IMMEDIATE = 7     /* the value, 0 to 255 */
};

/* hint of struct reedtassel_operand. It changes no value; in a run, discard marks the halves of a source. */
enum reedtassel_hint {
    REEDTASSEL_HINT_NONE = 0,
    REEDTASSEL_HINT_CACHE = 1,
    REEDTASSEL_HINT_DISCARD = 2
};

/* How a run ended: ending of struct reedtassel_answer. */
enum reedtassel_ending {
    REEDTASSEL_FINISHED = 0, /* the address is the code length */
    REEDTASSEL_SPENT = 1,    /* the budget is used up */
    REEDTASSEL_REFUSED = 2   /* the instruction at the address is refused */
};

/* What a step was: step_class of struct reedtassel_record. */
enum reedtassel_class {
    REEDTASSEL_CLASS_DATA = 1,
    REEDTASSEL_CLASS_MASK = 2,
    REEDTASSEL_CLASS_JUMP_NOT_TAKEN = 3,
    REEDTASSEL_CLASS_JUMP_TAKEN = 4
};

/* An operand of an instruction. */
struct reedtassel_operand {
    uint8_t kind; /* enum reedtassel_operand_kind */
    uint8_t hint; /* enum reedtassel_hint */
    uint16_t number;
};

/* The byte form of an instruction. Set it to zero first: what an instruction has no use for is zero. */
struct reedtassel_instruction {
    uint8_t kind;   /* enum reedtassel_kind */
    uint8_t length; /* bytes of the encoding: 4, 6 or 8 */
    uint8_t l;      /* L of the movs */
    uint8_t m;      /* m3:m2:m1 of the bitfield instructions */
    struct reedtassel_operand d, a, b, c;
    uint32_t immediate; /* of the movs; the special register of get_sr; the signed offset of a jump */
    uint8_t saturate, negate, sign_a, sign_b, sign_c;
    uint8_t shift; /* s2:s1 */
    uint8_t tt[4]; /* the truth table of bitop */
    uint8_t cc, ccn;
    uint8_t n; /* of the mask instructions */
    uint8_t reserved[3];
    uint64_t kept; /* the bits without a known meaning, each at its place in the encoding */
};

/* The answer of a run. */
struct reedtassel_answer {
    uint32_t ending;  /* enum reedtassel_ending */
    uint32_t refusal; /* 2 to 7 or 10 where refused, else 0 */
    uint32_t steps;   /* the steps done */
    uint32_t mask;    /* bit t is 1 where thread t is active */
    uint64_t address; /* where the run stands */
};

/* The record of one step. */
struct reedtassel_record {
    uint16_t address;
    uint8_t length;     /* bytes of the instruction: 4, 6 or 8 */
    uint8_t step_class; /* enum reedtassel_class */
    uint32_t mask_before;
    uint32_t mask_after;
    uint32_t zeros;
};

/* A compiler that lays a struct out otherwise stops here. */
typedef char reedtassel_operand_is_4_bytes[sizeof(struct reedtassel_operand) == 4 ? 1 : -1];
typedef char reedtassel_instruction_is_48_bytes
    [sizeof(struct reedtassel_instruction) == REEDTASSEL_INSTRUCTION_BYTES ? 1 : -1];
typedef char reedtassel_answer_is_24_bytes[sizeof(struct reedtassel_answer) == REEDTASSEL_ANSWER_BYTES ? 1 : -1];
typedef char reedtassel_record_is_16_bytes[sizeof(struct reedtassel_record) == REEDTASSEL_RECORD_BYTES ? 1 : -1];

/*
 * Decodes the instruction at byte `offset` of the code, which may have any length.
 *
 * Above 0: the length of the instruction, 4, 6 or 8. Its byte form is written to the first 48 bytes of `instruction`,
 * and nothing after them.
 * -1: offset is above code_len; or the instruction was decoded, and instruction_len is below 48.
 * -2: the instruction is cut short: the input ends inside it; also where offset is code_len.
 * -3: no instruction that is built has these bytes.
 * -4: an operand or a condition of the instruction has no meaning.
 * Refused, nothing is written. With -2, -3 and -4 nothing was to be written: they are given for a shorter buffer, too.
 */
int32_t reedtassel_decode(const uint8_t *code, size_t code_len, size_t offset, uint8_t *instruction,
                          size_t instruction_len);

/*
 * Encodes the instruction whose byte form is lent.
 *
 * Above 0: the length of the encoding, 4, 6 or 8. It is written to the first bytes of `out`, and nothing after it.
 * -8: instruction_len is not 48, or the bytes spell no instruction, or it has no encoding.
 * -9: out_len is shorter than the encoding. 8 bytes hold every encoding.
 * Refused, nothing is written.
 *
 * An instruction that was decoded encodes to its own bytes. What was encoded decodes to the same byte form.
 */
int32_t reedtassel_encode(const uint8_t *instruction, size_t instruction_len, uint8_t *out, size_t out_len);

/*
 * Runs a kernel for 32 threads in lockstep, from the address `start` and with the threads of `mask` active, until the
 * code is at its end, `budget` steps are made, or an instruction is refused. All lengths are in bytes:
 *
 * code_len       0 to 8,192
 * registers_len  128 x N, N from 1 to 128. Read and written
 * marks_len      64 x N, so registers_len / 2. Read and written
 * uniforms_len   1,024
 * specials_len   128 x K, K from 0 to 256
 * start          even, at most code_len
 * budget         1 to 4,096
 * records_len    at least 16 x budget. Written
 * answer_len     at least 24. Written
 *
 * A mark is a byte for a register half and a thread: 0 is clear, any other value is marked. Half 2r is the low half of
 * register r, 2r + 1 its high half. An instruction that reads a marked half is refused with 10. A source with the
 * discard hint marks its halves for all 32 threads, active or not, once all sources are read; a thread that then writes
 * a half clears its mark. Marked is written as 1, clear as 0, and all other bytes stay as they were. Lend zero bytes to
 * the first run, and to a run that goes on what the last one left.
 *
 * 0: finished or spent; the answer says which.
 * -2 .. -7, -10: an instruction was refused. The steps before it are done, and it changed nothing.
 * In both cases the answer is written to the first 24 bytes of `answer`, registers and marks are as the last step left
 * them, and `records` begins with a record of 16 bytes for each step; the bytes after these are untouched.
 * -1: something is not as in the list above. Then nothing is written, neither registers nor marks nor records nor
 * answer.
 */
int32_t reedtassel_run(const uint8_t *code, size_t code_len, uint8_t *registers, size_t registers_len, uint8_t *marks,
                       size_t marks_len, const uint8_t *uniforms, size_t uniforms_len, const uint8_t *specials,
                       size_t specials_len, size_t start, uint32_t mask, size_t budget, uint8_t *records,
                       size_t records_len, uint8_t *answer, size_t answer_len);

/*
 * Reads a kernel from a text in Intel HEX, which may have any length. Rows are of type 00, with 0 to 255 bytes, in
 * rising address order from 0 without a gap, then one end row, of type 01. Digits may be in either case. A line feed
 * ends each row, and a carriage return may stand right before it.
 *
 * 0 and above: the number of bytes of the kernel. They are written to the first bytes of `code`, and nothing after
 * them; `row` is untouched.
 * -12, -13, -14: a row is bad. The first such row decides, and its lowest number is given:
 * -12: the row is not as it has to be: no colon first, a character that is no hexadecimal digit, a length other than
 * its count says, or no line feed.
 * -13: the sum of the row is wrong.
 * -14: the row is out of place: a gap or an overlap, a type other than 00 and 01, an end row with an address or data,
 * no end row, or text after it. Text after the end row is always 14. If there is no end row, the bad row is the one
 * after the last.
 * `code` is then untouched. Where row_len is at least 8, the number of the row, counted from 1, is written to the first
 * 8 bytes of `row`, and nothing after them: lend a uint64_t. Where row_len is below 8 it is not wanted, and `row` is
 * untouched.
 * -1: no row is bad, and the kernel has more than 8,192 bytes, or code_len is less than its length. Nothing is written.
 */
int32_t reedtassel_hex_read(const uint8_t *text, size_t text_len, uint8_t *code, size_t code_len, uint8_t *row,
                            size_t row_len);

/*
 * Writes a kernel as a text in Intel HEX: rows of 16 bytes, fewer in the last, in upper case, each ended by a line
 * feed, then the end row. Read again, the text gives the kernel back.
 *
 * Above 0: the number of characters, 12 to 22,540. They are written to the first bytes of `text`, without a zero byte,
 * and nothing after them.
 * -1: code_len is above 8,192, or text_len is less than the number of characters. Nothing is written.
 */
int32_t reedtassel_hex_write(const uint8_t *code, size_t code_len, uint8_t *text, size_t text_len);

#ifdef __cplusplus
}
#endif

#endif
