/*
 * reedtassel_compare.h: compares two kernels of the G13 GPU.
 *
 * Link libreedtassel_compare.a (Linux on x86-64). A release has it in lib/; in the sources `./reedtassel lib` builds it.
 * It needs the C library alone, and can be linked beside libreedtassel.a. docs/compare.md says what a line means,
 * docs/c-interface.md has a worked example.
 */
#ifndef REEDTASSEL_COMPARE_H
#define REEDTASSEL_COMPARE_H

#include <stddef.h>
#include <stdint.h>

#include "reedtassel_version.h"

#ifdef __cplusplus
extern "C" {
#endif

/* Bytes that hold every line. */
#define REEDTASSEL_COMPARE_LINE_MOST 16

/* Bytes of a kernel; a longer one is refused with 1. */
#define REEDTASSEL_COMPARE_CODE_MOST 8192

/*
 * Compares two kernels, up to the first difference, end or refusal, and writes a line that says what was found:
 * `same`; or the address in four upper-case hexadecimal digits, a space, and one of
 *
 * instruction, length, destination, source A, source B, source C, immediate, field N, hint, bit
 *                     what differs first in the instructions there; N is the field's lowest bit
 * ended 1, ended 2    the first or the second kernel ends there
 * refused R 1, refused R 2
 *                     the first or the second kernel is refused there, R from 1 to 4; 1 is a kernel above 8,192 bytes
 *
 * Above 0: the length of the line, 4 to 16. It is written to the first bytes of `line`, without a line feed or a zero
 * byte, and nothing after it.
 * -1: line_len is less than the length of the line. Nothing is written.
 *
 * Pointers can't be checked. The caller answers for them: each has as many bytes as its length says, and may be NULL
 * where that is 0. The line must overlap neither kernel; the kernels may overlap or be the same. During the call
 * nothing else may write to the kernels, nor write or read the line. Nothing outside is read or written, and every
 * call returns. No state is kept and no memory is allocated.
 */
int32_t reedtassel_compare(const uint8_t *first, size_t first_len, const uint8_t *second, size_t second_len,
                           uint8_t *line, size_t line_len);

#ifdef __cplusplus
}
#endif

#endif
