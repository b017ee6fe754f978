/* Tags of a sonde's readings, for a data logger in C.
 *
 * Link crates/logger_c/out/liblogger_c.a, which `rt lib` makes in crates/logger_c. It uses memcpy and memset and nothing
 * else: no allocation, no files, no state of its own. Calls may run at the same time from several threads, as long as
 * none of them writes memory that another one uses.
 *
 * Numbers for 16 bytes. A subkey, a pad or a polynomial of 16 bytes is handed over as two numbers, each with its first
 * byte highest: the bytes 00 01 02 .. 0f are 0x0001020304050607 and 0x08090a0b0c0d0e0f.
 *
 * Memory. Every pointer is followed by the number of bytes behind it. The caller owns all memory; a call keeps no pointer
 * after it returns. Where the number is 0, the pointer may be null. Where it is not, the pointer must lead to at least that
 * many bytes, and nothing checks that. `output` must not overlap `header` or `body`.
 *
 * Answers. 0 or more is an answer, less than 0 a refusal:
 *
 *      -1  the header has more than 65,535 bytes
 *      -2  the body has more than 68,719,476,704 bytes
 *      -3  the polynomial does not annihilate the subkey
 *      -7  the given tag has fewer than 4 bytes or more than 16
 *      -8  the tag differs
 *     -15  the output has fewer than 32 bytes
 *
 * Where more than one holds, each call says below which it looks for first.
 */
#ifndef BILGELONGAN_H
#define BILGELONGAN_H

#include <stddef.h>
#include <stdint.h>

#ifdef __cplusplus
extern "C" {
#endif

/* Hash and tag of a header and a body, either of which may be empty.
 *
 * 0: the first 16 bytes of the output are the hash, the next 16 the tag, and the bytes after these 32 are as before.
 * Else -1, -2 or -15, looked for in this order, and the output is as before.
 */
int32_t sonde_tag(uint64_t subkey_high, uint64_t subkey_low, uint64_t pad_high, uint64_t pad_low,
                  const uint8_t *header, size_t header_length, const uint8_t *body, size_t body_length,
                  uint8_t *output, size_t output_length);

/* Compares a given tag of 4 to 16 bytes with as many first bytes of the tag of header and body.
 *
 * 0: they are equal. Else -7, -1, -2 or -8, looked for in this order. The comparison looks at all given bytes, whichever
 * of them differ.
 */
int32_t sonde_check_tag(uint64_t subkey_high, uint64_t subkey_low, uint64_t pad_high, uint64_t pad_low,
                        const uint8_t *header, size_t header_length, const uint8_t *body, size_t body_length,
                        const uint8_t *tag, size_t tag_length);

/* Tries a polynomial t^128 + c_127 t^127 + .. + c_0 against the subkey. Its stored coefficients are the bits of
 * proposal_high and then those of proposal_low, from the highest bit down: c_0 is the highest bit of proposal_high.
 *
 * 0 to 128: the polynomial annihilates the subkey, and this many of its stored coefficients are one.
 * -3: it does not.
 *
 * It needs about 2,100 bytes of stack, and wipes the powers of the subkey that it keeps there.
 */
int32_t sonde_try_polynomial(uint64_t subkey_high, uint64_t subkey_low, uint64_t proposal_high, uint64_t proposal_low);

#ifdef __cplusplus
}
#endif

#endif
