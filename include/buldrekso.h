/* Buldrekso: reading, parsing and respacing of old JavaScript, from the static library of the crate `exports`.
 *
 * A slice is a pointer, never null and aligned for its elements, and their number. The text and the lent tables or the output
 * must not overlap. A call keeps nothing, allocates nothing and takes at most 192 KiB of stack (measured).
 *
 * Each call answers the count where the text is accepted, and number * 2^32 + place where it is refused; the number is from 1 to 15 (8 no
 * longer occurs), so that an answer below 2^32 is a count. A refusal zeroes every cell of each lent table and output; on acceptance what stands behind
 * the last record of a table, or the last byte written, is as it was. */
#ifndef BULDREKSO_H
#define BULDREKSO_H

#include <stddef.h>
#include <stdint.h>

#ifdef __cplusplus
extern "C" {
#endif

/* The most bytes of a text; numbers in a tree and in a syntax record, and the most records of each; the bytes of an output that always
 * suffices. Tables of WIDTH * MOST numbers always suffice. */
#define BULDREKSO_MOST_BYTES 262144
#define BULDREKSO_TREE_WIDTH 5
#define BULDREKSO_TREE_MOST 16384
#define BULDREKSO_SYNTAX_WIDTH 3
#define BULDREKSO_SYNTAX_MOST 16385
#define BULDREKSO_RESPACED_MOST (2 * BULDREKSO_MOST_BYTES + 1)

/* Kinds of records from 1 to 13 for trees and 1 to 94 for syntax: docs/KINDS.md lists them. */

/* Tree records: kind, first byte, byte after the last, records in it with itself, 1 if a line end lies before it. The count is theirs. */
uint64_t buldrekso_read(const uint8_t *text, size_t text_len, uint32_t *trees, size_t trees_len);

/* Tree records as above, and syntax records: kind, index of the tree record that marks it, records in it with itself. The count is of
 * syntax records; the last of them is the program, whose mark is the number of tree records. */
uint64_t buldrekso_parse(const uint8_t *text, size_t text_len, uint32_t *trees, size_t trees_len, uint32_t *syntax, size_t syntax_len);

/* The text with one blank or line end between its elements, and no comments. The count is of bytes. */
uint64_t buldrekso_respace(const uint8_t *text, size_t text_len, uint8_t *output, size_t output_len);

/* Whether an answer is a refusal, with its number and its place. */
static inline int buldrekso_refused(uint64_t answer) { return answer >> 32 != 0; }
static inline uint32_t buldrekso_number(uint64_t answer) { return (uint32_t)(answer >> 32); }
static inline uint32_t buldrekso_place(uint64_t answer) { return (uint32_t)answer; }

#ifdef __cplusplus
}
#endif

#endif
