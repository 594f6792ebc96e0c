/*
 * formcheck: order forms and rule sheets, for C.
 *
 * Every call takes each slice as a pointer and a number of elements, and ends with a lent array for its answer. It returns the
 * answer's kind, and writes kind, first value and second value to the front of that array, as many of the three as it has room
 * for. Lend three words to get them all.
 *
 *   kind                   first value         second value
 *   FORMCHECK_COUNT        the count           0
 *   FORMCHECK_ACCEPTED     the root's state    looks
 *   FORMCHECK_REFUSED      the root's state    looks
 *   FORMCHECK_STUCK        a node              looks
 *   FORMCHECK_ERROR        the number          the place of the refusal, as document 01 gives them
 *
 * The array of the answer is written whether the call refuses or not; what it has past the three words keeps its contents. The other
 * lent arrays are left as they are by a refusal, but for 23, which zeroes the first n state words; where a call succeeds, what they have
 * past the words or bytes that it writes keeps its contents. Each of these sentences is part of the call's proved promise
 * (crates/capi/src/lib.rt).
 *
 * The promise holds where the caller keeps C's side of it: a pointer is not null, also where the number of elements is 0; it is
 * aligned for its type and has as many elements as is said; and no array that a call writes overlaps another of that call. A call
 * keeps nothing after it returns, uses no heap, and ran in less than 256 KB of stack (measured, not proved).
 *
 * Link target/staticlib/libcapi.a (compare/library).
 */
#ifndef FORMCHECK_H
#define FORMCHECK_H

#include <stddef.h>
#include <stdint.h>

#ifdef __cplusplus
extern "C" {
#endif

enum {
    FORMCHECK_COUNT = 0,
    FORMCHECK_ACCEPTED = 1,
    FORMCHECK_REFUSED = 2,
    FORMCHECK_STUCK = 3,
    FORMCHECK_ERROR = 4
};

/* The most of each that passes: words of a sheet, words of a tree (four for each node), state words. */
enum {
    FORMCHECK_SHEET_WORDS = 16384,
    FORMCHECK_TREE_WORDS = 16384,
    FORMCHECK_STATE_WORDS = 4096
};

/* The number of names of a list, or 8. */
uint32_t formcheck_names(const uint8_t *list, size_t list_bytes, uint64_t *answer, size_t answer_words);

/* The tree of a text, to the front of `tree`: the number of its nodes, or 8, 1 to 7 or 22. */
uint32_t formcheck_read(const uint8_t *list, size_t list_bytes, const uint8_t *text, size_t text_bytes, uint32_t *tree,
                        size_t tree_words, uint64_t *answer, size_t answer_words);

/* The number of nodes of a tree over `tags` tags, or 10. */
uint32_t formcheck_tree(const uint32_t *tree, size_t tree_words, uint32_t tags, uint64_t *answer, size_t answer_words);

/* A tree and the text that it was read from, written to the front of `out`: the number of its bytes, or 8, 1, 10, 11, 24 or 22. */
uint32_t formcheck_write(const uint8_t *list, size_t list_bytes, const uint8_t *text, size_t text_bytes, const uint32_t *tree,
                         size_t tree_words, uint8_t *out, size_t out_bytes, uint64_t *answer, size_t answer_words);

/* The number of words of a sheet, or 9. */
uint32_t formcheck_sheet(const uint32_t *sheet, size_t sheet_words, uint64_t *answer, size_t answer_words);

/* A sheet from the bytes of its file, to the front of `sheet`: the number of its words, or 9 or 22. */
uint32_t formcheck_sheet_from_file(const uint8_t *file, size_t file_bytes, uint32_t *sheet, size_t sheet_words,
                                   uint64_t *answer, size_t answer_words);

/* The verdict of a sheet on a tree, with state + 1 or 0 for each node to the front of `states`; or 9, 10, 22 or 23. */
uint32_t formcheck_judge(const uint32_t *sheet, size_t sheet_words, const uint32_t *tree, size_t tree_words, uint32_t *states,
                         size_t state_words, uint64_t *answer, size_t answer_words);

/* The swapped sheet, to the front of `out`: the number of its words, or 9 or 22. */
uint32_t formcheck_swap(const uint32_t *sheet, size_t sheet_words, uint32_t *out, size_t out_words, uint64_t *answer,
                        size_t answer_words);

/* The joint sheet of two, to the front of `out`: the number of its words, or 9, 20, 21 or 22. */
uint32_t formcheck_join(const uint32_t *first, size_t first_words, const uint32_t *second, size_t second_words, uint32_t *out,
                        size_t out_words, uint64_t *answer, size_t answer_words);

/* What the program formcheck says of a name list, the bytes of a sheet's file and a form. */
uint32_t formcheck_verdict(const uint8_t *list, size_t list_bytes, const uint8_t *file, size_t file_bytes, const uint8_t *text,
                           size_t text_bytes, uint64_t *answer, size_t answer_words);

#ifdef __cplusplus
}
#endif

#endif
