/* Bevelumber: Fluent text, read and written with proof. The functions of libexports.a (rt lib in crates/exports).
 *
 * Each function is proved to answer, and to leave in the memory it is lent, what docs/CALLS.md says, for every input.
 * It keeps nothing between calls, allocates nothing, and takes a bounded stack; calls on different memory may run in parallel.
 *
 * What a caller owes, as in any C interface: a pointer is not null, also where its length is 0; it is aligned for its type and has
 * that many readable, and where it is not const writable, elements; memory that a call writes overlaps nothing else it is given, and
 * nothing else touches it meanwhile.
 *
 * L is the source's length in bytes. Offsets and marks count from 0.
 */
#ifndef BEVELUMBER_H
#define BEVELUMBER_H

#include <stdbool.h>
#include <stddef.h>
#include <stdint.h>

#ifdef __cplusplus
extern "C" {
#endif

/* The longest source, and how many '{' and '(' may be open at one time. */
#define BEVELUMBER_MAX_LENGTH 1000000
#define BEVELUMBER_MAX_OPEN 64

/* What a call answers: 0, or the number of its refusal. Each refusal is given if and only if its cause holds and no earlier one
 * does. With every answer comes a value of 64 bits, written through `returned`: */
enum bevelumber_answer {
    BEVELUMBER_ACCEPTED = 0,          /* read: 0. write: the length of the text in bytes */
    BEVELUMBER_TOO_LONG = 1,          /* source over 1,000,000 bytes: L */
    BEVELUMBER_NOT_UTF8 = 2,          /* source not UTF-8: the offset of the first ill-formed sequence */
    BEVELUMBER_TREE_TOO_SHORT = 3,    /* tree slice under 2 + 16 L words: the words needed */
    BEVELUMBER_ERRORS_TOO_SHORT = 4,  /* error slice under 2 + 7 L words: the words needed */
    BEVELUMBER_TOO_DEEP = 5,          /* reading would open a 65th '{' or '(' at one time: that byte's offset. An opening inside an
                                         attribute that is later dropped counts */
    BEVELUMBER_ILL_FORMED = 6,        /* mark list not well formed: the first mark with which no well-formed list can begin, the
                                         count if the list ends early, BEVELUMBER_NO_MARK if its sizes don't fit */
    BEVELUMBER_OUTPUT_TOO_SHORT = 7   /* normal text longer than the output: the bytes needed */
};

#define BEVELUMBER_NO_MARK 4294967295u

/* ---- The tree: u32 words, sizes first, then two parallel arrays.
 *
 *   word 0            count of marks
 *   word 1            capacity, 8 L
 *   8 L words         kinds
 *   8 L words         places
 *
 * A node is an opening mark, its children, and a closing mark whose kind is 100 more. Kinds with a text (T) have its start and its
 * end in the source as the two places; for the others both are 0. */
#define BEVELUMBER_TREE_WORDS(length) (2 + 16 * (size_t)(length))

static inline size_t bevelumber_marks(const uint32_t *tree) { return tree[0]; }
static inline uint32_t bevelumber_mark_kind(const uint32_t *tree, size_t i) { return tree[2 + i]; }
static inline uint32_t bevelumber_mark_place(const uint32_t *tree, size_t i) { return tree[2 + (size_t)tree[1] + i]; }

/* Kinds of opening marks, with what stands between opening and closing; an s means none or more. An inline is 13 or 19 to 24; an
 * expression is an inline or 14. At its top a list is any run of 1 to 7, each 6 right before a 1 or 2. */
enum bevelumber_kind {
    BEVELUMBER_MESSAGE = 1,             /* 9, 11 if any, 10s */
    BEVELUMBER_TERM = 2,                /* 9, 11, 10s */
    BEVELUMBER_COMMENT = 3,             /* free regular comment: 8s; 3, 4 and 5 count as free comments */
    BEVELUMBER_GROUP_COMMENT = 4,       /* 8s */
    BEVELUMBER_RESOURCE_COMMENT = 5,    /* 8s */
    BEVELUMBER_ATTACHED_COMMENT = 6,    /* comment attached to the message or term right after it: 8s */
    BEVELUMBER_JUNK = 7,                /* T */
    BEVELUMBER_COMMENT_LINE = 8,        /* T */
    BEVELUMBER_IDENTIFIER = 9,          /* T */
    BEVELUMBER_ATTRIBUTE = 10,          /* 9, 11 */
    BEVELUMBER_PATTERN = 11,            /* 12s and 13s */
    BEVELUMBER_TEXT = 12,               /* T */
    BEVELUMBER_PLACEABLE = 13,          /* one expression */
    BEVELUMBER_SELECT = 14,             /* an inline, then 15s or 16s */
    BEVELUMBER_VARIANT = 15,            /* 17 or 18, then 11 */
    BEVELUMBER_DEFAULT_VARIANT = 16,    /* 17 or 18, then 11 */
    BEVELUMBER_NUMBER_KEY = 17,         /* T */
    BEVELUMBER_IDENTIFIER_KEY = 18,     /* T */
    BEVELUMBER_STRING = 19,             /* T, quotes not included */
    BEVELUMBER_NUMBER = 20,             /* T */
    BEVELUMBER_VARIABLE = 21,           /* 9 */
    BEVELUMBER_FUNCTION = 22,           /* 9, 25 */
    BEVELUMBER_MESSAGE_REFERENCE = 23,  /* 9, then 9 for an attribute */
    BEVELUMBER_TERM_REFERENCE = 24,     /* 9, then 9, then 25, each of these two if written */
    BEVELUMBER_ARGUMENTS = 25,          /* inlines, then 26s */
    BEVELUMBER_NAMED_ARGUMENT = 26,     /* 9, an inline */
    BEVELUMBER_CLOSING = 100            /* added to an opening kind */
};

/* ---- The errors: u32 words, sizes first, then two parallel arrays.
 *
 *   word 0            count
 *   word 1            capacity, L
 *   L words           kinds, 1 to 21
 *   L groups          of six words: position start and end, junk start and end, two argument words
 *
 * There is one error for each junk, in order. A position may end at L + 1. */
#define BEVELUMBER_ERROR_WORDS(length) (2 + 7 * (size_t)(length))

static inline size_t bevelumber_errors(const uint32_t *errors) { return errors[0]; }
static inline uint32_t bevelumber_error_kind(const uint32_t *errors, size_t i) { return errors[2 + i]; }
static inline const uint32_t *bevelumber_error_group(const uint32_t *errors, size_t i) {
    return errors + 2 + (size_t)errors[1] + 6 * i;
}

/* Kinds of errors, with their two argument words, 0 and 0 where none are named. */
enum bevelumber_error {
    BEVELUMBER_EXPECTED_TOKEN = 1,         /* the byte wanted, 0 */
    BEVELUMBER_EXPECTED_CHAR_RANGE = 2,    /* 1 for "a-zA-Z", 2 for a line end, 3 for "0-9"; 0 */
    BEVELUMBER_EXPECTED_MESSAGE_FIELD = 3, /* the identifier's start and end */
    BEVELUMBER_EXPECTED_TERM_FIELD = 4,    /* the identifier's start and end */
    BEVELUMBER_FORBIDDEN_CALLEE = 5,
    BEVELUMBER_MISSING_DEFAULT_VARIANT = 6,
    BEVELUMBER_MISSING_VALUE = 7,
    BEVELUMBER_MULTIPLE_DEFAULT_VARIANTS = 8,
    BEVELUMBER_MESSAGE_REFERENCE_AS_SELECTOR = 9,
    BEVELUMBER_TERM_REFERENCE_AS_SELECTOR = 10,
    BEVELUMBER_MESSAGE_ATTRIBUTE_AS_SELECTOR = 11,
    BEVELUMBER_TERM_ATTRIBUTE_AS_PLACEABLE = 12,
    BEVELUMBER_UNTERMINATED_STRING_LITERAL = 13,
    BEVELUMBER_POSITIONAL_ARGUMENT_FOLLOWS_NAMED = 14,
    BEVELUMBER_DUPLICATED_NAMED_ARGUMENT = 15, /* the repeated identifier's start and end */
    BEVELUMBER_UNKNOWN_ESCAPE_SEQUENCE = 16,   /* the byte after the backslash as a number, 32 at the end of input; 0 */
    BEVELUMBER_INVALID_UNICODE_ESCAPE_SEQUENCE = 17, /* from after the 'u' or 'U' through the first wrong byte, if any, or through
                                                        its character where that is beyond ASCII: start and end */
    BEVELUMBER_UNBALANCED_CLOSING_BRACE = 18,
    BEVELUMBER_EXPECTED_INLINE_EXPRESSION = 19,
    BEVELUMBER_EXPECTED_SIMPLE_EXPRESSION_AS_SELECTOR = 20,
    BEVELUMBER_EXPECTED_LITERAL = 21
};

/* ---- The reading call: reads a source into a tree of marks and a list of errors.
 *
 *   source, source_length   the bytes to read; only read. L is source_length
 *   tree, tree_length       lent; BEVELUMBER_TREE_WORDS(L) words are needed, more may be there
 *   errors, errors_length   lent; BEVELUMBER_ERROR_WORDS(L) words are needed, more may be there
 *   returned                the value that comes with the answer; always written
 *
 * Answers 0 to 5; 1 to 5 are tested in this order.
 *   0         the layouts hold the tree and the errors; unused words of their arrays are 0; words past the layouts are unchanged
 *   1 to 4    tree and errors are left as they were
 *   5         both layouts are zeroed; words past them are unchanged
 * What the slices held before doesn't matter: they need not be cleared. */
uint32_t bevelumber_read(const uint8_t *source, size_t source_length, uint32_t *tree, size_t tree_length, uint32_t *errors,
                         size_t errors_length, uint64_t *returned);

/* ---- The writing call: writes the normal text of a tree.
 *
 *   source, source_length   the bytes that the places are in; only read
 *   tree, tree_length       the words of a tree in the layout above; only read. The capacity is word 1, whatever the source's length
 *   output, output_length   lent; the text is written from its first byte on
 *   with_junk               whether junk is written
 *   returned                the value that comes with the answer; always written
 *
 * Any list of the shape above is written, also one no reading gives, with T places on character boundaries, start not after end,
 * other places 0, and at most 64 of kinds 13 and 25 open. The tree that a reading of the source left is such a list.
 *
 * Answers 0, 1, 2, 6 or 7; 1, 2, 6, 7 are tested in this order.
 *   0               the output starts with the text, whose length in bytes is returned; bytes past the text are unchanged
 *   1, 2, 6, 7      the output is left as it was
 * For 6 with BEVELUMBER_NO_MARK: the slice has under 2 words, word 1 is over 8,000,000, word 0 is over word 1, or the arrays don't fit.
 * The length of a text can be asked for with an output_length of 0: 7 returns it, unless the text is empty. */
uint32_t bevelumber_write(const uint8_t *source, size_t source_length, const uint32_t *tree, size_t tree_length, uint8_t *output,
                          size_t output_length, bool with_junk, uint64_t *returned);

/* ---- The entry sequence: call by call the next entry's start and the offset where its reading stopped, for junk its end. No list of marks
 * is kept. An entry is a message, a term, a comment, attached ones too, or junk. All entries of a source:
 *
 *     uint64_t at = bevelumber_first_place(source, L), start, stop;
 *     while (bevelumber_next_entry(source, L, at, tree, tree_length, &start, &stop) == 0 && start < stop) at = stop;
 */

/* The first place: the offset to look from first. It is L, so that no entry is left, where the source is over 1,000,000 bytes or not UTF-8,
 * else 0.
 *
 *   source, source_length   the bytes to read; only read. L is source_length */
uint64_t bevelumber_first_place(const uint8_t *source, size_t source_length);

/* The next entry.
 *
 *   source, source_length   the bytes to read; only read
 *   at                      the offset to look from: the first place, then the stop of the entry before. UTF-8 is tested by
 *                           bevelumber_first_place alone: asked from another offset, this tells entries of any bytes
 *   tree, tree_length       lent; BEVELUMBER_TREE_WORDS(L) words are needed, more may be there
 *   start, stop             always written
 *
 * Answers 0 or 3.
 *   0, start < stop   the next entry's first byte, and where its reading stopped. What the arrays of the tree hold afterwards is open; its
 *                     words 0 and 1 and those past the layout are unchanged
 *   0, both L         none is left: so at the end, from the entry that would open a 65th '{' or '(' on, where the source is over 1,000,000
 *                     bytes, and, asked from the first place on, where it is not UTF-8. The tree is left as it was, but as above where an
 *                     entry would open too many
 *   3                 tree slice under 2 + 16 L words, and an entry is left: start is the words needed, stop is at. The tree is left as it was */
uint32_t bevelumber_next_entry(const uint8_t *source, size_t source_length, uint64_t at, uint32_t *tree, size_t tree_length,
                               uint64_t *start, uint64_t *stop);

#ifdef __cplusplus
}
#endif

#endif
