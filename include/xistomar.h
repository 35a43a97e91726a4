/* Xistomar: a proved judge of clocked assertions. The functions of libxistomar.a, for C.
 *
 * Each takes any bytes, samples and sizes, and tests them itself. A refusal answers its number and its node, and nothing lent is changed; an acceptance has
 * number and node 0. The bytes of a table and of a record, what each operator says, the numbers of refusal and the rows: docs/FORMAT.md. What each function answers is
 * stated and proved: docs/STATEMENTS.md.
 *
 * A table is of version 1, 2 or 3, a record of version 1. A version 2 table may also ask whether a signal has risen or fallen since the sample before (operators 5 and
 * 6); the sample before the first is all zero. So a letter is a pair of samples, made of all the samples that are lent, whatever the start. A version 3 table may also
 * have derived operators (23 to 26 and 41 to 47; docs/BLOCKS.md): xistomar_expand makes a version 2 table of it, and rewriting, judging and
 * matching are of that one.
 *
 * A pointer comes with how many bytes or words it lends. It must not be null, even where that number is 0, and what a function writes (`out`, `workspace`) must not
 * overlap what it reads. No function keeps a pointer, allocates or blocks; calls from several threads are independent.
 */
#ifndef XISTOMAR_H
#define XISTOMAR_H

#include <stdbool.h>
#include <stddef.h>
#include <stdint.h>

#ifdef __cplusplus
extern "C" {
#endif

enum {
    XISTOMAR_LONGEST = 63,      /* samples of a record, at most */
    XISTOMAR_SHARE = 65,        /* words of the workspace for each rewritten node */
    XISTOMAR_WORKSPACE = 7800,  /* words that are enough for every table */
    XISTOMAR_TABLE_BYTES = 486, /* bytes that are enough for every expanded or rewritten table */
    XISTOMAR_LINE = 19          /* bytes of the longest line */
};

/* The levels. */
enum {
    XISTOMAR_BROKEN = 0,  /* broken, whatever comes next */
    XISTOMAR_WEAK = 1,    /* nothing broken, still waiting */
    XISTOMAR_NEUTRAL = 2, /* held as the record stands */
    XISTOMAR_STRONG = 3   /* held, whatever comes next */
};

/* The number of the refusal, 1 to 15, and its node; both 0 where nothing is refused. */
typedef struct {
    uint8_t number;
    size_t node;
} xistomar_verdict;

/* How many samples were read. */
typedef struct {
    xistomar_verdict verdict;
    size_t count;
} xistomar_reading;

/* How many nodes the expanded table has. */
typedef struct {
    xistomar_verdict verdict;
    size_t count;
} xistomar_expansion;

/* How many nodes the rewritten table has. */
typedef struct {
    xistomar_verdict verdict;
    size_t count;
} xistomar_rewriting;

/* The level, 0 to 3, and whether the record put the assertion to the test: from the first sample on some strong or weak was reached, and each |-> on the way there
 * had its left side matched where it was asked. A |-> that is not on the way there may never have been asked. */
typedef struct {
    xistomar_verdict verdict;
    uint8_t level;
    bool tested;
} xistomar_judgement;

/* Bit j of the mask is set where samples start to j - 1 match; top: the samples from start on, followed by one or more letters that satisfy everything, match. */
typedef struct {
    xistomar_verdict verdict;
    uint64_t mask;
    bool top;
} xistomar_ends;

/* Checks a table of version 1, 2 or 3: refusals 1 to 9. Of version 3, 9 is read on its expansion, and one that xistomar_expand refuses with 13 is accepted. */
xistomar_verdict xistomar_check(const uint8_t *table, size_t table_bytes);

/* Reads a record: its samples go to the first words of `out`, and later words stay. Refusals 1, 2, 3, 10, 5, 15. */
xistomar_reading xistomar_read(const uint8_t *record, size_t record_bytes, uint64_t *out, size_t out_words);

/* Expands the derived operators of a version 3 table: a version 2 table in base operators goes to the first bytes of `out`, and later bytes stay. A table of version 1
 * or 2 is copied as it is. Refusals 1 to 9, 13, 15; 9 names the node of the table that is given. */
xistomar_expansion xistomar_expand(const uint8_t *table, size_t table_bytes, uint8_t *out, size_t out_bytes);

/* Rewrites the clocks of a table away: the new table, of the same version or of 2 for a version 3 table, goes to the first bytes of `out`, and later bytes stay. Refusals 1 to 9, 13, 15. */
xistomar_rewriting xistomar_rewrite(const uint8_t *table, size_t table_bytes, uint8_t *out, size_t out_bytes);

/* Judges the property at the table's root on the samples, and leaves the rows in the workspace. Refusals 1 to 9, 12, 13, 10, 11. */
xistomar_judgement xistomar_judge(const uint8_t *table, size_t table_bytes, const uint64_t *samples, size_t sample_count, uint64_t *workspace,
                                  size_t workspace_words);

/* Judges as xistomar_judge does, by the clocked table itself: nothing is rewritten, nothing lent is written, and so 11 is never given, and 13 only where the
 * expansion of a version 3 table has more than 120 nodes. Where xistomar_judge accepts, both give the same level and tested; where it refuses with 11, or with 13 for
 * the rewriting, this one still answers. Refusals 1 to 9, 12, 13, 10. It calls itself
 * on a node's operands: for 120 nodes one above the other it was seen to use 211 KiB of stack on x86-64, so 256 KiB are enough. */
xistomar_judgement xistomar_plain_judge(const uint8_t *table, size_t table_bytes, const uint64_t *samples, size_t sample_count);

/* The match ends, from a start, of the sequence at the table's root; in a table of version 2 or 3 the sample before the start still counts. Leaves the rows in the workspace.
 * Refusals 1 to 9, 12, 13, 10, 14, 11. */
xistomar_ends xistomar_match_ends(const uint8_t *table, size_t table_bytes, const uint64_t *samples, size_t sample_count, size_t start,
                                  uint64_t *workspace, size_t workspace_words);

/* The program's line for an input, which is a table and then a record: `level 1 tested yes` or `refused 9 at 3`, with a newline and no 0 after it. Answers how many
 * bytes it has; the later ones of the 19 lent stay. */
size_t xistomar_line(const uint8_t *input, size_t input_bytes, uint8_t *line);

#ifdef __cplusplus
}
#endif

#endif
