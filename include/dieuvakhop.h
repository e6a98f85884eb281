/* Dieuvakhop: judges one job for the pen arm before the pen moves.
 *
 * Link with libdieuvakhop.a (x86-64), made by `examples/library`.
 * The promise below is proved of the function in crates/checker_c/src/lib.rt,
 * for every content and every length of the three buffers, and both starts.
 */
#ifndef DIEUVAKHOP_H
#define DIEUVAKHOP_H

#include <stddef.h>
#include <stdint.h>

#ifdef __cplusplus
extern "C" {
#endif

/* The version of the library. 2.0: dieuvakhop_check has the parameter rgb.
 * 3.0: code 20 is retired, code 32 is new; 21 and 22 are those of a call.
 * 4.0: raster patterns are taken, codes 33 and 34 are new. */
#define DIEUVAKHOP_VERSION "4.0"

/* The longest job that is judged, in bytes. A longer one gets code 1. */
#define DIEUVAKHOP_JOB_MOST 61440u

/* The shortest work buffer that is taken, in bytes. A shorter one gets code 29. */
#define DIEUVAKHOP_WORK_LEAST 16384u

/* Bytes of one record of the list. */
#define DIEUVAKHOP_RECORD 16u

/* The list that takes the records of every job, in bytes: 16 for each byte of
 * the longest. For one job 16 times its length always suffices. With such a
 * list code 28 never comes. */
#define DIEUVAKHOP_LIST_ENOUGH 983040u

/* The inner position where there is none. */
#define DIEUVAKHOP_NO_INNER 4294967295u

/* The codes of a verdict; README.md has the causes and cures. */
enum dieuvakhop_code {
    DIEUVAKHOP_PASS = 0,
    DIEUVAKHOP_TOO_LONG = 1,
    DIEUVAKHOP_HEADER = 2,
    DIEUVAKHOP_ASCII = 3,
    DIEUVAKHOP_CLASS = 4,
    DIEUVAKHOP_CUT = 5,
    DIEUVAKHOP_NO_ITEM = 6,
    DIEUVAKHOP_SEVENTEENTH = 7,
    DIEUVAKHOP_LONG_ARRAY = 8,
    DIEUVAKHOP_NO_OPERATOR = 9,
    DIEUVAKHOP_ORDER = 10,
    DIEUVAKHOP_NO_ATTRIBUTE = 11,
    DIEUVAKHOP_TWICE = 12,
    DIEUVAKHOP_MISSING = 13,
    DIEUVAKHOP_CLASH = 14,
    DIEUVAKHOP_TYPE = 15,
    DIEUVAKHOP_RANGE = 16,
    DIEUVAKHOP_SOURCE = 17,
    DIEUVAKHOP_DATA = 18,
    DIEUVAKHOP_NO_ROOM = 19,
    /* 20 is retired: a held name is replaced. */
    DIEUVAKHOP_NOT_HELD = 21,
    DIEUVAKHOP_DEEP = 22,
    DIEUVAKHOP_SAVED = 23,
    DIEUVAKHOP_CURSOR = 24,
    DIEUVAKHOP_COLOUR = 25,
    DIEUVAKHOP_TOO_MANY = 26,
    DIEUVAKHOP_NOT_ENDED = 27,
    DIEUVAKHOP_LIST_FULL = 28,
    DIEUVAKHOP_WORK_SHORT = 29,
    /* 30 and 31 are not given. */
    DIEUVAKHOP_RING = 32,
    DIEUVAKHOP_PATTERNS_FULL = 33,
    DIEUVAKHOP_NO_PATTERN = 34
};

/* What a code means, in a few words. */
static inline const char *dieuvakhop_text(uint32_t code) {
    static const char *const text[] = {
        "passes",
        "longer than 61,440 bytes",
        "header malformed",
        "written in the ASCII form",
        "of another class than PCL XL 1;1 and 2;1",
        "ends inside an item",
        "no item that may come here",
        "a 17th attribute",
        "over 1,024 elements in an array",
        "no operator of the arm",
        "out of order",
        "no attribute of this operator",
        "an attribute comes twice",
        "an attribute is missing",
        "attributes or rows that do not go together",
        "a type that the attribute does not take",
        "a value out of range",
        "data source not open",
        "data absent or of another length",
        "no room for more motifs",
        NULL,
        "no motif of this name is held",
        "calls over 32 deep",
        "over 24 saved states",
        "cursor not set",
        "wrong colour space",
        "over 1,000,000 operators performed",
        "ends with something still open",
        "list too short",
        "work buffer too short",
        NULL,
        NULL,
        "a motif calls itself, directly or through others",
        "no room for more patterns",
        "a pattern that is not defined",
    };
    return code < sizeof text / sizeof text[0] && text[code] ? text[code] : "unknown code";
}

struct dieuvakhop_verdict {
    /* An enum dieuvakhop_code. 0: the job passes. */
    uint32_t code;
    /* A byte of the job, counted from 0; with code 0 and 27 the job's length,
     * with code 1 always 61440. Code 2 may be at the length too. Of a faulty
     * motif it is its EndStream, whatever the code. */
    uint32_t position;
    /* Of a faulty motif the place inside the motif, counted from its first
     * byte; else 4294967295. */
    uint32_t inner;
    /* Records in the list: those of all operators before the verdict. */
    uint32_t records;
    /* Operators performed before the verdict, those of called motifs among
     * them. With code 0, of a job that keeps the layout rules, it is the
     * number that a plain arm performs, which draws every call in full. */
    uint32_t performed;
};

/* Judges the job.
 *
 * The caller has to test nothing first: every string of bytes gets a verdict,
 * and the call returns. What the language asks of every caller in C:
 *   - each pointer is valid for its length, and is not null, also if the
 *     length is 0;
 *   - `work` and `list` are writable and apart from each other and from `job`.
 *
 * job, job_len    The job. It is only read.
 *
 * work, work_len  Room to work in. Its content before the call plays no part.
 *     Afterwards, with code 1 and code 29: not one byte is changed.
 *     With every other code, 0 among them: the first 16384 bytes are zero, and
 *     the bytes from 16384 on are as they were. So no motif stays in it.
 *
 * list, list_len  Room for the list, of any length, 0 too. Its content before
 *     the call plays no part.
 *     Afterwards, with every code: the first 16 * records bytes are the
 *     records of all operators before the verdict, and the bytes behind them
 *     are as they were. A refused operator has no record in it, nor have its
 *     attributes. With codes 1, 2 (of the job's header), 3, 4 and 29 there are
 *     no records, and the list is unchanged.
 *
 * rgb             The colour space that every page of the job starts in: 0 is
 *     gray, any other number RGB, for last year's lesson files. Every number
 *     is taken, so there is nothing to test.
 *
 * A record has 16 bytes, numbers low byte first. For each operator come its
 * attributes as given, then itself.
 *     Attribute: 1, number, type tag, 0; place of the type tag (4 bytes);
 *                count of numbers (4); place of the first number (4).
 *     Operator:  2, tag, number of attributes (2 bytes); place of the tag (4);
 *                length of its data (4); place of its data (4), or 0 and 0.
 * Places are bytes of the job. Operators inside motifs have no records.
 *
 * The same job with buffers of the same lengths and the same start gets the
 * same verdict and the same records. Nothing is kept from one call to the next.
 *
 * What it takes of the machine (`examples/measure` measures it):
 *   - stack: 19,256 bytes at most over the jobs of crates/explain/data; there is
 *     no recursion, and no memory but what is lent;
 *   - code and constants: 35,865 bytes; no data that is written;
 *   - alignment: none, each buffer may begin at any address;
 *   - re-entrant: it may run in several threads at once, or be interrupted by
 *     another call, as long as no two calls share `work` or `list`;
 *   - from the C library `memset` and `memcpy` only.
 */
struct dieuvakhop_verdict dieuvakhop_check(
    const uint8_t *job, size_t job_len,
    uint8_t *work, size_t work_len,
    uint8_t *list, size_t list_len,
    uint32_t rgb);

#ifdef __cplusplus
}
#endif

#endif
