/* Judges the job on standard input, prints the verdict, then the list. Pages
 * start in gray, with the word --rgb in RGB.
 *
 *   examples/library
 *   cc -Iinclude examples/c/judge.c target/staticlib/libdieuvakhop.a -o judge-c
 *   ./judge-c < job.pxl
 *   ./judge-c --rgb < job.pxl
 *
 * Status 0: the job passes; 1: it is refused; 2: it could not be read, or a word
 * was not understood.
 */
#include <inttypes.h>
#include <stdio.h>
#include <string.h>

#include "dieuvakhop.h"

/* One byte more than the longest job, so that a longer one still gets code 1. */
static uint8_t job[DIEUVAKHOP_JOB_MOST + 1];
static uint8_t work[DIEUVAKHOP_WORK_LEAST];
static uint8_t list[DIEUVAKHOP_LIST_ENOUGH];

/* A number of four bytes, low byte first. */
static uint32_t four(const uint8_t *at) {
    return (uint32_t)at[0] | (uint32_t)at[1] << 8 | (uint32_t)at[2] << 16 | (uint32_t)at[3] << 24;
}

int main(int count, char **words) {
    uint32_t rgb = count == 2 && strcmp(words[1], "--rgb") == 0;
    if (count > 1 && !rgb) {
        fputs("there is no word but --rgb\n", stderr);
        return 2;
    }
    size_t length = fread(job, 1, sizeof job, stdin);
    if (ferror(stdin)) {
        fputs("cannot read standard input\n", stderr);
        return 2;
    }
    struct dieuvakhop_verdict v = dieuvakhop_check(job, length, work, sizeof work, list, sizeof list, rgb);
    printf("%" PRIu32 " %" PRIu32 " %" PRIu32 " %" PRIu32 " %" PRIu32 "\n",
           v.code, v.position, v.inner, v.records, v.performed);
    if (v.code != DIEUVAKHOP_PASS)
        fprintf(stderr, "refused at byte %" PRIu32 ": %s\n", v.position, dieuvakhop_text(v.code));
    for (uint32_t i = 0; i < v.records; i++) {
        const uint8_t *r = list + (size_t)i * DIEUVAKHOP_RECORD;
        if (r[0] == 1)
            printf("  attribute %u, type %02x, at %" PRIu32 ", %" PRIu32 " numbers from %" PRIu32 "\n",
                   r[1], r[2], four(r + 4), four(r + 8), four(r + 12));
        else
            printf("operator %02x at %" PRIu32 ", %" PRIu32 " bytes of data from %" PRIu32 "\n",
                   r[1], four(r + 4), four(r + 8), four(r + 12));
    }
    return v.code == DIEUVAKHOP_PASS ? 0 : 1;
}
