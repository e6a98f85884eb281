/* A checker behind pipes: reads cases from standard input, judges each with the linked library, writes the answers to standard output.
   For machines on which the static library cannot be linked into the Rust program itself; needs no header of a C library.
   A case: four 32-bit numbers, low byte first: the lengths of job, work and list, and what is asked for the start (0 gray, else RGB); then the bytes. An answer: five 32-bit numbers, then work, list, and one byte that is 1 if no
   byte beside the three buffers was touched and the job is as it was. */
#include "../include/dieuvakhop.h"

enum { GUARD = 64, ROOM = 1 << 22, MARK = 0xa5 };

long read(int, void *, size_t);
long write(int, const void *, size_t);

static uint8_t job[ROOM], work[ROOM], list[ROOM], copy[ROOM];

/* So many bytes from standard input; 0 at its end. */
static int got(uint8_t *to, size_t n) {
    while (n) {
        long k = read(0, to, n);
        if (k <= 0) return 0;
        to += k;
        n -= (size_t)k;
    }
    return 1;
}

static void put(const void *bytes, size_t n) {
    const uint8_t *from = bytes;
    while (n) {
        long k = write(1, from, n);
        if (k <= 0) return;
        from += k;
        n -= (size_t)k;
    }
}

/* Fills a buffer from standard input, with guard bytes on both sides. */
static int lend(uint8_t *b, uint32_t n) {
    if (n > ROOM - 2 * GUARD) return 0;
    for (uint32_t i = 0; i < GUARD; i++) b[i] = b[GUARD + n + i] = MARK;
    return got(b + GUARD, n);
}

static int kept(const uint8_t *b, uint32_t n) {
    for (uint32_t i = 0; i < GUARD; i++)
        if (b[i] != MARK || b[GUARD + n + i] != MARK) return 0;
    return 1;
}

static int same(const uint8_t *a, const uint8_t *b, uint32_t n) {
    for (uint32_t i = 0; i < n; i++)
        if (a[i] != b[i]) return 0;
    return 1;
}

int main(void) {
    uint32_t n[4];
    while (got((uint8_t *)n, sizeof n)) {
        if (!lend(job, n[0]) || !lend(work, n[1]) || !lend(list, n[2])) return 1;
        for (uint32_t i = 0; i < n[0]; i++) copy[i] = job[GUARD + i];
        struct dieuvakhop_verdict v = dieuvakhop_check(job + GUARD, n[0], work + GUARD, n[1], list + GUARD, n[2], n[3]);
        uint8_t fine = kept(job, n[0]) && kept(work, n[1]) && kept(list, n[2]) && same(copy, job + GUARD, n[0]);
        put(&v, sizeof v);
        put(work + GUARD, n[1]);
        put(list + GUARD, n[2]);
        put(&fine, 1);
    }
    return 0;
}
