/* Measures the stack that dieuvakhop_check takes, and that it is re-entrant.
 *
 * Each job is judged on a thread whose stack was filled with one byte; what
 * is not that byte afterwards was used. Then two threads judge all jobs at
 * once, with buffers at odd addresses, and get the same verdicts.
 */
#define _POSIX_C_SOURCE 200809L
#include <pthread.h>
#include <stdio.h>
#include <stdlib.h>
#include <string.h>

#include "dieuvakhop.h"

enum { STACK = 1 << 20, FILL = 0xa5, JOBS = 256 };

struct task {
    const uint8_t *job;
    size_t length;
    uint8_t *work, *list;
    struct dieuvakhop_verdict verdict;
    int judges;
};

static struct task tasks[JOBS];
static int many;

static void *judge(void *given) {
    struct task *t = given;
    if (t->judges)
        t->verdict = dieuvakhop_check(t->job, t->length, t->work, DIEUVAKHOP_WORK_LEAST, t->list, DIEUVAKHOP_LIST_ENOUGH, 0);
    return NULL;
}

/* The bytes of stack that one thread takes for a task. */
static size_t stack_of(struct task *t) {
    static uint8_t *stack;
    if (!stack && posix_memalign((void **)&stack, 4096, STACK)) exit(2);
    memset(stack, FILL, STACK);
    pthread_attr_t attr;
    pthread_t thread;
    pthread_attr_init(&attr);
    if (pthread_attr_setstack(&attr, stack, STACK) || pthread_create(&thread, &attr, judge, t)) exit(2);
    pthread_join(thread, NULL);
    size_t free_bytes = 0;
    while (free_bytes < STACK && stack[free_bytes] == FILL) free_bytes++;
    return STACK - free_bytes;
}

/* Judges all jobs once more, with buffers of its own at odd addresses. */
static void *again(void *given) {
    int *differ = given;
    uint8_t *work = malloc(DIEUVAKHOP_WORK_LEAST + 1), *list = malloc(DIEUVAKHOP_LIST_ENOUGH + 1);
    if (!work || !list) exit(2);
    for (int i = 0; i < many; i++) {
        struct dieuvakhop_verdict v =
            dieuvakhop_check(tasks[i].job, tasks[i].length, work + 1, DIEUVAKHOP_WORK_LEAST, list + 1, DIEUVAKHOP_LIST_ENOUGH, 0);
        *differ += memcmp(&v, &tasks[i].verdict, sizeof v) != 0;
    }
    free(work), free(list);
    return NULL;
}

int main(int argc, char **argv) {
    uint8_t *work = malloc(DIEUVAKHOP_WORK_LEAST), *list = malloc(DIEUVAKHOP_LIST_ENOUGH);
    size_t most = 0, idle = 0;
    if (!work || !list) return 2;
    for (int i = 1; i < argc && many < JOBS; i++) {
        FILE *file = fopen(argv[i], "rb");
        uint8_t *job = malloc(DIEUVAKHOP_JOB_MOST + 1);
        if (!file || !job) return 2;
        struct task t = { job, fread(job, 1, DIEUVAKHOP_JOB_MOST + 1, file), work, list, { 0, 0, 0, 0, 0 }, 0 };
        fclose(file);
        tasks[many] = t;
        idle = stack_of(&tasks[many]);
        tasks[many].judges = 1;
        size_t used = stack_of(&tasks[many]);
        if (most < used) most = used;
        many++;
    }
    printf("stack: at most %zu bytes, over %d jobs\n", most > idle ? most - idle : 0, many);
    pthread_t a, b;
    int differ[2] = { 0, 0 };
    if (pthread_create(&a, NULL, again, &differ[0]) || pthread_create(&b, NULL, again, &differ[1])) return 2;
    pthread_join(a, NULL), pthread_join(b, NULL);
    printf("two threads at once, buffers at odd addresses: %d verdicts differ\n", differ[0] + differ[1]);
    return differ[0] + differ[1] ? 1 : 0;
}
