/* Whether words that threads share should have a cache line each: words that one thread stores and three look at, as arrival words,
   and words by which two pairs of threads alternate, as two links do. Each is beside the next one, or 64 bytes from it. */
#include <pthread.h>
#include <sched.h>
#include <stdatomic.h>
#include <stdint.h>
#include <stdio.h>
#include <stdlib.h>
#include <time.h>

enum { WORDS = 24, STORES = 60000, TURNS = 200000, MOST = 100000 };

static _Atomic uint64_t *words;
static int gap;

struct times { int count; double last, took[MOST]; };
static struct times feeding, watching[3], turning[4];

static double now(void) {
    struct timespec t;
    clock_gettime(CLOCK_MONOTONIC, &t);
    return t.tv_sec * 1e9 + t.tv_nsec;
}

static void begin(struct times *t) { t->count = 0; t->last = now(); }

static void note(struct times *t) {
    double n = now();
    if (t->count < MOST) t->took[t->count++] = n - t->last;
    t->last = n;
}

static int compare(const void *a, const void *b) {
    double x = *(const double *)a, y = *(const double *)b;
    return x < y ? -1 : x > y;
}

static double median(struct times *t, double per) {
    qsort(t->took, t->count, sizeof(double), compare);
    return t->count ? t->took[t->count / 2] / per : 0;
}

static void *watch(void *mine) {
    struct times *t = mine;
    begin(t);
    for (int n = 1;; n++) {
        uint64_t least = STORES;
        for (int i = 0; i < WORDS; i++) {
            uint64_t x = atomic_load(&words[i * gap]);
            if (x < least) least = x;
        }
        if (n % 100 == 0) note(t);
        if (least == STORES) return 0;
    }
}

static void *feed(void *mine) {
    struct times *t = mine;
    begin(t);
    for (uint64_t n = 1; n <= STORES; n++) {
        for (int i = 0; i < WORDS; i++) atomic_store(&words[i * gap], n);
        if (n % 200 == 0) note(t);
    }
    return 0;
}

/* Threads 0 and 1 take turns at the first word, threads 2 and 3 at the second. */
static void *take_turns(void *mine) {
    struct times *t = mine;
    int who = (int)(t - turning);
    _Atomic uint64_t *word = &words[who / 2 * gap];
    begin(t);
    for (uint64_t n = 0; n < TURNS; n++) {
        uint64_t want = 2 * n + who % 2;
        for (int k = 1; atomic_load(word) != want; k++)
            if (k % 4096 == 0) sched_yield();
        atomic_store(word, want + 1);
        if (n % 500 == 499) note(t);
    }
    return 0;
}

static void run(void *(*first)(void *), struct times *its, void *(*others)(void *), struct times *theirs) {
    pthread_t t[3];
    for (int i = 0; i < 1024; i++) words[i] = 0;
    for (int i = 0; i < 3; i++) pthread_create(&t[i], 0, others, theirs + i);
    first(its);
    for (int i = 0; i < 3; i++) pthread_join(t[i], 0);
}

int main(int count, char **args) {
    words = aligned_alloc(4096, 8192);
    for (int round = 0; round < (count > 1 ? atoi(args[1]) : 8); round++)
        for (gap = 1; gap <= 8; gap += 7) {
            run(feed, &feeding, watch, watching);
            printf("%2d bytes apart: a store %5.1f, a look %.1f %.1f %.1f", gap * 8, median(&feeding, 200 * WORDS), median(&watching[0], 100 * WORDS),
                   median(&watching[1], 100 * WORDS), median(&watching[2], 100 * WORDS));
            run(take_turns, &turning[0], take_turns, &turning[1]);
            printf(", a turn and back %5.1f %5.1f\n", median(&turning[0], 500), median(&turning[2], 500));
        }
}
