/* The time of one call of rebalance: counts of buckets and servers, from nothing, one server removed, one added, and all at one server. */
#include <stdint.h>
#include <stdio.h>
#include <stdlib.h>
#include <string.h>
#include <time.h>

/* 0, or the number of the fault */
uint8_t rebalance_c(uint16_t *assignment, size_t buckets, const uint8_t *servers, size_t count);

static double now_ms(void) {
    struct timespec t;
    clock_gettime(CLOCK_MONOTONIC, &t);
    return t.tv_sec * 1e3 + t.tv_nsec / 1e6;
}

enum { ROUNDS = 21 };

static int by_value(const void *a, const void *b) {
    double x = *(const double *)a, y = *(const double *)b;
    return (x > y) - (x < y);
}

/* the median time of a call that starts from `before` each time; `after` gets the result */
static double timed(const uint16_t *before, size_t buckets, const uint8_t *servers, size_t count, uint16_t *after) {
    double ms[ROUNDS];
    for (int i = 0; i < ROUNDS; i++) {
        memcpy(after, before, buckets * sizeof *after);
        double start = now_ms();
        if (rebalance_c(after, buckets, servers, count) != 0) {
            fprintf(stderr, "refused\n");
            exit(1);
        }
        ms[i] = now_ms() - start;
    }
    qsort(ms, ROUNDS, sizeof *ms, by_value);
    return ms[ROUNDS / 2];
}

static size_t differ(const uint16_t *a, const uint16_t *b, size_t n) {
    size_t d = 0;
    for (size_t i = 0; i < n; i++) d += a[i] != b[i];
    return d;
}

int main(void) {
    static uint16_t none[65536], all[65536], less[65536], again[65536], swapped[65536], out[65536];
    const size_t sizes[] = {16, 4096, 65536}, servers[] = {16, 128, 256}, step[] = {1, 2, 1};
    memset(none, 0xff, sizeof none);
    printf("%8s %8s %14s %14s %14s %14s   (ms; buckets changed)\n", "buckets", "servers", "from nothing", "one removed", "one added", "all at one");
    for (size_t i = 0; i < 3; i++)
        for (size_t j = 0; j < 3; j++) {
            size_t n = sizes[i], h = servers[j];
            uint8_t list[256], rest[256];
            for (size_t s = 0; s < h; s++) list[s] = (uint8_t)(s * step[j]); /* 128: every other number */
            for (size_t b = 0; b < n; b++) swapped[b] = list[h / 2]; /* all at one server */
            for (size_t s = 0; s + 1 < h; s++) rest[s] = list[s < h / 2 ? s : s + 1];
            double a = timed(none, n, list, h, all);
            double r = timed(all, n, rest, h - 1, less);
            double g = timed(less, n, list, h, again);
            double w = timed(swapped, n, list, h, out);
            printf("%8zu %8zu %9.4f (%zu) %9.4f (%zu) %9.4f (%zu) %9.4f (%zu)\n", n, h, a, differ(none, all, n), r, differ(all, less, n), g, differ(less, again, n), w, differ(swapped, out, n));
        }
    return 0;
}
