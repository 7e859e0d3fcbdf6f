/* Plain loops over numbers of 64 bits, for scripts/bench/elements: the work of its lines by hand, without a test of
 * overflow. `plain_loops NAME LENGTH TURNS` prints the seconds of all turns. */
#include <stdint.h>
#include <stdio.h>
#include <stdlib.h>
#include <string.h>
#include <time.h>

/* What a line of this name gives for `length` numbers: how many numbers are at `to`. */
static int64_t map(const int64_t *from, int64_t *to, int64_t length) {
    for (int64_t i = 0; i < length; i++) to[i] = from[i] * from[i] + 1;
    return length;
}

static int64_t filter(const int64_t *from, int64_t *to, int64_t length) {
    int64_t kept = 0;
    for (int64_t i = 0; i < length; i++)
        if (from[i] % 3 == 0) to[kept++] = from[i];
    return kept;
}

static int64_t elements(const int64_t *from, int64_t *to, int64_t length) {
    for (int64_t i = 0; i < length; i++) {
        int64_t place = length - 1 - i;
        if (place < 0 || place >= length) exit(1);
        to[i] = from[place];
    }
    return length;
}

static int64_t choices(const int64_t *from, int64_t *to, int64_t length) {
    for (int64_t i = 0; i < length; i++) {
        int64_t one = from[i] - length / 2;
        to[i] = one < 0 ? -one : one;
    }
    return length;
}

static int64_t nested(const int64_t *from, int64_t *to, int64_t length) {
    for (int64_t a = 0; a < length; a++) {
        int64_t sum = 0;
        for (int64_t b = 0; b < a; b++) sum += from[b] * a;
        to[a] = sum;
    }
    return length;
}

/* Quicksort as the line has it: smaller ones, those equal to the one in the middle, and larger ones, in new arrays. */
static void sort(const int64_t *from, int64_t *to, int64_t length) {
    if (length < 2) {
        memcpy(to, from, (size_t)length * sizeof *to);
        return;
    }
    int64_t middle = from[length / 2], less = 0, same = 0, more = 0;
    int64_t *smaller = malloc(2 * (size_t)length * sizeof *smaller);
    if (!smaller) exit(1);
    int64_t *larger = smaller + length;
    for (int64_t i = 0; i < length; i++) {
        if (from[i] < middle) smaller[less++] = from[i];
        else if (from[i] > middle) larger[more++] = from[i];
        else same++;
    }
    sort(smaller, to, less);
    for (int64_t i = 0; i < same; i++) to[less + i] = middle;
    sort(larger, to + less + same, more);
    free(smaller);
}

static int64_t quicksort(const int64_t *from, int64_t *to, int64_t length) {
    sort(from, to, length);
    return length;
}

static const struct {
    const char *name;
    int64_t (*run)(const int64_t *, int64_t *, int64_t);
} LOOPS[] = {{"map", map},         {"filter", filter}, {"elements", elements},
             {"choices", choices}, {"nested", nested}, {"quicksort", quicksort}};

int main(int count, char **words) {
    if (count != 4) return 2;
    int64_t length = atoll(words[2]), turns = atoll(words[3]);
    int64_t *from = malloc((size_t)length * sizeof *from), *to = malloc((size_t)length * sizeof *to);
    if (!from || !to) return 1;
    int is_sorting = strcmp(words[1], "quicksort") == 0;
    for (int64_t i = 0; i < length; i++) from[i] = is_sorting ? i * 7919 % 10007 : i;
    for (size_t at = 0; at < sizeof LOOPS / sizeof *LOOPS; at++) {
        if (strcmp(words[1], LOOPS[at].name) != 0) continue;
        struct timespec start, end;
        volatile int64_t kept = 0;
        clock_gettime(CLOCK_MONOTONIC, &start);
        for (int64_t turn = 0; turn < turns; turn++) {
            kept += LOOPS[at].run(from, to, length);
            __asm__ volatile("" : : "r"(to) : "memory");
        }
        clock_gettime(CLOCK_MONOTONIC, &end);
        printf("%.9f\n", (double)(end.tv_sec - start.tv_sec) + (double)(end.tv_nsec - start.tv_nsec) / 1e9);
        return 0;
    }
    return 2;
}
