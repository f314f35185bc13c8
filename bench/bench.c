/* The proved judge and two plain C judges, one in place and one that hands the board on by value, on the same logs, in one process:
 * first compared, then timed in interleaved rounds. Prints for each mix of logs the ratios of the times, and the best times. */
#include <stdio.h>
#include <stdlib.h>
#include <string.h>
#include <time.h>
#include "logs.h"
#include "plain.h"
#include "thawhazel.h"

enum { ROUNDS = 101, RANDOM_MIXES = 100 };

/* What is lent, with a spare place after each part. */
typedef struct {
    uint16_t pointers[THAWHAZEL_POINTERS + 1], selectors[THAWHAZEL_SELECTORS + 1];
    uint32_t variables[THAWHAZEL_VARIABLES + 1], numbers[THAWHAZEL_CELLS + 1];
    uint8_t status[THAWHAZEL_CELLS + 1];
    uint32_t tally[THAWHAZEL_TALLY + 1], answer[THAWHAZEL_ANSWER + 1];
} Lent;

static uint32_t judge_over(Judge *judge, Lent *l, const uint8_t *log, size_t length) {
    return judge(log, length, l->pointers, THAWHAZEL_POINTERS, l->selectors, THAWHAZEL_SELECTORS, l->variables,
                 THAWHAZEL_VARIABLES, l->numbers, THAWHAZEL_CELLS, l->status, THAWHAZEL_CELLS, l->tally, THAWHAZEL_TALLY,
                 l->answer, THAWHAZEL_ANSWER);
}

enum { PROVED, PLAIN, BY_VALUE, JUDGES };

static Judge *const judges[JUDGES] = {thawhazel_judge, plain_judge, by_value_judge};

/* 1 where all judges return the same for every log and leave every byte of what is lent alike. */
static int agree(const Mix *mix, long *kinds) {
    static Lent lent[JUDGES];
    uint32_t kind[JUDGES];
    for (int i = 0; i < mix->count; i++) {
        for (int j = 0; j < JUDGES; j++) {
            memset(&lent[j], 0xaa, sizeof lent[j]);
            kind[j] = judge_over(judges[j], &lent[j], mix->bytes[i], mix->lengths[i]);
            if (kind[j] != kind[PROVED] || memcmp(&lent[j], &lent[PROVED], sizeof lent[j]) != 0) {
                printf("%s: the judges differ on log %d\n", mix->name, i);
                return 0;
            }
        }
        kinds[kind[PROVED]]++;
    }
    return 1;
}

static double seconds(void) {
    struct timespec t;
    clock_gettime(CLOCK_MONOTONIC, &t);
    return (double)t.tv_sec + (double)t.tv_nsec * 1e-9;
}

static double time_of(Judge *judge, Lent *l, const Mix *mix, int repeats) {
    double begin = seconds();
    for (int r = 0; r < repeats; r++)
        for (int i = 0; i < mix->count; i++) judge_over(judge, l, mix->bytes[i], mix->lengths[i]);
    return (seconds() - begin) / repeats / mix->count;
}

static int by_size(const void *a, const void *b) {
    double x = *(const double *)a, y = *(const double *)b;
    return (x > y) - (x < y);
}

static double median(double *ratios) {
    qsort(ratios, ROUNDS, sizeof *ratios, by_size);
    return ratios[ROUNDS / 2];
}

/* The judges take turns over one and the same buffers, so that none has the better place. A round's times lie close together, so that
 * what else the machine does weighs on all of them: the ratio is the median of the rounds' ratios. */
static void compare(const Mix *mix, int repeats) {
    static Lent lent;
    static double proved[ROUNDS], by_value[ROUNDS];
    double best[JUDGES] = {1e9, 1e9, 1e9};
    for (int round = 0; round < ROUNDS; round++) {
        double times[JUDGES];
        for (int j = 0; j < JUDGES; j++) {
            times[j] = time_of(judges[j], &lent, mix, repeats);
            if (times[j] < best[j]) best[j] = times[j];
        }
        proved[round] = times[PROVED] / times[PLAIN];
        by_value[round] = times[BY_VALUE] / times[PLAIN];
    }
    printf("%-12s proved to plain %.2f, by value to plain %.2f (best rounds: %.2f, %.2f and %.2f us a log)\n", mix->name, median(proved),
           median(by_value), best[PROVED] * 1e6, best[BY_VALUE] * 1e6, best[PLAIN] * 1e6);
}

static int check_random(Mix *mix) {
    long kinds[4] = {0, 0, 0, 0};
    for (uint32_t seed = 1; seed <= RANDOM_MIXES; seed++) {
        make_random(mix, seed);
        if (!agree(mix, kinds)) return 0;
    }
    printf("same answers and buffers on %ld accepted, %ld racing and %ld refused random logs\n", kinds[0], kinds[1], kinds[2]);
    return 1;
}

int main(void) {
    static Mix mix;
    static void (*const make[])(Mix *) = {make_no_frees, make_half_frees, make_deep_reuse, make_short_logs};
    static const int repeats[] = {2, 2, 2, 4};
    if (!check_random(&mix)) return 1;
    for (int i = 0; i < 4; i++) {
        long kinds[4] = {0, 0, 0, 0};
        make[i](&mix);
        if (!agree(&mix, kinds)) return 1;
        if (i < 3 && kinds[THAWHAZEL_ACCEPTED] != mix.count) return printf("%s: a log is not accepted\n", mix.name), 1;
        compare(&mix, repeats[i]);
    }
    return 0;
}
