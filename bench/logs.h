/* The logs of the benchmark, made by a fixed random sequence, so that every run has the same. */
#ifndef LOGS_H
#define LOGS_H
#include <stddef.h>
#include <stdint.h>

enum { MOST_LOGS = 256, LOG_ROOM = 45056 };

typedef struct {
    const char *name;
    int count;
    size_t lengths[MOST_LOGS];
    uint8_t bytes[MOST_LOGS][LOG_ROOM];
} Mix;

/* 4,096 fields each, eight of them mallocs and none a free: reading, checks, copies, data, sums and assertions that hold. */
void make_no_frees(Mix *mix);
/* 1,024 times malloc and free: every other field is a sweep over all words. */
void make_half_frees(Mix *mix);
/* Four cells given out again and again, with marked selectors that outlive each free: one sweep in eight fields. */
void make_deep_reuse(Mix *mix);
/* Logs of 1 to 12 random fields: setting out weighs most. Some race or are refused. */
void make_short_logs(Mix *mix);
/* Random fields, some of them broken. For the comparison of the judges, not for times. */
void make_random(Mix *mix, uint32_t seed);
#endif
