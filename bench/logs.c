#include "logs.h"

static uint64_t state;

static uint32_t below(uint32_t n) {
    state = state * 6364136223846793005u + 1442695040888963407u;
    return (uint32_t)(state >> 33) % n;
}

static const uint8_t value_lengths[16] = {0, 8, 2, 3, 4, 4, 3, 3, 6, 3, 3, 3, 3, 4, 4, 4};

static void start(Mix *mix, const char *name, int count, uint32_t seed) {
    mix->name = name;
    mix->count = count;
    for (int i = 0; i < count; i++) mix->lengths[i] = 0;
    state = seed;
}

/* One field at the end of a log: up to seven value bytes after the thread, of which the tag's length takes what it needs. */
static void add(Mix *mix, int log, uint8_t tag, uint8_t thread, const uint8_t *rest) {
    uint8_t *end = mix->bytes[log] + mix->lengths[log];
    end[0] = tag;
    end[1] = value_lengths[tag];
    end[2] = 0;
    end[3] = thread;
    for (int i = 1; i < value_lengths[tag]; i++) end[3 + i] = rest[i - 1];
    mix->lengths[log] += 3u + value_lengths[tag];
}

#define ADD(mix, log, tag, thread, ...) add(mix, log, tag, thread, (const uint8_t[7]){__VA_ARGS__})

/* A field that neither stops the run nor frees: pointers 0 to 7 hold live cells, 8 to 14 anything valid, and 15 stays unset. */
static void add_harmless(Mix *mix, int log) {
    uint8_t held = (uint8_t)below(8), other = (uint8_t)below(8), any = (uint8_t)(8 + below(7));
    uint8_t x = (uint8_t)below(16), y = (uint8_t)below(16), thread = (uint8_t)below(8), sel = (uint8_t)below(2);
    switch (3 + below(11)) {
    case 3: ADD(mix, log, 3, thread, held, other); break;
    case 4: ADD(mix, log, 4, thread, any, held, sel); break;
    case 5: ADD(mix, log, 5, thread, held, sel, any); break;
    case 6: ADD(mix, log, 6, thread, x, held); break;
    case 7: ADD(mix, log, 7, thread, held, x); break;
    case 8: ADD(mix, log, 8, thread, x, y, 1, 2, 3); break;
    case 9: ADD(mix, log, 9, thread, held, held); break;
    case 10: ADD(mix, log, 10, thread, 15, held); break;
    case 11: ADD(mix, log, 11, thread, x, x); break;
    case 12: ADD(mix, log, 3, thread, any, held); break;
    default: ADD(mix, log, 13, thread, x, y, x);
    }
}

void make_no_frees(Mix *mix) {
    start(mix, "no frees", 4, 1);
    for (int log = 0; log < mix->count; log++) {
        for (uint8_t p = 0; p < 8; p++) ADD(mix, log, 1, 0, p, p, 0, p);
        for (int i = 8; i < 4096; i++) add_harmless(mix, log);
    }
}

void make_half_frees(Mix *mix) {
    start(mix, "half frees", 4, 2);
    for (int log = 0; log < mix->count; log++)
        for (int i = 0; i < 1024; i++) {
            uint8_t p = (uint8_t)below(16), cell = (uint8_t)below(200);
            ADD(mix, log, 1, 0, p, cell, 0, 7);
            ADD(mix, log, 2, 0, p);
        }
}

void make_deep_reuse(Mix *mix) {
    start(mix, "deep reuse", 4, 3);
    for (int log = 0; log < mix->count; log++)
        for (int i = 0; i < 512; i++) {
            ADD(mix, log, 1, 0, 0, (uint8_t)below(4), 0, 7);
            ADD(mix, log, 5, 0, 0, 0, 1);
            ADD(mix, log, 4, 0, 16, 0, 1);
            ADD(mix, log, 3, 0, 1, 0);
            ADD(mix, log, 5, 0, 0, 1, 1);
            ADD(mix, log, 6, 0, 0, 0);
            ADD(mix, log, 13, 0, 1, 0, 1);
            ADD(mix, log, 2, 0, 0);
        }
}

/* One of few names, so that words meet often. */
static uint8_t any_name(uint8_t thread) { return (uint8_t)(below(2) + (below(8) ? 0 : 16 + 8 * thread)); }

/* Any field but a compare-and-swap, of few names, so that frees, reuse and races come up often. */
static void add_any(Mix *mix, int log) {
    static const uint8_t tags[16] = {1, 1, 1, 2, 3, 3, 3, 4, 5, 6, 7, 8, 9, 10, 11, 13};
    uint8_t tag = below(32) ? tags[below(16)] : 12, thread = (uint8_t)below(2);
    uint8_t names[3];
    for (int i = 0; i < 3; i++) names[i] = any_name(thread);
    if (tag == 4) names[2] &= 1;
    if (tag == 5) names[1] &= 1;
    if (tag == 1) ADD(mix, log, 1, thread, names[0], (uint8_t)below(16), 0, (uint8_t)below(3));
    else if (tag == 8) ADD(mix, log, 8, thread, names[0], (uint8_t)below(3));
    else ADD(mix, log, tag, thread, names[0], names[1], names[2]);
}

/* A compare-and-swap, done or failed. The timed mixes have none, so that their times can be compared with former ones. */
static void add_swap(Mix *mix, int log) {
    uint8_t tag = (uint8_t)(14 + below(2)), thread = (uint8_t)below(2);
    uint8_t p = any_name(thread), q = any_name(thread), r = any_name(thread);
    ADD(mix, log, tag, thread, p, q, r);
}

void make_short_logs(Mix *mix) {
    start(mix, "short logs", MOST_LOGS, 4);
    for (int log = 0; log < mix->count; log++)
        for (uint32_t i = 1 + below(12); i > 0; i--) add_any(mix, log);
}

void make_random(Mix *mix, uint32_t seed) {
    start(mix, "random", MOST_LOGS, seed);
    for (int log = 0; log < mix->count; log++) {
        ADD(mix, log, 1, 0, 0, 0, 0, 1);
        ADD(mix, log, 1, 0, 1, 1, 0, 2);
        for (uint32_t i = below(30); i > 0; i--) (below(6) ? add_any : add_swap)(mix, log);
        if (below(4) == 0) mix->bytes[log][below((uint32_t)mix->lengths[log])] = (uint8_t)below(256);
        if (below(8) == 0) mix->lengths[log] -= below(4);
    }
}
