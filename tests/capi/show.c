/* Thawhazel from C: where fields of document 01's case C stand, and C and the replay of L over one struct of buffers.
 * tests/capi.sh builds it and compares what it prints with the file `show.expected`, which is typed from document 01. */
#include <stdio.h>
#include "thawhazel.h"

static thawhazel_room room;
static const thawhazel_heap heap = THAWHAZEL_HEAP_INIT(room);
static uint32_t answer[THAWHAZEL_ANSWER];

/* M(0,5,7); thread 1: p24 := p0; free p0; thread 1: x24 := p24.data */
static const uint8_t case_c[] = {1, 8, 0, 0, 0, 5, 0, 7, 0, 0, 0, 3, 3, 0, 1, 24, 0, 2, 2, 0, 0, 0, 6, 3, 0, 1, 24, 24};

/* M(0,5,7); free p0; M(0,5,9); x0 := p0.data */
static const uint8_t case_l[] = {1, 8, 0, 0, 0, 5, 0, 7, 0, 0, 0, 2, 2, 0, 0, 0, 1, 8, 0, 0, 0, 5, 0, 9, 0, 0, 0, 6, 3, 0, 0, 0, 0};

static void print_bytes(const char *name, const uint8_t *bytes, size_t length) {
    printf("%s:", name);
    for (size_t i = 0; i < length; i++) printf(" %02x", bytes[i]);
    printf("\n");
}

/* The field that raced: its place is the last number of the race. */
static void show(void) {
    uint32_t part[THAWHAZEL_PART];
    printf("field 3 of C: %u", thawhazel_show(case_c, sizeof case_c, 3, part, THAWHAZEL_PART));
    printf(", %u bytes at %u\n", part[1], part[0]);
    print_bytes("field 3 of C", case_c + part[0], part[1]);
    printf("field 4 of C: %u\n", thawhazel_show(case_c, sizeof case_c, 4, part, THAWHAZEL_PART));
    printf("field 3 of C, told in one number: %u\n", thawhazel_show(case_c, sizeof case_c, 3, part, 1));
}

static void judge_over_one_struct(void) {
    uint32_t kind = thawhazel_judge_heap(case_c, sizeof case_c, &heap, answer);
    printf("C: %d, %u %u %u %u\n", kind == THAWHAZEL_RACE, answer[0], answer[1], answer[2], answer[3]);
    uint8_t out[sizeof case_l];
    kind = thawhazel_replay_heap(case_l, sizeof case_l, out, sizeof out, &heap, answer);
    printf("L: %d, %u %u %u\n", kind == THAWHAZEL_ACCEPTED, answer[0], answer[1], answer[2]);
    printf("L: x0 is %u, tally %u %u %u\n", room.variables[0], room.tally[0], room.tally[1], room.tally[2]);
    print_bytes("replay of L", out, sizeof out);
}

int main(void) {
    show();
    judge_over_one_struct();
    return 0;
}
