/* Thawhazel from C: document 01's cases B, C, E and L judged, a short buffer, one field read and written, and the replay of L.
 * tests/capi.sh builds it and compares what it prints with the file `expected`, which is typed from document 01. */
#include <stdio.h>
#include "thawhazel.h"

/* What the caller lends. Nothing needs to be set beforehand. */
static uint16_t pointers[THAWHAZEL_POINTERS], selectors[THAWHAZEL_SELECTORS];
static uint32_t variables[THAWHAZEL_VARIABLES], numbers[THAWHAZEL_CELLS];
static uint8_t status[THAWHAZEL_CELLS];
static uint32_t tally[THAWHAZEL_TALLY], answer[THAWHAZEL_ANSWER];

#define HEAP \
    pointers, THAWHAZEL_POINTERS, selectors, THAWHAZEL_SELECTORS, variables, THAWHAZEL_VARIABLES, numbers, THAWHAZEL_CELLS, \
        status, THAWHAZEL_CELLS

/* M(0,5,7); free p0 */
static const uint8_t case_b[] = {1, 8, 0, 0, 0, 5, 0, 7, 0, 0, 0, 2, 2, 0, 0, 0};

/* M(0,5,7); thread 1: p24 := p0; thread 0: free p0; thread 1: x24 := p24.data */
static const uint8_t case_c[] = {1, 8, 0, 0, 0, 5, 0, 7, 0, 0, 0, 3, 3, 0, 1, 24, 0, 2, 2, 0, 0, 0, 6, 3, 0, 1, 24, 24};

/* M(0,5,0); M(1,6,0); p0.0 := p1; free p0; M(0,5,0); p16 := p0.0 */
static const uint8_t case_e[] = {1, 8, 0, 0, 0, 5, 0, 0, 0, 0, 0, 1, 8, 0, 0, 1, 6, 0, 0, 0, 0, 0, 5, 4, 0, 0, 0, 0, 1,
                                 2, 2, 0, 0, 0, 1, 8, 0, 0, 0, 5, 0, 0, 0, 0, 0, 4, 4, 0, 0, 16, 0, 0};

/* M(0,5,7); free p0; M(0,5,9); x0 := p0.data */
static const uint8_t case_l[] = {1, 8, 0, 0, 0, 5, 0, 7, 0, 0, 0, 2, 2, 0, 0, 0, 1, 8, 0, 0, 0, 5, 0, 9, 0, 0, 0, 6, 3, 0, 0, 0, 0};

/* The line that document 01 has the program print. */
static void print_verdict(const char *name, uint32_t kind) {
    static const char *const words[] = {"accepted", "race", "refused", "no room"};
    static const int counts[] = {3, 4, 3, 0};
    int whole = kind == THAWHAZEL_REFUSED && (answer[0] <= THAWHAZEL_BUFFER_TOO_SHORT || answer[0] == THAWHAZEL_OUTPUT_TOO_SHORT);
    printf("%s: %s", name, words[kind]);
    for (int i = 0; i < (whole ? 2 : counts[kind]); i++) printf(" %u", answer[i]);
    printf("\n");
}

static void print_bytes(const char *name, const uint8_t *bytes, size_t length) {
    printf("%s:", name);
    for (size_t i = 0; i < length; i++) printf(" %02x", bytes[i]);
    printf("\n");
}

static void judge(const char *name, const uint8_t *log, size_t length) {
    print_verdict(name, thawhazel_judge(log, length, HEAP, tally, THAWHAZEL_TALLY, answer, THAWHAZEL_ANSWER));
    printf("%s: tally %u %u %u\n", name, tally[0], tally[1], tally[2]);
}

static void judge_cases(void) {
    judge("B", case_b, sizeof case_b);
    judge("C", case_c, sizeof case_c);
    judge("E", case_e, sizeof case_e);
    printf("E: p16 is %u\n", pointers[16]);
    judge("L", case_l, sizeof case_l);
    printf("L: x0 is %u\n", variables[0]);
}

/* A buffer that is too short gets an answer, and nothing is touched: variable 0 and the tally are still those of L. */
static void lend_too_little(void) {
    print_verdict("79 pointers",
                  thawhazel_judge(case_b, sizeof case_b, pointers, THAWHAZEL_POINTERS - 1, selectors, THAWHAZEL_SELECTORS, variables,
                                  THAWHAZEL_VARIABLES, numbers, THAWHAZEL_CELLS, status, THAWHAZEL_CELLS, tally, THAWHAZEL_TALLY,
                                  answer, THAWHAZEL_ANSWER));
    print_verdict("3 answers", thawhazel_judge(case_b, sizeof case_b, HEAP, tally, THAWHAZEL_TALLY, answer, 3));
    printf("x0 is %u, tally %u %u %u\n", variables[0], tally[0], tally[1], tally[2]);
}

static void read_and_write(void) {
    uint32_t field[THAWHAZEL_READ], bytes[1];
    uint8_t out[THAWHAZEL_FIELD_BYTES];
    uint32_t read = thawhazel_read_field(case_b, sizeof case_b, 0, field, THAWHAZEL_READ);
    printf("read: %u, field", read);
    for (int i = 0; i < THAWHAZEL_READ; i++) printf(" %u", field[i]);
    printf("\nread of 2 bytes at 11: %u", thawhazel_read_field(case_b + 11, 2, 11, field, THAWHAZEL_READ));
    printf(", offset %u\n", field[THAWHAZEL_FIELD]);
    uint32_t written = thawhazel_write_field(field, THAWHAZEL_FIELD, out, sizeof out, bytes, 1);
    printf("written: %u, %u bytes\n", written, bytes[0]);
    print_bytes("bytes", out, bytes[0]);
    field[5] = 65536 + 5; /* no cell, and not cell 5 either */
    printf("written with cell 65541: %u\n", thawhazel_write_field(field, THAWHAZEL_FIELD, out, sizeof out, bytes, 1));
}

static void replay(void) {
    uint8_t out[sizeof case_l];
    print_verdict("replay of L", thawhazel_replay(case_l, sizeof case_l, out, sizeof out, HEAP, tally, THAWHAZEL_TALLY, answer,
                                                  THAWHAZEL_ANSWER));
    print_bytes("replay of L", out, sizeof out);
    print_verdict("replay into 32 bytes", thawhazel_replay(case_l, sizeof case_l, out, sizeof out - 1, HEAP, tally, THAWHAZEL_TALLY,
                                                           answer, THAWHAZEL_ANSWER));
}

int main(void) {
    judge_cases();
    lend_too_little();
    read_and_write();
    replay();
    return 0;
}
