/* A plain C judge, written from docs/01-scope.md and document 02 as one would without proofs: a switch over the tags that works
 * on the caller's buffers in place. Numbers in comments are the refusals' numbers.
 * Compiled with BY_VALUE it is the same judge in the form that document 01 asks of the proved one: the board goes to the step of each
 * command by value and comes back by value. What that one takes more is what the form costs. */
#include "plain.h"

enum { UNSET = 1024, INVALID = 2048 };
enum { CELLS = 1024, SELECTORS = 2 * CELLS, VARIABLES = 80, LOG_BYTES = 45056, LOG_FIELDS = 4096, LOG_MALLOCS = 1024 };
enum { HEADER = 3, THREADS = 8, SHARED = 16, OWNED = 8, TAGS = 16 };
enum { NEVER_USED, LIVE, FREED };
enum { ACCEPTED, RACE, REFUSED, NO_ROOM, GO_ON };

static const uint8_t value_lengths[TAGS] = {0, 8, 2, 3, 4, 4, 3, 3, 6, 3, 3, 3, 3, 4, 4, 4};

typedef struct {
    uint16_t *pointers, *selectors;
    uint32_t *variables, *numbers;
    uint8_t *status;
    uint32_t *answer;
    uint32_t fields, mallocs, live;
    uint32_t at; /* where the field begins */
} Run;

/* ---- verdicts */

/* A refusal of the whole call, which is met at no field. */
static uint32_t decline(Run *run, uint32_t number) {
    run->answer[0] = number;
    run->answer[1] = 0;
    return REFUSED;
}

static uint32_t refuse(Run *run, uint32_t number) {
    run->answer[0] = number;
    run->answer[1] = run->fields;
    run->answer[2] = run->at;
    return REFUSED;
}

static uint32_t race(Run *run, uint8_t thread, uint8_t variable) {
    run->answer[0] = run->fields;
    run->answer[1] = thread;
    run->answer[2] = variable;
    run->answer[3] = run->at;
    return RACE;
}

static uint32_t accept(Run *run) {
    run->answer[0] = run->fields;
    run->answer[1] = run->mallocs;
    run->answer[2] = run->live;
    return ACCEPTED;
}

/* ---- reading one field */

static uint16_t two_bytes(const uint8_t *v) { return (uint16_t)(v[0] | v[1] << 8); }

static uint32_t four_bytes(const uint8_t *v) { return two_bytes(v) | (uint32_t)two_bytes(v + 2) << 16; }

static int named(uint8_t thread, uint8_t variable) {
    int own = SHARED + OWNED * thread;
    return variable < SHARED || (variable >= own && variable < own + OWNED);
}

/* 0 where the value passes 7 to 10, else the refusal's number. */
static uint32_t check_value(uint8_t tag, const uint8_t *v) {
    uint8_t thread = v[0];
    if (thread >= THREADS) return 7;
    if (!named(thread, v[1])) return 8;
    switch (tag) {
    case 1:
        return two_bytes(v + 2) >= CELLS ? 10 : 0;
    case 2: case 8:
        return 0;
    case 4:
        if (!named(thread, v[2])) return 8;
        return v[3] > 1 ? 9 : 0;
    case 5:
        if (!named(thread, v[3])) return 8;
        return v[2] > 1 ? 9 : 0;
    case 13: case 14: case 15:
        return named(thread, v[2]) && named(thread, v[3]) ? 0 : 8;
    default:
        return named(thread, v[2]) ? 0 : 8;
    }
}

/* 0 where the field at the front of `left` bytes passes 4 to 10, else the refusal's number. */
static uint32_t check_field(const uint8_t *field, size_t left) {
    if (left < HEADER) return 4;
    uint8_t tag = field[0];
    if (tag < 1 || tag >= TAGS) return 5;
    if (two_bytes(field + 1) != value_lengths[tag]) return 6;
    if (left - HEADER < value_lengths[tag]) return 4;
    return check_value(tag, field + HEADER);
}

/* ---- one field against the heap: GO_ON, or the kind that ends the run */

static uint32_t do_malloc(Run *run, const uint8_t *v) {
    uint16_t cell = two_bytes(v + 2);
    if (run->mallocs >= LOG_MALLOCS) return refuse(run, 11);
    if (run->status[cell] == LIVE) return refuse(run, 13);
    /* a reused cell keeps its data and both selector words; those of a never-used one are unset and valid from the start */
    if (run->status[cell] == NEVER_USED) run->numbers[cell] = four_bytes(v + 4);
    run->status[cell] = LIVE;
    run->pointers[v[1]] = cell;
    run->mallocs++;
    run->live++;
    return GO_ON;
}

/* Every word is stored, changed or not, so that the compiler makes one loop of wide instructions of it. */
static void lose_cell(uint16_t *words, int length, uint16_t cell) {
    for (int i = 0; i < length; i++) words[i] |= (words[i] & (INVALID - 1)) == cell ? INVALID : 0;
}

static uint32_t do_free(Run *run, const uint8_t *v) {
    uint16_t word = run->pointers[v[1]];
    if (word >= INVALID) return race(run, v[0], v[1]);
    if (word == UNSET) return GO_ON;
    lose_cell(run->pointers, VARIABLES, word);
    lose_cell(run->selectors, SELECTORS, word);
    run->selectors[2 * word] |= INVALID;
    run->selectors[2 * word + 1] |= INVALID;
    run->status[word] = FREED;
    run->live--;
    return GO_ON;
}

/* GO_ON where a pointer may be gone through: it is valid and not unset. */
static uint32_t go_through(Run *run, uint8_t thread, uint8_t variable) {
    uint16_t word = run->pointers[variable];
    if (word >= INVALID) return race(run, thread, variable);
    return word == UNSET ? refuse(run, 12) : GO_ON;
}

static uint32_t compare_pointers(Run *run, const uint8_t *v, int wanted) {
    uint16_t p = run->pointers[v[1]], q = run->pointers[v[2]];
    if (p >= INVALID) return race(run, v[0], v[1]);
    if (q >= INVALID) return race(run, v[0], v[2]);
    /* unset is equal to unset, and differs from every cell */
    return (p == q) != wanted ? refuse(run, 14) : GO_ON;
}

/* A compare-and-swap that was done: assert p = q, then p := r. */
static uint32_t do_swap(Run *run, const uint8_t *v) {
    uint32_t kind = compare_pointers(run, v, 1);
    if (kind == GO_ON) run->pointers[v[1]] = run->pointers[v[3]];
    return kind;
}

static uint32_t compare_numbers(Run *run, const uint8_t *v, int wanted) {
    return (run->variables[v[1]] == run->variables[v[2]]) != wanted ? refuse(run, 14) : GO_ON;
}

/* Commands 4 to 7, which go through a pointer. */
static uint32_t do_through(Run *run, uint8_t tag, const uint8_t *v) {
    uint8_t gone_through = tag == 4 || tag == 6 ? v[2] : v[1];
    uint32_t kind = go_through(run, v[0], gone_through);
    if (kind != GO_ON) return kind;
    uint16_t cell = run->pointers[gone_through];
    switch (tag) {
    case 4: run->pointers[v[1]] = run->selectors[2 * cell + v[3]]; break;
    case 5: run->selectors[2 * cell + v[2]] = run->pointers[v[3]]; break;
    case 6: run->variables[v[1]] = run->numbers[cell]; break;
    default: run->numbers[cell] = run->variables[v[2]];
    }
    return GO_ON;
}

static uint32_t step(Run *run, uint8_t tag, const uint8_t *v) {
    switch (tag) {
    case 1: return do_malloc(run, v);
    case 2: return do_free(run, v);
    case 3: run->pointers[v[1]] = run->pointers[v[2]]; return GO_ON;
    case 4: case 5: case 6: case 7: return do_through(run, tag, v);
    case 8: run->variables[v[1]] = four_bytes(v + 2); return GO_ON;
    case 9: return compare_pointers(run, v, 1);
    case 10: case 15: return compare_pointers(run, v, 0);
    case 11: return compare_numbers(run, v, 1);
    case 12: return compare_numbers(run, v, 0);
    case 13: run->variables[v[1]] = run->variables[v[2]] + run->variables[v[3]]; return GO_ON;
    default: return do_swap(run, v);
    }
}

/* ---- a whole log */

#ifdef BY_VALUE
#define JUDGE by_value_judge

typedef struct {
    uint16_t pointers[VARIABLES];
    uint32_t variables[VARIABLES];
} Board;

typedef struct {
    Board board;
    uint32_t kind;
} Stepped;

static Stepped step_by_value(Run *run, Board board, uint8_t tag, const uint8_t *v) {
    Stepped stepped;
    run->pointers = board.pointers;
    run->variables = board.variables;
    stepped.kind = step(run, tag, v);
    stepped.board = board;
    return stepped;
}

/* The board starts fresh and, at the end, is copied over what was lent. */
static uint32_t run_log(Run *run, const uint8_t *log, size_t length) {
    uint16_t *pointers = run->pointers;
    uint32_t *variables = run->variables, kind = GO_ON;
    Board board;
    for (int i = 0; i < VARIABLES; i++) board.pointers[i] = UNSET, board.variables[i] = 0;
    size_t at = 0;
    while (at < length) {
        run->at = (uint32_t)at;
        uint32_t why = run->fields >= LOG_FIELDS ? 3 : check_field(log + at, length - at);
        if (why) {
            kind = refuse(run, why);
            break;
        }
        uint8_t tag = log[at];
        Stepped stepped = step_by_value(run, board, tag, log + at + HEADER);
        board = stepped.board;
        kind = stepped.kind;
        if (kind != GO_ON) break;
        run->fields++;
        at += HEADER + value_lengths[tag];
    }
    for (int i = 0; i < VARIABLES; i++) pointers[i] = board.pointers[i], variables[i] = board.variables[i];
    return kind == GO_ON ? accept(run) : kind;
}
#else
#define JUDGE plain_judge

static uint32_t run_log(Run *run, const uint8_t *log, size_t length) {
    size_t at = 0;
    while (at < length) {
        run->at = (uint32_t)at;
        if (run->fields >= LOG_FIELDS) return refuse(run, 3);
        uint32_t why = check_field(log + at, length - at);
        if (why) return refuse(run, why);
        uint8_t tag = log[at];
        uint32_t kind = step(run, tag, log + at + HEADER);
        if (kind != GO_ON) return kind;
        run->fields++;
        at += HEADER + value_lengths[tag];
    }
    return accept(run);
}
#endif

static void start_fresh(Run *run) {
    for (int i = 0; i < VARIABLES; i++) run->pointers[i] = UNSET, run->variables[i] = 0;
    for (int i = 0; i < SELECTORS; i++) run->selectors[i] = UNSET;
    for (int i = 0; i < CELLS; i++) run->numbers[i] = 0, run->status[i] = NEVER_USED;
}

uint32_t JUDGE(const uint8_t *log, size_t log_length,
               uint16_t *pointers, size_t pointers_length,
               uint16_t *selectors, size_t selectors_length,
               uint32_t *variables, size_t variables_length,
               uint32_t *numbers, size_t numbers_length,
               uint8_t *status, size_t status_length,
               uint32_t *tally, size_t tally_length,
               uint32_t *answer, size_t answer_length) {
    Run run = {pointers, selectors, variables, numbers, status, answer, 0, 0, 0, 0};
    if (tally_length < 3 || answer_length < 4) return NO_ROOM;
    if (log_length > LOG_BYTES) return decline(&run, 1);
    if (pointers_length < VARIABLES || selectors_length < SELECTORS || variables_length < VARIABLES ||
        numbers_length < CELLS || status_length < CELLS)
        return decline(&run, 2);
    start_fresh(&run);
    uint32_t kind = run_log(&run, log, log_length);
    tally[0] = run.fields;
    tally[1] = run.mallocs;
    tally[2] = run.live;
    return kind;
}
