/* dosolve.h: the commands of dosolve in the caller's own process, and calls that answer in numbers.
 *
 * A command takes the bytes that the program reads from its standard input, and answers with the program's status and the
 * text that the program would print, byte by byte as docs/FORMATS.md of dosolve tells it. A call keeps nothing: no global
 * state, no thread, no file. It may be made from any thread, and from several at once over memory of their own. `solve`
 * does the work of all the workers that a position asks for on the caller's thread, one after the other, so an input has
 * one answer.
 *
 * A caller gives room for the text. `*size` gets the length of the whole text in bytes, and `output` its front, as far as
 * there is room: where `*size` is more than `room`, the text is cut off. What stands in `output` behind the text stays as
 * it was, and no byte behind `room` is written. With status 8 neither `output` nor `*size` is written.
 *
 * What a caller owes: pointers that are not null, also where a length is 0, and aligned as their type asks; `input` with
 * `count` bytes to read, which nobody writes during the call; `output` with `room` bytes, `*size`, and what other calls
 * write, apart from each other and from `input`, which nobody else reads or writes during the call; 1 MB of stack; no call
 * from a signal handler, or from the forked child of a process with threads; and `malloc`, `realloc` and `free` of one
 * allocator, whose blocks are aligned to 16 bytes. There is no other duty: any bytes are answered, and under any
 * floating-point environment, since each call sets the default one for its own time and puts the caller's back.
 *
 * Bounds, gaps and resolutions are millionths of a payoff, and payoffs are what One gets.
 */
#ifndef DOSOLVE_H
#define DOSOLVE_H

#include <stddef.h>
#include <stdint.h>
#include <stdlib.h>

#ifdef __cplusplus
extern "C" {
#endif

/* The statuses. The program's 6 and 7, of a device that failed, never come. */
enum {
    DOSOLVE_DONE = 0,      /* solve: the gap that was asked for is met. check: accepted. Others: answered. */
    DOSOLVE_USAGE = 1,     /* a side, a number of games or the number of a sample that there is not */
    DOSOLVE_INPUT = 2,     /* the position is refused; the text says why */
    DOSOLVE_SETTLED = 3,   /* solve, sample: the gap is within the resolution */
    DOSOLVE_SPENT = 4,     /* solve: the turns are spent. bounds: the visits are */
    DOSOLVE_FULL = 5,      /* solve, bounds: the rows are used up. exploit: the plan meets too many states */
    DOSOLVE_NO_MEMORY = 8, /* want of memory: nothing is written */
    DOSOLVE_REPORT = 9     /* the report is refused; the text says why */
};

/* The version of the library, as `dosolve-py --version` and a release have theirs: a text that is never freed. It is plain C
 * (tools/build_library.sh), and nothing is proved of it. */
const char *dosolve_version(void);

/* The sides, for dosolve_exploit. */
enum { DOSOLVE_ONE = 0, DOSOLVE_TWO = 1 };

/* Room in bytes that every answer but those of dosolve_solve fits into: by how long the texts of docs/FORMATS.md can be, and
 * as tests found it. The length in `size` tells in any case. */
#define DOSOLVE_ROOM 4096

/* Solves the position of the input, JSON of at most 1048576 bytes, a table with linear stages of 67108864: the text of a
 * report with bounds of the value and a plan of each side. */
uint32_t dosolve_solve(const uint8_t *input, size_t count, uint8_t *output, size_t room, uint64_t *size);

/* Verifies the report of the input, at most 1073741824 bytes, or 4294967296 where it begins with the first line of version 3. */
uint32_t dosolve_check(const uint8_t *input, size_t count, uint8_t *output, size_t room, uint64_t *size);

/* Bounds of the value of the position of the input, by pure plans. */
uint32_t dosolve_bounds(const uint8_t *input, size_t count, uint8_t *output, size_t room, uint64_t *size);

/* What the plan of a side (DOSOLVE_ONE or DOSOLVE_TWO) of the report of the input guarantees, whatever the other does. */
uint32_t dosolve_exploit(uint32_t side, const uint8_t *input, size_t count, uint8_t *output, size_t room, uint64_t *size);

/* Plays 1 to 100000 games between the two plans of the report of the input. The seed decides all moves and draws. */
uint32_t dosolve_play(uint32_t games, uint64_t seed, const uint8_t *input, size_t count, uint8_t *output, size_t room,
                      uint64_t *size);

/* Solves the sample of a number, 0 to 1000000: a game of Goofspiel with five cards. */
uint32_t dosolve_sample(uint32_t number, uint8_t *output, size_t room, uint64_t *size);

/* ---- Answers in numbers.
 *
 * These calls read a position or a report too, and give numbers in place of a text. Statuses: those of `solve` for
 * dosolve_root; else DOSOLVE_DONE, DOSOLVE_USAGE (no such side, no such number of games), DOSOLVE_FULL (dosolve_replies and
 * dosolve_worst: a plan comes to too many states), DOSOLVE_NO_MEMORY and DOSOLVE_REPORT. dosolve_root writes with
 * DOSOLVE_DONE, DOSOLVE_SETTLED, DOSOLVE_SPENT and DOSOLVE_FULL, the other calls with DOSOLVE_DONE alone; else nothing is
 * written. Where both the report and a side or a number of games are wrong, either status may come. Why a position is refused
 * dosolve_bounds tells, why a report dosolve_check. The room of an array is told in items; it is filled as far as there is
 * room, and what stands behind stays as it was. A plan need not be lawful: dosolve_check tells whether it is. Each call reads
 * the whole report: dosolve_worst and dosolve_games ask many things of one reading. */

struct dosolve_root_bounds {
    int64_t lower, upper;
    int64_t resolution; /* where turns and rows suffice, the gap is certain to be at most this, or what was asked */
};

/* The bounds of the position of the input, by the search of dosolve_solve, without the plans. */
uint32_t dosolve_root(const uint8_t *input, size_t count, struct dosolve_root_bounds *root);

struct dosolve_plan_row {
    uint64_t key;
    int64_t bound;
    uint64_t moves; /* how many weights, one for each of the first moves: 1 to 32; 0 where the plan has no row */
};

/* The row of a side's plan of the report of the input at a key: weights of the moves, and the bound. Without a row `moves` and
 * `bound` are 0: such a plan makes its first move. So it does, for dosolve_exploit, dosolve_worst and the games, where the
 * weights do not sum to the report's weight, or are not one for each move. The whole report is read: to look up many rows, use
 * dosolve_plan. */
uint32_t dosolve_row(uint32_t side, uint64_t key, const uint8_t *input, size_t count, uint32_t *weights, size_t room,
                     struct dosolve_plan_row *row);

struct dosolve_plan_size {
    uint64_t rows;
    uint64_t weights; /* of all rows */
    uint64_t total;   /* what the weights of a lawful row sum to */
};

/* The plan of a side of the report of the input: its rows in rising order of keys, and all their weights in the same order. */
uint32_t dosolve_plan(uint32_t side, const uint8_t *input, size_t count, struct dosolve_plan_row *rows, size_t row_room,
                      uint32_t *weights, size_t weight_room, struct dosolve_plan_size *size);

/* What One gets where the best replies are made to a plan. Where `exact` is 1 it is the sum, sum_high * 2^64 + sum_low,
 * divided by base^power, in payoffs; where it is 0, it lies from `low` to `high`, in millionths of a payoff. What is not told
 * is 0. */
struct dosolve_worst_payoff {
    uint64_t replies; /* how many states have a reply */
    uint32_t exact, power;
    uint64_t base;
    int64_t sum_high;
    uint64_t sum_low;
    int64_t low, high;
};

/* The best replies to a side's plan of the report of the input: the keys of the states that the plan comes to, in rising order,
 * and the other side's move at each; and what they leave to the plan. */
uint32_t dosolve_replies(uint32_t side, const uint8_t *input, size_t count, uint64_t *keys, size_t key_room, uint32_t *moves,
                         size_t move_room, struct dosolve_worst_payoff *worst);

/* What the best replies leave to the plan of each side of the report of the input: the numbers that dosolve_replies tells. */
uint32_t dosolve_worst(const uint8_t *input, size_t count, struct dosolve_worst_payoff *one, struct dosolve_worst_payoff *two);

/* What One gets in the games of a seed, in whole payoffs. */
struct dosolve_match_payoffs {
    uint32_t games; /* how many they are */
    int32_t first;  /* what the first game pays */
    int64_t sum;
    int32_t least, most;
};

/* Plays 1 to 100000 games of each seed between the two plans of the report of the input: a result for each seed that there is
 * room for, in the order of the seeds, so as many as the lesser of `seed_count` and `result_room`. Its numbers are those that
 * dosolve_play prints behind the turns of the first game. */
uint32_t dosolve_games(uint32_t games, const uint64_t *seeds, size_t seed_count, const uint8_t *input, size_t count,
                       struct dosolve_match_payoffs *results, size_t result_room);

/* ---- With room from the heap.
 *
 * Small functions over the calls above, compiled with the caller's program. */

/* An answer that owns its text: `size` bytes, and a zero behind them. dosolve_free gives it back. */
struct dosolve_answer {
    uint32_t status;
    size_t size;
    char *text; /* null with status DOSOLVE_NO_MEMORY */
};

/* Gives the text back. A second call does nothing. */
static inline void dosolve_free(struct dosolve_answer *answer) {
    free(answer->text);
    answer->text = NULL;
    answer->size = 0;
}

/* The calls over an input alone: dosolve_solve, dosolve_check, dosolve_bounds. */
typedef uint32_t dosolve_call(const uint8_t *, size_t, uint8_t *, size_t, uint64_t *);

/* The answer of a call over an input alone. The first call gets `room` bytes, of which those that are not needed are given
 * back; where they are too few, the call is made again with as many as it needs, which for dosolve_solve costs the search
 * again. So give dosolve_solve much: memory of calloc that nobody writes costs nothing on most systems. */
static inline struct dosolve_answer dosolve_ask(dosolve_call *call, const void *input, size_t count, size_t room) {
    struct dosolve_answer answer = {DOSOLVE_NO_MEMORY, 0, NULL};
    for (;;) {
        uint64_t size = 0;
        char *text = room < SIZE_MAX ? (char *)calloc(room + 1, 1) : NULL;
        if (text == NULL) return answer;
        uint32_t status = call((const uint8_t *)input, count, (uint8_t *)text, room, &size);
        if (status != DOSOLVE_NO_MEMORY && size <= room) {
            char *fitted = (char *)realloc(text, (size_t)size + 1);
            answer.text = fitted != NULL ? fitted : text;
            answer.status = status;
            answer.size = (size_t)size;
            return answer;
        }
        free(text);
        if (status == DOSOLVE_NO_MEMORY || size >= SIZE_MAX) return answer;
        room = (size_t)size;
    }
}

/* A plan that was read once. dosolve_drop gives it back. */
struct dosolve_held {
    uint32_t status;
    struct dosolve_plan_size size;
    struct dosolve_plan_row *rows;
    uint32_t *weights;
    uint64_t *first; /* where the weights of each row begin */
};

/* Gives the plan back. A second call does nothing. */
static inline void dosolve_drop(struct dosolve_held *plan) {
    free(plan->rows);
    free(plan->weights);
    free(plan->first);
    plan->rows = NULL;
    plan->weights = NULL;
    plan->first = NULL;
    plan->size.rows = 0;
    plan->size.weights = 0;
}

/* The plan of a side of a report. The report is read twice, the first time to find how much there is. */
static inline struct dosolve_held dosolve_hold(uint32_t side, const void *report, size_t count) {
    struct dosolve_held plan = {DOSOLVE_NO_MEMORY, {0, 0, 0}, NULL, NULL, NULL};
    struct dosolve_plan_row no_row;
    uint32_t no_weight;
    uint64_t at, next = 0;
    plan.status = dosolve_plan(side, (const uint8_t *)report, count, &no_row, 0, &no_weight, 0, &plan.size);
    if (plan.status != DOSOLVE_DONE) return plan;
    plan.rows = (struct dosolve_plan_row *)calloc((size_t)plan.size.rows + 1, sizeof *plan.rows);
    plan.weights = (uint32_t *)calloc((size_t)plan.size.weights + 1, sizeof *plan.weights);
    plan.first = (uint64_t *)calloc((size_t)plan.size.rows + 1, sizeof *plan.first);
    plan.status = DOSOLVE_NO_MEMORY;
    if (plan.rows != NULL && plan.weights != NULL && plan.first != NULL)
        plan.status = dosolve_plan(side, (const uint8_t *)report, count, plan.rows, (size_t)plan.size.rows, plan.weights,
                                   (size_t)plan.size.weights, &plan.size);
    if (plan.status != DOSOLVE_DONE) {
        dosolve_drop(&plan);
        return plan;
    }
    for (at = 0; at < plan.size.rows; at++) {
        plan.first[at] = next;
        next += plan.rows[at].moves;
    }
    return plan;
}

/* The weights of the plan at a key, `*moves` of them; null and 0 where it has no row, and so makes its first move. */
static inline const uint32_t *dosolve_find(const struct dosolve_held *plan, uint64_t key, uint64_t *moves) {
    uint64_t low = 0, high = plan->size.rows;
    while (low < high) {
        uint64_t middle = low + (high - low) / 2;
        if (plan->rows[middle].key < key) low = middle + 1;
        else high = middle;
    }
    *moves = 0;
    if (low == plan->size.rows || plan->rows[low].key != key) return NULL;
    *moves = plan->rows[low].moves;
    return plan->weights + plan->first[low];
}

#ifdef __cplusplus
}
#endif

#endif
