/* numbers.c: compares the calls that answer in numbers with texts.
 *     numbers FOLDER REPORT.. < NAMES
 * The names are those of cases of FOLDER (tests/vectors), solve/NAME, exploit/NAME or play/NAME, one a line. The bounds of a root
 * are those of the report that solve prints; what the best replies leave, to one plan or to both, is what exploit prints; games of
 * several seeds are what play prints of each. Of each report, of a case or a file, both plans as arrays, printed again, are the
 * lines of the report; each row at its key is the same, and a key between two has none; worst cases and games are those of the
 * calls that answer in texts. With too little room the fronts come, and nothing is written behind them. The last line is
 * `N passed, M failed`.
 */
#include "dosolve.h"

#include <inttypes.h>
#include <stdbool.h>
#include <stdio.h>
#include <string.h>

enum { GUARD = 0xA5A5A5A5 };

struct bytes {
    uint8_t *at;
    size_t length;
};

static int passed, failed;

static void stop(const char *why, const char *what) {
    fprintf(stderr, "%s: %s\n", why, what);
    exit(2);
}

static struct bytes read_file(const char *path) {
    FILE *file = fopen(path, "rb");
    if (file == NULL) stop("cannot be read", path);
    fseek(file, 0, SEEK_END);
    struct bytes found = {NULL, (size_t)ftell(file)};
    rewind(file);
    found.at = malloc(found.length + 1);
    if (found.at == NULL || fread(found.at, 1, found.length, file) != found.length) stop("cannot be read", path);
    found.at[found.length] = 0;
    fclose(file);
    return found;
}

static struct bytes read_part(const char *folder, const char *name, const char *ending) {
    char path[1024];
    snprintf(path, sizeof path, "%s/%s%s", folder, name, ending);
    return read_file(path);
}

static void judge(bool right, const char *what, const char *name) {
    if (right) passed++;
    else failed++, printf("FAILED %s: %s\n", what, name);
}

/* The text behind the words that a line of the report begins with. */
static const char *after(const char *text, const char *words) {
    for (const char *line = text; line != NULL; line = strchr(line, '\n')) {
        if (*line == '\n') line++;
        if (strncmp(line, words, strlen(words)) == 0) return line + strlen(words);
    }
    return NULL;
}

static bool is_line(const char *text, const char *words, int64_t number) {
    char line[64];
    snprintf(line, sizeof line, "%" PRId64 "\n", number);
    const char *found = after(text, words);
    return found != NULL && strncmp(found, line, strlen(line)) == 0;
}

/* Whether the rows, printed, are the lines that follow. */
static bool are_lines(const struct dosolve_held *plan, const char *line) {
    char word[64];
    for (uint64_t row = 0; row < plan->size.rows; row++) {
        int length = snprintf(word, sizeof word, "%" PRIu64 " %" PRId64, plan->rows[row].key, plan->rows[row].bound);
        for (uint64_t at = 0; at <= plan->rows[row].moves; at++) {
            if (strncmp(line, word, (size_t)length) != 0) return false;
            line += length;
            length = at == plan->rows[row].moves ? 0 : snprintf(word, sizeof word, " %" PRIu32, plan->weights[plan->first[row] + at]);
        }
        if (*line++ != '\n') return false;
    }
    return strncmp(line, "two ", 4) == 0 || strncmp(line, "end\n", 4) == 0;
}

/* Whether the row at a key is that of the plan, or that there is none. */
static bool is_row(uint32_t side, uint64_t key, const struct bytes *report, const struct dosolve_held *plan) {
    uint32_t weights[33] = {GUARD, GUARD};
    struct dosolve_plan_row row = {1, 1, 1};
    uint64_t moves;
    const uint32_t *wanted = dosolve_find(plan, key, &moves);
    uint32_t status = dosolve_row(side, key, report->at, report->length, weights, 32, &row);
    if (status != DOSOLVE_DONE || row.key != key || row.moves != moves) return false;
    return wanted == NULL ? row.bound == 0 && weights[0] == GUARD : memcmp(weights, wanted, moves * sizeof *weights) == 0;
}

/* Whether half the room holds the front of the plan. */
static bool is_cut_off(uint32_t side, const struct bytes *report, const struct dosolve_held *plan) {
    size_t rows = (size_t)plan->size.rows / 2, weights = (size_t)plan->size.weights / 2;
    struct dosolve_plan_row *some = calloc(rows + 1, sizeof *some);
    uint32_t *few = calloc(weights + 1, sizeof *few);
    if (some == NULL || few == NULL) stop("out of memory", "is_cut_off");
    few[weights] = GUARD;
    some[rows].key = GUARD;
    struct dosolve_plan_size size = {0, 0, 0};
    bool right = dosolve_plan(side, report->at, report->length, some, rows, few, weights, &size) == DOSOLVE_DONE &&
                 memcmp(some, plan->rows, rows * sizeof *some) == 0 && memcmp(few, plan->weights, weights * sizeof *few) == 0 &&
                 memcmp(&size, &plan->size, sizeof size) == 0 && few[weights] == GUARD && some[rows].key == GUARD;
    free(some);
    free(few);
    return right;
}

static void try_plans(const struct bytes *report, const char *name) {
    for (uint32_t side = DOSOLVE_ONE; side <= DOSOLVE_TWO; side++) {
        struct dosolve_held plan = dosolve_hold(side, report->at, report->length);
        if (plan.status != DOSOLVE_DONE) {
            judge(false, "plan", name);
            continue;
        }
        const char *head = after((const char *)report->at, side == DOSOLVE_ONE ? "one " : "two ");
        judge(head != NULL && strtoull(head, NULL, 10) == plan.size.rows && are_lines(&plan, strchr(head, '\n') + 1) &&
              is_line((const char *)report->at, "weight ", (int64_t)plan.size.total), "plan", name);
        bool right = is_row(side, UINT64_MAX, report, &plan) && is_cut_off(side, report, &plan);
        for (uint64_t row = 0; row < plan.size.rows && row < 50; row++)
            right = right && is_row(side, plan.rows[row].key, report, &plan) && is_row(side, plan.rows[row].key + 1, report, &plan);
        judge(right, "row", name);
        dosolve_drop(&plan);
        dosolve_drop(&plan);
    }
}

/* A case of solve. Statuses 2 and 8 leave the numbers. */
static void try_root(const char *folder, const char *name) {
    struct bytes in = read_part(folder, name, ".in"), out = read_part(folder, name, ".out"), status_text = read_part(folder, name, ".status");
    struct bytes words = read_part(folder, name, ".args");
    uint32_t wanted = (uint32_t)strtoul((char *)status_text.at, NULL, 10);
    if (strcmp((char *)words.at, "solve\n") == 0 && in.at[0] != '@') {
        struct dosolve_root_bounds root = {GUARD, GUARD, GUARD};
        uint32_t status = dosolve_root(in.at, in.length, &root);
        const char *text = (char *)out.at;
        if (wanted == DOSOLVE_INPUT)
            judge(status == wanted && root.lower == GUARD && root.upper == GUARD && root.resolution == GUARD, "root", name);
        else {
            judge(status == wanted && is_line(text, "lower ", root.lower) && is_line(text, "upper ", root.upper) &&
                  is_line(text, "resolution ", root.resolution), "root", name);
            try_plans(&out, name);
        }
    }
    free(in.at), free(out.at), free(status_text.at), free(words.at);
}

/* The line that exploit prints. */
static void print_worst(char *line, size_t room, uint32_t side, const struct dosolve_worst_payoff *worst) {
    int length = snprintf(line, room, "exploit %s ", side == DOSOLVE_ONE ? "one" : "two");
    if (worst->exact == 0) {
        snprintf(line + length, room - (size_t)length, "between %" PRId64 " %" PRId64 "\n", worst->low, worst->high);
        return;
    }
    __extension__ __int128 sum = (__int128)worst->sum_high * ((__int128)1 << 64) + worst->sum_low;
    char digits[48] = {0}, *at = digits + sizeof digits - 1;
    bool below = sum < 0;
    do *--at = (char)('0' + (below ? -(int)(sum % 10) : (int)(sum % 10)));
    while ((sum /= 10) != 0);
    snprintf(line + length, room - (size_t)length, "exact %s%s %" PRIu64 " %" PRIu32 "\n", below ? "-" : "", at, worst->base, worst->power);
}

/* Whether the worst cases of both sides are what exploit prints of each, or nothing is written. */
static bool are_worst(const struct bytes *report) {
    struct dosolve_worst_payoff worst[2] = {{0, 9, 0, 0, 0, 0, 0, 0}, {0, 9, 0, 0, 0, 0, 0, 0}};
    uint32_t status = dosolve_worst(report->at, report->length, &worst[0], &worst[1]), wanted = DOSOLVE_DONE;
    bool right = true;
    for (uint32_t side = DOSOLVE_ONE; side <= DOSOLVE_TWO; side++) {
        char text[DOSOLVE_ROOM] = "", line[256];
        uint64_t size = 0;
        uint32_t answered = dosolve_exploit(side, report->at, report->length, (uint8_t *)text, sizeof text - 1, &size);
        if (answered != DOSOLVE_DONE) wanted = answered;
        print_worst(line, sizeof line, side, &worst[side]);
        right = right && (status == DOSOLVE_DONE ? strcmp(line, text) == 0 : worst[side].exact == 9);
    }
    return right && status == wanted;
}

/* Whether the text ends with the lines that play prints behind the turns. */
static bool has_payoffs(const char *text, const struct dosolve_match_payoffs *answered) {
    char lines[256];
    int length = snprintf(lines, sizeof lines, "payoff %" PRId32 "\ngames %" PRIu32 " sum %" PRId64 " least %" PRId32 " most %" PRId32 "\n",
                          answered->first, answered->games, answered->sum, answered->least, answered->most);
    size_t whole = strlen(text);
    return whole >= (size_t)length && strcmp(text + whole - (size_t)length, lines) == 0;
}

/* Whether games of three seeds are what play prints of each, and a result without a seed, or without room, is left. */
static bool are_games(uint32_t games, uint64_t first, const struct bytes *report) {
    const struct dosolve_match_payoffs mark = {9, 9, GUARD, 9, 9};
    const uint64_t seeds[4] = {first, first + 1, first ^ 0x9E3779B97F4A7C15u, first};
    struct dosolve_match_payoffs answered[4] = {mark, mark, mark, mark}, fewer[4] = {mark, mark, mark, mark};
    uint32_t status = dosolve_games(games, seeds, 3, report->at, report->length, answered, 4);
    bool right = dosolve_games(games, seeds, 4, report->at, report->length, fewer, 3) == status &&
                 memcmp(answered, fewer, sizeof answered) == 0 && memcmp(&answered[3], &mark, sizeof mark) == 0;
    for (int at = 0; at < 3; at++) {
        static char text[1 << 16];
        uint64_t size = 0;
        right = right && dosolve_play(games, seeds[at], report->at, report->length, (uint8_t *)text, sizeof text - 1, &size) == status;
        text[size < sizeof text ? size : 0] = 0;
        right = right && (status == DOSOLVE_DONE ? has_payoffs(text, &answered[at]) : memcmp(&answered[at], &mark, sizeof mark) == 0);
    }
    const uint32_t wrong[2] = {0, 100001};
    for (int at = 0; at < 2; at++)
        right = right && dosolve_games(wrong[at], seeds, 1, report->at, report->length, &fewer[3], 1) == DOSOLVE_USAGE;
    return right && dosolve_games(games, seeds, 0, report->at, report->length, &fewer[3], 1) == status &&
           memcmp(&fewer[3], &mark, sizeof mark) == 0;
}

/* A case of play. */
static void try_games(const char *folder, const char *name) {
    struct bytes in = read_part(folder, name, ".in"), out = read_part(folder, name, ".out"), status_text = read_part(folder, name, ".status");
    struct bytes words = read_part(folder, name, ".args");
    char *next;
    uint32_t wanted = (uint32_t)strtoul((char *)status_text.at, NULL, 10), games = (uint32_t)strtoul((char *)words.at + strlen("play\n"), &next, 10);
    uint64_t seed = strtoull(next, NULL, 10);
    if (in.at[0] != '@') {
        struct dosolve_match_payoffs payoffs = {9, 9, 9, 9, 9};
        bool right = dosolve_games(games, &seed, 1, in.at, in.length, &payoffs, 1) == wanted;
        right = right && (wanted == DOSOLVE_DONE ? has_payoffs((char *)out.at, &payoffs) : payoffs.sum == 9);
        judge(right && are_games(games < 1000 ? games : 1000, seed, &in), "games", name);
    }
    free(in.at), free(out.at), free(status_text.at), free(words.at);
}

static void try_replies(const char *folder, const char *name) {
    struct bytes in = read_part(folder, name, ".in"), out = read_part(folder, name, ".out"), status_text = read_part(folder, name, ".status");
    struct bytes words = read_part(folder, name, ".args");
    uint32_t wanted = (uint32_t)strtoul((char *)status_text.at, NULL, 10);
    bool is_one = strcmp((char *)words.at, "exploit\none\n") == 0, is_two = strcmp((char *)words.at, "exploit\ntwo\n") == 0;
    if ((is_one || is_two) && in.at[0] != '@') {
        enum { ROOM = 4096 };
        static uint64_t keys[ROOM];
        static uint32_t moves[ROOM];
        char line[256] = "";
        struct dosolve_worst_payoff worst = {0, 9, 0, 0, 0, 0, 0, 0};
        keys[0] = moves[0] = GUARD;
        uint32_t side = is_one ? DOSOLVE_ONE : DOSOLVE_TWO;
        uint32_t status = dosolve_replies(side, in.at, in.length, keys, ROOM, moves, ROOM, &worst);
        bool right = status == wanted;
        if (status == DOSOLVE_DONE) {
            print_worst(line, sizeof line, side, &worst);
            right = right && strcmp(line, (char *)out.at) == 0;
            for (uint64_t at = 1; at < worst.replies && at < ROOM; at++) right = right && keys[at - 1] < keys[at] && moves[at] < 32;
        } else
            right = right && worst.exact == 9 && keys[0] == GUARD && moves[0] == GUARD;
        judge(right, "replies", name);
        judge(are_worst(&in), "worst", name);
    }
    free(in.at), free(out.at), free(status_text.at), free(words.at);
}

int main(int count, char **word) {
    if (count < 2) stop("usage", "numbers FOLDER REPORT.. < NAMES");
    char line[256];
    while (fgets(line, sizeof line, stdin) != NULL) {
        line[strcspn(line, "\n")] = 0;
        if (strncmp(line, "solve/", 6) == 0) try_root(word[1], line);
        else if (strncmp(line, "play/", 5) == 0) try_games(word[1], line);
        else try_replies(word[1], line);
    }
    for (int at = 2; at < count; at++) {
        struct bytes report = read_file(word[at]);
        try_plans(&report, word[at]);
        judge(are_worst(&report), "worst", word[at]);
        judge(are_games(20, 5, &report), "games", word[at]);
        free(report.at);
    }
    printf("%d passed, %d failed\n", passed, failed);
    return failed == 0 && passed > 0 ? 0 : 1;
}
