/* fuzz.c: gives the library positions and reports that were changed at random.
 *     fuzz FOLDER COUNT SEED JOBS [SAMPLES EVERY] < NAMES
 * The names are those of cases of FOLDER (tests/vectors), COMMAND/NAME, one a line. Their inputs, and the reports that `solve`
 * prints for them, are the bases. An input is a base with some changes: digits, words, bytes and pieces; items of lists, values,
 * fields and lines, taken out, doubled, exchanged or taken from other bases; lists at random; the end cut off. A quarter of the
 * reports are made by the library of a changed position, before they are changed. Half of the inputs are positions and half are
 * reports, whatever the cases; three eighths of each are tables, and each other game has an eighth.
 *
 * Each base is tried once at the start with the commands that it fits. A few take most of the time, as `exploit` of a plan that
 * comes to a million states: the chance of a base falls with what it takes, in steps, and so does that of one that is refused.
 * With COUNT 0 the costs and chances are printed, and nothing else is done. Positions ask for little most of the time.
 *
 * Each input ends where a page begins that nobody may touch, and so does the room for the answer, so that reading or writing
 * past an end is a fault. An answer is wrong where its status or its text is none of its command's, where a byte of the room
 * but those of the text was changed, where a report of `solve` is refused, or where it takes more than MOST_SECONDS of the
 * processor. Of a quarter the calls that answer in numbers are made too, and have to agree. Each EVERY-th input and answer is
 * written into the folder SAMPLES/COMMAND, as files of a case, for other comparisons.
 *
 * The inputs are divided among JOBS processes that run at once. The number of an input and SEED make it again, where the bases
 * have the same chances. One that is answered wrongly, or at which a process dies, is kept in the working folder. Each job's
 * line has the number of its inputs, what they took, the heap in use after the first thousand and at the end, which may be no
 * more, and the most memory that it held; tables have the answers and the games of all jobs.
 */
#define _GNU_SOURCE
#include "dosolve.h"

#include <malloc.h>
#include <stdbool.h>
#include <stdio.h>
#include <string.h>
#include <sys/mman.h>
#include <sys/resource.h>
#include <sys/time.h>
#include <sys/wait.h>
#include <time.h>
#include <unistd.h>

#ifdef __has_feature
#if __has_feature(address_sanitizer)
#define __SANITIZE_ADDRESS__
#endif
#endif
#ifdef __SANITIZE_ADDRESS__
size_t __sanitizer_get_current_allocated_bytes(void);
static size_t heap_in_use(void) { return __sanitizer_get_current_allocated_bytes(); }
enum { MOST_GROWTH = 0 };
#else
/* Counts what was given back and is held for the next request. */
static size_t heap_in_use(void) { return mallinfo2().uordblks; }
enum { MOST_GROWTH = 1 << 20 };
#endif

enum { MOST_JOBS = 64, MOST_BASES = 4096, MOST_INPUT = 1 << 16, MOST_SECONDS = 60 };
enum { ROOM = 1 << 16, MARK = 0xA5, STATUSES = 16, REFUSED = STATUSES - 1 /* stands for 9 with the text `refused` */ };
enum { GAMES = 6, TABLE = GAMES - 1, OTHERS = 2 * GAMES, GROUPS };
enum { SOLVE, BOUNDS, CHECK, EXPLOIT_ONE, EXPLOIT_TWO, PLAY, COMMANDS };

struct bytes {
    uint8_t *at;
    size_t length;
};

/* An input of a case. Its group says position or report, and which game, or that it is something else. */
struct base {
    char name[256];
    struct bytes text;
    int group;
    bool is_refused;
    double cost;
    size_t chance; /* among those of its group */
};

static const char *const games[GAMES] = {"goofspiel", "goofspiel_drawn", "oshi_zumo", "tron", "pursuit", "table"};
static struct base bases[MOST_BASES];
static size_t base_count, chances[GROUPS];
static uint64_t state;

static void stop(const char *why, const char *what) {
    fprintf(stderr, "%s: %s\n", why, what);
    exit(2);
}

/* A number below the bound, by the generator splitmix64. */
static size_t below(size_t bound) {
    uint64_t z = (state += 0x9E3779B97F4A7C15u);
    z = (z ^ (z >> 30)) * 0xBF58476D1CE4E5B9u;
    z = (z ^ (z >> 27)) * 0x94D049BB133111EBu;
    return (size_t)((z ^ (z >> 31)) % bound);
}

static bool one_in(size_t many) { return below(many) == 0; }

static double seconds(clockid_t clock) {
    struct timespec now;
    clock_gettime(clock, &now);
    return (double)now.tv_sec + (double)now.tv_nsec * 1e-9;
}

/* The end of room for so many bytes where a page begins that faults. */
static uint8_t *guarded(size_t length, int sharing) {
    size_t page = (size_t)sysconf(_SC_PAGESIZE), pages = (length + page - 1) / page * page;
    uint8_t *at = mmap(NULL, pages + page, PROT_READ | PROT_WRITE, sharing | MAP_ANONYMOUS, -1, 0);
    if (at == MAP_FAILED || mprotect(at + pages, page, PROT_NONE) != 0) stop("no room", "guarded");
    memset(at, MARK, pages);
    return at + pages;
}

static bool is_marked(const uint8_t *at, size_t length) {
    return length == 0 || (at[0] == MARK && memcmp(at, at + 1, length - 1) == 0);
}

/* ---- Bases. */

static bool begins(const struct bytes *b, const char *word) {
    return b->length >= strlen(word) && memcmp(b->at, word, strlen(word)) == 0;
}

static const uint8_t *find(const struct bytes *b, size_t from, const char *word) {
    return from < b->length ? memmem(b->at + from, b->length - from, word, strlen(word)) : NULL;
}

static bool is_position(int group) { return group < GAMES; }

static int group_of(const struct bytes *b) {
    for (int game = 0; game < GAMES; game++) {
        char field[64], line[64];
        snprintf(field, sizeof field, "\"game\":\"%s\"", games[game]);
        snprintf(line, sizeof line, "\ngame %s ", games[game]);
        if (begins(b, "{") && find(b, 0, field) != NULL) return game;
        if (begins(b, "dosolve report ") && find(b, 0, line) != NULL) return GAMES + game;
    }
    return OTHERS;
}

/* Takes in a file as a base, if it is not too long and not there already. */
static void add_base(const char *folder, const char *name, const char *ending) {
    char path[1024];
    snprintf(path, sizeof path, "%s/%s%s", folder, name, ending);
    FILE *file = fopen(path, "rb");
    struct bytes text = {malloc(MOST_INPUT), 0};
    if (file == NULL || text.at == NULL) stop("cannot be read", path);
    text.length = fread(text.at, 1, MOST_INPUT, file);
    fclose(file);
    bool is_new = text.length > 0 && text.length < MOST_INPUT && text.at[0] != '@';
    for (size_t at = 0; at < base_count && is_new; at++)
        is_new = bases[at].text.length != text.length || memcmp(bases[at].text.at, text.at, text.length) != 0;
    if (!is_new || base_count == MOST_BASES) {
        free(text.at);
        return;
    }
    text.at = realloc(text.at, text.length);
    struct base *base = &bases[base_count++];
    snprintf(base->name, sizeof base->name, "%s%s", name, ending);
    base->text = text;
    base->group = group_of(&text);
}

static void read_bases(const char *folder) {
    char line[200];
    while (fgets(line, sizeof line, stdin) != NULL) {
        line[strcspn(line, "\n")] = 0;
        add_base(folder, line, ".in");
        if (strncmp(line, "solve/", 6) == 0) add_base(folder, line, ".out");
    }
    if (base_count == 0) stop("no inputs", folder);
}

/* A base of the group, by the chances. */
static const struct base *pick_from(int group) {
    size_t behind = below(chances[group]);
    for (size_t at = 0;; at++) {
        if (bases[at].group != group) continue;
        if (behind < bases[at].chance) return &bases[at];
        behind -= bases[at].chance;
    }
}

static const struct base *pick(void) {
    for (;;) {
        size_t game = below(GAMES + 2), kind = below(2);
        int group = one_in(32) ? OTHERS : (int)(kind * GAMES + (game < GAMES ? game : TABLE));
        if (chances[group] > 0) return pick_from(group);
    }
}

/* ---- Changes. Each keeps the length at most MOST_INPUT. */

/* Puts bytes, which may be some of these, in the place of some. */
static void replace(struct bytes *b, size_t at, size_t gone, const void *put, size_t length) {
    static uint8_t copy[MOST_INPUT];
    if (b->length - gone + length > MOST_INPUT) return;
    memcpy(copy, put, length);
    memmove(b->at + at + length, b->at + at + gone, b->length - at - gone);
    memcpy(b->at + at, copy, length);
    b->length += length - gone;
}

static bool is_digit(uint8_t byte) { return byte >= '0' && byte <= '9'; }
static bool is_letter(uint8_t byte) { return (byte >= 'a' && byte <= 'z') || byte == '_'; }

/* The first run of such bytes behind a place at random; of no length where there is none. */
static struct bytes run_of(const struct bytes *b, bool (*is_such)(uint8_t)) {
    size_t from = below(b->length + 1);
    while (from < b->length && !is_such(b->at[from])) from++;
    size_t to = from;
    while (to < b->length && is_such(b->at[to])) to++;
    return (struct bytes){b->at + from, to - from};
}

static void change_number(struct bytes *b) {
    static const char *const edges[] = {
        "0", "1", "2", "3", "5", "7", "8", "9", "13", "14", "31", "32", "33", "100", "101", "255", "256", "1000", "1001", "8191",
        "8192", "1000000", "1000001", "1048576", "1048577", "4000000000", "99999999999", "1099511627776", "2147483647", "2147483648",
        "4294967296", "9223372036854775807", "9223372036854775808", "18446744073709551616", "-1", "-2", "-3", "-1000000", "-2147483648",
        "-9223372036854775808", "-9223372036854775809", "00", "01", "-0", "1.0", "1e2", "\"1\"", "null", "[]", "[1]", "[[1]]", "{}"};
    struct bytes old = run_of(b, is_digit);
    if (old.length == 0) return;
    char near[32];
    const char *put = edges[below(sizeof edges / sizeof *edges)];
    if (!one_in(4) && old.length < 19) {
        long long number = 0;
        for (size_t at = 0; at < old.length; at++) number = number * 10 + (old.at[at] - '0');
        snprintf(near, sizeof near, "%lld", one_in(3) ? (long long)below(40) : number + (long long)below(5) - 2);
        put = near;
    }
    replace(b, (size_t)(old.at - b->at), old.length, put, strlen(put));
}

static void change_word(struct bytes *b) {
    static const char *const words[] = {
        "goofspiel", "goofspiel_drawn", "oshi_zumo", "tron", "pursuit", "table", "win", "margin", "regret", "linear", "one", "two",
        "prizes", "score", "pay", "size", "least", "place", "height", "width", "walls", "nodes", "edges", "rounds", "states", "gap",
        "weight", "turns", "visits", "rows", "workers", "stages", "game", "dosolve", "report", "asked", "resolution", "outcome", "closed",
        "settled", "spent", "full", "lower", "upper", "end", "null", "true", "false", "x", ""};
    struct bytes old = run_of(b, is_letter);
    const char *put = words[below(sizeof words / sizeof *words)];
    if (old.length > 0) replace(b, (size_t)(old.at - b->at), old.length, put, strlen(put));
}

/* Puts in a list in lists, about as many as a position may have, or a few. */
static void nest(struct bytes *b, size_t at) {
    char lists[512];
    size_t depth = one_in(2) ? below(5) : 120 + below(20);
    memset(lists, '[', depth), memset(lists + depth, ']', depth);
    replace(b, at, 0, lists, 2 * depth);
}

/* Changes without regard to what the bytes mean. */
static void change_bytes(struct bytes *b, const struct bytes *other) {
    static const char bytes[] = "\"\\{}[]:,-+.eE0123456789 \n\r\t\0\x7f\x80\xc3\xff";
    uint8_t byte = one_in(4) ? (uint8_t)below(256) : (uint8_t)bytes[below(sizeof bytes - 1)];
    size_t at = below(b->length + 1), length = below(40) + 1;
    if (length > b->length - at) length = b->length - at;
    switch (below(8)) {
    case 0: replace(b, at, 0, &byte, 1); break;
    case 1: replace(b, at, length, "", 0); break;
    case 2: if (at < b->length) b->at[at] = byte; break;
    case 3: replace(b, at, 0, b->at + at, length); break;
    case 4: if (one_in(2)) b->length = at; break;
    case 5: if (one_in(4)) nest(b, at); break;
    default: {
        size_t from = below(other->length), most = other->length - from, taken = below(most < 60 ? most : 60) + 1;
        replace(b, at, one_in(2) ? length : 0, other->at + from, taken);
    }
    }
}

/* An item of a list of JSON, a value, a field with its name, a word of a line, and a line: behind which bytes one begins,
 * before which one ends, and what is between two. */
enum { ITEM, VALUE, MEMBER, WORD, LINE, PIECES };
static const char *const fronts[PIECES] = {"[", "[,:{ ", "{,", " \n", "\n"};
static const char *const ends[PIECES] = {",", ",: \n", ", \n", " \n", "\n"};
static const char separators[PIECES] = {',', ',', ',', ' ', '\n'};

static bool is_among(uint8_t byte, const char *list) { return memchr(list, byte, strlen(list)) != NULL; }

/* The piece that begins at a place. */
static struct bytes piece_at(const struct bytes *b, size_t from, int piece) {
    bool quoted = false;
    size_t to = from, depth = 0;
    for (; to < b->length; to++) {
        uint8_t byte = b->at[to];
        if (byte == '"' && piece <= MEMBER) quoted = !quoted;
        if (quoted) continue;
        if (piece <= MEMBER && (byte == '[' || byte == '{')) depth++;
        if (piece <= MEMBER && (byte == ']' || byte == '}') && depth-- == 0) break;
        if (depth == 0 && is_among(byte, ends[piece])) break;
    }
    return (struct bytes){b->at + from, to - from};
}

/* A piece at random. Of items, one of a list that is chosen first, so that short lists count as much as long ones. */
static struct bytes some_piece(const struct bytes *b, int piece) {
    size_t from = below(b->length + 1);
    if (piece == ITEM) {
        while (from < b->length && b->at[from] != '[') from++;
        struct bytes item = piece_at(b, from < b->length ? from + 1 : from, piece);
        for (size_t more = below(8); more > 0; more--) {
            size_t end = (size_t)(item.at - b->at) + item.length;
            if (end < b->length && b->at[end] == ',') item = piece_at(b, end + 1, piece);
        }
        return item;
    }
    while (from > 0 && (from == b->length || !is_among(b->at[from - 1], fronts[piece]))) from--;
    return piece_at(b, from, piece);
}

/* Takes a piece out, doubles it, exchanges it with the next, or takes one from another base in its place or before it. */
static void change_piece(struct bytes *b, const struct bytes *other, int piece) {
    static uint8_t put[2 * MOST_INPUT + 1];
    struct bytes old = some_piece(b, piece), first = old, second = old;
    size_t at = (size_t)(old.at - b->at), end = at + old.length;
    bool has_next = end < b->length && b->at[end] == (uint8_t)separators[piece];
    bool has_last = at > 0 && b->at[at - 1] == (uint8_t)separators[piece];
    size_t way = below(5);
    if (piece == ITEM && old.length == 0) return;
    if (way == 0) {
        replace(b, has_next || !has_last ? at : at - 1, old.length + (has_next || has_last), "", 0);
        return;
    }
    if (way == 1 && has_next) {
        first = piece_at(b, end + 1, piece);
        end += 1 + first.length;
    }
    if (way >= 2) first = some_piece(other, piece);
    memcpy(put, first.at, first.length);
    size_t length = first.length;
    if (way != 2) {
        put[length++] = (uint8_t)separators[piece];
        memcpy(put + length, second.at, second.length);
        length += second.length;
    }
    replace(b, at, end - at, put, length);
}

/* Takes the value of a field of a position, or of a line of a report, from another base. */
static void take_named(struct bytes *b, const struct bytes *other, bool in_position) {
    struct bytes name = some_piece(b, in_position ? MEMBER : LINE);
    const uint8_t *end = memchr(name.at, in_position ? ':' : ' ', name.length);
    if (end == NULL || end == name.at) return;
    name.length = (size_t)(end - name.at) + 1;
    const uint8_t *there = memmem(other->at, other->length, name.at, name.length);
    if (there == NULL) return;
    int piece = in_position ? VALUE : LINE;
    struct bytes value = piece_at(other, (size_t)(there - other->at) + name.length, piece);
    size_t at = (size_t)(end - b->at) + 1;
    replace(b, at, piece_at(b, at, piece).length, value.at, value.length);
}

/* Lets the lines `one N` and `two N` of a report say how many rows follow. */
static void mend_counts(struct bytes *b) {
    static const char *const words[] = {"\none ", "\ntwo ", "\nend"};
    for (int side = 0; side < 2; side++) {
        const uint8_t *head = find(b, 0, words[side]), *next = find(b, 0, words[side + 1]);
        if (head == NULL || next == NULL || next <= head) return;
        size_t rows = 0, at = (size_t)(head - b->at) + strlen(words[side]);
        for (const uint8_t *byte = head + 1; byte < next; byte++) rows += *byte == '\n';
        char count[32];
        snprintf(count, sizeof count, "%zu", rows);
        replace(b, at, piece_at(b, at, LINE).length, count, strlen(count));
    }
}

/* Gives a flat list of a position as many numbers at random, which rise or do not. */
static void change_list(struct bytes *b) {
    size_t from = below(b->length + 1), count = 1, length = 0;
    while (from < b->length && !(b->at[from] == '[' && from + 1 < b->length && is_digit(b->at[from + 1]))) from++;
    if (from >= b->length) return;
    size_t to = from + 1;
    for (; to < b->length && (is_digit(b->at[to]) || b->at[to] == ','); to++) count += b->at[to] == ',';
    char list[1024];
    bool rises = one_in(2);
    for (size_t number = 0, at = 0; at < count && length + 8 < sizeof list; at++) {
        number = rises ? number + below(3) + (at > 0) : below(14);
        length += (size_t)snprintf(list + length, sizeof list - length, at == 0 ? "%zu" : ",%zu", number);
    }
    replace(b, from + 1, to - from - 1, list, length);
}

static void change(struct bytes *b, bool in_position) {
    const struct base *base = &bases[below(base_count)];
    for (int tries = 0; tries < 3 && is_position(base->group) != in_position; tries++) base = &bases[below(base_count)];
    const struct bytes *other = &base->text;
    if (b->length == 0) return;
    switch (below(20)) {
    case 0: change_bytes(b, other); break;
    case 1: change_word(b); break;
    case 2: case 3: change_piece(b, other, VALUE + (int)below(in_position ? 2 : PIECES - VALUE)); break;
    case 4: case 5: change_piece(b, other, in_position ? ITEM : LINE); break;
    case 6: case 7: case 8: case 9: take_named(b, other, in_position); break;
    case 10: case 11: case 12:
        if (in_position) {
            change_list(b);
            break;
        }
        /* fall through */
    default: change_number(b);
    }
}

/* Lowers the first number from a place on to the most, where it is more, and within the range. */
static void lower(struct bytes *b, size_t from, unsigned long long most, unsigned long long range) {
    while (from < b->length && !is_digit(b->at[from])) from++;
    size_t to = from;
    unsigned long long number = 0;
    for (; to < b->length && is_digit(b->at[to]); to++) number = to - from < 18 ? number * 10 + (b->at[to] - '0') : ~0ull;
    if (number <= most || number > range || (to < b->length && is_among(b->at[to], ".eE"))) return;
    char text[32];
    snprintf(text, sizeof text, "%llu", most);
    replace(b, from, to - from, text, strlen(text));
}

/* Lowers what a position asks for where it is more than this, and within the range of the field: half of the time to as much,
 * and else to less, but to sixteen times as much for one position in sixteen. */
static void limit(struct bytes *b) {
    static const struct { const char *name; unsigned long long least, most, range; } fields[] = {
        {"\"turns\"", 0, 6, 1ull << 40}, {"\"visits\"", 0, 1000, 1ull << 40}, {"\"rows\"", 1, 1000, 1 << 20},
        {"\"weight\"", 8192, 10000, 1 << 20}, {"\"workers\"", 1, 2, 16}};
    enum { FIELDS = sizeof fields / sizeof *fields };
    unsigned long long most[FIELDS], times = one_in(16) ? 16 : 1;
    for (int field = 0; field < FIELDS; field++) {
        most[field] = fields[field].most * times;
        if (one_in(2)) most[field] = fields[field].least + below(most[field] + 1 - fields[field].least);
    }
    for (size_t at = 0; at + 8 < b->length; at++) {
        if (b->at[at] != '"') continue;
        for (int field = 0; field < FIELDS; field++) {
            size_t length = strlen(fields[field].name);
            if (at + length < b->length && memcmp(b->at + at, fields[field].name, length) == 0)
                lower(b, at + length, most[field], fields[field].range);
        }
    }
}

/* ---- Inputs and answers. */

/* What is asked of the library: the words of the program, and the input. */
struct input {
    int command;
    uint32_t games;
    uint64_t seed;
    struct bytes text;
};

static const char *const folders[COMMANDS] = {"solve", "bounds", "check", "exploit", "exploit", "play"};

static void say_words(const struct input *in, char *words, size_t room) {
    const char *side = in->command == EXPLOIT_ONE ? "\none" : in->command == EXPLOIT_TWO ? "\ntwo" : "";
    if (in->command == PLAY) snprintf(words, room, "play\n%u\n%llu\n", in->games, (unsigned long long)in->seed);
    else snprintf(words, room, "%s%s\n", folders[in->command], side);
}

static uint32_t call(const struct input *in, uint8_t *output, size_t room, uint64_t *size) {
    const uint8_t *at = in->text.at;
    size_t length = in->text.length;
    switch (in->command) {
    case SOLVE: return dosolve_solve(at, length, output, room, size);
    case BOUNDS: return dosolve_bounds(at, length, output, room, size);
    case CHECK: return dosolve_check(at, length, output, room, size);
    case EXPLOIT_ONE: return dosolve_exploit(DOSOLVE_ONE, at, length, output, room, size);
    case EXPLOIT_TWO: return dosolve_exploit(DOSOLVE_TWO, at, length, output, room, size);
    default: return dosolve_play(in->games, in->seed, at, length, output, room, size);
    }
}

/* Whether a command may answer so, by its status and by how the text begins and ends. */
static bool is_known(int command, uint32_t status, const struct bytes *text) {
    if (text->length < 4 || text->at[text->length - 1] != '\n') return false;
    bool of_position = command == SOLVE || command == BOUNDS;
    if (status == DOSOLVE_INPUT) return of_position && begins(text, "input ");
    if (status == DOSOLVE_REPORT) return !of_position && (begins(text, "report ") || (command == CHECK && begins(text, "refused ")));
    switch (command) {
    case SOLVE:
        return (status == DOSOLVE_DONE || (status >= DOSOLVE_SETTLED && status <= DOSOLVE_FULL)) &&
               begins(text, "dosolve report ") && memcmp(text->at + text->length - 4, "end\n", 4) == 0;
    case BOUNDS:
        return status == DOSOLVE_DONE ? begins(text, "lower ")
               : status == DOSOLVE_SPENT ? begins(text, "visits spent ")
                                         : status == DOSOLVE_FULL && begins(text, "board full\n");
    case CHECK: return status == DOSOLVE_DONE && begins(text, "accepted ");
    case PLAY: return status == DOSOLVE_DONE && (begins(text, "turn ") || begins(text, "payoff "));
    default: return (status == DOSOLVE_DONE && begins(text, "exploit ")) || (status == DOSOLVE_FULL && begins(text, "states full\n"));
    }
}

static void write_file(const char *folder, unsigned long long number, const char *ending, const void *bytes, size_t length) {
    char path[1024];
    snprintf(path, sizeof path, "%s/%llu%s", folder, number, ending);
    FILE *file = fopen(path, "wb");
    if (file == NULL || fwrite(bytes, 1, length, file) != length || fclose(file) != 0) stop("cannot be written", path);
}

static void keep_input(const char *folder, unsigned long long number, const struct input *in) {
    char words[64];
    say_words(in, words, sizeof words);
    write_file(folder, number, ".args", words, strlen(words));
    write_file(folder, number, ".in", in->text.at, in->text.length);
}

static void keep(const char *folder, unsigned long long number, const struct input *in, uint32_t status, const struct bytes *text) {
    char line[16];
    int digits = snprintf(line, sizeof line, "%u\n", status);
    keep_input(folder, number, in);
    write_file(folder, number, ".out", text->at, text->length);
    write_file(folder, number, ".status", line, (size_t)digits);
}

/* ---- Calls that answer in numbers. Each is made of inputs of some commands, and has to agree with the command's answer, whose
 * text ends with a zero. A further call is a further function, and its row in the table. */

enum { MOST_ITEMS = 256 };
static uint8_t *items_end[2];

/* The room of one of two lists, of a number of items at random, with a mark in each byte. It ends before a page that faults. */
static void *some_room(int list, size_t size, size_t *room) {
    *room = one_in(4) ? below(4) : below(MOST_ITEMS + 1);
    uint8_t *at = items_end[list] - *room * size;
    memset(at, MARK, *room * size);
    return at;
}

/* Whether what is behind so many items is as it was. */
static bool is_kept(int list, size_t size, size_t room, uint64_t count) {
    return count >= room || is_marked(items_end[list] - (room - count) * size, (room - count) * size);
}

/* The number in the line that begins with the word, or INT64_MIN. */
static int64_t number_after(const char *text, const char *word) {
    const char *line = strstr(text, word);
    return line == NULL ? INT64_MIN : strtoll(line + strlen(word), NULL, 10);
}

static bool root_agrees(const struct input *in, uint32_t status, const char *text) {
    struct dosolve_root_bounds root = {7, 7, 7};
    if (dosolve_root(in->text.at, in->text.length, &root) != status) return false;
    if (status == DOSOLVE_INPUT) return root.lower == 7 && root.upper == 7 && root.resolution == 7;
    return root.lower == number_after(text, "\nlower ") && root.upper == number_after(text, "\nupper ") &&
           root.resolution == number_after(text, "\nresolution ");
}

/* Whether `check` has found a report, be it right or not. */
static uint32_t plan_status(uint32_t status, const char *text) {
    return status != DOSOLVE_REPORT || strncmp(text, "refused ", 8) == 0 ? DOSOLVE_DONE : DOSOLVE_REPORT;
}

/* Whether a plan cut off at room for fewer items is the front of the whole one. */
static bool plan_agrees(const struct input *in, uint32_t status, const char *text) {
    uint32_t side = (uint32_t)below(2), answered;
    struct dosolve_held whole = dosolve_hold(side, in->text.at, in->text.length);
    struct dosolve_plan_size size = {7, 7, 7};
    size_t row_room, weight_room;
    struct dosolve_plan_row *rows = some_room(0, sizeof *rows, &row_room);
    uint32_t *weights = some_room(1, sizeof *weights, &weight_room);
    answered = dosolve_plan(side, in->text.at, in->text.length, rows, row_room, weights, weight_room, &size);
    bool right = answered == plan_status(status, text) && whole.status == answered;
    if (right && answered == DOSOLVE_DONE) {
        right = size.rows == whole.size.rows && size.weights == whole.size.weights && size.total == whole.size.total &&
                memcmp(rows, whole.rows, (size.rows < row_room ? size.rows : row_room) * sizeof *rows) == 0 &&
                memcmp(weights, whole.weights, (size.weights < weight_room ? size.weights : weight_room) * sizeof *weights) == 0;
    } else if (right) {
        right = size.rows == 7 && size.weights == 7 && size.total == 7;
        size.rows = size.weights = 0;
    }
    right = right && is_kept(0, sizeof *rows, row_room, size.rows) && is_kept(1, sizeof *weights, weight_room, size.weights);
    dosolve_drop(&whole);
    return right;
}

/* Whether a row is that of the whole plan: of a key of the plan, or of one beside it. */
static bool row_agrees(const struct input *in, uint32_t status, const char *text) {
    uint32_t side = (uint32_t)below(2), answered;
    struct dosolve_held whole = dosolve_hold(side, in->text.at, in->text.length);
    struct dosolve_plan_row row = {7, 7, 7};
    size_t room;
    uint32_t *weights = some_room(0, sizeof *weights, &room);
    uint64_t at = whole.size.rows > 0 ? below((size_t)whole.size.rows) : 0, moves = 0;
    uint64_t key = (whole.size.rows > 0 ? whole.rows[at].key : below(100)) + one_in(4);
    answered = dosolve_row(side, key, in->text.at, in->text.length, weights, room, &row);
    bool right = answered == plan_status(status, text) && whole.status == answered;
    if (right && answered == DOSOLVE_DONE) {
        const uint32_t *found = dosolve_find(&whole, key, &moves);
        right = row.key == key && row.moves == moves && (moves > 0 || row.bound == 0) &&
                (found == NULL || memcmp(weights, found, (moves < room ? moves : room) * sizeof *weights) == 0) &&
                (key != whole.rows[at].key || row.bound == whole.rows[at].bound);
    } else if (right) {
        right = row.key == 7 && row.bound == 7 && row.moves == 7;
    }
    right = right && is_kept(0, sizeof *weights, room, moves);
    dosolve_drop(&whole);
    return right;
}

/* Whether the text has the base, the power and the lower half of the sum. */
static bool is_exact(const char *text, const struct dosolve_worst_payoff *worst) {
    const char *at = strstr(text, " exact ");
    if (at == NULL) return false;
    at += strlen(" exact ");
    bool is_negative = *at == '-';
    uint64_t sum = 0;
    for (at += is_negative; is_digit((uint8_t)*at); at++) sum = sum * 10 + (uint64_t)(*at - '0');
    char rest[64];
    snprintf(rest, sizeof rest, " %llu %u\n", (unsigned long long)worst->base, worst->power);
    return (is_negative ? 0 - sum : sum) == worst->sum_low && strcmp(at, rest) == 0;
}

static bool replies_agree(const struct input *in, uint32_t status, const char *text) {
    uint32_t side = in->command == EXPLOIT_ONE ? DOSOLVE_ONE : DOSOLVE_TWO;
    struct dosolve_worst_payoff worst = {0, 9, 0, 0, 0, 0, 0, 0};
    size_t key_room, move_room;
    uint64_t *keys = some_room(0, sizeof *keys, &key_room);
    uint32_t *moves = some_room(1, sizeof *moves, &move_room);
    if (dosolve_replies(side, in->text.at, in->text.length, keys, key_room, moves, move_room, &worst) != status) return false;
    bool right = is_kept(0, sizeof *keys, key_room, worst.replies) && is_kept(1, sizeof *moves, move_room, worst.replies);
    if (status != DOSOLVE_DONE) return right && worst.exact == 9 && worst.replies == 0;
    if (worst.exact == 0) return right && number_after(text, " between ") == worst.low && worst.low <= worst.high;
    return right && worst.exact == 1 && is_exact(text, &worst);
}

/* One reading of the report for both sides. */
static bool worst_agrees(const struct input *in, uint32_t status, const char *text) {
    int side = in->command == EXPLOIT_ONE ? 0 : 1;
    struct dosolve_worst_payoff worst[2] = {{0, 9, 0, 0, 0, 0, 0, 0}, {0, 9, 0, 0, 0, 0, 0, 0}};
    uint32_t answered = dosolve_worst(in->text.at, in->text.length, &worst[0], &worst[1]);
    if (answered == DOSOLVE_FULL && status == DOSOLVE_DONE) return worst[0].exact == 9 && worst[1].exact == 9;
    if (answered != status) return false;
    if (answered != DOSOLVE_DONE) return worst[0].exact == 9 && worst[1].exact == 9;
    if (worst[side].exact == 0) return number_after(text, " between ") == worst[side].low;
    return worst[side].exact == 1 && is_exact(text, &worst[side]);
}

/* The games of two seeds, the second of which is that of `play`; now and then with room for one or none. */
static bool games_agree(const struct input *in, uint32_t status, const char *text) {
    const uint64_t seeds[2] = {in->seed + 1, in->seed};
    size_t room;
    struct dosolve_match_payoffs *answered = some_room(0, sizeof *answered, &room);
    if (dosolve_games(in->games, seeds, 2, in->text.at, in->text.length, answered, room) != status) return false;
    size_t count = status != DOSOLVE_DONE ? 0 : room < 2 ? room : 2;
    if (!is_kept(0, sizeof *answered, room, count)) return false;
    return count < 2 || (answered[1].games == in->games && answered[1].sum == number_after(text, " sum ") &&
                         answered[1].least == number_after(text, " least ") && answered[1].most == number_after(text, " most "));
}

static const struct {
    const char *name;
    bool (*agrees)(const struct input *, uint32_t, const char *);
    unsigned commands;
} numbers[] = {
    {"root", root_agrees, 1 << SOLVE},
    {"plan", plan_agrees, 1 << CHECK},
    {"row", row_agrees, 1 << CHECK},
    {"replies", replies_agree, 1 << EXPLOIT_ONE | 1 << EXPLOIT_TWO},
    {"worst", worst_agrees, 1 << EXPLOIT_ONE | 1 << EXPLOIT_TWO},
    {"games", games_agree, 1 << PLAY},
};
enum { CALLS = sizeof numbers / sizeof *numbers };

/* ---- A job. */

/* What a job is at and what it has found, in memory that the parent sees too. */
struct job {
    struct input in;
    uint8_t *input_end;
    unsigned long long number, answered[COMMANDS][STATUSES], made[GROUPS], read[GROUPS], in_numbers[CALLS], samples;
    double spent[COMMANDS], slowest;
    size_t heap_first, heap_last;
    int group;
    bool is_solved, is_at_work;
};

static struct job *jobs;
static uint8_t *output_end;
static struct bytes made;

static void copy_base(const struct base *base) {
    memcpy(made.at, base->text.at, base->text.length);
    made.length = base->text.length;
}

/* Puts what was made where it ends before a page that faults, as the input of a command. */
static void place_input(struct job *job, int command) {
    job->in.command = command;
    job->in.text = (struct bytes){job->input_end - made.length, made.length};
    memcpy(job->in.text.at, made.at, made.length);
}

/* Makes the report of a changed position of a game, if it has one that is not too long. */
static bool make_report(struct job *job, int game) {
    uint64_t size = 0;
    if (chances[game] == 0) return false;
    copy_base(pick_from(game));
    while (one_in(2)) change(&made, true);
    limit(&made);
    place_input(job, SOLVE);
    job->is_at_work = true;
    uint32_t status = call(&job->in, output_end - ROOM, ROOM, &size);
    job->is_at_work = false;
    bool has_report = status != DOSOLVE_INPUT && size < ROOM;
    made.length = size < ROOM ? (size_t)size : ROOM;
    memcpy(made.at, output_end - ROOM, made.length);
    memset(output_end - ROOM, MARK, made.length);
    return has_report;
}

/* The input of a number: a changed base or a changed report of one, and a command that it fits, or now and then any. */
static void make_input(struct job *job, uint64_t seed) {
    state = seed * 0xD1B54A32D192ED03u + job->number;
    state = below(SIZE_MAX);
    const struct base *base = pick();
    bool in_position = is_position(base->group), is_report = !in_position && base->group != OTHERS;
    job->is_solved = is_report && one_in(4) && make_report(job, base->group - GAMES);
    if (!job->is_solved) copy_base(base);
    if (!one_in(job->is_solved ? 4 : 16)) {
        job->is_solved = false;
        do change(&made, in_position);
        while (one_in(3));
    }
    if (is_report && !one_in(4)) mend_counts(&made);
    limit(&made);
    job->group = base->group;
    job->made[job->group]++;
    job->in.games = 1 + (uint32_t)below(one_in(4096) ? 100000 : one_in(64) ? 1000 : 5);
    job->in.seed = one_in(2) ? below(10) : below(SIZE_MAX);
    bool fits_position = made.length > 0 && made.at[0] == '{';
    place_input(job, one_in(20) ? (int)below(COMMANDS) : fits_position ? (int)below(2) : CHECK + (int)below(4));
}

/* Gives the library the input that was made, and judges the answer. */
static bool is_right(struct job *job, const char *samples) {
    const struct input *in = &job->in;
    size_t room = one_in(10) ? below(200) : one_in(2) ? 4096 : ROOM;
    uint8_t *output = output_end - room;
    uint64_t size = UINT64_MAX;
    double begun = seconds(CLOCK_PROCESS_CPUTIME_ID);
    uint32_t status = call(in, output, room, &size);
    double took = seconds(CLOCK_PROCESS_CPUTIME_ID) - begun;
    job->spent[in->command] += took;
    if (took > job->slowest) job->slowest = took;
    size_t front = size < room ? (size_t)size : room;
    struct bytes text = {output, front};
    bool right = status < REFUSED && memcmp(in->text.at, made.at, made.length) == 0 && size != UINT64_MAX;
    right = right && is_marked(output_end - ROOM, ROOM - room) && is_marked(output + front, room - front);
    if (right && size <= room) right = is_known(in->command, status, &text);
    if (job->is_solved && in->command == CHECK) right = right && status == DOSOLVE_DONE;
    if (right && samples != NULL && size <= room) {
        char place[1024];
        snprintf(place, sizeof place, "%s/%s", samples, folders[in->command]);
        keep(place, job->number, in, status, &text);
        job->samples++;
    }
    if (right && size < room && one_in(4)) {
        output[size] = 0;
        for (int at = 0; at < CALLS && right; at++) {
            if ((numbers[at].commands >> in->command & 1) == 0) continue;
            right = numbers[at].agrees(in, status, (const char *)output);
            job->in_numbers[at]++;
        }
        output[size] = MARK;
    }
    if (!right) {
        keep(".", job->number, in, status, &text);
        return false;
    }
    bool is_refused = begins(&text, "refused ");
    job->answered[in->command][is_refused ? REFUSED : status]++;
    job->read[job->group] += is_refused || (status != DOSOLVE_INPUT && status != DOSOLVE_REPORT);
    memset(output, MARK, front);
    return true;
}

/* Ends the process by a signal when it has taken so much of the processor from now on; 0 is no limit. */
static void limit_time(int most) {
    struct itimerval timer = {{0, 0}, {most, 0}};
    if (setitimer(ITIMER_PROF, &timer, NULL) != 0) stop("no timer", "limit_time");
}

/* Tries so many inputs, numbered from the first. The result is the exit status. */
static int work(struct job *job, unsigned long long first, unsigned long long count, uint64_t seed, const char *samples,
                unsigned long long every) {
    double since = seconds(CLOCK_MONOTONIC);
    for (unsigned long long at = 1; at <= count; at++) {
        limit_time(MOST_SECONDS);
        job->number = first + at;
        make_input(job, seed);
        job->is_at_work = true;
        if (!is_right(job, every != 0 && job->number % every == 0 ? samples : NULL)) {
            job->is_at_work = false;
            printf("WRONG: input %llu, kept in %llu.in\n", job->number, job->number);
            return 1;
        }
        job->is_at_work = false;
        if (at == 1000) job->heap_first = heap_in_use();
        if (at % (count / 10 + 1) == 0) {
            printf("input %llu after %.0f s\n", job->number, seconds(CLOCK_MONOTONIC) - since);
            fflush(stdout);
        }
    }
    limit_time(0);
    job->heap_last = heap_in_use();
    struct rusage used;
    getrusage(RUSAGE_SELF, &used);
    printf("%llu inputs, %.1f s, slowest %.3f s, heap %zu then %zu bytes, at most %ld MB\n", count, seconds(CLOCK_MONOTONIC) - since, job->slowest,
           job->heap_first, job->heap_last, used.ru_maxrss / 1024);
    fflush(stdout);
    return count > 1000 && job->heap_last > job->heap_first + MOST_GROWTH ? 1 : 0;
}

/* ---- Chances and counts. */

/* Tries a base with the commands that it fits, but not for more than a second; its cost is the most that one of them took, in
 * seconds of the processor. */
static void measure(struct job *job, struct base *base) {
    bool fits_position = base->text.at[0] == '{';
    int first = fits_position ? SOLVE : CHECK, last = fits_position ? BOUNDS : PLAY;
    for (int command = first; command <= last && base->cost < 1; command++) {
        uint64_t size;
        state = 1;
        copy_base(base);
        limit(&made);
        place_input(job, command);
        double since = seconds(CLOCK_PROCESS_CPUTIME_ID);
        uint32_t status = call(&job->in, output_end - ROOM, ROOM, &size);
        double took = seconds(CLOCK_PROCESS_CPUTIME_ID) - since;
        if (took > base->cost) base->cost = took;
        base->is_refused = status == DOSOLVE_INPUT || status == DOSOLVE_REPORT;
    }
    memset(output_end - ROOM, MARK, ROOM);
}

/* Steps far apart, so that another run comes to the same chances. */
static void measure_chances(struct job *job) {
    job->in.games = 3, job->in.seed = 5;
    for (size_t at = 0; at < base_count; at++) {
        measure(job, &bases[at]);
        double cost = bases[at].cost;
        bases[at].chance = (bases[at].is_refused ? 1 : 8) * (cost < 0.03 ? 3000 : cost < 0.3 ? 100 : cost < 3 ? 10 : 1);
        chances[bases[at].group] += bases[at].chance;
    }
}

static void print_chances(void) {
    for (size_t at = 0; at < base_count; at++)
        printf("%10.3f ms %7.4f %s %s %s\n", bases[at].cost * 1e3, (double)bases[at].chance / (double)chances[bases[at].group],
               bases[at].group == OTHERS ? "other" : games[bases[at].group % GAMES],
               bases[at].group == OTHERS ? "" : is_position(bases[at].group) ? "position" : "report", bases[at].name);
}

/* Adds what the other jobs have counted to the first. */
static void add_up(int many) {
    for (int at = 1; at < many; at++) {
        for (int command = 0; command < COMMANDS; command++) {
            jobs->spent[command] += jobs[at].spent[command];
            for (int status = 0; status < STATUSES; status++) jobs->answered[command][status] += jobs[at].answered[command][status];
        }
        for (int group = 0; group < GROUPS; group++) {
            jobs->made[group] += jobs[at].made[group];
            jobs->read[group] += jobs[at].read[group];
        }
        for (int way = 0; way < CALLS; way++) jobs->in_numbers[way] += jobs[at].in_numbers[way];
        jobs->samples += jobs[at].samples;
    }
}

static void print_counts(const struct job *all) {
    printf("\n| command | seconds in calls | inputs by status |\n|---|---|---|\n");
    for (int command = 0; command < COMMANDS; command++) {
        printf("| %s%s | %.0f |", folders[command], command == EXPLOIT_ONE ? " one" : command == EXPLOIT_TWO ? " two" : "", all->spent[command]);
        const char *between = " ";
        for (int status = 0; status < STATUSES; status++) {
            if (all->answered[command][status] == 0) continue;
            printf("%s%s%d: %llu", between, status == REFUSED ? "refused " : "", status == REFUSED ? DOSOLVE_REPORT : status, all->answered[command][status]);
            between = ", ";
        }
        printf(" |\n");
    }
    printf("\n| game | positions | not refused | reports | not refused |\n|---|---|---|---|---|\n");
    for (int game = 0; game < GAMES; game++)
        printf("| %s | %llu | %llu | %llu | %llu |\n", games[game], all->made[game], all->read[game], all->made[GAMES + game], all->read[GAMES + game]);
    printf("| others | %llu | %llu | | |\n\nin numbers:", all->made[OTHERS], all->read[OTHERS]);
    for (int way = 0; way < CALLS; way++) printf(" %s %llu", numbers[way].name, all->in_numbers[way]);
    printf("\nsamples: %llu\n", all->samples);
}

/* Waits for the jobs, and keeps the input at which one of them died. The result is how many failed. */
static int wait_for(const pid_t *children, int many) {
    int failed = 0;
    for (int at = 0, status; at < many; at++) {
        if (waitpid(children[at], &status, 0) < 0) stop("no process", "wait");
        if (WIFEXITED(status) && WEXITSTATUS(status) == 0) continue;
        failed++;
        if (!jobs[at].is_at_work) continue;
        printf("DIED: input %llu, kept in %llu.in\n", jobs[at].number, jobs[at].number);
        keep_input(".", jobs[at].number, &jobs[at].in);
    }
    return failed;
}

int main(int given, char **word) {
    if (given != 5 && given != 7) stop("usage", "fuzz FOLDER COUNT SEED JOBS [SAMPLES EVERY] < NAMES");
    unsigned long long count = strtoull(word[2], NULL, 10), seed = strtoull(word[3], NULL, 10);
    unsigned long long every = given == 7 ? strtoull(word[6], NULL, 10) : 0;
    int many = atoi(word[4]);
    pid_t children[MOST_JOBS];
    if (many < 1 || many > MOST_JOBS) stop("jobs", word[4]);
    jobs = mmap(NULL, sizeof *jobs * MOST_JOBS, PROT_READ | PROT_WRITE, MAP_SHARED | MAP_ANONYMOUS, -1, 0);
    made.at = malloc(MOST_INPUT);
    if (jobs == MAP_FAILED || made.at == NULL) stop("out of memory", "jobs");
    for (int at = 0; at < many; at++) jobs[at].input_end = guarded(MOST_INPUT, MAP_SHARED);
    output_end = guarded(ROOM, MAP_PRIVATE);
    for (int list = 0; list < 2; list++) items_end[list] = guarded(MOST_ITEMS * sizeof(struct dosolve_plan_row), MAP_PRIVATE);
    double since = seconds(CLOCK_MONOTONIC);
    read_bases(word[1]);
    measure_chances(jobs);
    printf("%zu bases tried in %.1f s\n", base_count, seconds(CLOCK_MONOTONIC) - since);
    if (count == 0) {
        print_chances();
        return 0;
    }
    since = seconds(CLOCK_MONOTONIC);
    fflush(stdout);
    for (int at = 0; at < many; at++) {
        unsigned long long each = count / (unsigned)many, first = each * (unsigned)at;
        children[at] = fork();
        if (children[at] < 0) stop("no process", word[4]);
        if (children[at] == 0) exit(work(&jobs[at], first, at == many - 1 ? count - first : each, seed, given == 7 ? word[5] : NULL, every));
    }
    int failed = wait_for(children, many);
    add_up(many);
    print_counts(jobs);
    struct rusage used;
    getrusage(RUSAGE_CHILDREN, &used);
    printf("%llu inputs of seed %llu, %.1f s, %.1f s of processors, %d of %d jobs failed\n", count, seed, seconds(CLOCK_MONOTONIC) - since,
           (double)(used.ru_utime.tv_sec + used.ru_stime.tv_sec) + (double)(used.ru_utime.tv_usec + used.ru_stime.tv_usec) * 1e-6, failed, many);
    return failed == 0 ? 0 : 1;
}
