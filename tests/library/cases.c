/* cases.c: compares the library with the cases of tests/vectors in one process, one thread and then several at once.
 *     cases FOLDER THREADS < NAMES
 * The names are those of cases, COMMAND/NAME, one a line. A case whose words no call can say is left out, and counted. Each
 * answer is asked for with room to spare, and those of few bytes again with less room than they need: the same status and
 * length, the front of the text, and no byte written behind it. The last line is `N passed, M failed, K left out`.
 */
#include "dosolve.h"

#include <pthread.h>
#include <stdbool.h>
#include <stdio.h>
#include <string.h>

enum { MOST_WORDS = 4, MOST_CASES = 4096, MOST_THREADS = 64, GUARD = 64, MARK = 0xA5, SHORT_TEXT = 2000 };
enum { STACK = 1 << 20 /* as much as the header asks for */ };

struct bytes {
    uint8_t *at;
    size_t length;
};

struct test_case {
    char name[256];
    char word[MOST_WORDS][64];
    int words;
    struct bytes input, output;
    uint32_t status;
    bool can_say;
};

static struct test_case cases[MOST_CASES];
static int count;
static int threads;

static void stop(const char *why, const char *what) {
    fprintf(stderr, "%s: %s\n", why, what);
    exit(2);
}

static struct bytes read_file(const char *folder, const char *name, const char *ending) {
    char path[1024];
    snprintf(path, sizeof path, "%s/%s%s", folder, name, ending);
    FILE *file = fopen(path, "rb");
    if (file == NULL) stop("cannot be read", path);
    fseek(file, 0, SEEK_END);
    struct bytes found = {NULL, (size_t)ftell(file)};
    rewind(file);
    found.at = malloc(found.length + 1);
    if (found.at == NULL || fread(found.at, 1, found.length, file) != found.length) stop("cannot be read", path);
    found.at[found.length] = 0;
    fclose(file);
    return found;
}

/* The number of a word that is one in decimal, without a sign and zeros in front, up to the most. */
static bool number_of(const char *word, uint64_t most, uint64_t *number) {
    char again[32];
    *number = strtoull(word, NULL, 10);
    snprintf(again, sizeof again, "%llu", (unsigned long long)*number);
    return strcmp(again, word) == 0 && *number <= most;
}

/* Runs the call that the words say, if there is one. */
static bool call(const struct test_case *c, uint8_t *output, size_t room, uint64_t *size, uint32_t *status) {
    const char *first = c->words > 0 ? c->word[0] : "";
    uint64_t one, two;
    const uint8_t *input = c->input.at;
    size_t length = c->input.length;
    if (c->words == 1 && strcmp(first, "solve") == 0)
        *status = dosolve_solve(input, length, output, room, size);
    else if (c->words == 1 && strcmp(first, "check") == 0)
        *status = dosolve_check(input, length, output, room, size);
    else if (c->words == 1 && strcmp(first, "bounds") == 0)
        *status = dosolve_bounds(input, length, output, room, size);
    else if (c->words == 2 && strcmp(first, "exploit") == 0)
        *status = dosolve_exploit(strcmp(c->word[1], "one") == 0 ? 0 : strcmp(c->word[1], "two") == 0 ? 1 : 2, input, length,
                                  output, room, size);
    else if (c->words == 2 && strcmp(first, "sample") == 0 && number_of(c->word[1], UINT32_MAX, &one))
        *status = dosolve_sample((uint32_t)one, output, room, size);
    else if (c->words == 3 && strcmp(first, "play") == 0 && number_of(c->word[1], UINT32_MAX, &one) &&
             number_of(c->word[2], UINT64_MAX, &two))
        *status = dosolve_play((uint32_t)one, two, input, length, output, room, size);
    else
        return false;
    return true;
}

/* Whether the answer into so much room is that of the case. */
static bool is_right(const struct test_case *c, size_t room) {
    uint8_t *output = malloc(room + GUARD);
    if (output == NULL) stop("out of memory", c->name);
    memset(output, MARK, room + GUARD);
    uint64_t size = UINT64_MAX;
    uint32_t status = 99;
    call(c, output, room, &size, &status);
    size_t front = c->output.length < room ? c->output.length : room;
    bool right = status == c->status && size == c->output.length && memcmp(output, c->output.at, front) == 0;
    for (size_t at = front; at < room + GUARD; at++) right = right && output[at] == MARK;
    free(output);
    return right;
}

/* How many of the cases from the first on fail; all of them are tried, and those of one thread with too little room too. */
static int failures(int first, bool alone) {
    int failed = 0;
    for (int i = 0; i < count; i++) {
        struct test_case *c = &cases[(first + i) % count];
        if (!c->can_say) continue;
        bool right = is_right(c, c->output.length + 100);
        if (right && alone && c->output.length <= SHORT_TEXT)
            right = is_right(c, c->output.length - 1) && is_right(c, c->output.length) && is_right(c, 0);
        if (!right) {
            failed++;
            printf("FAILED %s (%s)\n", c->name, alone ? "one thread" : "several threads");
        }
    }
    return failed;
}

static void *work(void *given) {
    int first = (int)(intptr_t)given * count / threads;
    return (void *)(intptr_t)failures(first, false);
}

static void read_case(const char *folder, const char *name) {
    struct test_case *c = &cases[count++];
    snprintf(c->name, sizeof c->name, "%s", name);
    struct bytes words = read_file(folder, name, ".args");
    for (char *next, *line = (char *)words.at; *line != 0; line = next) {
        next = strchr(line, '\n');
        if (next == NULL) next = line + strlen(line);
        else *next++ = 0;
        if (c->words == MOST_WORDS) stop("too many words", name);
        snprintf(c->word[c->words++], sizeof c->word[0], "%.63s", line);
    }
    free(words.at);
    c->input = read_file(folder, name, ".in");
    c->output = read_file(folder, name, ".out");
    struct bytes status = read_file(folder, name, ".status");
    c->status = (uint32_t)strtoul((char *)status.at, NULL, 10);
    free(status.at);
    unsigned long long spaces;
    if (c->input.length >= 8 && memcmp(c->input.at, "@spaces ", 8) == 0 && sscanf((char *)c->input.at, "@spaces %llu", &spaces) == 1) {
        free(c->input.at);
        c->input = (struct bytes){malloc((size_t)spaces + 1), (size_t)spaces};
        if (c->input.at == NULL) stop("out of memory", name);
        memset(c->input.at, ' ', (size_t)spaces);
    }
    uint32_t ignored;
    uint64_t size;
    uint8_t none;
    /* A case that no call can say is found by trying it over no input. */
    struct test_case empty = *c;
    empty.input.length = 0;
    c->can_say = call(&empty, &none, 0, &size, &ignored);
}

int main(int given, char **word) {
    if (given != 3 || (threads = atoi(word[2])) < 1 || threads > MOST_THREADS) stop("usage", "cases FOLDER THREADS < NAMES");
    char line[256];
    while (fgets(line, sizeof line, stdin) != NULL) {
        line[strcspn(line, "\n")] = 0;
        if (count == MOST_CASES) stop("too many cases", line);
        read_case(word[1], line);
    }
    int left_out = 0, tried = 0;
    for (int i = 0; i < count; i++) *(cases[i].can_say ? &tried : &left_out) += 1;
    int failed = failures(0, true);
    pthread_t started[MOST_THREADS];
    pthread_attr_t attributes;
    if (pthread_attr_init(&attributes) != 0 || pthread_attr_setstacksize(&attributes, STACK) != 0) stop("no stack", word[2]);
    for (int i = 0; i < threads; i++)
        if (pthread_create(&started[i], &attributes, work, (void *)(intptr_t)i) != 0) stop("no thread", word[2]);
    for (int i = 0; i < threads; i++) {
        void *found;
        pthread_join(started[i], &found);
        failed += (int)(intptr_t)found;
    }
    int all = tried * (threads + 1);
    printf("%d passed, %d failed, %d left out\n", all - failed, failed, left_out);
    return failed == 0 && tried > 0 ? 0 : 1;
}
