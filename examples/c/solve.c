/* solve.c: solves a position, has its report verified, tells what each plan guarantees, and plays both against each other.
 *     solve POSITION.json
 */
#include "dosolve.h"

#include <stdio.h>

/* The bytes of a file, and how many they are. */
static char *read_file(const char *path, size_t *count) {
    FILE *file = fopen(path, "rb");
    if (file == NULL || fseek(file, 0, SEEK_END) != 0) return NULL;
    long length = ftell(file);
    char *bytes = length < 0 ? NULL : malloc((size_t)length + 1);
    rewind(file);
    *count = bytes == NULL ? 0 : fread(bytes, 1, (size_t)length, file);
    fclose(file);
    return bytes;
}

int main(int words, char **word) {
    size_t count = 0;
    char *position = words == 2 ? read_file(word[1], &count) : NULL;
    if (position == NULL) {
        fprintf(stderr, "usage: solve POSITION.json\n");
        return 1;
    }
    /* 64 MB hold the report of each position that is not huge; what is not needed is given back. */
    struct dosolve_answer report = dosolve_ask(dosolve_solve, position, count, 64u << 20);
    free(position);
    printf("solve: status %u, %zu bytes\n", report.status, report.size);
    if (report.status == DOSOLVE_INPUT || report.status == DOSOLVE_NO_MEMORY) {
        printf("%s", report.text != NULL ? report.text : "want of memory\n");
        dosolve_free(&report);
        return 1;
    }
    struct dosolve_answer verdict = dosolve_ask(dosolve_check, report.text, report.size, DOSOLVE_ROOM);
    printf("check: status %u, %s", verdict.status, verdict.text != NULL ? verdict.text : "want of memory\n");
    int failed = verdict.status != DOSOLVE_DONE;
    dosolve_free(&verdict);

    for (uint32_t side = DOSOLVE_ONE; side <= DOSOLVE_TWO; side++) {
        uint8_t text[DOSOLVE_ROOM];
        uint64_t size = 0;
        uint32_t status = dosolve_exploit(side, (const uint8_t *)report.text, report.size, text, sizeof text, &size);
        printf("exploit: status %u, %.*s", status, (int)size, (const char *)text);
        failed |= status != DOSOLVE_DONE;
    }

    /* Games of ten seeds that are far apart, from one reading of the report. */
    enum { SEEDS = 10, GAMES = 1000 };
    uint64_t seeds[SEEDS];
    struct dosolve_match_payoffs played[SEEDS];
    for (int at = 0; at < SEEDS; at++) seeds[at] = (uint64_t)at * 0x9E3779B97F4A7C15u;
    uint32_t status = dosolve_games(GAMES, seeds, SEEDS, (const uint8_t *)report.text, report.size, played, SEEDS);
    int64_t sum = 0;
    for (int at = 0; at < SEEDS && status == DOSOLVE_DONE; at++) sum += played[at].sum;
    printf("games: status %u, mean payoff %.3f of %d games\n", status, (double)sum / (SEEDS * GAMES), SEEDS * GAMES);
    failed |= status != DOSOLVE_DONE;
    dosolve_free(&report);
    return failed;
}
