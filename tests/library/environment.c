/* environment.c: calls of the library under floating-point environments that a caller may have set: each way to round, each
 * with no exception unmasked and with all, and numbers near zero flushed to it.
 *     environment POSITION .. -- REPORT ..
 * Each position is given to `solve` and `bounds`, each report to `check`, `exploit` and `play`, and sample 0 is solved. In each
 * environment the status and the text have to be those of the default one, and the environment after a call that before it.
 * The last line is `N passed, M failed`.
 */
#define _GNU_SOURCE
#include "dosolve.h"

#include <fenv.h>
#include <stdbool.h>
#include <stdio.h>
#include <string.h>
#include <xmmintrin.h>

enum { ROOM = 1 << 22, FLUSH = 0x8040 /* to zero, of results and of operands */ };

struct answer {
    uint32_t status;
    uint64_t size;
    uint8_t text[ROOM];
};

static struct answer plain, other;
static int passed, failed;

static void call(int command, const uint8_t *input, size_t count, struct answer *to) {
    switch (command) {
    case 0: to->status = dosolve_solve(input, count, to->text, ROOM, &to->size); break;
    case 1: to->status = dosolve_bounds(input, count, to->text, ROOM, &to->size); break;
    case 2: to->status = dosolve_check(input, count, to->text, ROOM, &to->size); break;
    case 3: to->status = dosolve_exploit(DOSOLVE_TWO, input, count, to->text, ROOM, &to->size); break;
    case 4: to->status = dosolve_play(100, 7, input, count, to->text, ROOM, &to->size); break;
    default: to->status = dosolve_sample(0, to->text, ROOM, &to->size);
    }
}

static void compare(const char *name, int command, const uint8_t *input, size_t count) {
    static const int ways[] = {FE_TONEAREST, FE_UPWARD, FE_DOWNWARD, FE_TOWARDZERO};
    fenv_t caller;
    fegetenv(&caller);
    call(command, input, count, &plain);
    if (plain.size > ROOM) {
        fprintf(stderr, "%s: a text of %llu bytes\n", name, (unsigned long long)plain.size);
        exit(2);
    }
    for (int way = 0; way < 4; way++)
        for (int set = 0; set < 3; set++) {
            fesetround(ways[way]);
            if (set == 1) feenableexcept(FE_ALL_EXCEPT);
            if (set == 2) _mm_setcsr(_mm_getcsr() | FLUSH);
            const unsigned before = _mm_getcsr();
            call(command, input, count, &other);
            const unsigned after = _mm_getcsr();
            const int rounds = fegetround();
            fesetenv(&caller);
            const bool same = other.status == plain.status && other.size == plain.size
                              && memcmp(other.text, plain.text, plain.size) == 0 && after == before && rounds == ways[way];
            passed += same;
            failed += !same;
            if (!same) printf("FAILED %s, call %d, way to round %d, set %d\n", name, command, way, set);
        }
}

int main(int words, char **word) {
    int first = 0;
    for (int i = 1; i < words; i++) {
        if (strcmp(word[i], "--") == 0) {
            first = 2;
            continue;
        }
        FILE *file = fopen(word[i], "rb");
        if (file == NULL) {
            fprintf(stderr, "cannot be read: %s\n", word[i]);
            return 2;
        }
        static uint8_t input[ROOM];
        const size_t count = fread(input, 1, ROOM, file);
        fclose(file);
        for (int command = first; command < (first == 0 ? 2 : 5); command++) compare(word[i], command, input, count);
    }
    compare("sample 0", 5, NULL, 0);
    printf("%d passed, %d failed\n", passed, failed);
    return failed != 0;
}
