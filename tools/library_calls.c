/* library_calls.c: the calls of dosolve.h over the proved functions of the same names, which tools/build_library.sh renames
 * (`proved_` in front). Each call sets the default floating-point environment of SSE for its own time, round to nearest, no
 * exception unmasked, no flush to zero, and puts the caller's back: the same input has the same answer whatever the caller
 * has set, and no trap of the caller's is hit. Plain C; nothing is proved of it. */
#include "dosolve.h"

#include <xmmintrin.h>

#define CALL(NAME, PARAMETERS, ARGUMENTS)                                                                                     \
    uint32_t proved_##NAME PARAMETERS;                                                                                        \
    uint32_t NAME PARAMETERS {                                                                                                \
        const unsigned callers = _mm_getcsr();                                                                                \
        _mm_setcsr(0x1f80);                                                                                                   \
        const uint32_t status = proved_##NAME ARGUMENTS;                                                                      \
        _mm_setcsr(callers);                                                                                                  \
        return status;                                                                                                        \
    }

CALL(dosolve_solve, (const uint8_t *input, size_t count, uint8_t *output, size_t room, uint64_t *size),
     (input, count, output, room, size))
CALL(dosolve_check, (const uint8_t *input, size_t count, uint8_t *output, size_t room, uint64_t *size),
     (input, count, output, room, size))
CALL(dosolve_bounds, (const uint8_t *input, size_t count, uint8_t *output, size_t room, uint64_t *size),
     (input, count, output, room, size))
CALL(dosolve_exploit, (uint32_t side, const uint8_t *input, size_t count, uint8_t *output, size_t room, uint64_t *size),
     (side, input, count, output, room, size))
CALL(dosolve_play,
     (uint32_t games, uint64_t seed, const uint8_t *input, size_t count, uint8_t *output, size_t room, uint64_t *size),
     (games, seed, input, count, output, room, size))
CALL(dosolve_sample, (uint32_t number, uint8_t *output, size_t room, uint64_t *size), (number, output, room, size))
CALL(dosolve_root, (const uint8_t *input, size_t count, struct dosolve_root_bounds *root), (input, count, root))
CALL(dosolve_row,
     (uint32_t side, uint64_t key, const uint8_t *input, size_t count, uint32_t *weights, size_t room,
      struct dosolve_plan_row *row),
     (side, key, input, count, weights, room, row))
CALL(dosolve_plan,
     (uint32_t side, const uint8_t *input, size_t count, struct dosolve_plan_row *rows, size_t row_room, uint32_t *weights,
      size_t weight_room, struct dosolve_plan_size *size),
     (side, input, count, rows, row_room, weights, weight_room, size))
CALL(dosolve_replies,
     (uint32_t side, const uint8_t *input, size_t count, uint64_t *keys, size_t key_room, uint32_t *moves, size_t move_room,
      struct dosolve_worst_payoff *worst),
     (side, input, count, keys, key_room, moves, move_room, worst))
CALL(dosolve_worst,
     (const uint8_t *input, size_t count, struct dosolve_worst_payoff *one, struct dosolve_worst_payoff *two),
     (input, count, one, two))
CALL(dosolve_games,
     (uint32_t games, const uint64_t *seeds, size_t seed_count, const uint8_t *input, size_t count,
      struct dosolve_match_payoffs *results, size_t result_room),
     (games, seeds, seed_count, input, count, results, result_room))
