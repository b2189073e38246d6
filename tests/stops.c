// A clock that goes on by one second each time it is read: with it DOSOLVE_SECONDS=K stops a search where it asks for the
// K-th time whether to go on, and so at one place at each run of one worker. See stops.sh.
#include <stdatomic.h>
#include <time.h>

int clock_gettime(clockid_t clock, struct timespec *now) {
    static atomic_long reads;
    (void)clock;
    now->tv_sec = 1000 + atomic_fetch_add(&reads, 1);
    now->tv_nsec = 0;
    return 0;
}
