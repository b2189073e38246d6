/* refused_memory.c: preloaded into a program, refuses one request for memory or for a thread, that of number REFUSED,
   counted from 1 over all threads and from the start of the program's own code. The kit's `rt try --fail-alloc` builds and
   proves nothing either, but takes one number a build; so the program as it is built is run over this.
   At the refusal one letter is written to descriptor 9: m for memory, t for a thread or for memory that starting it takes. */
#define _GNU_SOURCE
#include <dlfcn.h>
#include <errno.h>
#include <pthread.h>
#include <stdatomic.h>
#include <stdlib.h>
#include <unistd.h>

void *__libc_malloc(size_t);
void *__libc_calloc(size_t, size_t);
void *__libc_realloc(void *, size_t);
void *__libc_memalign(size_t, size_t);

typedef int starter(pthread_t *, const pthread_attr_t *, void *(*)(void *), void *);

static atomic_long left;
static starter *start_thread;
static _Thread_local int starting __attribute__((tls_model("initial-exec")));

__attribute__((constructor)) static void begin(void) {
    const char *number = getenv("REFUSED");
    start_thread = (starter *)dlsym(RTLD_NEXT, "pthread_create");
    atomic_store(&left, number ? atol(number) : 0);
}

static int is_refused(char letter) {
    if (atomic_load(&left) <= 0 || atomic_fetch_sub(&left, 1) != 1) return 0;
    if (write(9, starting ? "t" : &letter, 1) != 1) abort();
    errno = ENOMEM;
    return 1;
}

void *malloc(size_t size) { return is_refused('m') ? NULL : __libc_malloc(size); }

void *calloc(size_t count, size_t size) { return is_refused('m') ? NULL : __libc_calloc(count, size); }

void *realloc(void *old, size_t size) { return is_refused('m') ? NULL : __libc_realloc(old, size); }

void *memalign(size_t align, size_t size) { return is_refused('m') ? NULL : __libc_memalign(align, size); }

void *aligned_alloc(size_t align, size_t size) { return memalign(align, size); }

int posix_memalign(void **made, size_t align, size_t size) {
    void *memory = memalign(align, size);
    if (memory == NULL) return ENOMEM;
    *made = memory;
    return 0;
}

int pthread_create(pthread_t *thread, const pthread_attr_t *attributes, void *(*run)(void *), void *with) {
    if (is_refused('t')) return EAGAIN;
    starting = 1;
    int answer = start_thread(thread, attributes, run, with);
    starting = 0;
    return answer;
}
