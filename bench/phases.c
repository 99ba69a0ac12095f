// Loaded before a program (LD_PRELOAD), it notes when some calls of the C library come, and writes that to standard error at the end: a line each
// of the milliseconds of the monotonic clock, the call's name, and its bytes. What a call takes more by it is less than a tenth of a microsecond.
//   gcc -O2 -shared -fPIC -o phases.so phases.c
#define _GNU_SOURCE
#include <dlfcn.h>
#include <pthread.h>
#include <stdio.h>
#include <sys/types.h>
#include <time.h>
#include <unistd.h>

enum { MOST = 1 << 16 };
static struct {
    const char *name;
    double at;
    size_t bytes;
} notes[MOST];
static int count;

extern void *__libc_malloc(size_t);
extern void *__libc_realloc(void *, size_t);
extern void __libc_free(void *);

static double milliseconds(void) {
    struct timespec time;
    clock_gettime(CLOCK_MONOTONIC, &time);
    return 1e3 * time.tv_sec + time.tv_nsec / 1e6;
}

static void note(const char *name, size_t bytes) {
    int place = __atomic_fetch_add(&count, 1, __ATOMIC_RELAXED);
    if (place >= MOST) return;
    notes[place].name = name;
    notes[place].at = milliseconds();
    notes[place].bytes = bytes;
}

__attribute__((constructor)) static void start(void) { note("start", 0); }

void *malloc(size_t bytes) {
    note("malloc", bytes);
    return __libc_malloc(bytes);
}

void *realloc(void *block, size_t bytes) {
    note("realloc", bytes);
    return __libc_realloc(block, bytes);
}

// The bytes of a block stand before it, with three bits that say where it is from.
void free(void *block) {
    if (block) note("free", ((size_t *)block)[-1] & ~(size_t)7);
    __libc_free(block);
}

ssize_t read(int file, void *bytes, size_t most) {
    static ssize_t (*next)(int, void *, size_t);
    if (!next) next = (ssize_t(*)(int, void *, size_t))dlsym(RTLD_NEXT, "read");
    ssize_t done = next(file, bytes, most);
    note("read", done < 0 ? 0 : done);
    return done;
}

ssize_t write(int file, const void *bytes, size_t most) {
    static ssize_t (*next)(int, const void *, size_t);
    if (!next) next = (ssize_t(*)(int, const void *, size_t))dlsym(RTLD_NEXT, "write");
    note("write", most);
    return next(file, bytes, most);
}

int pthread_create(pthread_t *thread, const pthread_attr_t *how, void *(*work)(void *), void *given) {
    static int (*next)(pthread_t *, const pthread_attr_t *, void *(*)(void *), void *);
    if (!next) next = (int (*)(pthread_t *, const pthread_attr_t *, void *(*)(void *), void *))dlsym(RTLD_NEXT, "pthread_create");
    note("create", 0);
    return next(thread, how, work, given);
}

int pthread_join(pthread_t thread, void **told) {
    static int (*next)(pthread_t, void **);
    if (!next) next = (int (*)(pthread_t, void **))dlsym(RTLD_NEXT, "pthread_join");
    int fault = next(thread, told);
    note("joined", 0);
    return fault;
}

void _exit(int status) {
    static void (*next)(int);
    if (!next) next = (void (*)(int))dlsym(RTLD_NEXT, "_exit");
    note("exit", 0);
    int all = count < MOST ? count : MOST; // the lines below make calls too
    for (int i = 0; i < all; i++) dprintf(2, "%.4f %s %zu\n", notes[i].at, notes[i].name, notes[i].bytes);
    for (;;) next(status);
}
