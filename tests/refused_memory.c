// Loaded before a program, refuses one of its requests for memory: number REFUSED, counted from 1
// over malloc, calloc, realloc, aligned_alloc, posix_memalign and pthread_create, which wants a
// thread's room; none where that is 0. When the program ends, the number of its requests is written
// to the file descriptor COUNTED. The programs that it starts are left alone.
#define _GNU_SOURCE
#include <errno.h>
#include <dlfcn.h>
#include <pthread.h>
#include <stdatomic.h>
#include <stddef.h>
#include <stdio.h>
#include <stdlib.h>
#include <sys/syscall.h>
#include <unistd.h>

extern void *__libc_malloc(size_t size);
extern void *__libc_calloc(size_t count, size_t size);
extern void *__libc_realloc(void *block, size_t size);
extern void *__libc_memalign(size_t alignment, size_t size);

static long refused;
static int counted;
static int is_begun;
static atomic_long requests;
static atomic_flag is_told = ATOMIC_FLAG_INIT;

static int (*create)(pthread_t *, const pthread_attr_t *, void *(*)(void *), void *);

__attribute__((constructor)) static void begin(void) {
    create = dlsym(RTLD_NEXT, "pthread_create");
    refused = atol(getenv("REFUSED"));
    counted = atoi(getenv("COUNTED"));
    unsetenv("LD_PRELOAD");
    is_begun = 1;
}

static void tell(void) {
    if (!atomic_flag_test_and_set(&is_told)) {
        dprintf(counted, "%ld", atomic_load(&requests));
    }
}

__attribute__((destructor)) static void end(void) {
    is_begun = 0;
    tell();
}

static int is_refused(void) {
    return is_begun && atomic_fetch_add(&requests, 1) + 1 == refused;
}

static void *none(void) {
    errno = ENOMEM;
    return NULL;
}

void *malloc(size_t size) {
    return is_refused() ? none() : __libc_malloc(size);
}

void *calloc(size_t count, size_t size) {
    return is_refused() ? none() : __libc_calloc(count, size);
}

void *realloc(void *block, size_t size) {
    return is_refused() ? none() : __libc_realloc(block, size);
}

void *aligned_alloc(size_t alignment, size_t size) {
    return is_refused() ? none() : __libc_memalign(alignment, size);
}

int posix_memalign(void **block, size_t alignment, size_t size) {
    void *made = is_refused() ? NULL : __libc_memalign(alignment, size);
    if (made == NULL) {
        return ENOMEM;
    }
    *block = made;
    return 0;
}

int pthread_create(pthread_t *thread, const pthread_attr_t *attributes, void *(*run)(void *),
                   void *with) {
    return is_refused() ? EAGAIN : create(thread, attributes, run, with);
}

void _exit(int status) {
    tell();
    syscall(SYS_exit_group, status);
    __builtin_unreachable();
}
