// Loaded before a program, has its calls of the C library fail, or move few bytes at a time. Files
// of /sys and /proc, by which a program finds out how many processors there are, are left alone.
//
// CALL     which call fails: open, read, write, spawn, pipe or wait
// NUMBER   which one of these, counted from 1; none where it is 0
// ERROR    the number of the error
// LASTING  1 where all such calls behind that one fail too, 0 where they don't
// FILE     which of the files that were opened the reads are of that count and fail, counted from 1;
//          those of all files where it is 0
// READ     the most bytes that a read gives, 0 for no limit
// WRITE    the most bytes that a write takes, 0 for no limit
// ONLY     the last word of the process that is meant, which another one starts; empty where it is
//          the first one
// COUNTED  a file descriptor, to which the process that is meant writes how often it made each call,
//          and how many bytes the reads gave
#define _GNU_SOURCE
#include <dlfcn.h>
#include <errno.h>
#include <fcntl.h>
#include <spawn.h>
#include <stdarg.h>
#include <stdatomic.h>
#include <stdbool.h>
#include <stdio.h>
#include <stdlib.h>
#include <string.h>
#include <sys/syscall.h>
#include <sys/wait.h>
#include <unistd.h>

enum call { OPEN, READ, WRITE, SPAWN, PIPE, WAIT, CALLS };

static const char *const call_names[CALLS] = {"open", "read", "write", "spawn", "pipe", "wait"};
static atomic_long counts[CALLS];
static atomic_long bytes_read;
static atomic_flag is_told = ATOMIC_FLAG_INIT;
static int is_meant;
static int failing;
static long number;
static int error;
static int is_lasting;
static long meant_file;
static size_t most_read;
static size_t most_written;
static int counted;

// The files that are left alone, and which of those that were opened each of the others is.
enum { MOST_FILES = 1024 };
static atomic_bool is_left[MOST_FILES];
static atomic_long opened_as[MOST_FILES];

static long value_of(const char *name) {
    const char *text = getenv(name);
    return text == NULL ? 0 : atol(text);
}

__attribute__((constructor)) static void begin(int count, char **words) {
    const char *only = getenv("ONLY");
    const char *call = getenv("CALL");
    failing = CALLS;
    for (int at = 0; at < CALLS; at++) {
        if (call != NULL && strcmp(call, call_names[at]) == 0) {
            failing = at;
        }
    }
    number = value_of("NUMBER");
    error = (int)value_of("ERROR");
    is_lasting = (int)value_of("LASTING");
    meant_file = value_of("FILE");
    most_read = (size_t)value_of("READ");
    most_written = (size_t)value_of("WRITE");
    counted = (int)value_of("COUNTED");
    if (only == NULL || *only == 0) {
        is_meant = 1;
        unsetenv("LD_PRELOAD");
    } else {
        is_meant = strcmp(words[count - 1], only) == 0;
    }
}

static void tell(void) {
    if (!is_meant || atomic_flag_test_and_set(&is_told)) {
        return;
    }
    char text[200];
    int length = 0;
    for (int at = 0; at < CALLS; at++) {
        length += snprintf(text + length, sizeof text - length, "%ld ", atomic_load(&counts[at]));
    }
    length += snprintf(text + length, sizeof text - length, "%ld", atomic_load(&bytes_read));
    syscall(SYS_write, counted, text, length);
}

__attribute__((destructor)) static void end(void) {
    tell();
}

// Whether a call is one that fails, which it then says.
static int is_failing(enum call call) {
    if (!is_meant) {
        return 0;
    }
    long at = atomic_fetch_add(&counts[call], 1) + 1;
    if ((int)call != failing || number == 0 || at < number || (at > number && !is_lasting)) {
        return 0;
    }
    errno = error;
    return 1;
}

static size_t limited(size_t length, size_t most) {
    return is_meant && most != 0 && length > most ? most : length;
}

static int is_of_system(const char *path) {
    return strncmp(path, "/sys/", 5) == 0 || strncmp(path, "/proc/", 6) == 0;
}

int open(const char *path, int flags, ...) {
    va_list others;
    va_start(others, flags);
    mode_t mode = flags & (O_CREAT | O_TMPFILE) ? va_arg(others, mode_t) : 0;
    va_end(others);
    if (!is_of_system(path) && is_failing(OPEN)) {
        return -1;
    }
    int file = (int)syscall(SYS_openat, AT_FDCWD, path, flags, mode);
    if (file >= 0 && file < MOST_FILES) {
        atomic_store(&is_left[file], is_of_system(path));
        atomic_store(&opened_as[file], atomic_load(&counts[OPEN]));
    }
    return file;
}

// Whether the reads of a file neither count nor fail.
static bool is_passed_over(int file) {
    if (file < 0 || file >= MOST_FILES) {
        return meant_file != 0;
    }
    bool is_named = meant_file == 0 || atomic_load(&opened_as[file]) == meant_file;
    return atomic_load(&is_left[file]) || !is_named;
}

ssize_t read(int file, void *bytes, size_t length) {
    if (is_passed_over(file)) {
        return syscall(SYS_read, file, bytes, length);
    }
    if (is_failing(READ)) {
        return -1;
    }
    ssize_t given = syscall(SYS_read, file, bytes, limited(length, most_read));
    if (given > 0) {
        atomic_fetch_add(&bytes_read, given);
    }
    return given;
}

ssize_t write(int file, const void *bytes, size_t length) {
    return is_failing(WRITE) ? -1 : syscall(SYS_write, file, bytes, limited(length, most_written));
}

typedef int spawner(pid_t *, const char *, const posix_spawn_file_actions_t *,
                    const posix_spawnattr_t *, char *const[], char *const[]);

int posix_spawn(pid_t *process, const char *path, const posix_spawn_file_actions_t *actions,
                const posix_spawnattr_t *attributes, char *const words[], char *const names[]) {
    spawner *next = (spawner *)dlsym(RTLD_NEXT, "posix_spawn");
    return is_failing(SPAWN) ? error : next(process, path, actions, attributes, words, names);
}

int pipe2(int ends[2], int flags) {
    if (is_failing(PIPE)) {
        return -1;
    }
    int done = (int)syscall(SYS_pipe2, ends, flags);
    if (done == 0 && ends[0] < MOST_FILES) {
        atomic_store(&is_left[ends[0]], 0);
        atomic_store(&opened_as[ends[0]], 0);
    }
    return done;
}

pid_t waitpid(pid_t process, int *how, int options) {
    return is_failing(WAIT) ? -1 : (pid_t)syscall(SYS_wait4, process, how, options, NULL);
}

int waitid(idtype_t kind, id_t which, siginfo_t *how, int options) {
    return is_failing(WAIT) ? -1 : (int)syscall(SYS_waitid, kind, which, how, options, NULL);
}

void _exit(int status) {
    tell();
    syscall(SYS_exit_group, status);
    __builtin_unreachable();
}
