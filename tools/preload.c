/* A library that is loaded before the C library (LD_PRELOAD), so that calls of the system go wrong on purpose.
 *
 *   EDGE_ALLOCATION=N     the N-th allocation is refused; with 0 none is, and their number is told on descriptor 9
 *   EDGE_WRITE=short      each write takes at most three bytes
 *   EDGE_WRITE=interrupt  every other write is interrupted before it takes any
 *   EDGE_WRITE=full N     files hold N bytes in all, as on a full disk: a write takes what still fits
 *   EDGE_READ=short, EDGE_READ=interrupt   the same of reads
 *   EDGE_SYNC=fail        each sync fails
 *   EDGE_SYNC=fail NAME   each sync of the file or folder of that name fails
 *   EDGE_ONCE=truncate FILE LENGTH, remove FILE, rename FILE OTHER, hard FILE OTHER   is done at the first write to a file
 *   EDGE_ONCE=append FILE TEXT   is done at the first write to another file, after FILE has bytes
 *   EDGE_READ=fail NAME   each read of the file of that name fails
 *   EDGE_KILL=N           the program is killed in place of the N-th write to a file
 */
#define _GNU_SOURCE
#include <dlfcn.h>
#include <errno.h>
#include <fcntl.h>
#include <signal.h>
#include <stdio.h>
#include <stdlib.h>
#include <string.h>
#include <sys/stat.h>
#include <unistd.h>

static long allocations, reads, writes, kept;
static size_t taken;

static int is_refused(void) {
    const char *number = getenv("EDGE_ALLOCATION");
    return number && ++allocations == atol(number);
}

void *malloc(size_t size) {
    static void *(*next)(size_t);
    if (!next) next = (void *(*)(size_t))dlsym(RTLD_NEXT, "malloc");
    if (is_refused()) { errno = ENOMEM; return NULL; }
    return next(size);
}

void *realloc(void *old, size_t size) {
    static void *(*next)(void *, size_t);
    if (!next) next = (void *(*)(void *, size_t))dlsym(RTLD_NEXT, "realloc");
    if (is_refused()) { errno = ENOMEM; return NULL; }
    return next(old, size);
}

static int is_set(const char *name, const char *value) {
    const char *set = getenv(name);
    return set && strncmp(set, value, strlen(value)) == 0;
}

static int is_named(int fd, const char *name) {
    char place[64], path[4096];
    ssize_t length;
    size_t wanted = strlen(name);
    snprintf(place, sizeof place, "/proc/self/fd/%d", fd);
    length = readlink(place, path, sizeof path);
    return length >= (ssize_t)wanted && memcmp(path + length - wanted, name, wanted) == 0;
}

static void do_once(int fd) {
    char words[256], *first, *second, *third;
    const char *once = getenv("EDGE_ONCE");
    struct stat found;
    if (!once) return;
    snprintf(words, sizeof words, "%s", once);
    first = strtok(words, " ");
    second = strtok(NULL, " ");
    third = strtok(NULL, " ");
    if (strcmp(first, "append") == 0 && (stat(second, &found) != 0 || found.st_size == 0 || is_named(fd, second))) return;
    unsetenv("EDGE_ONCE");
    if (strcmp(first, "truncate") == 0 && truncate(second, atol(third)) != 0) _exit(99);
    if (strcmp(first, "remove") == 0 && unlink(second) != 0) _exit(99);
    if (strcmp(first, "rename") == 0 && rename(second, third) != 0) _exit(99);
    if (strcmp(first, "hard") == 0 && link(second, third) != 0) _exit(99);
    if (strcmp(first, "append") == 0) {
        int file = open(second, O_WRONLY | O_APPEND);
        if (dprintf(file, "%s", third) < 0) _exit(99);
        close(file);
    }
}

ssize_t write(int fd, const void *bytes, size_t count) {
    static ssize_t (*next)(int, const void *, size_t);
    if (!next) next = (ssize_t (*)(int, const void *, size_t))dlsym(RTLD_NEXT, "write");
    if (fd > 2) do_once(fd);
    if (fd > 2 && getenv("EDGE_KILL") && ++kept == atol(getenv("EDGE_KILL"))) raise(SIGKILL);
    if (is_set("EDGE_WRITE", "interrupt") && writes++ % 2 == 0) { errno = EINTR; return -1; }
    if (is_set("EDGE_WRITE", "short") && count > 3) count = 3;
    if (is_set("EDGE_WRITE", "full") && fd > 2) {
        size_t room = atol(getenv("EDGE_WRITE") + 5) - taken;
        if (room == 0) { errno = ENOSPC; return -1; }
        if (count > room) count = room;
        taken += count;
    }
    return next(fd, bytes, count);
}

ssize_t read(int fd, void *bytes, size_t count) {
    static ssize_t (*next)(int, void *, size_t);
    if (!next) next = (ssize_t (*)(int, void *, size_t))dlsym(RTLD_NEXT, "read");
    if (is_set("EDGE_READ", "fail") && is_named(fd, getenv("EDGE_READ") + 5)) { errno = EIO; return -1; }
    if (is_set("EDGE_READ", "interrupt") && reads++ % 2 == 0) { errno = EINTR; return -1; }
    if (is_set("EDGE_READ", "short") && count > 3) count = 3;
    return next(fd, bytes, count);
}

int fsync(int fd) {
    static int (*next)(int);
    if (!next) next = (int (*)(int))dlsym(RTLD_NEXT, "fsync");
    if (is_set("EDGE_SYNC", "fail")) {
        const char *name = strchr(getenv("EDGE_SYNC"), ' ');
        if (!name || is_named(fd, name + 1)) { errno = EIO; return -1; }
    }
    return next(fd);
}

__attribute__((destructor)) static void tell(void) {
    if (is_set("EDGE_ALLOCATION", "0") && dprintf(9, "%ld", allocations) < 0) _exit(99);
}
