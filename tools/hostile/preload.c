/* Preloaded by tools/hostile_check.py: makes chosen calls of the program fail. By the environment:
 *   HOSTILE_FD, HOSTILE_AT, HOSTILE_ERRNO   read or write number AT, from 1, on FD fails so; 0: it returns 0; -1: it takes one byte
 *   HOSTILE_MOST                            no call on FD takes more bytes
 *   HOSTILE_ROOM                            FD takes so many bytes, then ENOSPC
 *   HOSTILE_THREAD                          thread number THREAD can't be started; -1: none can
 *   HOSTILE_MEMORY                          allocation number MEMORY is refused
 *   HOSTILE_TOLD                            gets a byte for each call that failed so
 */
#define _GNU_SOURCE
#include <dlfcn.h>
#include <errno.h>
#include <pthread.h>
#include <stdatomic.h>
#include <stdlib.h>
#include <sys/syscall.h>
#include <unistd.h>

static long fd = -1, at, error, most, room = -1, thread, memory, told = -1;
static atomic_long calls, threads, allocations;

static void set(const char *name, long *number) {
    const char *text = getenv(name);
    if (text)
        *number = atol(text);
}

__attribute__((constructor)) static void begin(void) {
    set("HOSTILE_FD", &fd);
    set("HOSTILE_AT", &at);
    set("HOSTILE_ERRNO", &error);
    set("HOSTILE_MOST", &most);
    set("HOSTILE_ROOM", &room);
    set("HOSTILE_THREAD", &thread);
    set("HOSTILE_TOLD", &told);
    set("HOSTILE_MEMORY", &memory);
}

static void tell(void) {
    if (told >= 0)
        syscall(SYS_write, told, "!", 1);
}

static long fail(int with) {
    tell();
    errno = with;
    return with ? -1 : 0;
}

static ssize_t transfer(long call, int of, void *bytes, size_t count) {
    if (of != fd)
        return syscall(call, of, bytes, count);
    if (++calls == at) {
        if (error >= 0)
            return fail(error);
        tell();
        count = count ? 1 : 0;
    }
    if (most && count > (size_t)most)
        count = most;
    if (room >= 0 && count > (size_t)room) {
        if (room == 0)
            return fail(ENOSPC);
        count = room;
    }
    ssize_t taken = syscall(call, of, bytes, count);
    if (room >= 0 && taken > 0)
        room -= taken;
    return taken;
}

ssize_t read(int of, void *bytes, size_t count) {
    return transfer(SYS_read, of, bytes, count);
}

ssize_t write(int of, const void *bytes, size_t count) {
    return transfer(SYS_write, of, (void *)bytes, count);
}

ssize_t __write(int of, const void *bytes, size_t count) {
    return transfer(SYS_write, of, (void *)bytes, count);
}

int pthread_create(pthread_t *id, const pthread_attr_t *attributes, void *(*work)(void *), void *with) {
    static int (*start)(pthread_t *, const pthread_attr_t *, void *(*)(void *), void *);
    if (thread && (++threads == thread || thread < 0)) {
        tell();
        return EAGAIN;
    }
    if (!start)
        start = dlsym(RTLD_NEXT, "pthread_create");
    return start(id, attributes, work, with);
}

static int refuses(void) {
    if (!memory || ++allocations != memory)
        return 0;
    tell();
    errno = ENOMEM;
    return 1;
}

void *malloc(size_t size) {
    static void *(*next)(size_t);
    if (!next)
        next = dlsym(RTLD_NEXT, "malloc");
    return refuses() ? 0 : next(size);
}

void *realloc(void *old, size_t size) {
    static void *(*next)(void *, size_t);
    if (!next)
        next = dlsym(RTLD_NEXT, "realloc");
    return refuses() ? 0 : next(old, size);
}
