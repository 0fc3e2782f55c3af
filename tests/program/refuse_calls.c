/* A preloaded library that refuses calls of the system, as long as whoever shares its page says so. That has six numbers of eight bytes:
   while the first isn't 0 no thread can be made, while the second isn't the clock can't be read, and while the third isn't no socket has
   room for what is sent; the others count how often each was refused. */
#define _GNU_SOURCE
#include "refuse_page.h"
#include <dlfcn.h>
#include <errno.h>
#include <pthread.h>
#include <stdatomic.h>
#include <sys/socket.h>
#include <time.h>

static struct page {
    _Atomic unsigned long no_thread, no_clock, no_room, threads, clocks, sends;
} *page;

__attribute__((constructor)) static void share(void) { page = shared_page(sizeof *page); }

int pthread_create(pthread_t *thread, const pthread_attr_t *how, void *(*start)(void *), void *with) {
    if (page && page->no_thread) {
        page->threads++;
        return EAGAIN;
    }
    int (*make)(pthread_t *, const pthread_attr_t *, void *(*)(void *), void *);
    *(void **)&make = dlsym(RTLD_NEXT, "pthread_create");
    return make(thread, how, start, with);
}

int clock_gettime(clockid_t clock, struct timespec *now) {
    if (page && page->no_clock) {
        page->clocks++;
        errno = EINVAL;
        return -1;
    }
    int (*read)(clockid_t, struct timespec *);
    *(void **)&read = dlsym(RTLD_NEXT, "clock_gettime");
    return read(clock, now);
}

ssize_t send(int socket, const void *bytes, size_t count, int flags) {
    if (page && page->no_room) {
        page->sends++;
        errno = EAGAIN;
        return -1;
    }
    ssize_t (*give)(int, const void *, size_t, int);
    *(void **)&give = dlsym(RTLD_NEXT, "send");
    return give(socket, bytes, count, flags);
}
