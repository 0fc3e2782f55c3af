/* A preloaded library that refuses allocations: from the program's main on, the call of malloc, calloc or realloc
   whose number REFUSE_CALL names answers null. Where REFUSE_STRUCK names a file, it is made when that happens.

   Where a page is shared with whoever writes it while the program runs, it has four numbers of eight bytes. While the first isn't 0, calls
   are counted in the third; of these the first-th and so many as the second says are refused, which the fourth counts. */
#define _GNU_SOURCE
#include "refuse_page.h"
#include <dlfcn.h>
#include <stdatomic.h>
#include <stddef.h>

extern void *__libc_malloc(size_t);
extern void *__libc_calloc(size_t, size_t);
extern void *__libc_realloc(void *, size_t);

struct page {
    _Atomic unsigned long first, count, calls, refused;
};

static struct page *page;
static unsigned long refused, calls;
static const char *struck;
static int counting;
static int (*real_main)(int, char **, char **);

static int is_refused_by_page(void) {
    unsigned long first = page->first;
    if (!first)
        return 0;
    unsigned long call = ++page->calls;
    if (call < first || call - first >= page->count)
        return 0;
    page->refused++;
    return 1;
}

static int is_refused(void) {
    if (page)
        return is_refused_by_page();
    if (!counting || ++calls != refused)
        return 0;
    if (struck) {
        int file = open(struck, O_WRONLY | O_CREAT | O_TRUNC, 0600);
        if (file >= 0)
            close(file);
    }
    return 1;
}

void *malloc(size_t size) { return is_refused() ? NULL : __libc_malloc(size); }
void *calloc(size_t count, size_t size) { return is_refused() ? NULL : __libc_calloc(count, size); }
void *realloc(void *old, size_t size) { return is_refused() ? NULL : __libc_realloc(old, size); }

static int counted_main(int argc, char **argv, char **envp) {
    const char *number = getenv("REFUSE_CALL");
    refused = number ? strtoul(number, NULL, 10) : 0;
    struck = getenv("REFUSE_STRUCK");
    page = shared_page(sizeof *page);
    unsetenv("REFUSE_CALL");
    counting = 1;
    int status = real_main(argc, argv, envp);
    counting = 0;
    return status;
}

int __libc_start_main(int (*main)(int, char **, char **), int argc, char **argv, void (*init)(void), void (*fini)(void),
                      void (*rtld_fini)(void), void *stack_end) {
    int (*start)(int (*)(int, char **, char **), int, char **, void (*)(void), void (*)(void), void (*)(void), void *);
    *(void **)&start = dlsym(RTLD_NEXT, "__libc_start_main");
    real_main = main;
    return start(counted_main, argc, argv, init, fini, rtld_fini, stack_end);
}
