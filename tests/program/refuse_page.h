/* The page that a preloaded library shares with whoever says what it refuses: as many bytes of the file that REFUSE_PAGE names, or none. */
#include <fcntl.h>
#include <stdlib.h>
#include <sys/mman.h>
#include <unistd.h>

static void *shared_page(size_t size) {
    const char *name = getenv("REFUSE_PAGE");
    int file = name ? open(name, O_RDWR) : -1;
    if (file < 0)
        return NULL;
    void *shared = mmap(NULL, size, PROT_READ | PROT_WRITE, MAP_SHARED, file, 0);
    close(file);
    return shared == MAP_FAILED ? NULL : shared;
}
