/* copy_rows SIZE TOTAL [heads]: at least TOTAL bytes of DataRows, each of SIZE bytes in all, copied from a page in memory
   through two buffers of 8,192 bytes. With `heads` each row's head is read on the way, as a pooler must, which may not send a
   byte of a malformed frame. Prints how many bytes came through. */
#include <stdint.h>
#include <stdio.h>
#include <stdlib.h>
#include <string.h>

enum { PAGE = 65536, BUFFER = 8192, HEAD = 5 };

static uint64_t left_of_frame, head_len;
static unsigned char head[HEAD];

/* the borders of the frames among these bytes; 0: a head isn't lawful */
static int cut(const unsigned char *bytes, size_t count) {
    while (count > 0) {
        if (left_of_frame > 0) {
            size_t n = count < left_of_frame ? count : left_of_frame;
            left_of_frame -= n;
            bytes += n;
            count -= n;
            continue;
        }
        head[head_len++] = *bytes++;
        count--;
        if (head_len == HEAD) {
            uint32_t length = (uint32_t)head[1] << 24 | (uint32_t)head[2] << 16 | (uint32_t)head[3] << 8 | head[4];
            if (head[0] != 'D' || length < 4) return 0;
            left_of_frame = length - 4;
            head_len = 0;
        }
    }
    return 1;
}

int main(int argc, char **argv) {
    if (argc < 3) return 2;
    size_t size = strtoul(argv[1], NULL, 10);
    uint64_t total = strtoull(argv[2], NULL, 10), given = 0;
    int heads = argc > 3;
    size_t rows = size >= PAGE ? 1 : (PAGE + size - 1) / size, page = rows * size, at = 0;
    unsigned char *bytes = malloc(page), first[BUFFER];
    static volatile unsigned char second[BUFFER];
    if (!bytes || size < 11) return 1;
    for (size_t row = 0; row < rows; row++) {
        unsigned char *p = bytes + row * size;
        uint32_t length = (uint32_t)size - 1, value = (uint32_t)size - 11;
        unsigned char start[11] = {'D', length >> 24, length >> 16, length >> 8, length, 0, 1, value >> 24, value >> 16, value >> 8, value};
        memcpy(p, start, sizeof start);
        memset(p + 11, 'r', size - 11);
    }
    while (given < total) {
        size_t n = page - at < BUFFER ? page - at : BUFFER;
        memcpy(first, bytes + at, n);
        if (heads && !cut(first, n)) return 1;
        memcpy((void *)second, first, n);
        at = at + n == page ? 0 : at + n;
        given += n;
    }
    printf("%llu\n", (unsigned long long)given);
    free(bytes);
    return 0;
}
