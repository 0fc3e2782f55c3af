/* The yardstick of bench/replay.py: reads standard input whole, cuts the first packet and each message after it, and
   writes the bytes of the file WELCOME once and those of REPLY for each Query. It understands nothing else.
   Usage: cut_frames WELCOME REPLY */
#include <stdint.h>
#include <stdio.h>
#include <stdlib.h>
#include <string.h>
#include <unistd.h>

enum { LIMIT = 16777216, CHUNK = 1 << 16 };

struct bytes {
    unsigned char *at;
    size_t length, room;
};

static void fail(const char *what) {
    fprintf(stderr, "cut_frames: %s\n", what);
    exit(1);
}

static void append(struct bytes *to, const unsigned char *part, size_t length) {
    if (to->room - to->length < length) {
        while (to->room - to->length < length)
            to->room = to->room ? 2 * to->room : CHUNK;
        to->at = realloc(to->at, to->room);
        if (!to->at)
            fail("memory");
    }
    memcpy(to->at + to->length, part, length);
    to->length += length;
}

static struct bytes all_of(FILE *file) {
    static unsigned char chunk[CHUNK];
    struct bytes all = {0};
    size_t got;
    while ((got = fread(chunk, 1, sizeof chunk, file)) > 0)
        append(&all, chunk, got);
    if (ferror(file) || all.length > LIMIT)
        fail("input");
    return all;
}

static struct bytes file_of(const char *path) {
    FILE *file = fopen(path, "rb");
    if (!file)
        fail(path);
    struct bytes all = all_of(file);
    fclose(file);
    return all;
}

static uint32_t number(const unsigned char *at) {
    return (uint32_t)at[0] << 24 | (uint32_t)at[1] << 16 | (uint32_t)at[2] << 8 | at[3];
}

int main(int argc, char **argv) {
    if (argc != 3)
        fail("usage: cut_frames WELCOME REPLY");
    struct bytes welcome = file_of(argv[1]), reply = file_of(argv[2]), in = all_of(stdin), out = {0};
    size_t at = in.length >= 4 ? number(in.at) : 0;
    if (at < 8 || at > in.length)
        fail("first packet");
    append(&out, welcome.at, welcome.length);
    while (in.length - at >= 5) {
        size_t length = number(in.at + at + 1);
        if (length < 4 || in.length - at < 1 + length)
            break;
        if (in.at[at] == 'Q')
            append(&out, reply.at, reply.length);
        at += 1 + length;
    }
    for (size_t done = 0; done < out.length;) {
        ssize_t wrote = write(1, out.at + done, out.length - done);
        if (wrote < 0)
            fail("output");
        done += (size_t)wrote;
    }
    return 0;
}
