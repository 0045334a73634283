/* Frames out of pieces with libevent's evbuffer: `evbuffer HOW END SIZE PIECE LEAST MOST ROUNDS`. HOW is
   `copied_borrowed` or `copied_moved` (evbuffer_add), or `referred_borrowed` or `referred_moved`
   (evbuffer_add_reference). A piece that is moved is a block of its own, freed within the time. END is `lf`
   (evbuffer_readln) or `crlf2` (evbuffer_search, on from where it stopped). Each frame comes in a block of its own. It
   prints the frames, their bytes, and the least nanoseconds of all rounds. */
#include <event2/buffer.h>
#include <stdint.h>
#include <stdio.h>
#include <stdlib.h>
#include <string.h>
#include <time.h>

struct work {
    const char *separator;
    int is_lines, is_moved, is_referred;
    size_t size, piece;
    const unsigned char *all;
};

struct seen {
    size_t frames, bytes, searched;
};

static uint64_t nanoseconds(void) {
    struct timespec now;
    clock_gettime(CLOCK_MONOTONIC, &now);
    return (uint64_t)now.tv_sec * 1000000000u + (uint64_t)now.tv_nsec;
}

static void *block(size_t size) {
    void *made = malloc(size);
    if (!made) exit(2);
    return made;
}

static void release(const void *data, size_t size, void *unused) {
    (void)size;
    (void)unused;
    free((void *)data);
}

static void keep(const void *data, size_t size, void *unused) {
    (void)data;
    (void)size;
    (void)unused;
}

/* So many bytes or some more, in frames of `least` to `most` letters, each with the separator behind it. */
static size_t stream(unsigned char *bytes, size_t size, size_t least, size_t most, const char *separator) {
    uint64_t number = 12345;
    size_t at = 0, end = strlen(separator);
    while (at < size) {
        number = number * 6364136223846793005u + 1442695040888963407u;
        size_t length = least + (size_t)(number >> 33) % (most - least + 1), first = (size_t)(number >> 20);
        for (size_t i = 0; i < length; i++) bytes[at++] = (unsigned char)('a' + (first + i) % 26);
        memcpy(bytes + at, separator, end);
        at += end;
    }
    return at;
}

static void take_lines(struct evbuffer *buffer, struct seen *seen) {
    size_t length;
    char *line;
    while ((line = evbuffer_readln(buffer, &length, EVBUFFER_EOL_LF))) {
        seen->frames++;
        seen->bytes += length;
        free(line);
    }
}

static void take_frames(struct evbuffer *buffer, const char *separator, struct seen *seen) {
    size_t end = strlen(separator), held;
    for (;;) {
        struct evbuffer_ptr from, at;
        evbuffer_ptr_set(buffer, &from, seen->searched, EVBUFFER_PTR_SET);
        at = evbuffer_search(buffer, separator, end, seen->searched ? &from : NULL);
        if (at.pos < 0) break;
        char *frame = block((size_t)at.pos + 1);
        evbuffer_remove(buffer, frame, (size_t)at.pos);
        evbuffer_drain(buffer, end);
        seen->frames++;
        seen->bytes += (size_t)at.pos;
        seen->searched = 0;
        free(frame);
    }
    held = evbuffer_get_length(buffer);
    seen->searched = held > end - 1 ? held - (end - 1) : 0;
}

static void put_in(struct evbuffer *buffer, const struct work *work, unsigned char *piece, size_t size) {
    if (work->is_referred) {
        evbuffer_add_reference(buffer, piece, size, work->is_moved ? release : keep, NULL);
        return;
    }
    evbuffer_add(buffer, piece, size);
    if (work->is_moved) free(piece);
}

static size_t piece_size(const struct work *work, size_t at) {
    return work->size - at < work->piece ? work->size - at : work->piece;
}

/* One round, and its nanoseconds. Pieces that are moved are made before. */
static uint64_t once(const struct work *work, struct seen *seen) {
    size_t count = 0;
    unsigned char **pieces = block((work->size / work->piece + 1) * sizeof *pieces);
    for (size_t at = 0; at < work->size; at += work->piece, count++) {
        size_t size = piece_size(work, at);
        pieces[count] = work->is_moved ? memcpy(block(size), work->all + at, size) : (unsigned char *)work->all + at;
    }
    uint64_t start = nanoseconds();
    struct evbuffer *buffer = evbuffer_new();
    for (size_t i = 0; i < count; i++) {
        put_in(buffer, work, pieces[i], piece_size(work, i * work->piece));
        if (work->is_lines) take_lines(buffer, seen);
        else take_frames(buffer, work->separator, seen);
    }
    evbuffer_free(buffer);
    uint64_t took = nanoseconds() - start;
    free(pieces);
    return took;
}

int main(int count, char **words) {
    if (count < 8) return 1;
    size_t numbers[5];
    for (int i = 0; i < 5; i++) numbers[i] = strtoul(words[3 + i], NULL, 10);
    size_t size = numbers[0], least = numbers[2], most = numbers[3];
    struct work work = {.piece = numbers[1]};
    work.is_lines = strcmp(words[2], "lf") == 0;
    work.separator = work.is_lines ? "\n" : "\r\n\r\n";
    work.is_moved = strstr(words[1], "moved") != NULL;
    work.is_referred = strstr(words[1], "referred") != NULL;
    unsigned char *all = block(size + most + 4);
    work.size = stream(all, size, least, most, work.separator);
    work.all = all;
    uint64_t time = UINT64_MAX;
    struct seen seen = {0, 0, 0};
    for (size_t i = 0; i < numbers[4]; i++) {
        seen = (struct seen){0, 0, 0};
        uint64_t took = once(&work, &seen);
        if (took < time) time = took;
    }
    printf("%zu %zu %llu\n", seen.frames, seen.bytes, (unsigned long long)time);
    return 0;
}
