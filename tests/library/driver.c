/* The command line of cvr over the library, for the rows: opens each word that names a file, and each path of a list,
   and makes one call of them all, on a stack of the least size. The proved program takes of these what the words ask for. */
#include "cvr.h"
#include <pthread.h>
#include <stdio.h>
#include <stdlib.h>
#include <string.h>
#ifdef _WIN32
#include <fcntl.h>
#include <io.h>
#endif

enum { HELD = 67108865 };       /* the most bytes that the program holds of a file */

static uint8_t *input;
static size_t length, room, *ends, count, places, words;

static void *grown(void *held, size_t size) {
    void *more = realloc(held, size);
    if (!more) {
        fputs("driver: out of memory\n", stderr);
        exit(99);
    }
    return more;
}

/* Puts bytes behind the last piece. */
static void add(const void *bytes, size_t size) {
    if (length + size > room)
        input = grown(input, room = (length + size) * 2);
    memcpy(input + length, bytes, size);
    length += size;
}

/* Ends a piece. */
static void end(void) {
    if (count == places)
        ends = grown(ends, (places = places * 2 + 64) * sizeof *ends);
    ends[count++] = length;
}

/* The place of the path of a file that was added; 0 where it wasn't. */
static size_t place_of(const char *path) {
    for (size_t at = words; at < count; at += 2)
        if (ends[at] - ends[at - 1] == strlen(path) && !memcmp(input + ends[at - 1], path, strlen(path)))
            return at;
    return 0;
}

/* Adds the file at a path, where it can be opened and read. */
static void add_file(const char *path) {
    static uint8_t piece[1 << 16];
    size_t first = length, pieces = count, size;
    FILE *file = place_of(path) ? NULL : fopen(path, "rb");
    if (!file)
        return;
    add(path, strlen(path));
    end();
    while ((size = fread(piece, 1, sizeof piece, file)) && length - first < HELD + strlen(path))
        add(piece, size);
    end();
    if (ferror(file)) {
        length = first;
        count = pieces;
    }
    fclose(file);
}

/* Adds a list, and the files at its paths, each of which ends with this byte. */
static void add_listed(const char *name, char byte) {
    add_file(name);
    size_t at = place_of(name);
    if (!at)
        return;
    size_t size = ends[at + 1] - ends[at];
    char *list = grown(NULL, size + 1), *path = list;
    memcpy(list, input + ends[at], size);
    for (at = 0; at <= size; at++)
        if (at == size || list[at] == byte) {
            list[at] = 0;
            add_file(path);
            path = list + at + 1;
        }
    free(list);
}

static void add_word(const char *word) {
    add(word, strlen(word));
    end();
}

static void add_files(int many, char **all) {
    int null = !strcmp(all[many - 1], "--null"), list = many - 1 - null;
    for (int at = 2; at < many; at++) {
        const char *sign = strchr(all[at], '=');        /* a step of a drill, K=FILE */
        add_file(all[at]);
        if (sign && !strcmp(all[1], "drill"))
            add_file(sign + 1);
    }
    if (list > 2 && !strcmp(all[list - 1], "--files-from"))
        add_listed(strcmp(all[list], "-") ? all[list] : "/dev/stdin", null ? '\0' : '\n');
}

static uint8_t *text, *lines;
static CvrSizes sizes;
static int status;

/* One call, and a second where the text or the log needs more room. */
static void *call(void *none) {
    size_t text_room = length + 1, log_room = length + 1;
    do {
        text = grown(text, text_room);
        lines = grown(lines, log_room);
        status = cvr_call(input, length, ends, count, words, text, text_room, lines, log_room, &sizes);
        text_room = sizes.text + 1;
        log_room = sizes.log + 1;
    } while (status == CVR_NO_ROOM);
    return none;
}

/* Has a thread with the least stack call, and waits for its end. */
static int is_called(void) {
    pthread_attr_t its;
    pthread_t thread;
    return !pthread_attr_init(&its) && !pthread_attr_setstacksize(&its, CVR_LEAST_STACK) && !pthread_create(&thread, &its, call, NULL)
        && !pthread_join(thread, NULL);
}

int main(int many, char **all) {
#ifdef _WIN32
    for (int file = 0; file < 3; file++)
        _setmode(file, _O_BINARY);
#endif
    add("", 0);
    ends = grown(ends, (places = 64) * sizeof *ends);
    for (int at = 1; at < many; at++)
        add_word(all[at]);
    words = count;
    add_files(many, all);
    if (!is_called())
        return 99;
    fwrite(lines, 1, sizes.log, stderr);
    if (fwrite(text, 1, sizes.text, stdout) != sizes.text || fflush(stdout)) {
        fputs("out: X1\n", stderr);
        return CVR_DEVICE;
    }
    return status;
}
