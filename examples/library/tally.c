/* tally DEFINITION FILE ..: prints the tally of files by the library, as `cvr tally` does. */
#include "cvr.h"
#include <stdio.h>
#include <stdlib.h>
#include <string.h>

static uint8_t *input;
static size_t length, room, *ends, count;

static void *grown(void *held, size_t size) {
    void *more = realloc(held, size);
    if (!more)
        exit(CVR_MEMORY);
    return more;
}

static void add(const void *bytes, size_t size) {
    if (length + size > room)
        input = grown(input, room = 2 * (length + size));
    memcpy(input + length, bytes, size);
    length += size;
}

/* A piece of the input: a word, or a path. */
static void add_word(const char *word) {
    add(word, strlen(word));
    ends[count++] = length;
}

/* Two pieces: the path of a file, and its bytes. */
static void add_file(const char *path) {
    uint8_t part[4096];
    size_t size;
    FILE *file = fopen(path, "rb");
    add_word(path);
    while (file && (size = fread(part, 1, sizeof part, file)))
        add(part, size);
    ends[count++] = length;
    if (!file || ferror(file)) {
        perror(path);
        exit(CVR_DEVICE);
    }
    fclose(file);
}

int main(int many, char **paths) {
    uint8_t *text = NULL, *lines = NULL;
    int status;
    ends = grown(NULL, 3 * (size_t)many * sizeof *ends);
    add_word("tally");
    for (int at = 1; at < many; at++)
        add_word(paths[at]);
    for (int at = 1; at < many; at++)
        add_file(paths[at]);
    CvrSizes sizes = {length, length};      /* mostly enough; else the call says how much is, and is made again */
    do {
        size_t text_len = sizes.text, log_len = sizes.log;
        text = grown(text, text_len + 1);
        lines = grown(lines, log_len + 1);
        status = cvr_call(input, length, ends, count, (size_t)many, text, text_len, lines, log_len, &sizes);
    } while (status == CVR_NO_ROOM);
    fwrite(text, 1, sizes.text, stdout);
    fwrite(lines, 1, sizes.log, stderr);
    return status;
}
