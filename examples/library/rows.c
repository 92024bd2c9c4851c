/* rows DEFINITION FILE ..: prints the tally of files row by row, in words. It shows how an office is made and asked, and how the
   lines that the library prints are read. */
#include "cvr.h"
#include <stdio.h>
#include <stdlib.h>
#include <string.h>

enum {
    NUMBERS = 6,            /* of a row, before its votes: FORMAT says which, and in which order */
    LONGEST = 67108864,     /* bytes of a file that may be accepted; one more shows that it is longer */
    PLACE = 1024            /* bytes of a path in a refused file that are shown */
};

/* A word of a printed line. The text of a JSON string is any UTF-8, also with a NUL. */
typedef struct {
    char *bytes;
    size_t length;
} Word;

/* Puts a character in UTF-8; the characters that are printed by their numbers have at most three bytes. */
static char *put(char *to, unsigned long code) {
    if (code >= 0x800)
        *to++ = (char)(0xe0 | code >> 12);
    if (code >= 0x80)
        *to++ = (char)(code >= 0x800 ? 0x80 | (code >> 6 & 0x3f) : 0xc0 | code >> 6);
    *to++ = (char)(code >= 0x80 ? 0x80 | (code & 0x3f) : code);
    return to;
}

/* Reads a JSON string in its place, which its text never exceeds, and moves behind it. */
static Word read_string(char **at) {
    char *from = *at + 1, *to = from, number[5] = "", *escape;
    Word word = {to, 0};
    for (; *from != '"'; from++) {
        if (*from != '\\') {
            *to++ = *from;
        } else if (*++from == 'u') {
            memcpy(number, from + 1, 4);
            to = put(to, strtoul(number, NULL, 16));
            from += 4;
        } else {
            escape = strchr("b\bf\fn\nr\rt\t", *from);
            *to++ = escape ? escape[1] : *from;
        }
    }
    *at = from + 1;
    word.length = (size_t)(to - word.bytes);
    return word;
}

/* Reads a word of a line, a JSON string or another one, and moves behind the space or the line feed that ends it. */
static Word read_word(char **at) {
    Word word = {*at, strcspn(*at, " \n")};
    if (**at == '"')
        word = read_string(at);
    else
        *at += word.length;
    ++*at;
    return word;
}

/* Shows a word of a file: what a terminal would take for an order, by its number. */
static void show(FILE *to, const char *before, Word word) {
    fputs(before, to);
    for (size_t at = 0; at < word.length; at++)
        fprintf(to, (unsigned char)word.bytes[at] < ' ' || word.bytes[at] == 0x7f ? "\\x%02x" : "%c", (unsigned char)word.bytes[at]);
}

/* Shows a row, and moves behind it: a contest, a unit and a batch, each of which may be the word null; numbers; and votes. */
static void show_row(char **at) {
    unsigned long long numbers[NUMBERS];
    for (int part = 0; part < 3; part++)
        show(stdout, part ? ", " : "", read_word(at));
    for (int number = 0; number < NUMBERS; number++)
        numbers[number] = strtoull(read_word(at).bytes, NULL, 10);
    printf(": %llu ballots", numbers[0]);
    while ((*at)[-1] != '\n') {
        show(stdout, ", ", read_word(at));
        show(stdout, " ", read_word(at));
    }
    putchar('\n');
}

static size_t read_file(const char *path, uint8_t *bytes, size_t most) {
    FILE *file = fopen(path, "rb");
    size_t length = file ? fread(bytes, 1, most, file) : 0;
    if (!file || ferror(file)) {
        perror(path);
        exit(CVR_DEVICE);
    }
    fclose(file);
    return length;
}

/* Ends the program where a call wasn't done, and says why. */
static void need(int status, const char *path, CvrRefusal refusal, uint8_t *place) {
    Word shown = {(char *)place, refusal.path < PLACE ? refusal.path : PLACE};
    if (status == CVR_DONE)
        return;
    fprintf(stderr, "%s: %s", path, cvr_status_text(status));
    if (status == CVR_REFUSED) {
        fprintf(stderr, ", E%d", refusal.code);
        show(stderr, " ", shown);
        fprintf(stderr, refusal.rule ? " %d" : "", refusal.rule);
    }
    fputc('\n', stderr);
    exit(status);
}

int main(int many, char **paths) {
    static uint8_t file[LONGEST + 1], place[PLACE];
    CvrOffice office = CVR_NO_HANDLE;
    CvrReceipt receipt;
    CvrRefusal refusal = {0, 0, 0};
    size_t size = 0;
    if (many < 2) {
        fputs("rows DEFINITION FILE ..\n", stderr);
        return CVR_COMMAND_LINE;
    }
    for (int at = 1; at < many; at++) {
        size_t length = read_file(paths[at], file, sizeof file);
        int status = at == 1 ? cvr_office_new(&office, file, length, place, sizeof place, &refusal)
                             : cvr_office_import(&office, file, length, &receipt, place, sizeof place, &refusal);
        need(status, paths[at], refusal, place);
    }
    cvr_office_tally(&office, place, 0, &size);         /* how long it is */
    char *text = malloc(size + 1), *at = text;
    if (!text)
        return CVR_MEMORY;
    need(cvr_office_tally(&office, (uint8_t *)text, size, &size), "tally", refusal, place);
    while (at < text + size)
        show_row(&at);
    free(text);
    cvr_office_free(&office);
    return CVR_DONE;
}
