/* Calls the library and prints what it answers, for run.py: which statuses there are, that sizes and rooms are what
   cvr.h says, that calls side by side answer as one after the other, that no byte stays behind, and what a refused growth
   does; the last two where memory.h counts.

   calls DEFINITION FILE ..  */
#include "cvr.h"
#include "memory.h"
#include <pthread.h>
#include <stdio.h>
#include <stdlib.h>
#include <string.h>

enum { MOST = 64, THREADS = 8, CALLS = 1000, UNTOUCHED = 0xa5 };

/* An input, and what a call answered. */
typedef struct {
    uint8_t *bytes;
    size_t length, ends[3 * MOST], count, words;
} Input;

typedef struct {
    int status;
    uint8_t *text, *log;
    CvrSizes sizes;
} Answer;

static int right, wrong;

static void tell(int is_right, const char *what) {
    *(is_right ? &right : &wrong) += 1;
    if (!is_right)
        printf("WRONG: not so: %s\n", what);
}

static void *held(size_t size) {
    void *found = malloc(size + !size);
    if (!found)
        exit(99);
    return found;
}

static void add(Input *input, const void *bytes, size_t size) {
    input->bytes = realloc(input->bytes, input->length + size + 1);
    memcpy(input->bytes + input->length, bytes, size);
    input->ends[input->count++] = input->length += size;
}

static void add_word(Input *input, const char *word) {
    add(input, word, strlen(word));
    input->words++;
}

static void add_file(Input *input, const char *path) {
    FILE *file = fopen(path, "rb");
    if (!file || fseek(file, 0, SEEK_END))
        exit(98);
    size_t size = (size_t)ftell(file);
    uint8_t *bytes = held(size);
    rewind(file);
    if (fread(bytes, 1, size, file) != size)
        exit(98);
    fclose(file);
    add(input, path, strlen(path));
    add(input, bytes, size);
    free(bytes);
}

/* The command over the files, with all of them given but the last ones. */
static Input over(const char *command, char **paths, int many, int lacking) {
    Input input = {held(1), 0, {0}, 0, 0};
    add_word(&input, command);
    for (int at = 0; at < many; at++)
        add_word(&input, paths[at]);
    for (int at = 0; at < many - lacking; at++)
        add_file(&input, paths[at]);
    return input;
}

/* One call with rooms of these sizes, each byte of which has a mark before it. */
static Answer call(const Input *input, size_t text_room, size_t log_room) {
    Answer answer = {0, held(text_room), held(log_room), {77, 77}};
    memset(answer.text, UNTOUCHED, text_room);
    memset(answer.log, UNTOUCHED, log_room);
    answer.status = cvr_call(input->bytes, input->length, input->ends, input->count, input->words, answer.text,
                             text_room, answer.log, log_room, &answer.sizes);
    return answer;
}

static void let_go(Answer answer) {
    free(answer.text);
    free(answer.log);
}

static int is_untouched(const uint8_t *bytes, size_t from, size_t to) {
    for (; from < to; from++)
        if (bytes[from] != UNTOUCHED)
            return 0;
    return 1;
}

static int is_same(Answer one, Answer other) {
    return one.status == other.status && one.sizes.text == other.sizes.text && one.sizes.log == other.sizes.log
        && !memcmp(one.text, other.text, one.sizes.text) && !memcmp(one.log, other.log, one.sizes.log);
}

static int has_log(Answer answer, const char *log) {
    return answer.sizes.log == strlen(log) && !memcmp(answer.log, log, strlen(log));
}

/* ---- what is tried */

static void try_status(Input input, int status, const char *log, const char *what) {
    Answer answer = call(&input, 1 << 20, 1 << 20);
    tell(answer.status == status && (!log || has_log(answer, log)), what);
    let_go(answer);
    free(input.bytes);
}

static Input of_words(const char *first, const char *second) {
    Input input = {held(1), 0, {0}, 0, 0};
    add_word(&input, first);
    if (second)
        add_word(&input, second);
    return input;
}

static void try_statuses(char **paths, int many) {
    Input cut = over("tally", paths, many, 0);
    try_status(over("tally", paths, many, 0), CVR_DONE, "", "a tally is done");
    try_status(of_words("explain", "E1"), CVR_DONE, "", "a code is explained");
    try_status(of_words("explain", "E0"), CVR_COMMAND_LINE, NULL, "a word that names no code is refused");
    try_status((Input){held(1), 0, {0}, 0, 0}, CVR_COMMAND_LINE, NULL, "no words are refused");
    try_status(over("tally", paths, many, 1), CVR_DEVICE, NULL, "a file that isn't given is missing");
    cut.ends[cut.count - 1] += 1;
    try_status(cut, CVR_NO_INPUT, "", "an end beyond the input is refused");
    cut = over("tally", paths, many, 0);
    cut.ends[cut.count - 1] -= 1;
    try_status(cut, CVR_NO_INPUT, "", "an input beyond the last end is refused");
    cut = over("tally", paths, many, 0);
    cut.ends[0] = cut.ends[1] + 1;
    try_status(cut, CVR_NO_INPUT, "", "an end before the one before it is refused");
    cut = over("tally", paths, many, 0);
    cut.words += 1;
    try_status(cut, CVR_NO_INPUT, "", "a path without its bytes is refused");
    cut = over("tally", paths, many, 0);
    cut.words = cut.count + 2;
    try_status(cut, CVR_NO_INPUT, "", "more words than pieces are refused");
    try_status(of_words("tally", "\xff"), CVR_NO_INPUT, "", "a word that isn't UTF-8 is refused");
}

static void try_rooms(char **paths, int many) {
    Input input = over("currents", paths, many, 0);
    Answer whole = call(&input, 1 << 20, 1 << 20);
    size_t size = whole.sizes.text;
    tell(whole.status == CVR_DONE && size > 2, "there is a text");
    tell(is_untouched(whole.text, size, 1 << 20), "what is behind the text stays");
    for (size_t room = 0; room <= size + 1; room += room < size - 1 && room > 1 ? size - 1 - room : 1) {
        Answer answer = call(&input, room, 0);
        int fits = room >= size;
        tell(answer.status == (fits ? CVR_DONE : CVR_NO_ROOM), "the status says whether the text fits");
        tell(answer.sizes.text == size && answer.sizes.log == 0, "the sizes are those of the whole text");
        tell(!memcmp(answer.text, whole.text, fits ? size : room), "the room has as much of the text as fits");
        let_go(answer);
    }
    let_go(whole);
    free(input.bytes);
}

static void try_log_room(char **paths, int many) {
    Input input = over("tally", paths, many, 1);
    Answer whole = call(&input, 0, 1 << 20), cut = call(&input, 0, whole.sizes.log - 1);
    tell(whole.status == CVR_DEVICE && cut.status == CVR_NO_ROOM, "a log that doesn't fit is told");
    tell(is_untouched(whole.log, whole.sizes.log, 1 << 20), "what is behind the log stays");
    tell(!memcmp(cut.log, whole.log, whole.sizes.log - 1), "the room has as much of the log as fits");
    let_go(cut);
    let_go(whole);
    free(input.bytes);
}

/* ---- many calls */

static Input shared;
static Answer first;

static void *work(void *same) {
    for (int n = 0; n < 20; n++) {
        Answer answer = call(&shared, 1 << 16, 1 << 16);
        if (!is_same(answer, first))
            *(int *)same = 0;
        let_go(answer);
    }
    return NULL;
}

static void try_threads(char **paths, int many) {
    pthread_t threads[THREADS];
    int same[THREADS], all = 1;
    shared = over("currents", paths, many, 0);
    first = call(&shared, 1 << 16, 1 << 16);
    for (int at = 0; at < THREADS; at++) {
        same[at] = 1;
        if (pthread_create(&threads[at], NULL, work, &same[at]))
            exit(97);
    }
    for (int at = 0; at < THREADS; at++) {
        pthread_join(threads[at], NULL);
        all &= same[at];
    }
    tell(all && first.status == CVR_DONE, "eight calls at once answer as one does");
}

#ifdef COUNTED
static void try_many(void) {
    long long before = live, calls = taken;
    for (int n = 0; n < CALLS; n++)
        let_go(call(&shared, 1 << 16, 1 << 16));
    tell(live == before, "a thousand calls keep no byte");
    tell(taken > calls + 10 * CALLS, "they take memory");
}

/* Refuses the growths of a call one after the other. One that isn't needed, as that of a buffer, changes nothing. */
static void try_refusals(Input input) {
    Answer whole = call(&input, 1 << 16, 1 << 16), answer;
    long long before = live, growth = 0, last = 0, refusals = 0;
    int right_answer = 1, kept = 0;
    while (last >= growth) {
        refused = taken + 3 + growth++;         /* behind the two rooms */
        answer = call(&input, 1 << 16, 1 << 16);
        last = growth + taken - refused;        /* the growths of this call */
        refusals += answer.status == CVR_MEMORY;
        right_answer &= answer.status == CVR_MEMORY || is_same(answer, whole);
        let_go(answer);
        kept |= live != before;
    }
    refused = 0;
    printf("of %lld growths %lld were answered by 4 where they were refused\n", growth - 1, refusals);
    tell(refusals > growth / 2, "a refused growth is answered by 4");
    tell(right_answer, "or changes nothing");
    tell(!kept, "no byte is kept after one");
    let_go(whole);
    free(input.bytes);
}
#endif

int main(int many, char **paths) {
    if (many < 3 || many > MOST)
        return 2;
    try_statuses(paths + 1, many - 1);
    try_rooms(paths + 1, many - 1);
    try_log_room(paths + 1, many - 1);
    try_threads(paths + 1, many - 1);
#ifdef COUNTED
    try_many();
    try_refusals(over("tally", paths + 1, many - 1, 0));
    try_refusals(over("conflicts", paths + 1, many - 1, 0));
#endif
    printf("calls: %d right, %d wrong\n", right, wrong);
    return wrong || !right;
}
