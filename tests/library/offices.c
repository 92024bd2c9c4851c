/* Makes offices through the library and prints what it answers, for run.py: that an office lives between calls, holds what
   it took in, says why it refuses, and, where memory.h counts, leaves no byte behind, also where a growth was refused. All
   this is done on a stack of the least size.

   offices DEFINITION FILE ..  */
#include "cvr.h"
#include "memory.h"
#include <pthread.h>
#include <stdio.h>
#include <stdlib.h>
#include <string.h>

#define DATE "2024-11-06T08:00:00Z"
#define DEVICE "scanner-1"

enum { MOST = 8, ROOM = 1 << 20, CALLS = 100, READS = 4 };

typedef struct {
    uint8_t *bytes;
    size_t length;
} File;

typedef uint8_t Read(CvrOffice *office, uint8_t *text, size_t text_len, size_t *size);

static int right, wrong;
static uint8_t room[ROOM], other_room[ROOM], path[ROOM];
static CvrRefusal refusal;
static CvrReceipt receipt;

static void tell(int is_right, const char *what) {
    *(is_right ? &right : &wrong) += 1;
    if (!is_right)
        printf("WRONG: not so: %s\n", what);
}

static File file_at(const char *name) {
    FILE *file = fopen(name, "rb");
    if (!file || fseek(file, 0, SEEK_END))
        exit(98);
    File found = {NULL, (size_t)ftell(file)};
    found.bytes = malloc(found.length + 1);
    rewind(file);
    if (!found.bytes || fread(found.bytes, 1, found.length, file) != found.length)
        exit(98);
    fclose(file);
    return found;
}

/* A file with one text in the place of another of the same length, wherever that stands. */
static File changed(File file, const char *old, const char *new) {
    File found = {malloc(file.length), file.length};
    size_t length = strlen(old), count = 0;
    if (!found.bytes || strlen(new) != length)
        exit(98);
    memcpy(found.bytes, file.bytes, file.length);
    for (size_t at = 0; at + length <= file.length; at++)
        if (!memcmp(found.bytes + at, old, length)) {
            memcpy(found.bytes + at, new, length);
            count++;
        }
    tell(count > 0, "there is what is changed");
    return found;
}

static int made(CvrOffice *office, File definition) {
    return cvr_office_new(office, definition.bytes, definition.length, path, ROOM, &refusal);
}

static int import(CvrOffice *office, File file) {
    return cvr_office_import(office, file.bytes, file.length, &receipt, path, ROOM, &refusal);
}

static uint8_t volume(CvrOffice *office, const char *date, const char *device, size_t number, uint8_t *text, size_t text_len,
                      size_t *size) {
    return cvr_office_volume(office, (const uint8_t *)date, strlen(date), (const uint8_t *)device, strlen(device), number,
                             text, text_len, size);
}

static uint8_t first_volume(CvrOffice *office, uint8_t *text, size_t text_len, size_t *size) {
    return volume(office, DATE, DEVICE, 1, text, text_len, size);
}

/* The calls that print, each with its command and the words between the definition and the files. */
static const struct {
    Read *read;
    const char *command, *words[4];
} reads[READS] = {
    {cvr_office_tally, "tally", {NULL}},
    {cvr_office_currents, "currents", {NULL}},
    {cvr_office_conflicts, "conflicts", {NULL}},
    {first_volume, "merge", {DATE, DEVICE, "1", NULL}},
};

static struct {
    uint8_t bytes[1 << 22];
    size_t length, count, ends[4 * MOST];
} input;

static void add(const void *piece, size_t length) {
    memcpy(input.bytes + input.length, piece, length);
    input.ends[input.count++] = input.length += length;
}

static void add_text(const char *piece) {
    add(piece, strlen(piece));
}

/* The text that the program prints for a command over files, in the other room; its length. */
static size_t printed(const char *command, const char *const *words, char **paths, const File *files, int many) {
    static uint8_t log[ROOM];
    CvrSizes sizes;
    input.length = input.count = 0;
    add_text(command);
    add_text(paths[0]);
    for (; *words; words++)
        add_text(*words);
    for (int at = 1; at < many; at++)
        add_text(paths[at]);
    size_t count = input.count;
    for (int at = 0; at < many; at++) {
        add_text(paths[at]);
        add(files[at].bytes, files[at].length);
    }
    int status = cvr_call(input.bytes, input.length, input.ends, input.count, count, other_room, ROOM, log, ROOM, &sizes);
    tell(status == CVR_DONE && sizes.log == 0, "the program does the command");
    return sizes.text;
}

/* Whether two offices print the same. */
static int is_same(CvrOffice *one, CvrOffice *other) {
    int same = 1;
    for (int at = 0; at < READS; at++) {
        size_t size = 1, other_size = 2;
        same &= reads[at].read(one, room, ROOM, &size) == CVR_DONE && reads[at].read(other, other_room, ROOM, &other_size) == CVR_DONE
            && size == other_size && !memcmp(room, other_room, size);
    }
    return same;
}

static void try_texts(char **paths, const File *files, int many) {
    CvrOffice office = CVR_NO_HANDLE;
    size_t size, cvrs = 0;
    tell(made(&office, files[0]) == CVR_DONE, "an office is made");
    for (int at = 1; at < many; at++) {
        tell(import(&office, files[at]) == CVR_DONE && receipt.cvrs > 0 && receipt.new_facts > 0, "it takes in a file");
        cvrs += receipt.cvrs;
    }
    for (int at = 0; at < READS; at++) {
        Read *read = reads[at].read;
        size_t wanted = printed(reads[at].command, reads[at].words, paths, files, many);
        tell(read(&office, room, ROOM, &size) == CVR_DONE && size == wanted && !memcmp(room, other_room, size), reads[at].command);
        tell(read(&office, room, wanted, &size) == CVR_DONE, "a room of the text's length is enough");
        memset(room, 0xa5, ROOM);
        tell(read(&office, room, wanted - 1, &size) == CVR_NO_ROOM && size == wanted, "a shorter one isn't");
        tell(!memcmp(room, other_room, wanted - 1) && room[wanted - 1] == 0xa5, "and has what fits");
    }
    tell(import(&office, files[1]) == CVR_DONE && receipt.cvrs > 0 && receipt.new_facts == 0, "a file once more brings nothing");
    cvr_office_free(&office);
    tell(office.office == NULL, "a handle without an office has NULL");
}

/* The words of each status, which differ; and the version, which the program has, too. */
static void try_words(void) {
    for (int one = CVR_DONE; one <= CVR_NO_VOLUME; one++)
        for (int other = -1; other < one; other++)
            tell(*cvr_status_text(one) && strcmp(cvr_status_text(one), cvr_status_text(other)), "each status has words of its own");
    tell(!strcmp(cvr_status_text(CVR_NO_VOLUME + 1), cvr_status_text(-1)) && !strcmp(cvr_status_text(256), cvr_status_text(-1)), "another number is none");
    static const uint8_t asked[] = "--version";
    size_t end = sizeof asked - 1;
    CvrSizes sizes;
    tell(cvr_call(asked, end, &end, 1, 1, room, ROOM, other_room, ROOM, &sizes) == CVR_DONE, "the program says its version");
    room[sizes.text - 1] = 0;
    tell(!strncmp((char *)room, "cvr ", 4) && !strcmp((char *)room + 4, cvr_version()), "which is that of the library");
}

static void try_joins(const File *files, int many) {
    CvrOffice all = CVR_NO_HANDLE, one = CVR_NO_HANDLE, other = CVR_NO_HANDLE;
    size_t joined = 0, again = 1, imported = 0;
    tell(made(&all, files[0]) == CVR_DONE && made(&one, files[0]) == CVR_DONE && made(&other, files[0]) == CVR_DONE, "three are made");
    for (int at = 1; at < many; at++) {
        tell(import(&all, files[at]) == CVR_DONE && import(at % 2 ? &one : &other, files[at]) == CVR_DONE, "each takes in a file");
        imported += at % 2 ? 0 : receipt.new_facts;
    }
    tell(!is_same(&one, &other), "two with different files differ");
    tell(cvr_office_join(&one, &other, &joined) == CVR_DONE && joined > 0 && joined <= imported, "one takes in what the other holds");
    tell(cvr_office_join(&one, &other, &again) == CVR_DONE && again == 0, "once more brings nothing");
    tell(is_same(&one, &all) && !is_same(&other, &all), "it then holds what one with all files does");
    tell(cvr_office_join(&other, &one, &joined) == CVR_DONE && is_same(&other, &all), "and so does the other");
    tell(cvr_office_join(&one, &one, &again) == CVR_DONE && again == 0 && is_same(&one, &all), "one takes in nothing of itself");
    cvr_office_free(&all);
    cvr_office_free(&one);
    cvr_office_free(&other);
}

/* What an office of another definition refuses. */
static void try_others(const File *files) {
    CvrOffice office = CVR_NO_HANDLE, other = CVR_NO_HANDLE;
    File definition = changed(files[0], "Alder County", "Elder County");
    size_t new_facts = 77;
    tell(made(&other, definition) == CVR_DONE && made(&office, files[0]) == CVR_DONE, "two are made, of different definitions");
    receipt.cvrs = receipt.new_facts = 77;
    tell(import(&other, files[1]) == CVR_REFUSED && refusal.code == 5, "a file that disagrees is refused");
    tell(receipt.cvrs == 77 && receipt.new_facts == 77, "and leaves the receipt");
    tell(cvr_office_join(&office, &other, &new_facts) == CVR_OTHER_DEFINITION && new_facts == 77, "they aren't joined");
    cvr_office_free(&office);
    cvr_office_free(&other);
    free(definition.bytes);
}

static void try_refused(const File *files) {
    static const char text[] = "{\"@type\": \"CVR.CastVoteRecordReport\"}", wrong_type[] = "{\"@type\": 7}";
    CvrOffice office = CVR_NO_HANDLE, none = CVR_NO_HANDLE;
    File bad = {(uint8_t *)wrong_type, sizeof wrong_type - 1}, lacks = {(uint8_t *)text, sizeof text - 1}, no_json = {(uint8_t *)"[", 1};
    size_t size = 77;
    tell(made(&office, bad) == CVR_REFUSED && office.office == NULL, "a definition with a fault is refused");
    tell(refusal.code == 3 && refusal.rule > 0 && refusal.path == 6 && !memcmp(path, "/@type", 6), "with code, rule and path");
    tell(import(&office, files[1]) == CVR_NO_OFFICE, "there is no office");
    tell(cvr_office_tally(&office, room, ROOM, &size) == CVR_NO_OFFICE && size == 77, "which has no tally");
    tell(made(&office, files[0]) == CVR_DONE, "a handle can be used again");
    tell(import(&office, no_json) == CVR_REFUSED && refusal.code == 2 && refusal.rule == 0 && refusal.path == 0, "a file that isn't JSON is refused");
    memset(path, 0xa5, 8);
    tell(cvr_office_import(&office, bad.bytes, bad.length, &receipt, path, 3, &refusal) == CVR_REFUSED && refusal.path == 6, "the path's length is told");
    tell(!memcmp(path, "/@t\xa5", 4), "and as much of it as fits");
    tell(import(&office, lacks) == CVR_REFUSED && refusal.code == 3, "a report without its members is refused");
    tell(cvr_office_join(&office, &none, &size) == CVR_NO_OFFICE && cvr_office_join(&none, &office, &size) == CVR_NO_OFFICE, "both have to be there");
    tell(cvr_office_tally(&office, room, ROOM, &size) == CVR_DONE, "the office is still there");
    cvr_office_free(&office);
    cvr_office_free(&office);
    cvr_office_free(NULL);
    tell(office.office == NULL, "nothing happens where there is none");
    tell(cvr_office_join(&none, &none, &size) == CVR_NO_OFFICE, "which is not joined with itself, either");
}

/* The status of a volume that isn't there, where room and size stay as they were, or 99. */
static int untold(CvrOffice *office, const char *date, const char *device, size_t number) {
    size_t size = 77;
    room[0] = 0xa5;
    int status = volume(office, date, device, number, room, ROOM, &size);
    return size == 77 && room[0] == 0xa5 ? status : 99;
}

static void try_no_volumes(const File *files) {
    CvrOffice office = CVR_NO_HANDLE;
    tell(untold(&office, DATE, DEVICE, 1) == CVR_NO_OFFICE, "no office has no volume");
    tell(made(&office, files[0]) == CVR_DONE, "an office is made");
    tell(untold(&office, "\xff", DEVICE, 1) == CVR_COMMAND_LINE, "a date is UTF-8");
    tell(untold(&office, DATE, "\xff", 1) == CVR_COMMAND_LINE, "and so is a device");
    tell(untold(&office, "never", "none", 0) == CVR_COMMAND_LINE, "numbers begin with 1");
    tell(untold(&office, "never", "none", 9) == CVR_NOT_MOMENT, "the date comes first");
    tell(untold(&office, DATE, "none", 9) == CVR_NO_DEVICE, "then the device");
    tell(untold(&office, DATE, DEVICE, 2) == CVR_NO_VOLUME, "then the number");
    tell(untold(&office, DATE, DEVICE, SIZE_MAX) == CVR_NO_VOLUME, "however great");
    cvr_office_free(&office);
}

#ifdef COUNTED
/* An office's life: the statuses of its calls, of which none is wrong where no growth is refused. */
static int lives(const File *files, int many) {
    CvrOffice office = CVR_NO_HANDLE, other = CVR_NO_HANDLE;
    size_t size;
    int refused_growth = made(&office, files[0]) == CVR_MEMORY, done = !refused_growth;
    for (int at = 1; done && at < many; at++)
        done = import(&office, files[at]) == CVR_DONE;
    done = done && made(&other, files[0]) == CVR_DONE && cvr_office_join(&other, &office, &size) == CVR_DONE;
    for (int at = 0; done && at < READS; at++)
        done = reads[at].read(&other, room, ROOM, &size) == CVR_DONE;
    cvr_office_free(&office);
    cvr_office_free(&other);
    return done;
}

static void try_memory(const File *files, int many) {
    long long before = live, growths = taken, n, ended = 0;
    int kept = 0;
    tell(lives(files, many), "an office lives");
    growths = taken - growths;
    for (n = 0; n < CALLS; n++)
        kept |= !lives(files, many);
    tell(!kept && live == before, "a hundred keep no byte");
    for (n = 1; n <= growths; n++) {
        refused = taken + n;
        ended += !lives(files, many);
        kept |= live != before;
    }
    refused = 0;
    printf("of %lld growths in an office's life %lld ended it where they were refused\n", growths, ended);
    tell(ended > growths / 2, "a refused growth is told");
    tell(!kept, "and keeps no byte");
}
#endif

static File given[MOST];
static char **names;
static int total;

static void *try_all(void *none) {
    try_words();
    try_texts(names, given, total);
    try_joins(given, total);
    try_no_volumes(given);
    try_refused(given);
    try_others(given);
#ifdef COUNTED
    try_memory(given, total);
#endif
    return none;
}

int main(int count, char **all) {
    pthread_attr_t its;
    pthread_t thread;
    total = count - 1;
    names = all + 1;
    if (total < 3 || total >= MOST)
        return 2;
    for (int at = 0; at < total; at++)
        given[at] = file_at(names[at]);
    tell(!pthread_attr_init(&its) && !pthread_attr_setstacksize(&its, CVR_LEAST_STACK) && !pthread_create(&thread, &its, try_all, NULL)
        && !pthread_join(thread, NULL), "the least stack suffices");
    printf("offices: %d right, %d wrong\n", right, wrong);
    return wrong || !right;
}
