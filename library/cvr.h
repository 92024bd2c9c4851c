/* cvr as a library: the whole program as one call, over words and files in memory; and offices that live between calls.

   The calls are proved to answer what the program answers: see docs/LIBRARY.md, which also has examples. */
#ifndef CVR_H
#define CVR_H

#include <stddef.h>
#include <stdint.h>

#ifdef __cplusplus
extern "C" {
#endif

/* The statuses of the program, and those of the calls. */
enum {
    CVR_DONE = 0,           /* everything was accepted and printed */
    CVR_REFUSED = 1,        /* something was refused; the rest was done and printed */
    CVR_COMMAND_LINE = 2,   /* the words were refused */
    CVR_DEVICE = 3,         /* a word names a file that isn't among those given */
    CVR_MEMORY = 4,         /* out of memory */
    CVR_NO_INPUT = 5,       /* the input isn't words and files; nothing was done */
    CVR_NO_ROOM = 6,        /* the text or the log is longer than its room: `sizes` or `size` says how long it is */
    CVR_NO_OFFICE = 7,      /* a handle has no office */
    CVR_OTHER_DEFINITION = 8,   /* the offices have different definitions */
    CVR_NOT_MOMENT = 9,     /* H1: the date of a volume is no moment */
    CVR_NO_DEVICE = 10,     /* H2: the definition lists no such device */
    CVR_NO_VOLUME = 11      /* V1: there are fewer volumes */
};

/* Bytes of stack that suffice for a call: no call needed as much over a file that is as deep as one may be. It is measured
   and not proved. A thread needs what its own functions take besides; those of musl have half of this if nothing else is said. */
enum { CVR_LEAST_STACK = 262144 };

/* The version of the library, as "1.3.0"; and what a status means, in a few words. Both texts stay. */
const char *cvr_version(void);
const char *cvr_status_text(int status);

/* How many bytes a text and a log have. */
typedef struct {
    size_t text;
    size_t log;
} CvrSizes;

/* Does what the program does with the words after its name, over files in memory. The text is what it prints, the log
   what it writes to standard error.

   The input is a row of pieces, one behind the other: the words, and then of each file its path and its bytes. `ends`
   has for each piece how many bytes there are up to its end, so its last number is `input_len`; `words` says how many
   of the pieces are words. Words are UTF-8. A path is any bytes: a file is found where a word, or a line of a list that
   a word names, has the same bytes. Of two files with one path the first counts; a file that no word names isn't read.

   The text stands in `text` and the log in `log`, as far as they fit, without a NUL behind them; the rest of a room
   stays as it was. `sizes` says how long both are. Where one is longer than its room, the status is CVR_NO_ROOM, and a
   second call with so much room answers the rest: give `input_len` bytes for each at first, and ask again once. Where
   memory ran out, the rooms and `sizes` have what was printed and logged before.

   All that is passed stays the caller's. Input and ends are only read; the rooms and `sizes` are written, and may not
   overlap each other or what is read. No pointer may be NULL, even where its length is 0. Nothing is kept between
   calls, so several threads may call at once. Memory is taken by malloc and given back before the call returns; of each
   file that is read there is a copy until it is imported. The call may not be made in a signal handler. It opens no
   file, and never prints or ends the process. */
uint8_t cvr_call(const uint8_t *input, size_t input_len, const size_t *ends, size_t ends_len, size_t words,
                 uint8_t *text, size_t text_len, uint8_t *log, size_t log_len, CvrSizes *sizes);

/* ---- offices

   An office collects files beside one definition: it holds facts, each once, whatever the order in which they come. C
   holds a handle, which begins as CVR_NO_HANDLE and has an office from `cvr_office_new` to `cvr_office_free`. In between, C
   neither writes nor copies what is in the handle, and passes it to one call at a time, on the thread that made the office.
   Several threads may have offices of their own. A call on a handle without an office answers CVR_NO_OFFICE, and does
   nothing. What else is passed is the caller's, as above: no pointer is NULL, and what is written overlaps nothing else. An
   office keeps no pointer to it. Where memory ran out, the status is CVR_MEMORY. */
typedef struct {
    void *office;
} CvrOffice;

#define CVR_NO_HANDLE {0}

/* Why a definition or a file was refused: the numbers of its code in docs/FAULTS.md (1 for E1) and of the rule that it
   breaks (0 of a code without rules), and how many bytes the path of the place in the file has. */
typedef struct {
    uint8_t code;
    uint8_t rule;
    size_t path;
} CvrRefusal;

/* What an import brought: the cast vote records of the file, and the facts that were new. */
typedef struct {
    size_t cvrs;
    size_t new_facts;
} CvrReceipt;

/* Makes an office, in a handle that has none or another, which is freed. Its definition is any file that has no fault by
   itself; its records aren't taken. Where it is refused, the status is CVR_REFUSED, `refusal` says why, the path stands in
   `path` as far as it fits, and the handle stays as it was. */
uint8_t cvr_office_new(CvrOffice *office, const uint8_t *definition, size_t definition_len, uint8_t *path, size_t path_len,
                       CvrRefusal *refusal);

/* Has the office take in a file. Where it is refused, the status is CVR_REFUSED, with `refusal` and `path` as above, and
   the office stays as it was. `receipt` is written where the status is CVR_DONE; `refusal` and `path` where it is
   CVR_REFUSED, or CVR_MEMORY, which has the code of E6 and no path. */
uint8_t cvr_office_import(CvrOffice *office, const uint8_t *file, size_t file_len, CvrReceipt *receipt, uint8_t *path,
                          size_t path_len, CvrRefusal *refusal);

/* Has the office take in what the other holds, which stays as it is. `new_facts` says how many facts were new: 0 where both
   are one handle. Where the definitions differ (devices aside), the status is CVR_OTHER_DEFINITION, and the office stays as
   it was. */
uint8_t cvr_office_join(CvrOffice *office, CvrOffice *other, size_t *new_facts);

/* What the commands `tally`, `currents` and `conflicts` print of all that the office holds. The text stands in `text` as
   far as it fits, and `size` says how long it is: where it is longer, the status is CVR_NO_ROOM. Both are written where
   the status is CVR_DONE or CVR_NO_ROOM. */
uint8_t cvr_office_tally(CvrOffice *office, uint8_t *text, size_t text_len, size_t *size);
uint8_t cvr_office_currents(CvrOffice *office, uint8_t *text, size_t text_len, size_t *size);
uint8_t cvr_office_conflicts(CvrOffice *office, uint8_t *text, size_t text_len, size_t *size);

/* What the command `merge` prints of all that the office holds: volume `number` under a date and a device, with `text` and
   `size` as above. Date and device are UTF-8, and numbers begin with 1: else the status is CVR_COMMAND_LINE. Where there is
   no such volume, it is the first that applies of CVR_NOT_MOMENT, CVR_NO_DEVICE and CVR_NO_VOLUME. `text` and `size` are
   written where the status is CVR_DONE or CVR_NO_ROOM. The last line of the conflicts says how many volumes there are. */
uint8_t cvr_office_volume(CvrOffice *office, const uint8_t *date, size_t date_len, const uint8_t *device, size_t device_len,
                          size_t number, uint8_t *text, size_t text_len, size_t *size);

/* Frees the office of a handle, if it has one. The handle can then be given to `cvr_office_new` again. NULL is no handle,
   and nothing is done. */
void cvr_office_free(CvrOffice *office);

#ifdef __cplusplus
}
#endif

#endif
