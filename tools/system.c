/* What the program calls of a system, on systems for which the kit has no C library of its own: Windows, and Linux on
   ARM. It passes on words, memory, the opening and reading of files, what they are, and writing; tools/targets links it.
   On Windows paths and words are UTF-8 here, and no end of a line is changed. Of errno the program tells apart EINTR and
   ENOMEM, whose numbers are those of Linux. With LIBRARY it has memory alone, which is all that the library calls. */
#include <errno.h>
#include <stdint.h>
#include <stdlib.h>
#include <string.h>

#ifndef LIBRARY
/* ---- words */

static int64_t count;
static char **words;

/* A word's length, once its bytes are at `into`; -1 where there is none, -2 where it has no room. */
int64_t rattle_arg(int64_t at, char *into, int64_t room) {
    if (at < 0 || at >= count) return -1;
    size_t length = strlen(words[at]);
    if (length > (uint64_t)room) return -2;
    memcpy(into, words[at], length);
    return (int64_t)length;
}

int rattle_errno(void) { return errno; }

void rattle_set_errno(int number) { errno = number; }
#endif

/* ---- memory */

#ifdef _WIN32
#define BY_REGISTERS __attribute__((sysv_abi))      /* the text expects both numbers of an answer in registers */
#else
#define BY_REGISTERS
#endif

typedef struct { uint64_t is_there; void *place; } Tried;

static Tried tried(void *place) {
    static uint64_t nothing[2];
    return (Tried){place != NULL, place ? place : nothing};
}

BY_REGISTERS Tried rattle_alloc(size_t size, size_t alignment) { return tried(malloc(size ? size : alignment)); }

BY_REGISTERS Tried rattle_realloc(void *place, size_t old, size_t size, size_t alignment) {
    (void)old;
    return tried(realloc(place, size ? size : alignment));
}

void rattle_dealloc(void *place) { free(place); }

#ifndef LIBRARY
#ifndef _WIN32
/* ---- Linux */

/* glibc hands the words also to what runs before `main`. */
__attribute__((constructor)) static void keep(int number, char **given) {
    count = number;
    words = given;
}
#else

/* ---- Windows: what the text calls by names of POSIX, which tools/targets begins with cvr_ */

#include <cpuid.h>
#include <fcntl.h>
#include <io.h>
#include <wchar.h>
#include <windows.h>
#include <shellapi.h>

enum { MOST = 32768, AT_ONCE = 1 << 30 };

/* A path of MAX_PATH units or more in the form that has no such limit. */
static const wchar_t *long_form(const wchar_t *path) {
    static wchar_t whole[8 + MOST];
    wchar_t *from = whole + 8;
    DWORD length = GetFullPathNameW(path, MOST, from, NULL);
    int is_share = from[0] == L'\\' && from[1] == L'\\', is_long = is_share && (from[2] == L'?' || from[2] == L'.');
    if (length < MAX_PATH || length >= MOST || is_long) return path;
    return is_share ? wmemcpy(whole + 2, L"\\\\?\\UNC", 7) : wmemcpy(whole + 4, L"\\\\?\\", 4);
}

/* The program only reads, so its flags say nothing. */
int cvr_open(const char *path, int flags, ...) {
    static wchar_t wide[MOST];
    (void)flags;
    if (!strcmp(path, "/dev/stdin")) return _dup(0);
    if (!MultiByteToWideChar(CP_UTF8, MB_ERR_INVALID_CHARS, path, -1, wide, MOST)) {
        errno = ENOENT;
        return -1;
    }
    return _wopen(long_form(wide), _O_RDONLY | _O_BINARY | _O_NOINHERIT);
}

static unsigned part(int64_t size) { return size < AT_ONCE ? (unsigned)size : AT_ONCE; }

int64_t cvr_read(int file, void *into, int64_t size) { return _read(file, into, part(size)); }

int64_t cvr_write(int file, const void *from, int64_t size) { return _write(file, from, part(size)); }

int cvr_close(int file) { return _close(file); }

int cvr_isatty(int file) {
    DWORD mode;
    return GetConsoleMode((HANDLE)_get_osfhandle(file), &mode) != 0;
}

/* Linux's struct statx, and one of its times. */
typedef struct { int64_t seconds; uint32_t nanoseconds, unused; } Time;

typedef struct {
    uint32_t mask, block;
    uint64_t attributes;
    uint32_t links, user, group;
    uint16_t mode, unused;
    uint64_t number, size, blocks, attributes_mask;
    Time read, created, changed, written;
    uint64_t more[16];
} Found;

_Static_assert(sizeof(Found) == 256, "struct statx");

enum { IS_FILE = 0x8000, TO_1970 = 11644473600 };

/* Of a file, which is open or has this path, the length, the time at which it was written to last, and that it is a
   file. The program asks for no other. */
int cvr_statx(int file, const char *path, int flags, unsigned mask, Found *found) {
    if (*path) {
        int opened = cvr_open(path, 0), answer = opened < 0 ? -1 : cvr_statx(opened, "", flags, mask, found);
        if (opened >= 0) _close(opened);
        return answer;
    }
    BY_HANDLE_FILE_INFORMATION has;
    HANDLE handle = (HANDLE)_get_osfhandle(file);
    if (GetFileType(handle) != FILE_TYPE_DISK || !GetFileInformationByHandle(handle, &has)) {
        errno = EBADF;
        return -1;
    }
    uint64_t ticks = (uint64_t)has.ftLastWriteTime.dwHighDateTime << 32 | has.ftLastWriteTime.dwLowDateTime;
    memset(found, 0, sizeof *found);
    found->mode = IS_FILE;
    found->size = (uint64_t)has.nFileSizeHigh << 32 | has.nFileSizeLow;
    found->written = (Time){(int64_t)(ticks / 10000000) - TO_1970, (uint32_t)(ticks % 10000000) * 100, 0};
    return 0;
}

int cvr_strerror(int number, char *into, int64_t room) { return strerror_s(into, (size_t)room, number); }

/* Windows has no SIGPIPE: writing to a closed pipe fails. */
int64_t cvr_signal(int number, int64_t how) { return (void)number, (void)how, 0; }

/* What the processor has, in glibc's form: four words, then the same four, of cpuid 1 or 0x80000001. */
void *cvr_features(int leaf) {
    static unsigned has[8];
    __get_cpuid(leaf ? 0x80000001u : 1, has + 4, has + 5, has + 6, has + 7);
    return memcpy(has, has + 4, 16);
}

/* A word as UTF-8; one that isn't UTF-16 as a byte that isn't UTF-8. NULL where memory is short. */
static char *narrow(const wchar_t *wide) {
    int size = WideCharToMultiByte(CP_UTF8, WC_ERR_INVALID_CHARS, wide, -1, NULL, 0, NULL, NULL);
    char *word = size ? malloc((size_t)size) : strdup("\xff");
    if (size && word) WideCharToMultiByte(CP_UTF8, 0, wide, -1, word, size, NULL, NULL);
    return word;
}

/* Whether memory had room for the words. */
static int read_words(void) {
    int number;
    wchar_t **wide = CommandLineToArgvW(GetCommandLineW(), &number);
    if (!wide || !(words = calloc((size_t)number, sizeof *words))) return 0;
    while (count < number && (words[count] = narrow(wide[count]))) count++;
    return count == number;
}

int cvr_main(void);

int main(void) {
    UINT before = GetConsoleOutputCP();
    for (int file = 0; file < 3; file++) _setmode(file, _O_BINARY);
    if (!read_words()) {
        _write(2, "memory\n", 7);
        return 4;
    }
    SetConsoleOutputCP(CP_UTF8);
    int status = cvr_main();
    if (before) SetConsoleOutputCP(before);
    return status;
}
#endif
#endif
