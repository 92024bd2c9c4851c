/* Prints what tools/system.c says of an open file and of standard input: the length, and the time of the last writing in
   tenths of a microsecond; or `no file`. */
#include <stdint.h>
#include <stdio.h>
#include <string.h>

int cvr_open(const char *path, int flags, ...);
int cvr_statx(int file, const char *path, int flags, unsigned mask, void *found);

static void look(int file) {
    unsigned char found[256];
    uint16_t mode;
    uint64_t size;
    int64_t seconds;
    uint32_t nanoseconds;
    if (cvr_statx(file, "", 0, 0, found)) {
        puts("no file");
        return;
    }
    memcpy(&mode, found + 28, sizeof mode);     /* where Linux's struct statx has them */
    memcpy(&size, found + 40, sizeof size);
    memcpy(&seconds, found + 112, sizeof seconds);
    memcpy(&nanoseconds, found + 120, sizeof nanoseconds);
    printf("%x %lld %lld%07u\n", mode, (long long)size, (long long)seconds, nanoseconds / 100);
}

int cvr_main(void) {
    look(cvr_open("f2.json", 0));
    look(0);
    return 0;
}
