/* Loaded beside a program by LD_PRELOAD, takes the place of a device that it reads from or writes to.

   DEVICE=`STREAM CALL HOW`. STREAM is 0 for the files that are read, 1 for standard output, 2 for standard error. Each
   call on it reads or writes one byte. HOW says what happens at call number CALL, counted from 1 over all files:
   `fails` answers an error, `nothing` reads or writes nothing, `killed` ends the program by SIGKILL; and before the byte
   is read `grows` puts a blank behind the file, and `rewritten` writes its first byte again. Where STREAM is
   3, the call is one that opens a file: `denied` answers that it may not be read, `lacking` that there is no memory.
   Other calls are as usual. */
#include <errno.h>
#include <fcntl.h>
#include <signal.h>
#include <stdio.h>
#include <stdlib.h>
#include <sys/syscall.h>
#include <unistd.h>

static int stream = -1;
static long last, calls;
static char how[16];

/* Writes to the file that is being read, as another program may. */
static void change(int file) {
    char path[40], byte = ' ';
    snprintf(path, sizeof path, "/proc/self/fd/%d", file);
    int to = syscall(SYS_openat, AT_FDCWD, path, how[0] == 'g' ? O_WRONLY | O_APPEND : O_RDWR, 0);
    if (how[0] == 'r' && syscall(SYS_pread64, to, &byte, 1, 0L) != 1)
        _exit(97);
    if (syscall(SYS_pwrite64, to, &byte, 1, 0L) != 1)
        _exit(97);
    syscall(SYS_close, to);
}

/* A call of the system, for one byte where it is on the stream. */
static ssize_t call(long number, int is_on_stream, int file, const void *bytes, size_t size) {
    if (!is_on_stream)
        return syscall(number, file, bytes, size);
    int is_last = ++calls == last, is_changed = how[0] == 'g' || how[0] == 'r';
    if (is_last && is_changed)
        change(file);
    if (!is_last || is_changed)
        return syscall(number, file, bytes, size < 1 ? size : 1);
    if (how[0] == 'k')
        kill(getpid(), SIGKILL);
    errno = EIO;
    return how[0] == 'n' ? 0 : -1;
}

ssize_t read(int file, void *bytes, size_t size) { return call(SYS_read, stream == 0, file, bytes, size); }

ssize_t write(int file, const void *bytes, size_t size) {
    return call(SYS_write, stream == file && file > 0, file, bytes, size);
}

ssize_t __write(int file, const void *bytes, size_t size) { return write(file, bytes, size); }

/* The program opens files to read them alone, so there is no mode. */
int open(const char *path, int flags, ...) {
    if (stream != 3 || ++calls != last)
        return syscall(SYS_openat, AT_FDCWD, path, flags, 0);
    errno = how[0] == 'l' ? ENOMEM : EACCES;
    return -1;
}

__attribute__((constructor)) static void start(void) {
    const char *words = getenv("DEVICE");
    if (!words || sscanf(words, "%d %ld %15s", &stream, &last, how) != 3)
        _exit(97);
}
