/* Counts what a program and the library in it take and give back, and refuses a growth, in the place of glibc's functions. Not
   on Windows, where the memory of a DLL can't be got at, nor with APART, of a library in another process. */
#if !defined _WIN32 && !defined APART
#define COUNTED
#include <malloc.h>
#include <stdlib.h>

void *__libc_malloc(size_t size), *__libc_realloc(void *held, size_t size);
void __libc_free(void *held);
static _Atomic long long live, taken, refused;      /* bytes that are held; growths so far; which of them is refused */

void *malloc(size_t size) {
    void *found = ++taken == refused ? NULL : __libc_malloc(size);
    live += found ? (long long)malloc_usable_size(found) : 0;
    return found;
}

void *realloc(void *held, size_t size) {
    long long before = held ? (long long)malloc_usable_size(held) : 0;
    void *found = ++taken == refused ? NULL : __libc_realloc(held, size);
    live += found ? (long long)malloc_usable_size(found) - before : 0;
    return found;
}

void free(void *held) {
    live -= held ? (long long)malloc_usable_size(held) : 0;
    __libc_free(held);
}
#endif
