/* Tries tools/heap.c, over a memory that stands at a low address: many calls of random sizes, which blocks they overlap,
   that each keeps its bytes, that a refused growth changes nothing, and that what is freed joins to one block. What the
   host frees has to be its own: else there is a trap with words, and nothing is changed. */
#define _GNU_SOURCE
#include <setjmp.h>
#include <stdio.h>
#include <stdlib.h>
#include <string.h>
#include <sys/mman.h>

enum { FIRST = 4096, MORE = 40, HELD = 500, CALLS = 100000 };       /* pages before it, of it at most; blocks; calls */

static unsigned long pages = FIRST + 1, most = FIRST + MORE;

static unsigned long grow(unsigned long more) {
    if (pages + more > most)
        return ~0ul;
    return (pages += more) - more;
}

static jmp_buf trapped;

#define __asm__(text) struct Unused
#define __builtin_trap() longjmp(trapped, 1)
#define __builtin_wasm_memory_size(memory) pages
#define __builtin_wasm_memory_grow(memory, more) grow(more)
#include "../../tools/heap.c"

static struct { unsigned char *bytes, mark; u64 size; } held[HELD];
static int right, wrong;

static void tell(int is_right, const char *what) {
    *(is_right ? &right : &wrong) += 1;
    if (!is_right)
        printf("WRONG: not so: %s\n", what);
}

static u64 random_size(void) {
    return random() % 16 == 0 ? random() % (1 << 18) : random() % 4 == 0 ? random() % 5000 : random() % 200;
}

/* Whether the blocks stand side by side from the first to the end, no two free ones among them, and their bytes in use. */
static int is_whole(u64 *in_use) {
    u64 before = 0, was_free = 0;
    *in_use = 0;
    for (Block *block = at(rounded((u64)&__heap_base)); block != end; block = behind(block)) {
        if (block->before != before || (was_free && is_free(block)) || size_of(block) < 16 || size_of(block) % 16)
            return 0;
        before = size_of(block);
        was_free = is_free(block);
        *in_use += was_free ? 0 : before;
    }
    return end->before == before && (u64)end + HEAD == pages * PAGE;
}

static int keeps(int n, u64 size) {
    for (u64 at = 0; at < size; at++)
        if (held[n].bytes[at] != held[n].mark)
            return 0;
    return 1;
}

static void fill(int n, void *bytes, u64 size) {
    held[n].bytes = bytes;
    held[n].size = size;
    held[n].mark = random();
    memset(bytes, held[n].mark, size);
}

/* One call on a block: it is taken, grown or cut, or freed. Answers whether it was refused. */
static int call(int n, int *is_right) {
    u64 size = random_size();
    if (!held[n].bytes) {
        Answer answer = rattle_alloc(size, 16);
        if (answer.is_given)
            fill(n, answer.bytes, size);
        *is_right &= !((u64)answer.bytes % 16);
        return !answer.is_given;
    }
    *is_right &= keeps(n, held[n].size);
    if (random() % 2) {
        rattle_dealloc(held[n].bytes);
        held[n].bytes = 0;
        return 0;
    }
    u64 kept = held[n].size < size ? held[n].size : size;
    Answer answer = rattle_realloc(held[n].bytes, kept, size, 16);
    if (answer.is_given) {
        held[n].bytes = answer.bytes;
        *is_right &= keeps(n, kept);
        fill(n, answer.bytes, size);
    }
    return !answer.is_given;
}

/* Whether the host can't free a block, and is told so, once. */
static int is_refused(void *bytes) {
    u64 in_use, before = used;
    if (!setjmp(trapped)) {
        cvr_free(bytes);
        return 0;
    }
    return !strncmp(cvr_said(), "cvr_free: ", 10) && !cvr_said() && used == before && is_whole(&in_use);
}

/* What the host frees: a block of the program, one that is free already, parts of one, and places where there is none. */
static void try_host(void) {
    char *its = cvr_malloc(100), *last = cvr_malloc(0), *other = rattle_alloc(100, 16).bytes;
    memset(its, 1, 100);
    tell(its && last && !((u64)its % 16), "the host is given blocks");
    tell(is_refused(other), "the host can't free a block of the program");
    tell(is_refused(its + 1) && is_refused(its + 16) && is_refused(its - 16), "the host can't free parts of a block");
    tell(is_refused(0) && is_refused((void *)8) && is_refused((void *)~0xful) && is_refused((char *)end + 64), "there are no blocks elsewhere");
    cvr_free(its);
    tell(is_refused(its), "a block can't be freed twice");
    cvr_free(last);
    rattle_dealloc(other);
}

int main(void) {
    u64 in_use, refused = 0;
    int is_right = 1, whole = 1;
    void *place = mmap((void *)((u64)FIRST * PAGE), (u64)MORE * PAGE, PROT_READ | PROT_WRITE, MAP_PRIVATE | MAP_ANONYMOUS | MAP_FIXED_NOREPLACE, -1, 0);
    if (place != (void *)((u64)FIRST * PAGE))
        return 2;
    for (int n = 0; n < CALLS; n++) {
        refused += call(random() % HELD, &is_right);
        if (n % 1000 == 0)
            whole &= is_whole(&in_use) && in_use == used;
    }
    tell(is_right, "each block keeps its bytes, and stands at a multiple of 16");
    tell(whole, "the blocks are whole, and what is in use is counted");
    tell(refused > 100, "growths are refused");
    tell(!cvr_malloc(1ull << 32) && !cvr_malloc(~0ull), "4 GiB are refused");
    for (int n = 0; n < HELD; n++)
        if (held[n].bytes)
            rattle_dealloc(held[n].bytes);
    try_host();
    tell(is_whole(&in_use) && !used && behind(at(rounded((u64)&__heap_base))) == end, "what is freed is one block");
    printf("heap: %d right, %d wrong\n", right, wrong);
    return wrong || !right;
}
