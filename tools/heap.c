/* The heap of the WebAssembly module, whose memory starts small and grows; where a growth is refused, so is the program's.

   Blocks lie one behind the other, each behind a head with its size and that of the block before it, so that free
   neighbours are joined. Free blocks stand in lists by size, eight for each doubling. Each call takes constant time. */
typedef unsigned long long u64;

typedef struct Block {
    u64 before, size;           /* bytes behind the head; `before` is 0 of the first block; bit 0 of `size`: it is free */
    struct Block *next, *last;  /* in its list, where it is free */
} Block;

typedef struct {
    u64 is_given;
    void *bytes;
} Answer;

enum { HEAD = 16, PAGE = 65536, LISTS = 256 };
/* Less than 4 GiB, so that a stack that runs over, below address 0, leaves the memory. */
static const u64 MOST_PAGES = 65536 - 16;

extern unsigned char __heap_base;
static Block *lists[LISTS], *end;       /* `end`: the head behind the last block, of size 0; none before the first call */
static u64 filled[LISTS / 64], used;    /* the lists that aren't empty, a bit each; bytes in use */

/* A size in whole steps; one of 4 GiB or more is as good as that, which there never is. */
static u64 rounded(u64 size) { return size < 16 ? 16 : size >> 32 ? 1ull << 32 : (size + 15) & ~15ull; }
static u64 size_of(const Block *block) { return block->size & ~15ull; }
static int is_free(const Block *block) { return block->size & 1; }
static Block *at(u64 place) { return (Block *)place; }
static Block *behind(Block *block) { return at((u64)block + HEAD + size_of(block)); }

/* The list of a size: of its highest bit and the three bits behind it. */
static int list_of(u64 size) {
    int high = 63 - __builtin_clzll(size);
    return high << 3 | (size >> (high - 3) & 7);
}

static void put(Block *block) {
    int list = list_of(size_of(block));
    block->size |= 1;
    block->last = 0;
    block->next = lists[list];
    if (block->next)
        block->next->last = block;
    lists[list] = block;
    filled[list / 64] |= 1ull << list % 64;
}

static void take(Block *block) {
    int list = list_of(size_of(block));
    if (block->next)
        block->next->last = block->last;
    if (block->last)
        block->last->next = block->next;
    else if (!(lists[list] = block->next))
        filled[list / 64] &= ~(1ull << list % 64);
    block->size = size_of(block);
}

/* Frees a block, joined with its free neighbours; answers the joined one. */
static Block *give_back(Block *block) {
    Block *next = behind(block), *last = at((u64)block - HEAD - block->before);
    if (is_free(next)) {
        take(next);
        block->size += HEAD + next->size;
    }
    if (block->before && is_free(last)) {
        take(last);
        last->size += HEAD + block->size;
        block = last;
    }
    behind(block)->before = block->size;
    put(block);
    return block;
}

/* Cuts a block that is in use to a size, and frees the rest. */
static void cut(Block *block, u64 size) {
    Block *rest = at((u64)block + HEAD + size);
    if (block->size < size + HEAD + 16)
        return;
    rest->before = size;
    rest->size = block->size - size - HEAD;
    block->size = size;
    give_back(rest);
}

/* Grows the memory by pages, or by an eighth where that is more and not refused. */
static int grown(u64 pages) {
    u64 held = __builtin_wasm_memory_size(0), more = held / 8;
    if (more > pages && held + more <= MOST_PAGES && __builtin_wasm_memory_grow(0, more) != ~0ul)
        return 1;
    return held + pages <= MOST_PAGES && __builtin_wasm_memory_grow(0, pages) != ~0ul;
}

/* The last block, free and of at least a size, in a memory that is grown for it; 0 where that is refused. */
static Block *extended(u64 size) {
    Block *first = end ? end : at(rounded((u64)&__heap_base));
    u64 needed = (u64)first + HEAD + size + HEAD, top = __builtin_wasm_memory_size(0) * PAGE;
    if (needed > top && !grown((needed - top + PAGE - 1) / PAGE))
        return 0;
    first->size = __builtin_wasm_memory_size(0) * PAGE - (u64)first - HEAD - HEAD;
    end = behind(first);
    end->size = 0;
    return give_back(first);
}

/* A free block of at least a size, from the first list that has no shorter ones; 0 where there is none. */
static Block *find(u64 size) {
    int list = list_of(size - 1) + 1, word = list / 64;
    u64 found = list < LISTS ? filled[word] & ~0ull << list % 64 : 0;
    while (!found && ++word < LISTS / 64)
        found = filled[word];
    return found ? lists[word * 64 + __builtin_ctzll(found)] : 0;
}

/* ---- what the program calls */

Answer rattle_alloc(u64 count, u64 alignment) {
    (void)alignment;        /* at most 16 */
    u64 size = rounded(count);
    Block *block = find(size);
    if (!block && !(block = extended(size)))
        return (Answer){0, 0};
    take(block);
    cut(block, size);
    used += block->size;
    return (Answer){1, (char *)block + HEAD};
}

void rattle_dealloc(void *bytes) {
    Block *block = at((u64)bytes - HEAD);
    used -= block->size;
    give_back(block);
}

Answer rattle_realloc(void *bytes, u64 kept, u64 size, u64 alignment) {
    Block *block = at((u64)bytes - HEAD), *next = behind(block);
    u64 wanted = rounded(size), before = block->size;
    if (wanted > before && is_free(next) && before + HEAD + size_of(next) >= wanted) {
        take(next);
        block->size += HEAD + next->size;
        behind(block)->before = block->size;
    }
    if (wanted <= block->size) {
        cut(block, wanted);
        used += block->size - before;
        return (Answer){1, bytes};
    }
    Answer answer = rattle_alloc(size, alignment);
    if (answer.is_given) {
        __builtin_memcpy(answer.bytes, bytes, kept);
        rattle_dealloc(bytes);
    }
    return answer;
}

/* ---- what the host calls */

enum { MARK = 16 };         /* bytes before those of the host: whether they are its */
static const char *said;    /* why a call was cut off */

static u64 *mark_of(void *bytes) { return (u64 *)((u64)bytes - MARK); }
static u64 mark_at(u64 *mark) { return (u64)mark ^ 0x6376722e686f7374; }

void *cvr_malloc(u64 count) {
    Answer answer = rattle_alloc(count >> 32 ? count : count + MARK, 16);
    u64 *mark = answer.bytes;
    if (!answer.is_given)
        return 0;
    *mark = mark_at(mark);
    return (char *)mark + MARK;
}

/* Traps, with words in `cvr_said`, before anything is changed, where these bytes aren't the host's, or no longer. */
void cvr_free(void *bytes) {
    u64 place = (u64)bytes, first = (u64)&__heap_base + HEAD + MARK;
    u64 *mark = mark_of(bytes);
    if (place % 16 || place < first || place > (u64)end || *mark != mark_at(mark)) {
        said = "cvr_free: cvr_malloc did not give this address, or it is free already";
        __builtin_trap();
    }
    *mark = 0;
    rattle_dealloc(mark);
}

/* The bytes in use; and the words on what was last cut off here, once, with a NUL behind them, or 0. */
u64 cvr_used(void) { return used; }

const char *cvr_said(void) {
    const char *words = said;
    said = 0;
    return words;
}

/* The attribute export_name would make a table, which no module over a 64-bit memory can be read with. */
__asm__(".export_name cvr_malloc, cvr_malloc\n.export_name cvr_free, cvr_free\n.export_name cvr_used, cvr_used\n"
        ".export_name cvr_said, cvr_said");
