/* What the library asks of an allocator, in the memory of a WebAssembly module: lists of free blocks by size, above the
 * stack and the data. The memory grows as it must, and never shrinks. */
typedef unsigned int u32;
typedef unsigned long long u64;
typedef __UINTPTR_TYPE__ uptr;
typedef unsigned char u8;

_Static_assert(sizeof(uptr) == 4, "addresses have 32 bits");

extern u8 __heap_base;

/* An allocation, as the library reads it: whether it succeeded, in the low byte, and where it is. */
struct allocation {
    u64 ok, place;
};

/* What is in front of each block: its size, and the next block of its list while it is free. */
struct head {
    u64 size;
    struct head *next;
};

/* Blocks are aligned to so many bytes, and so are their sizes. */
enum { ALIGN = 16, HEAD = sizeof(struct head), LISTS = 64, PAGE = 65536, MANY_PAGES = 16 };

_Static_assert(HEAD % ALIGN == 0, "a head keeps its block aligned");

/* No block is larger than a quarter of what 32 bits address. */
static const u64 LARGEST = 1ULL << 30;

/* Where a block of no bytes is, and where one is said to be that is refused. */
enum { NOWHERE = ALIGN };

static struct head *lists[LISTS];

/* Where the next new block begins, and where the memory ends. */
static uptr top, end;

#ifdef TINYJSON_REFUSES
/* How many allocations are granted before one is refused; a negative number refuses none. */
static long long granted = -1;

__attribute__((export_name("grant"))) void grant(int number) {
    granted = number;
}

__attribute__((export_name("granted"))) int granted_now(void) {
    return (int)granted;
}

static int is_granted(void) {
    return granted < 0 || granted-- > 0;
}
#else
static int is_granted(void) {
    return 1;
}
#endif

/* The list of the blocks for a size of at most LARGEST, and the size of its blocks: two sizes for each power of two, of
 * which the least is 32. */
static u32 list_of(u64 size, u64 *rounded) {
    if (size <= 32) {
        *rounded = 32;
        return 0;
    }
    u32 bits = 63 - (u32)__builtin_clzll(size - 1); /* 2^bits < size <= 2^(bits + 1) */
    u64 whole = 1ULL << bits, half = whole + whole / 2;
    *rounded = size <= half ? half : 2 * whole;
    return 2 * (bits - 5) + (size <= half ? 1 : 2);
}

/* Moves the top of the heap by so many bytes, and grows the memory if it must. */
static int raise_top(u64 by) {
    u64 to = (u64)top + by;
    if (to > (1ULL << 32) - PAGE) {
        return 0;
    }
    if (to > end) {
        u64 pages = (to - end + PAGE - 1) / PAGE, more = pages < MANY_PAGES ? MANY_PAGES : pages;
        if (__builtin_wasm_memory_grow(0, (uptr)more) == (uptr)-1) {
            more = pages;
            if (__builtin_wasm_memory_grow(0, (uptr)more) == (uptr)-1) {
                return 0;
            }
        }
        end += (uptr)more * PAGE;
    }
    top = (uptr)to;
    return 1;
}

/* A block of a size, or 0. */
static u8 *block(u64 size) {
    if (size > LARGEST) {
        return 0;
    }
    u64 rounded;
    u32 list = list_of(size, &rounded);
    struct head *found = lists[list];
    if (found) {
        lists[list] = found->next;
        return (u8 *)found + HEAD;
    }
    if (!top) {
        top = ((uptr)&__heap_base + ALIGN - 1) & ~(uptr)(ALIGN - 1);
        end = (uptr)__builtin_wasm_memory_size(0) * PAGE;
    }
    struct head *made = (struct head *)top;
    if (!raise_top(HEAD + rounded)) {
        return 0;
    }
    made->size = rounded;
    return (u8 *)made + HEAD;
}

static void release(u8 *place) {
    struct head *freed = (struct head *)(place - HEAD);
    u64 rounded;
    u32 list = list_of(freed->size, &rounded);
    freed->next = lists[list];
    lists[list] = freed;
}

static struct allocation allocation_at(u8 *place) {
    return (struct allocation){place != 0, place ? (uptr)place : NOWHERE};
}

struct allocation rattle_alloc(u64 size, u64 align) {
    return allocation_at(is_granted() && align <= ALIGN ? block(size) : 0);
}

struct allocation rattle_realloc(u8 *place, u64 kept, u64 size, u64 align) {
    struct head *head = (struct head *)(place - HEAD);
    if (!is_granted() || align > ALIGN || size > LARGEST) {
        return allocation_at(0);
    }
    if (size <= head->size) {
        return allocation_at(place);
    }
    u64 rounded;
    list_of(size, &rounded);
    /* The last block grows where it is. */
    if ((uptr)place + (uptr)head->size == top) {
        if (!raise_top(rounded - head->size)) {
            return allocation_at(0);
        }
        head->size = rounded;
        return allocation_at(place);
    }
    u8 *moved = block(size);
    if (moved) {
        __builtin_memcpy(moved, place, (uptr)kept);
        release(place);
    }
    return allocation_at(moved);
}

void rattle_dealloc(u8 *place) {
    release(place);
}
