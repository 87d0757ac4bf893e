// The heap of the page's module, over the module's own memory: what malloc is to the program on a machine.
//
// rattle's code calls rattle_alloc, rattle_realloc and rattle_dealloc, whose contracts stand in the kit's crate libc.
// The page calls page_take for the room of what it hands in. An instance of the module serves one call and is then
// thrown away, so nothing is ever given back to the engine.
//
// A block has 2^k bytes, of which the first 16 are the heap's: they keep k, and what is handed out stays aligned by
// 16, the most that a contract asks. A free block of each k is the head of a list; the next one's place stands where
// the block's own bytes were.

typedef unsigned char byte;
typedef unsigned long long word;

// How rattle's code is answered: whether there was room, and where.
struct tried {
    word ok;
    byte *place;
};

enum { HEAD = 16, LEAST = 5, CLASSES = 41, PAGE_BITS = 16 };

// The linker's: the first byte behind what the module was built with.
extern byte __heap_base;

static byte *free_blocks[CLASSES];
static word top;
static word end;

static byte *block_of(byte *place) { return place - HEAD; }

static word class_of(byte *place) { return *(word *)block_of(place); }

// The least k whose blocks hold so many bytes and a head.
static word class_for(word bytes) {
    word k = LEAST;
    while ((1ULL << k) < bytes + HEAD) k++;
    return k;
}

// Makes the memory end at least so many bytes behind the top; by an eighth of itself where it can, so that it seldom
// grows. The answer is whether there was room.
static int grow(word bytes) {
    word needed = (top + bytes - end + (1ULL << PAGE_BITS) - 1) >> PAGE_BITS;
    word eighth = end >> (PAGE_BITS + 3);
    word pages = needed > eighth ? needed : eighth;
    if (__builtin_wasm_memory_grow(0, pages) == (word)-1) {
        pages = needed;
        if (__builtin_wasm_memory_grow(0, pages) == (word)-1) return 0;
    }
    end += pages << PAGE_BITS;
    return 1;
}

// A block of class k from memory that was never handed out, or nothing.
static byte *fresh_block(word k) {
    if (!top) {
        top = ((word)&__heap_base + HEAD - 1) & ~(word)(HEAD - 1);
        end = (word)__builtin_wasm_memory_size(0) << PAGE_BITS;
    }
    word bytes = 1ULL << k;
    if (end - top < bytes && !grow(bytes)) return 0;
    byte *block = (byte *)top;
    top += bytes;
    *(word *)block = k;
    return block;
}

static byte *take(word bytes) {
    // More than any engine has; so the sums above stay far below 2^64.
    if (bytes > (1ULL << (CLASSES - 1)) - HEAD) return 0;
    word k = class_for(bytes);
    byte *place = free_blocks[k];
    if (place) {
        free_blocks[k] = *(byte **)place;
        return place;
    }
    byte *block = fresh_block(k);
    return block ? block + HEAD : 0;
}

static void give(byte *place) {
    word k = class_of(place);
    *(byte **)place = free_blocks[k];
    free_blocks[k] = place;
}

// Where there was no room the place is not looked at, but it must be no null.
static struct tried answer(byte *place) { return (struct tried){place != 0, place ? place : (byte *)HEAD}; }

struct tried rattle_alloc(word bytes, word align) {
    (void)align;
    return answer(take(bytes));
}

struct tried rattle_realloc(byte *place, word kept, word bytes, word align) {
    (void)align;
    if (bytes <= (1ULL << class_of(place)) - HEAD) return answer(place);
    byte *moved = take(bytes);
    if (!moved) return answer(0);
    __builtin_memcpy(moved, place, kept < bytes ? kept : bytes);
    give(place);
    return answer(moved);
}

void rattle_dealloc(byte *place) { give(place); }

// Room for what the page hands in, or 0.
__attribute__((export_name("page_take"))) byte *page_take(word bytes) { return take(bytes); }
