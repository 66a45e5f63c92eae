/* What the C library is elsewhere: the memory of the checks in the page, and what compiled code may call. No proof covers it.
 *
 * Each block has a power of two of bytes; the first 16 keep which one. A freed block waits in the list of its size. Nothing
 * is given back to the browser: bindings/node/library.js lets an instance go whose memory has grown. */
typedef __SIZE_TYPE__ size_t;
typedef __UINT32_TYPE__ uint32_t;
typedef __UINT64_TYPE__ uint64_t;

#define NULL ((void *)0)
#define MOST 0xFFFFFFFFu

typedef struct block {
    uint64_t size; /* the block has 2^size bytes */
    struct block *next;
} block;

enum { HEAD = 16, SMALLEST = 5, SIZES = 32, PAGE = 65536 };

_Static_assert(sizeof(size_t) == 4 && sizeof(block) == HEAD, "addresses have 32 bits");

extern unsigned char __heap_base;
static uint64_t top;
static block *spare[SIZES];

static block *block_of(void *room) { return (block *)((unsigned char *)room - HEAD); }

/* A block at the end of the memory, which grows where it is too small. */
static block *new_block(unsigned size) {
    if (top == 0) {
        top = ((uint64_t)(size_t)&__heap_base + 15) & ~(uint64_t)15;
    }
    uint64_t end = top + ((uint64_t)1 << size);
    uint64_t have = (uint64_t)__builtin_wasm_memory_size(0) * PAGE;
    if (end > MOST || (end > have && __builtin_wasm_memory_grow(0, (size_t)((end - have + PAGE - 1) / PAGE)) == MOST)) {
        return NULL;
    }
    block *it = (block *)(size_t)top;
    top = end;
    it->size = size;
    return it;
}

/* Room for so many bytes, at a multiple of 16, or NULL. */
static void *room(uint64_t bytes) {
    unsigned size = SMALLEST;
    if (bytes > MOST) {
        return NULL;
    }
    while (((uint64_t)1 << size) < bytes + HEAD) {
        size++;
    }
    if (size >= SIZES) {
        return NULL;
    }
    block *it = spare[size];
    if (it != NULL) {
        spare[size] = it->next;
    } else {
        it = new_block(size);
    }
    return it == NULL ? NULL : (unsigned char *)it + HEAD;
}

/* ---- for the page: room for what it writes and reads; NULL where there is none */

void *page_room(uint32_t bytes) { return room(bytes); }

/* ---- for the compiled code, by the names that it has for malloc, free and realloc */

typedef struct {
    uint64_t is_there;
    uint64_t place;
} found;

static unsigned char nothing[HEAD] __attribute__((aligned(HEAD)));

static found answer(void *it) {
    found result = {it != NULL, (size_t)(it == NULL ? nothing : it)};
    return result;
}

found rattle_alloc(uint64_t bytes, uint64_t alignment) { return answer(alignment > HEAD ? NULL : room(bytes)); }

void rattle_dealloc(void *old) {
    if (old != NULL) {
        block *it = block_of(old);
        it->next = spare[it->size];
        spare[it->size] = it;
    }
}

found rattle_realloc(void *old, uint64_t old_bytes, uint64_t bytes, uint64_t alignment) {
    if (alignment > HEAD || bytes > MOST) {
        return answer(NULL);
    }
    if (old == NULL) {
        return answer(room(bytes));
    }
    if (bytes + HEAD <= (uint64_t)1 << block_of(old)->size) {
        return answer(old);
    }
    void *it = room(bytes);
    if (it != NULL) {
        __builtin_memcpy(it, old, (size_t)(old_bytes < bytes ? old_bytes : bytes));
        rattle_dealloc(old);
    }
    return answer(it);
}

/* ---- what a compiler expects of every machine */

/* The product of two numbers of 128 bits. */
__uint128_t __multi3(uint64_t a, uint64_t a_high, uint64_t b, uint64_t b_high) {
    const uint64_t half = MOST;
    uint64_t low = (a & half) * (b & half);
    uint64_t one = (a >> 32) * (b & half) + (low >> 32);
    uint64_t two = (a & half) * (b >> 32) + (one & half);
    uint64_t high = (a >> 32) * (b >> 32) + (one >> 32) + (two >> 32) + a * b_high + a_high * b;
    return (__uint128_t)high << 64 | two << 32 | (low & half);
}

/* A number of 128 bits, moved up by less than 128. */
__uint128_t __ashlti3(uint64_t low, uint64_t high, int count) {
    if (count >= 64) {
        high = low << (count - 64);
        low = 0;
    } else if (count > 0) {
        high = high << count | low >> (64 - count);
        low <<= count;
    }
    return (__uint128_t)high << 64 | low;
}

int memcmp(const void *left, const void *right, size_t count) {
    const unsigned char *a = left, *b = right;
    for (size_t at = 0; at < count; at++) {
        if (a[at] != b[at]) {
            return a[at] < b[at] ? -1 : 1;
        }
    }
    return 0;
}

int bcmp(const void *left, const void *right, size_t count) { return memcmp(left, right, count); }
