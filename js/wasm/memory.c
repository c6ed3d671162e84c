/* Memory of the WebAssembly module: C's own words for it, which ../../c/heap.c and the module of JavaScript take.
 *
 * All memory above the stack and the constants is one row of blocks, each with a head of 16 bytes: the size of the
 * block before it and its own, heads included, and in the lowest bit of that whether it is taken. Free blocks are in
 * lists by size, four lists for each power of two, and no two of them are neighbours. The last head, of size 0, is
 * always taken. */
#include <stdint.h>
#include <stdlib.h>

#define PAGE ((size_t)65536)
#define HEAD ((size_t)16)
#define LEAST ((size_t)32)
/* memory grows by this much at least */
#define GROWTH ((size_t)1 << 20)
/* no request above this is granted; sizes and their sums stay far from where they wrap */
#define MOST ((size_t)1 << 46)
#define LISTS 192
#define WORDS (LISTS / 64)

struct block {
    size_t size_before;
    size_t size;
    /* of a free block alone: its neighbours in its list */
    struct block *next;
    struct block *last;
};

/* What functions for 128-bit numbers of the compiler's own library take, which it has with guarded stacks: a number
 * that they put behind their variables, and the end where it has changed. */
uintptr_t __stack_chk_guard = 0x5bd1e995;

_Noreturn void __stack_chk_fail(void) {
    __builtin_trap();
}

extern char __heap_base;
static struct block *top;
static struct block *lists[LISTS];
static uint64_t filled[WORDS];
#ifdef REFUSING
/* how many requests are granted before one is refused; none is from UINT64_MAX on */
static uint64_t left = UINT64_MAX;
#endif

static size_t size_of(const struct block *it) {
    return it->size & ~(size_t)1;
}

static int is_taken(const struct block *it) {
    return it->size & 1;
}

static struct block *behind(struct block *it) {
    return (struct block *)((char *)it + size_of(it));
}

/* The list of blocks of a size: of sizes up to 5/4, 6/4, 7/4 and 8/4 of a power of two. */
static int list_of(size_t size) {
    int power = 63 - __builtin_clzll(size);
    return 4 * power + (int)((size >> (power - 2)) & 3);
}

/* The first list whose blocks have all at least a size. */
static int list_for(size_t size) {
    size_t step = (size_t)1 << (63 - __builtin_clzll(size) - 2);
    return list_of(size + step - 1);
}

static void set_size(struct block *it, size_t size, size_t taken) {
    it->size = size | taken;
    behind(it)->size_before = size;
}

static void put(struct block *it) {
    int at = list_of(it->size);
    it->last = NULL;
    it->next = lists[at];
    if (it->next != NULL)
        it->next->last = it;
    lists[at] = it;
    filled[at / 64] |= (uint64_t)1 << (at % 64);
}

static void pull(struct block *it) {
    int at = list_of(it->size);
    if (it->next != NULL)
        it->next->last = it->last;
    if (it->last != NULL)
        it->last->next = it->next;
    else
        lists[at] = it->next;
    if (lists[at] == NULL)
        filled[at / 64] &= ~((uint64_t)1 << (at % 64));
}

/* A block of the first list from one on that is not empty. */
static struct block *first_from(int at) {
    uint64_t rest = filled[at / 64] & (~(uint64_t)0 << (at % 64));
    for (int word = at / 64;;) {
        if (rest != 0)
            return lists[64 * word + __builtin_ctzll(rest)];
        if (++word == WORDS)
            return NULL;
        rest = filled[word];
    }
}

/* Frees a block that is in no list, together with free neighbours: the block that they are then. */
static struct block *join(struct block *it) {
    size_t size = size_of(it);
    struct block *next = behind(it);
    if (!is_taken(next)) {
        pull(next);
        size += next->size;
    }
    if (it->size_before != 0) {
        struct block *before = (struct block *)((char *)it - it->size_before);
        if (!is_taken(before)) {
            pull(before);
            size += before->size;
            it = before;
        }
    }
    set_size(it, size, 0);
    put(it);
    return it;
}

/* Lets a block that is taken keep a size, and frees the rest of it where that is a block. */
static void cut(struct block *it, size_t size) {
    size_t rest = size_of(it) - size;
    if (rest < LEAST)
        return;
    set_size(it, size, 1);
    struct block *other = behind(it);
    set_size(other, rest, 1);
    join(other);
}

/* A free block of at least a size, by which memory grew; or a null pointer. */
static struct block *grown(size_t size) {
    size_t first = ((size_t)&__heap_base + HEAD - 1) & ~(HEAD - 1);
    size_t end = top != NULL ? (size_t)top + HEAD : first + HEAD;
    size_t wanted = end + (size > GROWTH ? size : GROWTH), there = __builtin_wasm_memory_size(0) * PAGE;
    if (wanted > there) {
        size_t pages = (wanted - there + PAGE - 1) / PAGE;
        /* (a refusal is told by -1 of 64 bits or of 32, as the memory is) */
        if ((uint32_t)__builtin_wasm_memory_grow(0, pages) == UINT32_MAX)
            return NULL;
        there += pages * PAGE;
    }
    struct block *it = top != NULL ? top : (struct block *)first;
    if (top == NULL)
        it->size_before = 0;
    top = (struct block *)(there - HEAD);
    top->size = 1;
    set_size(it, (size_t)((char *)top - (char *)it), 1);
    return join(it);
}

static struct block *block_of(void *at) {
    return (struct block *)((char *)at - HEAD);
}

static size_t with_head(size_t size) {
    size_t whole = (size + HEAD + HEAD - 1) & ~(HEAD - 1);
    return whole < LEAST ? LEAST : whole;
}

/* Memory of a size, at a multiple of 16; or a null pointer. */
void *malloc(size_t size) {
#ifdef REFUSING
    if (left == 0)
        return NULL;
    if (left != UINT64_MAX)
        left--;
#endif
    if (size > MOST)
        return NULL;
    size_t whole = with_head(size);
    struct block *it = first_from(list_for(whole));
    if (it == NULL)
        it = grown(whole);
    if (it == NULL)
        return NULL;
    pull(it);
    it->size |= 1;
    cut(it, whole);
    return (char *)it + HEAD;
}

/* Frees memory that was taken; a null pointer is none. */
void free(void *at) {
    if (at != NULL)
        join(block_of(at));
}

/* Whether a block that is taken has now at least a size, by the free block behind it. */
static int has_widened(struct block *it, size_t size) {
    struct block *next = behind(it);
    if (is_taken(next) || size_of(it) + next->size < size)
        return 0;
    pull(next);
    set_size(it, size_of(it) + next->size, 1);
    return 1;
}

/* Memory of another size with what was there, as far as both reach; or a null pointer, and what was there stays. A null
 * pointer is not taken. */
void *realloc(void *at, size_t size) {
    struct block *it = block_of(at);
    size_t was = size_of(it) - HEAD;
    if (size > MOST)
        return NULL;
#ifdef REFUSING
    if (left == 0)
        return NULL;
#endif
    size_t whole = with_head(size);
    if (size_of(it) >= whole || has_widened(it, whole)) {
#ifdef REFUSING
        if (left != UINT64_MAX)
            left--;
#endif
        cut(it, whole);
        return at;
    }
    void *other = malloc(size);
    if (other != NULL) {
        __builtin_memcpy(other, at, was < size ? was : size);
        free(at);
    }
    return other;
}

#ifdef REFUSING
/* Grants the next `count` requests, and then none; with UINT64_MAX all. */
void refuse_after(uint64_t count) {
    left = count;
}
#endif
