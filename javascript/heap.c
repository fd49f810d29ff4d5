/*
 * The heap of the WebAssembly module. It gives the compiled library its three calls for memory, and JavaScript `malloc` and `free`,
 * all over dlmalloc, which takes its memory from `sbrk` below. A WebAssembly memory can grow, and never shrinks. Some small free blocks
 * wait in lists for the next request of their size.
 */
typedef __SIZE_TYPE__ size_t;
typedef __PTRDIFF_TYPE__ ptrdiff_t;

/* dlmalloc for one thread, without the system's headers. What is broken stops the instance. */
#define USE_DL_PREFIX 1
#define DLMALLOC_EXPORT static
#define USE_LOCKS 0
#define HAVE_MMAP 0
#define MORECORE_CANNOT_TRIM 1
#define NO_MALLOC_STATS 1
#define NO_MALLINFO 1
#define ABORT __builtin_trap()
#define MALLOC_FAILURE_ACTION
#define EINVAL 22
#define ENOMEM 12
#define malloc_getpagesize PAGE
#define LACKS_ERRNO_H 1
#define LACKS_FCNTL_H 1
#define LACKS_SCHED_H 1
#define LACKS_STDLIB_H 1
#define LACKS_STRINGS_H 1
#define LACKS_STRING_H 1
#define LACKS_SYS_MMAN_H 1
#define LACKS_SYS_PARAM_H 1
#define LACKS_SYS_TYPES_H 1
#define LACKS_TIME_H 1
#define LACKS_UNISTD_H 1

#define PAGE ((size_t)65536) /* of a WebAssembly memory */
#define MOST_PAGES ((size_t)65536) /* of a memory with addresses of 32 bits */
#define NO_MEMORY ((void *)-1)
#define GROWTH 2 /* A memory grows by a half at least: each growth takes the engine time. */

extern unsigned char __heap_base; /* The end of the stack and of all data, by the linker. */

/* Makes the memory grow by a number of pages; returns whether it did. The module's memory takes the low 32 bits, and answers 32. */
static int grows(size_t pages)
{
    return pages <= MOST_PAGES && (unsigned)__builtin_wasm_memory_grow(0, pages) != (unsigned)-1;
}

/* Gives `more` bytes after those it gave before. dlmalloc asks for 0 to learn the end, and for less never. */
static void *sbrk(ptrdiff_t more)
{
    static size_t end;
    size_t begin = end ? end : ((size_t)&__heap_base + 15) / 16 * 16;
    size_t pages = (begin + (size_t)more + PAGE - 1) / PAGE, had = __builtin_wasm_memory_size(0);
    if (more < 0 || begin + (size_t)more < begin)
        return NO_MEMORY;
    if (pages > had && !(pages - had < had / GROWTH && grows(had / GROWTH)) && !grows(pages - had))
        return NO_MEMORY;
    end = begin + (size_t)more;
    return (void *)begin;
}

#include <dlmalloc.c>

#define LISTS 34 /* of free blocks: one for each size to 528 bytes, which dlmalloc rounds up to 16 */
#define MOST_FREE 16 /* blocks in a list */

/* A free block, which has the next one of its list. For dlmalloc it is in use. */
typedef struct free_block {
    struct free_block *next;
} free_block;

static struct {
    free_block *first;
    size_t count;
} lists[LISTS];

/* The index of the list for the blocks of a size with dlmalloc's own bytes; LISTS and more if there is none. */
static size_t list_of(size_t size)
{
    return size / MALLOC_ALIGNMENT;
}

/* Takes the first block out of a list, or returns null if the list is empty. */
static void *take(size_t list)
{
    free_block *first = lists[list].first;
    if (first) {
        lists[list].first = first->next;
        lists[list].count--;
    }
    return first;
}

/* Gives all blocks of the lists back to dlmalloc; returns whether there was one. */
static int empty_lists(void)
{
    int any = 0;
    for (size_t list = 0; list < LISTS; list++)
        for (void *block = take(list); block; block = take(list), any = 1)
            dlfree(block);
    return any;
}

static void *allocate(size_t bytes)
{
    size_t list = bytes < LISTS * MALLOC_ALIGNMENT ? list_of(request2size(bytes)) : LISTS;
    void *block = list < LISTS ? take(list) : 0;
    if (!block)
        block = dlmalloc(bytes);
    return block || !empty_lists() ? block : dlmalloc(bytes);
}

static void *resize(void *at, size_t bytes)
{
    void *block = dlrealloc(at, bytes);
    return block || !empty_lists() ? block : dlrealloc(at, bytes);
}

static void release(void *at)
{
    size_t list = at ? list_of(chunksize(mem2chunk(at))) : LISTS;
    if (list >= LISTS || lists[list].count == MOST_FREE) {
        dlfree(at);
        return;
    }
    *(free_block *)at = (free_block){lists[list].first};
    lists[list].first = at;
    lists[list].count++;
}

/* What the library's calls answer: whether there is a block, and its place, which is never null. */
typedef struct block {
    size_t is_there;
    void *at;
} block;

static block block_at(void *at)
{
    static unsigned char none;
    return (block){at != 0, at ? at : &none};
}

/* A block of 0 bytes has a place of its own, too. */
block rattle_alloc(size_t bytes, size_t align)
{
    return block_at(allocate(bytes ? bytes : align));
}

block rattle_realloc(void *at, size_t had, size_t bytes, size_t align)
{
    (void)had;
    return block_at(resize(at, bytes ? bytes : align));
}

void rattle_dealloc(void *at)
{
    release(at);
}

/* For JavaScript. */
void *malloc(size_t bytes)
{
    return allocate(bytes);
}

void free(void *at)
{
    release(at);
}
