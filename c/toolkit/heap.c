/* The heap under compiled Rattle, for machines for which the toolkit has no C code. No proof covers this file. */
#include <stdlib.h>

/* Two registers: 1 and a block, or 0 and an address that nobody reads. The address is never null. */
struct rattle_block {
    size_t is_there;
    void *at;
};

struct rattle_block rattle_alloc(size_t size, size_t align);
struct rattle_block rattle_realloc(void *at, size_t old_size, size_t size, size_t align);
void rattle_dealloc(void *at);

static char no_block;

static struct rattle_block block_at(void *at)
{
    return (struct rattle_block){at != NULL, at ? at : &no_block};
}

/* malloc aligns for every type of Rattle. Of 0 bytes it may return null, so such a block gets `align` bytes. */
struct rattle_block rattle_alloc(size_t size, size_t align)
{
    return block_at(malloc(size ? size : align));
}

/* A request that fails leaves the old block as it was. */
struct rattle_block rattle_realloc(void *at, size_t old_size, size_t size, size_t align)
{
    (void)old_size;
    return block_at(realloc(at, size ? size : align));
}

void rattle_dealloc(void *at)
{
    free(at);
}
