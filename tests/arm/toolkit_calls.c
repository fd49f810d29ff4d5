/* Tries the toolkit's calls of C: toolkit_calls one '' three. It is linked with the toolkit's own code, where there is some, and with ours. */
#include <errno.h>
#include <stdint.h>
#include <stdio.h>
#include <string.h>

struct block {
    size_t is_there;
    unsigned char *at;
};

struct block rattle_alloc(size_t size, size_t align);
struct block rattle_realloc(void *at, size_t old_size, size_t size, size_t align);
void rattle_dealloc(void *at);
size_t rattle_arg(size_t index, char *to, size_t room);
int rattle_errno(void);
void rattle_set_errno(int number);

static int failures;

#define CHECK(claim) ((claim) ? (void)0 : (void)(failures++, printf("line %d: not %s\n", __LINE__, #claim)))

static const size_t too_large = SIZE_MAX / 2;

/* A block of any size is there, aligned, and all its bytes can be written. */
static void blocks_of_all_sizes(void)
{
    for (size_t size = 0; size < 5000; size = size * 2 + 1) {
        struct block block = rattle_alloc(size, 16);
        CHECK(block.is_there == 1 && block.at && (uintptr_t)block.at % 16 == 0);
        memset(block.at, 0xa5, size);
        rattle_dealloc(block.at);
    }
}

/* Blocks of no bytes are there, too, and each has its own address. */
static void blocks_of_no_bytes(void)
{
    struct block one = rattle_alloc(0, 8), other = rattle_alloc(0, 8);
    CHECK(one.is_there == 1 && other.is_there == 1 && one.at && other.at && one.at != other.at);
    rattle_dealloc(one.at);
    rattle_dealloc(other.at);
}

/* A block that grows and shrinks keeps the bytes that it has before and after. */
static void blocks_of_other_sizes(void)
{
    struct block block = rattle_alloc(3, 1);
    memcpy(block.at, "abc", 3);
    block = rattle_realloc(block.at, 3, 1000000, 1);
    CHECK(block.is_there == 1 && memcmp(block.at, "abc", 3) == 0);
    block.at[999999] = 'z';
    block = rattle_realloc(block.at, 1000000, 2, 1);
    CHECK(block.is_there == 1 && memcmp(block.at, "ab", 2) == 0);
    block = rattle_realloc(block.at, 2, 0, 8);
    CHECK(block.is_there == 1 && block.at);
    rattle_dealloc(block.at);
}

/* A refused request answers no null, and leaves the old block. */
static void refused_requests(void)
{
    struct block none = rattle_alloc(too_large, 8), block = rattle_alloc(3, 1);
    CHECK(none.is_there == 0 && none.at);
    memcpy(block.at, "abc", 3);
    none = rattle_realloc(block.at, 3, too_large, 1);
    CHECK(none.is_there == 0 && none.at && none.at != block.at && memcmp(block.at, "abc", 3) == 0);
    rattle_dealloc(block.at);
}

/* The arguments are those of the command line, each without its final 0. */
static void arguments(void)
{
    char to[8] = "xxxxxxx";
    CHECK(rattle_arg(1, to, sizeof to) == 3 && memcmp(to, "onexxxx", 8) == 0);
    CHECK(rattle_arg(3, to, 5) == 5 && memcmp(to, "threexx", 8) == 0);
    CHECK(rattle_arg(3, to, 4) == SIZE_MAX - 1 && memcmp(to + 5, "xx", 3) == 0);
    CHECK(rattle_arg(2, to, 0) == 0 && rattle_arg(1, to, 0) == SIZE_MAX - 1);
    CHECK(rattle_arg(4, to, sizeof to) == SIZE_MAX && rattle_arg(SIZE_MAX, to, sizeof to) == SIZE_MAX);
}

/* The error number is that of the C library. */
static void error_numbers(void)
{
    errno = ENOENT;
    CHECK(rattle_errno() == ENOENT);
    rattle_set_errno(EINTR);
    CHECK(errno == EINTR && rattle_errno() == EINTR);
}

int main(void)
{
    blocks_of_all_sizes();
    blocks_of_no_bytes();
    blocks_of_other_sizes();
    refused_requests();
    arguments();
    error_numbers();
    return failures != 0;
}
