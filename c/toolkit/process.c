/* The arguments and the error number of the process, for machines for which the toolkit has no C code. No proof covers this file. */
#include <errno.h>
#include <stddef.h>
#include <string.h>

size_t rattle_arg(size_t index, char *to, size_t room);
int rattle_errno(void);
void rattle_set_errno(int number);

static size_t count;
static char **arguments;

/* glibc calls constructors with the arguments of main. Other C libraries do not. */
__attribute__((constructor)) static void keep_arguments(int argc, char **argv)
{
    count = (size_t)argc;
    arguments = argv;
}

/* Copies an argument without its final 0, and returns its size. It returns -1 if there is no such argument, -2 if it is larger than
   the room: then what `to` holds counts for nothing. */
size_t rattle_arg(size_t index, char *to, size_t room)
{
    if (index >= count || !arguments[index])
        return (size_t)-1;
    size_t size = strlen(arguments[index]);
    if (size > room)
        return (size_t)-2;
    memcpy(to, arguments[index], size);
    return size;
}

int rattle_errno(void)
{
    return errno;
}

void rattle_set_errno(int number)
{
    errno = number;
}
