/* Refuses one allocation of a process into which it is loaded first: the one whose number, from 1, the variable
   REFUSE has. The file that REFUSED names is made when that happens. For tests/no_memory.py. */
#include <errno.h>
#include <fcntl.h>
#include <stddef.h>
#include <stdlib.h>
#include <unistd.h>

extern void *__libc_malloc(size_t);
extern void *__libc_calloc(size_t, size_t);
extern void *__libc_realloc(void *, size_t);

static int is_refused(void)
{
    static long count;
    const char *number = getenv("REFUSE");
    const char *path = getenv("REFUSED");
    if (number == NULL || path == NULL || ++count != atol(number))
        return 0;
    close(open(path, O_CREAT | O_WRONLY, 0600));
    errno = ENOMEM;
    return 1;
}

void *malloc(size_t size)
{
    return is_refused() ? NULL : __libc_malloc(size);
}

void *calloc(size_t count, size_t size)
{
    return is_refused() ? NULL : __libc_calloc(count, size);
}

void *realloc(void *old, size_t size)
{
    return is_refused() ? NULL : __libc_realloc(old, size);
}
