/* Counts a program's requests for memory, and refuses the one whose number is in REFUSED. When the program ends, it writes
   the number of requests, and the number of blocks that were not freed, to the file descriptor 9.

   It is loaded before the C library, which is glibc. */

#include <stdio.h>
#include <stdlib.h>

extern void *__libc_malloc(size_t bytes);
extern void *__libc_realloc(void *old, size_t bytes);
extern void __libc_free(void *block);

static int requests, held;

static int is_refused(void)
{
    const char *refused = getenv("REFUSED");
    return ++requests == (refused ? atoi(refused) : 0);
}

void *malloc(size_t bytes)
{
    void *block = is_refused() ? 0 : __libc_malloc(bytes);
    held += block != 0;
    return block;
}

void *realloc(void *old, size_t bytes)
{
    void *block = is_refused() ? 0 : __libc_realloc(old, bytes);
    held += !old && block;
    return block;
}

void free(void *block)
{
    held -= block != 0;
    __libc_free(block);
}

__attribute__((destructor)) static void count(void)
{
    dprintf(9, "%d %d\n", requests, held);
}
