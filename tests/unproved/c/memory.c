/* What the tests need to know about memory: how many requests were made, and how many blocks are held. The sanitizer
   that `rt try` links to the tests reports each block. Requests that `rt try --fail-alloc` refuses are not reported.

   It also counts how many of the tests' own values exist. */

#ifndef REFUSED
#define REFUSED 0
#endif

typedef unsigned long count;

extern int __sanitizer_install_malloc_and_free_hooks(
    void (*on_malloc)(const volatile void *, count), void (*on_free)(const volatile void *));

static count requests, blocks, values;

static void note_block(const volatile void *block, count bytes)
{
    requests++;
    blocks++;
}

static void note_free(const volatile void *block)
{
    blocks--;
}

__attribute__((constructor)) static void begin(void)
{
    __sanitizer_install_malloc_and_free_hooks(note_block, note_free);
}

count requests_made(void)
{
    return requests;
}

count blocks_held(void)
{
    return blocks;
}

count refused_request(void)
{
    return REFUSED;
}

void note_value(void)
{
    values++;
}

void note_drop(void)
{
    values--;
}

count values_held(void)
{
    return values;
}
