/* Loaded before a program: its call for memory whose number from 1 on REFUSED names gets none, and that is told on standard error. With
   COUNTED the number of all its calls is told at its end. */
#include <stdio.h>
#include <stdlib.h>
#include <unistd.h>

extern void *__libc_malloc(size_t), *__libc_realloc(void *, size_t);

static long refused, calls;

__attribute__((constructor)) static void begin(void)
{
    const char *number = getenv("REFUSED");
    refused = number ? atol(number) : 0;
    calls = 0;
}

__attribute__((destructor)) static void end(void)
{
    char text[32];
    if (getenv("COUNTED"))
        _exit(write(2, text, snprintf(text, sizeof text, "%ld\n", calls)) < 0);
}

static int refuses(void)
{
    return ++calls == refused && write(2, "refused\n", 8) == 8;
}

void *malloc(size_t size)
{
    return refuses() ? NULL : __libc_malloc(size);
}

void *realloc(void *former, size_t size)
{
    return refuses() ? NULL : __libc_realloc(former, size);
}
