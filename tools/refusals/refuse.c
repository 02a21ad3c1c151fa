/* Refuses one request for memory of the program that it is loaded into, and counts them and their bytes.
 *
 * REFUSE=K refuses the K-th request after each line "now" that the program writes to its standard output, up to the line
 * "end", or, with REFUSE_FROM=start, the K-th after it began. Giving memory back isn't a request. At each line "end", or when
 * the program ends, the number of requests and of bytes goes to the file descriptor REFUSE_COUNT, and 1 if one was refused. */
#include <stdio.h>
#include <stdlib.h>
#include <string.h>
#include <sys/syscall.h>
#include <unistd.h>

extern void *__libc_malloc(size_t), *__libc_calloc(size_t, size_t), *__libc_realloc(void *, size_t);

static size_t refused_at, requests, bytes, counting;

__attribute__((constructor)) static void begin(void)
{
    refused_at = atol(getenv("REFUSE"));
    counting = getenv("REFUSE_FROM") != NULL;
}

__attribute__((destructor)) static void end_count(void)
{
    if (counting)
        dprintf(atoi(getenv("REFUSE_COUNT")), "%zu %zu %d\n", requests, bytes, requests >= refused_at);
    counting = requests = bytes = 0;
}

static int refuses(size_t size)
{
    if (!counting)
        return 0;
    bytes += size;
    return ++requests == refused_at;
}

void *malloc(size_t size) { return refuses(size) ? NULL : __libc_malloc(size); }
void *calloc(size_t count, size_t size) { return refuses(count * size) ? NULL : __libc_calloc(count, size); }
void *realloc(void *block, size_t size) { return refuses(size) ? NULL : __libc_realloc(block, size); }

ssize_t write(int fd, const void *text, size_t length)
{
    if (fd == 1 && length >= 3 && memcmp(text, "now\n", length < 4 ? 3 : 4) == 0)
        counting = 1;
    if (fd == 1 && length >= 3 && memcmp(text, "end\n", length < 4 ? 3 : 4) == 0)
        end_count();
    return syscall(SYS_write, fd, text, length);
}
