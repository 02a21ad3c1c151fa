/* SPDX-License-Identifier: MIT */
/* Makes calls of include/mime.h for tools/calls.py. For each call standard input has a line: its name, how many positions it may write,
 * whether it may do without memory that is refused, and the lengths of three strings; then it has these. Each of them, and the buffer, ends
 * where a page begins that can't be touched. Standard output has, as numbers of eight bytes, what the call answers and finds, its requests
 * for memory, the largest, the most blocks and bytes that it held, its bytes of stack, and the count of bytes that it wrote; then these.
 *
 * Each call is also made with each smaller buffer, where it has no room, and with each of its requests for memory refused. What is wrong
 * there ends this program with status 1. With an argument each call is made once, on a stack of its own, which is measured. */
#define _GNU_SOURCE
#include "mime.h"
#include <ctype.h>
#include <err.h>
#include <malloc.h>
#include <stdio.h>
#include <strings.h>
#include <sys/mman.h>
#include <ucontext.h>

enum { ROOM = 1 << 22, PAGE = 1 << 12, STACK = 1 << 14, STRINGS = 3 };

/* The first four write as many bytes as they say; those to SET_PARAMETER a 0 more, if they succeed; those from BEST on write nothing. */
enum call { READ, CONTENT_TYPE, ACCEPT, LIST, BOUNDARY, UNESCAPE, SET_PARAMETER, ORDER, BEST, BEST_OF_ALL, EQUAL, NONE };
static const char *const names[] = {"read", "content_type", "accept", "list", "boundary", "unescape", "set_parameter", "order", "best",
                                    "best_of_all", "equal", "none"};

/* Where the buffer ends, and what stands in it before a call. */
static char *out_end, untouched[ROOM];

/* The call, its strings, its buffer, and what it gives. */
static enum call call;
static char *in[STRINGS], *out;
static size_t len[STRINGS], out_len;
static struct mime_found found;
static uint32_t answer;

/* The call's requests for memory: how many, the largest, which is refused (from 1 on); how many blocks and bytes it holds and held. */
static size_t requests, largest, refused_at, blocks, most_blocks, held, most_held;

void *__real_realloc(void *block, size_t size);
void __real_free(void *block);

void *__wrap_realloc(void *block, size_t size)
{
    if (++requests == refused_at)
        return NULL;
    size_t before = malloc_usable_size(block);
    void *grown = __real_realloc(block, size);
    largest = size > largest ? size : largest;
    blocks += block == NULL;
    most_blocks = blocks > most_blocks ? blocks : most_blocks;
    /* While a block grows, the old one is held beside the new one. */
    held += malloc_usable_size(grown);
    most_held = held > most_held ? held : most_held;
    held -= before;
    return grown;
}

void *__wrap_malloc(size_t size) { return __wrap_realloc(NULL, size); }

void __wrap_free(void *block)
{
    blocks -= block != NULL;
    held -= malloc_usable_size(block);
    __real_free(block);
}

/* Makes the call with a buffer of out_len bytes, which is untouched, and with numbers that it has to change. A position, or whether two are
 * equal, becomes a length, and a number of bad entries one of parameters. */
static void make(void)
{
#define STRING(i) len[i] > 0 ? in[i] : NULL, len[i]
    uint8_t equal = 2;
    requests = largest = blocks = most_blocks = held = most_held = 0;
    found = (struct mime_found){.length = 1, .params = call <= ACCEPT};
    memcpy(out_end - out_len - 8, untouched, out_len + 8);
    out = out_len > 0 ? out_end - out_len : NULL;
    switch (call) {
    case READ: answer = mime_read(STRING(0), out, out_len, &found); break;
    case CONTENT_TYPE: answer = mime_content_type(STRING(0), out, out_len, &found); break;
    case ACCEPT: answer = mime_accept(STRING(0), out, out_len, &found.length, &found.params); break;
    case LIST: answer = mime_list(STRING(0), out, out_len, &found.length); break;
    case BEST: answer = mime_best(in[0], len[0], STRING(1), &found.length); break;
    case BEST_OF_ALL: answer = mime_best(NULL, 0, STRING(0), &found.length); break;
    case ORDER: answer = mime_order(in[0], len[0], STRING(1), (void *)out, out_len / sizeof(size_t), &found.length); break;
    case BOUNDARY: answer = mime_boundary(STRING(0), out, out_len, &found.length); break;
    case UNESCAPE: answer = mime_unescape(STRING(0), out, out_len, &found.length); break;
    case SET_PARAMETER: answer = mime_set_parameter(STRING(0), STRING(1), STRING(2), out, out_len, &found.length); break;
    case EQUAL: answer = mime_equal(STRING(0), STRING(1), &equal); found.length = equal; break;
    case NONE: break;
    }
}

static void check(int is_so)
{
    if (!is_so)
        errx(1, "%s of %.*s, %.*s, %.*s: answer %u, in %zu bytes, with request %zu refused, or what it finds or writes, is wrong",
             names[call], (int)len[0], in[0], (int)len[1], in[1], (int)len[2], in[2], answer, out_len, refused_at);
}

/* How many bytes the call has written, from the start of its buffer on, or less. */
static size_t written(void)
{
    const size_t all = call == ORDER ? found.length * sizeof(size_t) : found.length + (call > LIST);
    const size_t count = answer == MIME_OK && call < BEST ? all : 0;
    check(count <= out_len && memcmp(out_end - out_len - 8, untouched, 8) == 0
          && memcmp(out_end - out_len + count, untouched, out_len - count) == 0);
    return count;
}

static int is_nothing(void) { return found.length + found.params + written() == 0; }

/* Checks that mime_param finds by a name what the C library's comparison finds. */
static void look_up(const char *name)
{
    const char *it = mime_next(out), *end = out + found.printed;
    while (it < end && strcasecmp(it, name) != 0)
        it = mime_next(mime_next(it));
    check(mime_param(out, &found, name) == (it < end ? mime_next(it) : NULL));
}

/* Looks up each name that was found, and, in capitals and with a byte more, each beginning of it. */
static void look_up_each(void)
{
    static char name[ROOM];
    check(mime_param(out, &found, answer == MIME_OK ? "/" : "q") == NULL);
    for (const char *it = answer == MIME_OK ? mime_next(out) : out; it < out + found.printed; it = mime_next(mime_next(it))) {
        const size_t size = strlen(it);
        look_up(it);
        for (size_t i = 0; i <= size + 1; i++) {
            name[i] = 0;
            look_up(name);
            name[i] = i < size ? (char)toupper((unsigned char)it[i]) : 'x';
        }
    }
}

/* Tries the call in smaller buffers, or in one if they are many, and with requests refused, and at last makes it as it is. */
static void make_each(int may_do_without)
{
    make();
    const struct mime_found whole = found;
    const uint32_t right = answer;
    const size_t size = out_len, step = call == ORDER ? sizeof(size_t) : 1;
    const size_t least = call != ORDER ? size : answer == MIME_OK ? found.length * step : 0;
    for (out_len = least > 300 ? least - step : 0; out_len < least; out_len += step) {
        make();
        check(answer == MIME_NO_ROOM && is_nothing() && (requests == 0 || call == ORDER));
    }
    out_len = size;
    for (refused_at = 1; make(), requests >= refused_at; refused_at++) {
        /* What a list has written then is unspecified. */
        if (call == LIST)
            memcpy(out, untouched, size);
        check(held == 0 && (answer == MIME_NO_MEMORY ? is_nothing() && (may_do_without || requests == refused_at) : may_do_without
              && answer == right && found.length == whole.length && found.params == whole.params));
    }
    refused_at = 0;
    check(answer == right && held == 0);
    if (call == READ || call == CONTENT_TYPE)
        look_up_each();
}

/* Makes the call on a stack of its own, and returns how much of that it used. */
static size_t stack_of_call(void)
{
    static ucontext_t here, there;
    static char stack[STACK];
    memset(stack, 'U', STACK);
    getcontext(&there);
    there.uc_stack = (stack_t){.ss_sp = stack, .ss_size = STACK};
    there.uc_link = &here;
    makecontext(&there, make, 0);
    swapcontext(&here, &there);
    return STACK - strspn(stack, "U");
}

int main(int argc, char **argv)
{
    char name[16], *ends[STRINGS + 1];
    size_t positions;
    int may_do_without;
    (void)argv;
    for (int i = 0; i <= STRINGS; i++) {
        char *block = mmap(NULL, ROOM + PAGE, PROT_READ | PROT_WRITE, MAP_PRIVATE | MAP_ANONYMOUS, -1, 0);
        if (block == MAP_FAILED || mprotect(ends[i] = block + ROOM, PAGE, PROT_NONE) != 0)
            return 2;
    }
    out_end = ends[STRINGS];
    memset(untouched, 'U', ROOM);
    while (scanf("%15s%zu%d%zu%zu%zu", name, &positions, &may_do_without, &len[0], &len[1], &len[2]) == 6 && getchar() == '\n') {
        for (int i = 0; i < STRINGS; i++)
            if (fread(in[i] = ends[i] - len[i], 1, len[i], stdin) != len[i])
                return 2;
        for (call = 0; call < NONE && strcmp(names[call], name) != 0; call++)
            ;
        const size_t rooms[NONE + 1] = {[READ] = MIME_READ_ROOM(len[0]), [CONTENT_TYPE] = MIME_CONTENT_TYPE_ROOM(len[0]),
            [ACCEPT] = MIME_ACCEPT_ROOM(len[0]), [LIST] = MIME_LIST_ROOM(len[0]), [BOUNDARY] = MIME_BOUNDARY_ROOM,
            [UNESCAPE] = MIME_UNESCAPE_ROOM(len[0]), [SET_PARAMETER] = MIME_SET_PARAMETER_ROOM(len[0], len[1], len[2]),
            [ORDER] = positions * sizeof(size_t)};
        out_len = rooms[call];
        const size_t stack = argc > 1 ? stack_of_call() : 0;
        if (argc == 1)
            make_each(may_do_without);
        const size_t count = written();
        const size_t said[] = {answer, found.length, found.params, found.printed, found.slash, found.subtype_end, found.pos, found.byte,
                         requests, largest, most_blocks, most_held, stack, count};
        fwrite(said, sizeof said, 1, stdout);
        fwrite(out_end - out_len, 1, count, stdout);
    }
    return 0;
}
