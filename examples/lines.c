/* SPDX-License-Identifier: MIT */
/* Prints what the program mime_lines prints, only by the calls of include/mime.h:
 *     cc lines.c $(pkg-config --cflags --libs mime) -o lines */
#define _POSIX_C_SOURCE 200809L
#include "mime.h"
#include <stdio.h>
#include <stdlib.h>
#include <sys/types.h>

/* Prints a row for each item of a list. */
static uint32_t print_items(const char *text, size_t len, char *out)
{
    size_t length;
    uint32_t answer = mime_list(text, len, out, MIME_LIST_ROOM(len), &length);
    for (const char *item = out; item < out + length; item += strlen(item) + 1)
        printf("%s %s\n", *item == MIME_GOOD ? "ok" : "bad", item + 1);
    return answer;
}

/* Prints rows for the parts of a media type, or a row for its fault. */
static uint32_t print_parts(const char *text, size_t len, char *out)
{
    struct mime_found found;
    uint32_t answer = mime_read(text, len, out, MIME_READ_ROOM(len), &found);
    if (answer >= MIME_MISSING_SLASH && answer <= MIME_INVALID_BYTE) {
        printf("bad mime parse error: %s", mime_answer_text(answer));
        if (answer == MIME_INVALID_BYTE)
            printf(", %X at position %zu", found.byte, found.pos);
        putchar('\n');
        return MIME_OK;
    }
    if (answer != MIME_OK)
        return answer;
    printf("ok %s\n", out + found.printed);
    printf("type %.*s\n", (int)found.slash, out);
    printf("subtype %.*s\n", (int)(found.subtype_end - found.slash - 1), out + found.slash + 1);
    if (out[found.subtype_end] == '+')
        printf("suffix %s\n", out + found.subtype_end + 1);
    const char *name = out + strlen(out) + 1;
    for (size_t left = found.params; left > 0; left--) {
        const char *value = name + strlen(name) + 1;
        printf("param %s=%s\n", name, value);
        name = value + strlen(value) + 1;
    }
    return MIME_OK;
}

int main(int argc, char **argv)
{
    int is_list = argc == 2 && strcmp(argv[1], "list") == 0;
    if (argc > 1 && !is_list)
        return fputs("usage: lines [list]\n", stderr), 2;
    char *line = NULL;
    size_t size = 0;
    ssize_t read;
    while ((read = getline(&line, &size, stdin)) >= 0) {
        size_t len = (size_t)read - (line[read - 1] == '\n');
        char *out = malloc(MIME_READ_ROOM(len));
        uint32_t answer = out == NULL ? MIME_NO_MEMORY : (is_list ? print_items : print_parts)(line, len, out);
        free(out);
        if (answer == MIME_NO_MEMORY)
            return fputs("no memory\n", stderr), 1;
        if (answer == MIME_NOT_UTF8)
            puts("not text");
    }
    free(line);
    return ferror(stdin) || fflush(stdout) ? 1 : 0;
}
