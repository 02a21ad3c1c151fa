/* SPDX-License-Identifier: MIT */
/* What a server does with two headers of a request: it checks what is uploaded, and chooses what it sends back.
 *     cc negotiate.c $(pkg-config --cflags --libs mime) -o negotiate
 *     ./negotiate 'text/csv; charset=utf-8' 'text/html;q=.8, application/json' */
#include "mime.h"
#include <stdio.h>

enum { OK = 200, BAD_REQUEST = 400, NOT_ACCEPTABLE = 406, UNSUPPORTED_TYPE = 415, UNAVAILABLE = 503, LONGEST = 1024 };

/* What is sent, the best first, and the same as a list: each is one media type. */
static const char *const types[] = {"text/html; charset=utf-8", "application/json", "text/plain; charset=utf-8"};
static const char offers[] = "text/html; charset=utf-8, application/json, text/plain; charset=utf-8";

/* Returns the status for an upload: a table in UTF-8 is accepted. */
static int check_upload(const char *content_type)
{
    char out[MIME_CONTENT_TYPE_ROOM(LONGEST)];
    struct mime_found found;
    size_t len = strlen(content_type);
    if (len > LONGEST)
        return BAD_REQUEST;
    uint32_t answer = mime_content_type(content_type, len, out, sizeof out, &found);
    if (answer == MIME_NO_MEMORY)
        return UNAVAILABLE;
    if (answer != MIME_OK) {
        printf("Content-Type: %s\n", mime_answer_text(answer));
        return BAD_REQUEST;
    }
    const char *charset = mime_param(out, &found, "charset");
    int is_utf8 = charset == NULL || strcmp(charset, "utf-8") == 0;
    return strcmp(out, "text/csv") == 0 && is_utf8 ? OK : UNSUPPORTED_TYPE;
}

/* Returns the status of a reply, and sets its type. `accept` is null if the request has no such header. */
static int choose(const char *accept, const char **type)
{
    size_t best;
    uint32_t answer = mime_best(accept, accept != NULL ? strlen(accept) : 0, offers, strlen(offers), &best);
    *type = types[best];
    return answer == MIME_OK ? OK : answer == MIME_NOT_ACCEPTABLE ? NOT_ACCEPTABLE : UNAVAILABLE;
}

int main(int argc, char **argv)
{
    const char *type;
    if (argc != 2 && argc != 3)
        return fputs("usage: negotiate CONTENT-TYPE [ACCEPT]\n", stderr), 2;
    int status = check_upload(argv[1]);
    if (status == OK)
        status = choose(argv[2], &type);
    printf("%d %s\n", status, status == OK ? type : "");
    return 0;
}
