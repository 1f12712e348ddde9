/* Greets whom the query string names, and lists who signed: GET /hello?name=ann. Compile with cc -O2 -o hello hello.c */
#define _POSIX_C_SOURCE 200809L
#include "okws.h"

enum { MAIN = 0, ENTRIES = 1 };

int main(void) {
    okws *site = okws_boot();
    okws_request request;
    while (okws_next(site, &request)) {
        okws_text name = okws_query(&request, "name", 0);
        okws_value row[16];
        char *text;
        size_t length;
        FILE *page = open_memstream(&text, &length);
        okws_answer answer = okws_call(site, MAIN, ENTRIES, NULL, 0);
        printf("a stray line does no harm\n");
        fprintf(page, "hello %s\n", name.at ? name.at : "world");
        while (okws_row(site, row))
            fprintf(page, "%lld %.*s\n", (long long)row[0].number, (int)row[1].length, row[1].at);
        fclose(page);
        okws_reply(site, answer == OKWS_ROWS ? 200 : 403, "text/plain; charset=utf-8", "", text, length);
        free(text);
    }
    return 0;
}
