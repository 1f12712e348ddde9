/* A service for the checks, over the kit for C: it does what the last part of the path names, and says what came of it. */
#define _POSIX_C_SOURCE 200809L
#include "okws.h"

static char large[1048576];

typedef okws_text (*values)(const okws_request *, const char *, size_t);

static void show_values(FILE *to, const char *label, const okws_request *r, values of, const char *name) {
    okws_text value;
    fprintf(to, "%s: ", label);
    for (size_t i = 0; (value = of(r, name, i)).at; i++) {
        fputs(i ? "|" : "", to);
        fwrite(value.at, 1, value.length, to);
    }
    putc('\n', to);
}

static void show(FILE *to, const okws_request *r) {
    fprintf(to, "%s ", r->method.at);
    fwrite(r->path.at, 1, r->path.length, to);
    putc('\n', to);
    show_values(to, "query a", r, okws_query, "a");
    show_values(to, "form a", r, okws_form, "a");
    show_values(to, "cookie c", r, okws_cookie, "c");
    show_values(to, "field x-a", r, okws_field, "X-A");
    fprintf(to, "content %zu\n", r->content.length);
}

static void show_stray(FILE *to) {
    printf("a stray line\n");
    fflush(stdout);
    if (write(1, "another one\n", 12) < 0 || system("echo one of a child") < 0) fputs("not written\n", to);
    fprintf(to, "%d bytes on standard input\n", getchar() == EOF ? 0 : 1);
}

static void show_answer(FILE *to, const okws *s, okws_answer answer) {
    static const char *const names[] = {"Done", "Rows", "Changed", "Duplicate", "Denied", "Failed", "NoMemory", "Unsaid"};
    fprintf(to, answer == OKWS_DENIED ? "%s %d\n" : "%s\n", names[answer], s->rule);
}

static void keep(FILE *to, okws *s, const okws_request *r) {
    okws_value number = okws_int(strtoll(okws_query(r, "id", 0).at, NULL, 10)), row[16];
    okws_value entry[] = {number, okws_of(okws_query(r, "who", 0)), okws_string("")}, blob[] = {number, okws_blob("\0\xff\n", 3)};
    okws_call(s, 0, 2, entry, 3);
    okws_call(s, 1, 1, blob, 2);
    okws_call(s, 0, 4, &number, 1);
    while (okws_row(s, row)) fprintf(to, "[('%.*s',)]", (int)row[0].length, row[0].at);
    okws_call(s, 1, 2, &number, 1);
    while (okws_row(s, row)) fprintf(to, " %s", row[0].length == 3 && !memcmp(row[0].at, "\0\xff\n", 3) ? "[(b'\\x00\\xff\\n',)]" : "other bytes");
    okws_call(s, 0, 3, &number, 1);
    fprintf(to, " %d\n", (int)s->changed);
}

static okws_answer called(okws *s, const char *asked) {
    okws_value entry[] = {okws_int(1), okws_string("ann"), okws_string("")};
    if (!strcmp(asked, "denied")) return okws_call(s, 0, 9, NULL, 0);
    if (!strcmp(asked, "no-token")) return okws_call(s, 2, 1, NULL, 0);
    if (!strcmp(asked, "arguments")) return okws_call(s, 0, 1, entry, 1);
    if (!strcmp(asked, "duplicate")) return okws_call(s, 0, 2, entry, 3);
    if (!strcmp(asked, "log")) return okws_log(s, "a line\nand \xc3\xa4");
    if (!strcmp(asked, "long-log")) return large[1025] = 0, okws_log(s, large);
    entry[1] = !strcmp(asked, "no-text") ? okws_string("\xff") : (okws_value){OKWS_TEXT, 0, large, sizeof large};
    return okws_call(s, 0, 2, entry, 3);
}

static void answer(okws *s, const okws_request *r, const char *asked) {
    char *text;
    size_t length;
    memset(large, 'a', sizeof large);
    if (!strcmp(asked, "largest")) { okws_reply(s, 200, "text/plain", "", large, 1048557); return; }
    if (!strcmp(asked, "large")) { okws_reply(s, 200, "text/plain", "", large, 1048558); return; }
    if (!strcmp(asked, "status")) { okws_reply(s, 418, "text/plain", "", "", 0); return; }
    if (!strcmp(asked, "type")) { okws_reply(s, 200, "text/plain\r\nX-A: b", "", "", 0); return; }
    if (!strcmp(asked, "location")) { okws_reply(s, 303, "text/plain", "/a b\r\nX-A: ", "", 0); return; }
    FILE *page = open_memstream(&text, &length);
    okws_text template = okws_template(s, "page");
    if (!strcmp(asked, "show")) show(page, r);
    else if (!strcmp(asked, "stray")) show_stray(page);
    else if (!strcmp(asked, "keep")) keep(page, s, r);
    else if (!strcmp(asked, "template")) fprintf(page, "%s", template.at ? template.at : "none\n");
    else if (!strcmp(asked, "escape")) okws_escape(page, okws_query(r, "a", 0));
    else show_answer(page, s, called(s, asked));
    fclose(page);
    okws_reply(s, 200, "text/plain", "", text, length);
    free(text);
}

int main(void) {
    okws *s = okws_boot();
    okws_request r;
    printf("a stray line before the first request\n");
    while (okws_next(s, &r)) answer(s, &r, strrchr(r.path.at, '/') + 1);
    return 0;
}
