/* okws.h: services of okws in C: this one header, over C99 and POSIX. docs/KITS.md says more, docs/okws-frames.7.md what goes over the pipes.
 *
 *   #include "okws.h"
 *
 *   int main(void) {
 *       okws *site = okws_boot();
 *       okws_request request;
 *       while (okws_next(site, &request))
 *           okws_reply(site, 200, "text/plain", "", "hello\n", 6);
 *       return 0;
 *   }
 *
 * A program that can't go on with its frames, or lacks memory, is ended by exit(1) and a sentence on standard error. What a request gave is there until
 * the next one, and what a call gave until the next call.
 */
#ifndef OKWS_H
#define OKWS_H
#include <fcntl.h>
#include <stdint.h>
#include <stdio.h>
#include <stdlib.h>
#include <string.h>
#include <strings.h>
#include <sys/stat.h>
#include <unistd.h>

/* Bytes, behind which a NUL stands that isn't counted; where there are none at all, `at` is NULL. */
typedef struct { const char *at; size_t length; } okws_text;

typedef struct okws okws;
typedef struct {
    okws *site;
    okws_text method, target, version;  /* the words of the first line, as they came */
    okws_text path, query;              /* of the target: percent-decoded; and as it came */
    okws_text head, content;
} okws_request;

typedef enum { OKWS_INT = 1, OKWS_TEXT, OKWS_BYTES } okws_tag;
typedef struct { okws_tag tag; int64_t number; const char *at; size_t length; } okws_value;

typedef enum {
    OKWS_DONE,       /* of a log line */
    OKWS_ROWS,       /* of a SELECT: okws_row gives them */
    OKWS_CHANGED,    /* of another statement: `changed` is how many rows */
    OKWS_DUPLICATE,  /* an INSERT's KEY value is taken */
    OKWS_DENIED,     /* by the rule of which `rule` is the number (docs/RULES.md) */
    OKWS_FAILED,     /* the database failed, and changed nothing */
    OKWS_NO_MEMORY,  /* the call was not made, and may be made again */
    OKWS_UNSAID      /* nothing was said, since no frame says it: a text that isn't UTF-8, too many bytes */
} okws_answer;

enum { OKWS_LONGEST = 1048576, OKWS_PROXIES = 16, OKWS_PAGES = 64 };
struct okws_kept { struct okws_kept *next; };
struct okws {
    uint8_t rule;                       /* of the last OKWS_DENIED */
    uint64_t changed;                   /* of the last OKWS_CHANGED */
    FILE *heard, *said;
    struct { uint8_t token[20]; uint8_t session[4]; int is_open; } proxy[OKWS_PROXIES];
    uint8_t *page[OKWS_PAGES];          /* of each template the last Push, its payload */
    struct okws_kept *kept;             /* what the present request's values stand in */
    uint32_t columns, rows_left;
    size_t at, size;                    /* where the next row begins; how many bytes the last frame has behind its length */
    size_t put;                         /* how many bytes of the frame that is made stand; more than there is room for where it has no frame */
    uint8_t taken[OKWS_LONGEST], made[OKWS_LONGEST + 4];
};

static inline void okws_stop(const char *why) { fprintf(stderr, "okws: %s\n", why); exit(1); }
static inline uint64_t okws_big(const uint8_t *p, int n) {
    uint64_t value = 0;
    while (n-- > 0) value = value << 8 | *p++;
    return value;
}

/* Takes the next frame and tells its kind; or 0 at the end. */
static inline int okws_take(okws *s) {
    uint8_t length[4];
    size_t got = fread(length, 1, 4, s->heard);
    if (got == 0) return 0;
    s->size = (size_t)okws_big(length, 4);
    if (got < 4 || s->size < 1 || s->size > OKWS_LONGEST || fread(s->taken, 1, s->size, s->heard) < s->size)
        okws_stop("the frames end inside a frame");
    return s->taken[0];
}
static inline void okws_put(okws *s, const void *bytes, size_t size) {
    int has_room = s->put <= sizeof s->made && size <= sizeof s->made - s->put;
    if (has_room && size) memcpy(s->made + s->put, bytes, size);
    s->put = has_room ? s->put + size : sizeof s->made + 1;
}
static inline void okws_put_big(okws *s, uint64_t value, int size) {
    uint8_t bytes[8];
    for (int i = size - 1; i >= 0; i--, value >>= 8) bytes[i] = (uint8_t)value;
    okws_put(s, bytes, (size_t)size);
}

/* Bytes behind their length, which takes so many bytes. */
static inline void okws_put_counted(okws *s, int size, const void *bytes, size_t length) {
    if (size < 4 && length >> (8 * size)) s->put = sizeof s->made + 1;
    okws_put_big(s, length, size);
    okws_put(s, bytes, length);
}
static inline void okws_begin(okws *s, int kind) { s->put = 4; okws_put_big(s, (uint64_t)kind, 1); }
/* Says the frame that was made, where it is one. */
static inline int okws_say(okws *s) {
    if (s->put > sizeof s->made) return 0;
    size_t end = s->put;
    s->put = 0;
    okws_put_big(s, end - 4, 4);
    if (fwrite(s->made, 1, end, s->said) < end || fflush(s->said)) exit(0); /* nobody hears */
    return 1;
}
static inline void *okws_checked(void *memory) { if (!memory) okws_stop("no memory"); return memory; }

/* Memory for the present request. */
static inline char *okws_keep(okws *s, size_t size) {
    struct okws_kept *kept = (struct okws_kept *)okws_checked(malloc(sizeof *kept + size));
    kept->next = s->kept;
    s->kept = kept;
    return (char *)(kept + 1);
}
static inline void okws_forget(okws *s) {
    for (struct okws_kept *next; s->kept; s->kept = next) { next = s->kept->next; free(s->kept); }
}
static inline okws_text okws_copy(okws *s, okws_text text) {
    char *copy = okws_keep(s, text.length + 1);
    if (text.length) memcpy(copy, text.at, text.length);
    copy[text.length] = 0;
    return (okws_text){copy, text.length};
}

/* How many bytes the UTF-8 character at the front has; where there is none, `whole` is 0, and it is how many bytes one U+FFFD stands for. */
static inline size_t okws_character(const uint8_t *p, size_t n, int *whole) {
    uint8_t low = p[0] == 0xe0 ? 0xa0 : p[0] == 0xf0 ? 0x90 : 0x80, high = p[0] == 0xed ? 0x9f : p[0] == 0xf4 ? 0x8f : 0xbf;
    size_t size = p[0] < 0x80 ? 1 : p[0] < 0xc2 ? 0 : p[0] < 0xe0 ? 2 : p[0] < 0xf0 ? 3 : p[0] < 0xf5 ? 4 : 0;
    size_t i = 1;
    for (; i < size && i < n && p[i] >= low && p[i] <= high; i++) { low = 0x80; high = 0xbf; }
    *whole = i == size;
    return i;
}
static inline int okws_is_utf8(const char *at, size_t length) {
    int whole = 1;
    for (size_t i = 0; i < length && whole;) i += okws_character((const uint8_t *)at + i, length - i, &whole);
    return whole;
}
static inline int okws_digit(char c) { return c >= '0' && c <= '9' ? c - '0' : c >= 'a' && c <= 'f' ? c - 'a' + 10 : c >= 'A' && c <= 'F' ? c - 'A' + 10 : -1; }

/* What percent-encoded bytes stand for, where `blank` is a blank. */
static inline okws_text okws_decoded(okws *s, okws_text from, char blank) {
    char *bytes = okws_keep(s, from.length + 1), *text = okws_keep(s, 3 * from.length + 1);
    size_t n = 0, size = 0, step;
    for (size_t i = 0; i < from.length; i++) {
        const char *at = from.at + i;
        int is_code = *at == '%' && i + 2 < from.length && okws_digit(at[1]) >= 0 && okws_digit(at[2]) >= 0;
        bytes[n++] = is_code ? (char)(okws_digit(at[1]) * 16 + okws_digit(at[2])) : *at == blank ? ' ' : *at;
        i += is_code ? 2 : 0;
    }
    for (size_t i = 0; i < n; i += step) {
        int whole;
        step = okws_character((const uint8_t *)bytes + i, n - i, &whole);
        memcpy(text + size, whole ? bytes + i : "\xef\xbf\xbd", whole ? step : 3);
        size += whole ? step : 3;
    }
    text[size] = 0;
    return (okws_text){text, size};
}

/* Cuts what stands before a byte off the front of a text, the byte too. */
static inline okws_text okws_cut(okws_text *rest, char byte) {
    okws_text front = *rest;
    const char *end = front.length ? (const char *)memchr(front.at, byte, front.length) : NULL;
    if (end) front.length = (size_t)(end - front.at);
    *rest = end ? (okws_text){end + 1, rest->length - front.length - 1} : (okws_text){front.at, 0};
    return front;
}
static inline okws_text okws_trimmed(okws_text t) {
    for (; t.length && memchr(" \t\r\n", t.at[0], 4); t.length--) t.at++;
    while (t.length && memchr(" \t\r\n", t.at[t.length - 1], 4)) t.length--;
    return t;
}
static inline int okws_is(okws_text t, const char *text) { return t.length == strlen(text) && !memcmp(t.at, text, t.length); }
static inline int okws_is_folded(okws_text t, const char *text) { return t.length == strlen(text) && !strncasecmp(t.at, text, t.length); }

static const okws_text okws_none = {NULL, 0};
/* The nth value of a name, from 0, in the fields of the head, whose names are in any case. */
static inline okws_text okws_field(const okws_request *r, const char *name, size_t nth) {
    okws_text rest = r->head;
    while (rest.length) {
        okws_text value = okws_cut(&rest, '\n');
        okws_text key = okws_cut(&value, ':');
        if (okws_is_folded(key, name) && nth-- == 0) return okws_copy(r->site, okws_trimmed(value));
    }
    return okws_none;
}
static inline okws_text okws_pair_value(const okws_request *r, okws_text rest, const char *name, size_t nth) {
    while (rest.length) {
        okws_text value = okws_cut(&rest, '&');
        int is_pair = value.length > 0;
        okws_text key = okws_cut(&value, '=');
        if (is_pair && okws_is(okws_decoded(r->site, key, '+'), name) && nth-- == 0)
            return okws_decoded(r->site, value, '+');
    }
    return okws_none;
}

/* The nth value of a name, from 0, in the query string; in the content of a form, or of what tells no type; and in cookies. Those of the first two are
 * decoded, and what isn't UTF-8 in them is U+FFFD. A value may have NULs in it. */
static inline okws_text okws_query(const okws_request *r, const char *name, size_t nth) { return okws_pair_value(r, r->query, name, nth); }
static inline okws_text okws_form(const okws_request *r, const char *name, size_t nth) {
    okws_text rest = okws_field(r, "Content-Type", 0);
    okws_text type = okws_trimmed(okws_cut(&rest, ';'));
    int is_form = !type.length || okws_is_folded(type, "application/x-www-form-urlencoded");
    return is_form ? okws_pair_value(r, r->content, name, nth) : okws_none;
}
static inline okws_text okws_cookie(const okws_request *r, const char *name, size_t nth) {
    okws_text rest;
    for (size_t i = 0; (rest = okws_field(r, "Cookie", i)).at; i++)
        while (rest.length) {
            okws_text value = okws_cut(&rest, ';');
            int is_pair = value.length && memchr(value.at, '=', value.length);
            okws_text key = okws_cut(&value, '=');
            if (is_pair && okws_is(okws_trimmed(key), name) && nth-- == 0) return okws_copy(r->site, okws_trimmed(value));
        }
    return okws_none;
}

/* Behind the scheme and the authority of an absolute target. */
static inline okws_text okws_origin(okws_text target) {
    const char *colon = target.at[0] == '/' ? NULL : strstr(target.at, "://");
    if (!colon) return target;
    size_t skipped = (size_t)(colon - target.at) + 3;
    skipped += strcspn(target.at + skipped, "/?");
    return (okws_text){target.at + skipped, target.length - skipped};
}
static inline void okws_parse(okws *s, okws_request *r) {
    const uint8_t *p = s->taken + 1;
    size_t length = (size_t)okws_big(p, 4), content = (size_t)okws_big(p + 4 + length, 4);
    okws_text head = okws_trimmed((okws_text){(const char *)p + 4, length}), line = okws_trimmed(okws_cut(&head, '\n'));
    r->site = s;
    r->method = okws_copy(s, okws_cut(&line, ' '));
    r->target = okws_copy(s, okws_cut(&line, ' '));
    r->version = okws_copy(s, line);
    r->head = okws_copy(s, head);
    r->content = okws_copy(s, (okws_text){(const char *)p + 8 + length, content});
    okws_text query = okws_origin(r->target), path = okws_cut(&query, '?');
    r->path = okws_decoded(s, path.length ? path : (okws_text){"/", 1}, 0);
    r->query = okws_copy(s, query);
}
static inline void okws_keep_page(okws *s) {
    int i = 0;
    uint8_t size = s->taken[1];
    while (i < OKWS_PAGES - 1 && s->page[i] && (s->page[i][0] != size || memcmp(s->page[i] + 1, s->taken + 2, size))) i++;
    s->page[i] = (uint8_t *)okws_checked(realloc(s->page[i], s->size));
    memcpy(s->page[i], s->taken + 1, s->size - 1);
    s->page[i][s->size - 1] = 0;
}

/* The next request; or 0 at the end of the frames. */
static inline int okws_next(okws *s, okws_request *r) {
    int kind;
    okws_forget(s);
    while ((kind = okws_take(s)) == 3) okws_keep_page(s);
    if (kind == 2) okws_parse(s, r);
    else if (kind) okws_stop("a frame isn't due");
    return kind == 2;
}

/* Takes the Boot frame. From then on standard input is empty, and what is printed on standard output goes to standard error. */
static inline okws *okws_boot(void) {
    okws *s = (okws *)okws_checked(calloc(1, sizeof *s));
    struct stat in, out;
    if (fstat(0, &in) || fstat(1, &out) || !S_ISFIFO(in.st_mode) || !S_ISFIFO(out.st_mode))
        okws_stop("a service is started by okws, which gives it two pipes (docs/KITS.md)");
    s->heard = (FILE *)okws_checked(fdopen(fcntl(0, F_DUPFD_CLOEXEC, 3), "rb"));
    s->said = (FILE *)okws_checked(fdopen(fcntl(1, F_DUPFD_CLOEXEC, 3), "wb"));
    int null = open("/dev/null", O_RDWR | O_CLOEXEC);
    if (dup2(null, 0) < 0 || (dup2(2, 1) < 0 && dup2(null, 1) < 0)) okws_stop("no descriptors");
    if (okws_take(s) != 1) okws_stop("no Boot frame comes first");
    for (size_t at = 8; at + 22 <= s->size; at += 22)
        if (okws_big(s->taken + at, 2) < OKWS_PROXIES) memcpy(s->proxy[okws_big(s->taken + at, 2)].token, s->taken + at + 2, 20);
    return s;
}

/* Says the frame that was made, and takes the answer to it. */
static inline okws_answer okws_ask(okws *s) {
    s->rows_left = 0;
    if (!okws_say(s)) return OKWS_UNSAID;
    switch (okws_take(s)) {
    case 0: exit(0); /* the server is done with this program */
    case 4: case 7: case 8: return OKWS_DONE;
    case 5: s->columns = s->taken[1]; s->rows_left = (uint32_t)okws_big(s->taken + 2, 4); s->at = 6; return OKWS_ROWS;
    case 6: s->changed = okws_big(s->taken + 1, 8); return OKWS_CHANGED;
    case 9: s->rule = s->taken[1]; return OKWS_DENIED;
    case 10: return OKWS_FAILED;
    case 11: return OKWS_NO_MEMORY;
    case 12: return OKWS_DUPLICATE;
    default: okws_stop("a frame isn't due");
    }
    return OKWS_UNSAID;
}
static inline void okws_put_value(okws *s, okws_value value) {
    okws_put_big(s, (uint64_t)value.tag, 1);
    if (value.tag == OKWS_INT)
        okws_put_big(s, (uint64_t)value.number, 8);
    else if (value.tag == OKWS_TEXT && !okws_is_utf8(value.at, value.length))
        s->put = sizeof s->made + 1;
    else
        okws_put_counted(s, 4, value.at, value.length);
}

static inline okws_value okws_int(int64_t number) { return (okws_value){OKWS_INT, number, NULL, 0}; }
static inline okws_value okws_string(const char *text) { return (okws_value){OKWS_TEXT, 0, text, strlen(text)}; }
static inline okws_value okws_of(okws_text text) { return (okws_value){OKWS_TEXT, 0, text.at, text.length}; }
static inline okws_value okws_blob(const void *bytes, size_t length) { return (okws_value){OKWS_BYTES, 0, (const char *)bytes, length}; }

/* Calls a query between a request and its reply. Proxies are numbered from 0, in the order of their declaration. */
static inline okws_answer okws_call(okws *s, uint16_t proxy, uint16_t query, const okws_value *values, size_t count) {
    static const uint8_t no_token[20];
    if (proxy >= OKWS_PROXIES || !s->proxy[proxy].is_open) {
        okws_begin(s, 0x41);
        okws_put_big(s, proxy, 2);
        okws_put(s, proxy < OKWS_PROXIES ? s->proxy[proxy].token : no_token, 20);
        okws_answer answer = okws_ask(s);
        if (answer != OKWS_DONE || proxy >= OKWS_PROXIES) return answer;
        memcpy(s->proxy[proxy].session, s->taken + 1, 4);
        s->proxy[proxy].is_open = 1;
    }
    okws_begin(s, 0x42);
    okws_put_big(s, proxy, 2);
    okws_put(s, s->proxy[proxy].session, 4);
    okws_put_big(s, query, 2);
    okws_put_big(s, count, 1);
    for (size_t i = 0; i < count; i++) okws_put_value(s, values[i]);
    return count > 255 ? OKWS_UNSAID : okws_ask(s);
}

/* The next row of the last OKWS_ROWS, in at most 16 values, whose bytes have no NUL behind them; or 0 behind the last row. */
static inline int okws_row(okws *s, okws_value *values) {
    if (!s->rows_left) return 0;
    s->rows_left--;
    for (uint32_t i = 0; i < s->columns; i++) {
        const uint8_t *p = s->taken + s->at;
        int is_int = p[0] == OKWS_INT;
        size_t length = is_int ? 8 : (size_t)okws_big(p + 1, 4);
        values[i] = is_int ? okws_int((int64_t)okws_big(p + 1, 8)) : (okws_value){(okws_tag)p[0], 0, (const char *)p + 5, length};
        s->at += is_int ? 9 : 5 + length;
    }
    return 1;
}

/* The current edition of a template; there is none where it wasn't published, or isn't for this service to read. */
static inline okws_text okws_template(const okws *s, const char *name) {
    for (int i = 0; i < OKWS_PAGES && s->page[i]; i++) {
        const uint8_t *page = s->page[i], *text = page + 1 + page[0] + 4;
        if (okws_is((okws_text){(const char *)page + 1, page[0]}, name)) return (okws_text){(const char *)text + 4, (size_t)okws_big(text, 4)};
    }
    return okws_none;
}

/* Writes a line of at most 1,024 bytes to the site's log. */
static inline okws_answer okws_log(okws *s, const char *line) {
    okws_begin(s, 0x44);
    okws_put_counted(s, 4, line, strlen(line));
    return okws_ask(s);
}

/* Writes a text escaped for HTML. */
static inline void okws_escape(FILE *to, okws_text text) {
    for (size_t i = 0; i < text.length; i++)
        switch (text.at[i]) {
        case '&': fputs("&amp;", to); break;
        case '<': fputs("&lt;", to); break;
        case '>': fputs("&gt;", to); break;
        case '"': fputs("&quot;", to); break;
        case '\'': fputs("&#39;", to); break;
        default: putc(text.at[i], to);
        }
}
static inline int okws_is_reply(int status, const char *type, const char *location) {
    static const int statuses[] = {200, 201, 303, 400, 403, 404, 409, 500};
    size_t i = 0, n = strlen(type);
    while (i < 8 && statuses[i] != status) i++;
    if (i == 8 || !n || type[0] == ' ' || type[n - 1] == ' ') return 0;
    while (*type >= 32 && *type <= 126) type++;
    while (*location >= 33 && *location <= 126) location++;
    return !*type && !*location;
}

/* Answers the request. A reply that no frame says (docs/okws-frames.7.md) is one of 500 instead, and a sentence on standard error. */
static inline void okws_reply(okws *s, int status, const char *type, const char *location, const void *content, size_t length) {
    static const char refused[] = "500 Internal Server Error\n";
    okws_begin(s, 0x45);
    okws_put_big(s, (uint64_t)status, 2);
    okws_put_counted(s, 1, type, strlen(type));
    okws_put_counted(s, 1, location, strlen(location));
    okws_put_counted(s, 4, content, length);
    if (okws_is_reply(status, type, location) && okws_say(s)) return;
    fprintf(stderr, "okws: no frame says this reply: status %d, type '%s', location '%s', %zu bytes\n", status, type, location, length);
    okws_reply(s, 500, "text/plain", "", refused, sizeof refused - 1);
}
#endif
