/* What the bare loop and its clients share: the kinds of requests, which each ask for path /s0, /s1, .. of a service, and end with the same twelve bytes. */
#include <arpa/inet.h>
#include <fcntl.h>
#include <stdio.h>
#include <stdlib.h>
#include <string.h>
#include <sys/socket.h>
#include <unistd.h>

enum kind { GET, POST, BIG };
enum { POST_CONTENT = 262144, BIG_CONTENT = 1000000 };
static const char LISTED[] = "1 ann\n2 bob\n";
static const char *const HEADS[] = {
    "GET /s0 HTTP/1.1\r\nHost: localhost\r\n\r\n",
    "POST /s0 HTTP/1.1\r\nHost: localhost\r\nContent-Length: 262144\r\n\r\n",
    "GET /s0 HTTP/1.1\r\nHost: localhost\r\n\r\n",
};

static inline void die(const char *what) { perror(what); exit(1); }
static inline enum kind kind_of(const char *word) { return strcmp(word, "post") == 0 ? POST : strcmp(word, "big") == 0 ? BIG : GET; }
static inline size_t path_place(enum kind kind) { return kind == POST ? 7 : 6; }
static inline size_t request_length(enum kind kind) { return strlen(HEADS[kind]) + (kind == POST ? POST_CONTENT : 0); }
static inline struct sockaddr_in place_of(const char *port) {
    struct sockaddr_in place = {.sin_family = AF_INET, .sin_port = htons((unsigned short)atoi(port))};
    place.sin_addr.s_addr = htonl(INADDR_LOOPBACK);
    return place;
}
