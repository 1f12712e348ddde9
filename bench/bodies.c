/* A service for bench/serve.py: to a POST it answers the last twelve bytes of the content, and to all else a million bytes with the same end. */
#define _POSIX_C_SOURCE 200809L
#include "../kits/c/okws.h"

enum { MARK = 12, BIG = 1000000 };

int main(void) {
    static char big[BIG];
    okws *site = okws_boot();
    okws_request request;
    memset(big, 'x', sizeof big);
    memcpy(big + BIG - MARK, "1 ann\n2 bob\n", MARK);
    while (okws_next(site, &request))
        if (request.content.length >= MARK) okws_reply(site, 200, "text/plain", "", request.content.at + request.content.length - MARK, MARK);
        else okws_reply(site, 200, "text/plain", "", big, BIG);
    return 0;
}
