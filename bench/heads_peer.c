/* The peer of heads_rate.py: counts the heads of standard input with http_parser, the parser that Node.js had until its
 * version 12. It is fed in pieces, and notes where each part of a head stands. Build:
 *
 *     cc -O2 -o heads_peer bench/heads_peer.c -lhttp_parser        (Debian: libhttp-parser-dev)
 *
 * Usage: heads_peer COUNT PIECE < STREAM
 */
#include <http_parser.h>
#include <stdio.h>
#include <stdlib.h>
#include <string.h>

struct head { const char *at[130]; size_t len[130]; int n; };
static unsigned long heads;
static int on_begin(http_parser *p) { ((struct head *) p->data)->n = 0; return 0; }
static int on_data(http_parser *p, const char *at, size_t len) {
    struct head *h = p->data;
    if (h->n < 130) { h->at[h->n] = at; h->len[h->n] = len; h->n++; }
    return 0;
}
static int on_end(http_parser *p) { (void) p; heads++; return 0; }

int main(int argc, char **argv) {
    long count = atol(argv[1]), piece = atol(argv[2]);
    static char text[1 << 20];
    size_t size = fread(text, 1, sizeof text, stdin);
    http_parser_settings s;
    http_parser_settings_init(&s);
    s.on_message_begin = on_begin; s.on_url = on_data; s.on_header_field = on_data; s.on_header_value = on_data;
    s.on_message_complete = on_end;
    (void) argc;
    for (long i = 0; i < count; i++) {
        struct head h; http_parser p;
        http_parser_init(&p, HTTP_REQUEST); p.data = &h;
        for (size_t at = 0; at < size; at += piece) {
            size_t n = size - at < (size_t) piece ? size - at : (size_t) piece;
            if (http_parser_execute(&p, &s, text + at, n) != n) { fprintf(stderr, "refused\n"); return 1; }
        }
    }
    printf("%lu\n", heads);
    return 0;
}
