/*
 * Makes a book file: lines `router IPV4 SECRET` and `account NAME PASSWORD` from standard input, the book to standard output. It does not
 * look for repeats or a book over 65,536 bytes: the server does.
 */
#include <arpa/inet.h>
#include <stdint.h>
#include <stdio.h>
#include <stdlib.h>
#include <string.h>

typedef struct {
    uint8_t *bytes;
    size_t length;
    unsigned entries;
} section;

static void put(section *s, const void *bytes, size_t length)
{
    s->bytes = realloc(s->bytes, s->length + length + 1);
    if (!s->bytes) exit(2);
    memcpy(s->bytes + s->length, bytes, length);
    s->length += length;
}

static void counted(section *s, const char *text)
{
    uint8_t length = (uint8_t)strlen(text);
    put(s, &length, 1);
    put(s, text, length);
}

static void write_section(const section *s)
{
    putchar((int)(s->entries >> 8));
    putchar((int)(s->entries & 255));
    fwrite(s->bytes, 1, s->length, stdout);
}

int main(void)
{
    static section routers, accounts;
    char kind[16], name[254], secret[254];
    int words;

    while ((words = scanf("%15s %253s %253s", kind, name, secret)) == 3) {
        struct in_addr ipv4;
        if (!strcmp(kind, "router") && inet_pton(AF_INET, name, &ipv4) == 1) {
            put(&routers, &ipv4, 4);
            counted(&routers, secret);
            routers.entries++;
        } else if (!strcmp(kind, "account")) {
            counted(&accounts, name);
            counted(&accounts, secret);
            accounts.entries++;
        } else {
            words = 0;
            break;
        }
    }
    if (words != EOF || routers.entries > 65535 || accounts.entries > 65535) {
        fprintf(stderr, "book: a line is neither `router IPV4 SECRET` nor `account NAME PASSWORD`, or there are too many\n");
        return 1;
    }
    write_section(&routers);
    write_section(&accounts);
    return ferror(stdin) || fflush(stdout) || ferror(stdout);
}
