// Times the two tests of an account book by turns, after seeing that they agree.
#include <stdbool.h>
#include <stdint.h>
#include <stdio.h>
#include <stdlib.h>
#include <string.h>
#include <time.h>

bool proved_whole(const uint8_t *book, size_t length);
bool plain_whole(const uint8_t *book, size_t length);

static uint8_t book[65536];
static size_t length;
static size_t first, last; // where the first and the last name stand

static void part(size_t size, uint32_t seed)
{
    for (size_t i = 0; i < size; i++) {
        book[length++] = (uint8_t)(seed >> 8 * (i % 4));
    }
}

static void counted(size_t size, uint32_t seed)
{
    book[length++] = (uint8_t)size;
    part(size, seed);
}

// A book with this many routers and accounts; a name has `name` bytes and a password `password`, the last one more if that fills the book.
static void make(size_t routers, size_t accounts, size_t name, size_t password)
{
    length = 0;
    book[length++] = (uint8_t)(routers >> 8);
    book[length++] = (uint8_t)routers;
    for (size_t i = 0; i < routers; i++) {
        part(4, (uint32_t)i);
        counted(16, (uint32_t)i);
    }
    book[length++] = (uint8_t)(accounts >> 8);
    book[length++] = (uint8_t)accounts;
    first = length + 1;
    for (size_t i = 0; i < accounts; i++) {
        last = length + 1;
        counted(name, (uint32_t)i);
        size_t left = 65536 - length - 1 - (accounts - i - 1) * (name + password + 2);
        counted(i + 1 == accounts && left < 254 ? left : password, (uint32_t)i);
    }
}

static bool agree(void)
{
    bool whole = proved_whole(book, length);
    if (whole != plain_whole(book, length)) {
        printf("the two tests differ\n");
        exit(1);
    }
    return whole;
}

static double now(void)
{
    struct timespec t;
    clock_gettime(CLOCK_MONOTONIC, &t);
    return t.tv_sec * 1e6 + t.tv_nsec / 1e3;
}

static bool slow;

// The least time of many turns: others may be using the machine.
static void timed(size_t accounts)
{
    double proved = 1e9, plain = 1e9;
    bool whole = agree();

    for (int i = 0; i < 500; i++) {
        double t0 = now();
        whole &= proved_whole(book, length);
        double t1 = now();
        whole &= plain_whole(book, length);
        double t2 = now();
        proved = t1 - t0 < proved ? t1 - t0 : proved;
        plain = t2 - t1 < plain ? t2 - t1 : plain;
    }
    printf("%5zu accounts, %5zu bytes, %s: proved %.1f us, plain %.1f us, ratio %.2f; proved %.3f us for each account\n", accounts, length,
        whole ? "whole" : "broken", proved, plain, proved / plain, proved / accounts);
    slow |= proved > 4 * plain;
}

int main(void)
{
    // the two agree on what one changed byte makes of a book, in every fourth turn with a cut
    make(60, 300, 14, 16);
    int broken = 0;
    for (int i = 0; i < 4000; i++) {
        size_t at = (size_t)rand() % length, kept = length;
        uint8_t byte = book[at];
        book[at] = (uint8_t)rand();
        if (i % 4 == 0)
            length = (size_t)rand() % length;
        broken += !agree();
        book[at] = byte;
        length = kept;
    }
    printf("the two agree on 4000 changed books, of which %d are broken\n", broken);

    static const size_t sizes[] = { 10, 100, 250, 500, 1000, 2015 };
    for (size_t i = 0; i < sizeof sizes / sizeof *sizes; i++) {
        make(sizes[i] / 40, sizes[i], 14, 16);
        timed(sizes[i]);
    }
    // the most accounts that fit with different names of two bytes, and a name that is repeated at the end
    make(0, 13106, 2, 1);
    timed(13106);
    make(50, 2015, 14, 16);
    memcpy(book + last, book + first, 14);
    timed(2015);
    return slow;
}
