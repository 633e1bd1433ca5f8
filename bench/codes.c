// Times the proved MD5 and HMAC-MD5 beside plain C, in turns within one run. Prints the least time of each and
// the middle one of the turns' ratios, which a load that comes and goes moves least.
#include <stdint.h>
#include <stdio.h>
#include <stdlib.h>
#include <string.h>
#include <time.h>

#include "plain.h"

// the proved code, exported by the crate that bench/codes writes
void bench_md5(const uint8_t *message, size_t length, uint8_t *digest);
void bench_hmac_md5(const uint8_t *key, size_t key_length, const uint8_t *message, size_t length, uint8_t *code);

enum { TURNS = 201, DIGESTS = 8, CODES = 1000, LENGTH = 65536 };

typedef void (*task)(void);

static uint8_t message[LENGTH], key[16], digest[16], code[16];

static void proved_digests(void)
{
    for (int i = 0; i < DIGESTS; i++) {
        bench_md5(message, LENGTH, digest);
        message[i] ^= digest[0];
    }
}

static void plain_digests(void)
{
    for (int i = 0; i < DIGESTS; i++) {
        plain_md5(message, LENGTH, digest);
        message[i] ^= digest[0];
    }
}

static void proved_codes(void)
{
    for (int i = 0; i < CODES; i++) {
        uint8_t next[16];
        bench_hmac_md5(key, 16, code, 16, next);
        memcpy(code, next, 16);
    }
}

static void plain_codes(void)
{
    for (int i = 0; i < CODES; i++) {
        uint8_t next[16];
        plain_hmac_md5(key, 16, code, 16, next);
        memcpy(code, next, 16);
    }
}

static double seconds(task run)
{
    struct timespec from, to;

    clock_gettime(CLOCK_MONOTONIC, &from);
    run();
    clock_gettime(CLOCK_MONOTONIC, &to);
    return (double)(to.tv_sec - from.tv_sec) + 1e-9 * (double)(to.tv_nsec - from.tv_nsec);
}

static int order(const void *a, const void *b)
{
    double x = *(const double *)a, y = *(const double *)b;

    return (x > y) - (x < y);
}

static void compare(const char *what, task proved, task plain, int count, double limit)
{
    double best_proved = 1e9, best_plain = 1e9, ratios[TURNS];

    for (int i = 0; i < TURNS; i++) {
        double a = seconds(proved), b = seconds(plain);
        if (a < best_proved) best_proved = a;
        if (b < best_plain) best_plain = b;
        ratios[i] = a / b;
    }
    qsort(ratios, TURNS, sizeof ratios[0], order);
    printf("%s: proved %.3f us, plain C %.3f us, ratio %.2f (the limit that we set is %.1f)\n", what, 1e6 * best_proved / count,
           1e6 * best_plain / count, ratios[TURNS / 2], limit);
}

// Do both give the same bytes, at each length?
static int same(void)
{
    uint8_t proved[16], plain[16];

    for (size_t n = 0; n <= 300; n++) {
        bench_md5(message, n, proved);
        plain_md5(message, n, plain);
        if (memcmp(proved, plain, 16)) return 0;
        bench_hmac_md5(message, n, message + 300, 300 - n, proved);
        plain_hmac_md5(message, n, message + 300, 300 - n, plain);
        if (memcmp(proved, plain, 16)) return 0;
    }
    return 1;
}

int main(void)
{
    for (int i = 0; i < LENGTH; i++) message[i] = (uint8_t)(7 * i + 3);
    for (int i = 0; i < 16; i++) key[i] = (uint8_t)(11 * i + 5);
    if (!same()) {
        puts("the proved code and plain C differ");
        return 1;
    }
    compare("MD5 of 65536 bytes", proved_digests, plain_digests, DIGESTS, 1.1);
    compare("HMAC-MD5 of 16 bytes, key of 16", proved_codes, plain_codes, CODES, 1.3);
    return 0;
}
