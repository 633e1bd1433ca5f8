#include "plain.h"

#include <string.h>

typedef struct {
    uint32_t a, b, c, d;
    uint64_t bytes;
    uint8_t block[64];
} context;

#define ROTATE(x, s) (((x) << (s)) | ((x) >> (32 - (s))))
#define F(x, y, z) (((x) & (y)) | (~(x) & (z)))
#define G(x, y, z) (((x) & (z)) | ((y) & ~(z)))
#define H(x, y, z) ((x) ^ (y) ^ (z))
#define I(x, y, z) ((y) ^ ((x) | ~(z)))
#define OPERATION(f, a, b, c, d, k, s, t) \
    do { \
        a += f(b, c, d) + x[k] + (t); \
        a = b + ROTATE(a, s); \
    } while (0)

static void process(context *m, const uint8_t *p)
{
    uint32_t x[16], a = m->a, b = m->b, c = m->c, d = m->d;

    for (int i = 0; i < 16; i++, p += 4)
        x[i] = (uint32_t)p[0] | (uint32_t)p[1] << 8 | (uint32_t)p[2] << 16 | (uint32_t)p[3] << 24;

    OPERATION(F, a, b, c, d,  0,  7, 0xd76aa478);
    OPERATION(F, d, a, b, c,  1, 12, 0xe8c7b756);
    OPERATION(F, c, d, a, b,  2, 17, 0x242070db);
    OPERATION(F, b, c, d, a,  3, 22, 0xc1bdceee);
    OPERATION(F, a, b, c, d,  4,  7, 0xf57c0faf);
    OPERATION(F, d, a, b, c,  5, 12, 0x4787c62a);
    OPERATION(F, c, d, a, b,  6, 17, 0xa8304613);
    OPERATION(F, b, c, d, a,  7, 22, 0xfd469501);
    OPERATION(F, a, b, c, d,  8,  7, 0x698098d8);
    OPERATION(F, d, a, b, c,  9, 12, 0x8b44f7af);
    OPERATION(F, c, d, a, b, 10, 17, 0xffff5bb1);
    OPERATION(F, b, c, d, a, 11, 22, 0x895cd7be);
    OPERATION(F, a, b, c, d, 12,  7, 0x6b901122);
    OPERATION(F, d, a, b, c, 13, 12, 0xfd987193);
    OPERATION(F, c, d, a, b, 14, 17, 0xa679438e);
    OPERATION(F, b, c, d, a, 15, 22, 0x49b40821);

    OPERATION(G, a, b, c, d,  1,  5, 0xf61e2562);
    OPERATION(G, d, a, b, c,  6,  9, 0xc040b340);
    OPERATION(G, c, d, a, b, 11, 14, 0x265e5a51);
    OPERATION(G, b, c, d, a,  0, 20, 0xe9b6c7aa);
    OPERATION(G, a, b, c, d,  5,  5, 0xd62f105d);
    OPERATION(G, d, a, b, c, 10,  9, 0x02441453);
    OPERATION(G, c, d, a, b, 15, 14, 0xd8a1e681);
    OPERATION(G, b, c, d, a,  4, 20, 0xe7d3fbc8);
    OPERATION(G, a, b, c, d,  9,  5, 0x21e1cde6);
    OPERATION(G, d, a, b, c, 14,  9, 0xc33707d6);
    OPERATION(G, c, d, a, b,  3, 14, 0xf4d50d87);
    OPERATION(G, b, c, d, a,  8, 20, 0x455a14ed);
    OPERATION(G, a, b, c, d, 13,  5, 0xa9e3e905);
    OPERATION(G, d, a, b, c,  2,  9, 0xfcefa3f8);
    OPERATION(G, c, d, a, b,  7, 14, 0x676f02d9);
    OPERATION(G, b, c, d, a, 12, 20, 0x8d2a4c8a);

    OPERATION(H, a, b, c, d,  5,  4, 0xfffa3942);
    OPERATION(H, d, a, b, c,  8, 11, 0x8771f681);
    OPERATION(H, c, d, a, b, 11, 16, 0x6d9d6122);
    OPERATION(H, b, c, d, a, 14, 23, 0xfde5380c);
    OPERATION(H, a, b, c, d,  1,  4, 0xa4beea44);
    OPERATION(H, d, a, b, c,  4, 11, 0x4bdecfa9);
    OPERATION(H, c, d, a, b,  7, 16, 0xf6bb4b60);
    OPERATION(H, b, c, d, a, 10, 23, 0xbebfbc70);
    OPERATION(H, a, b, c, d, 13,  4, 0x289b7ec6);
    OPERATION(H, d, a, b, c,  0, 11, 0xeaa127fa);
    OPERATION(H, c, d, a, b,  3, 16, 0xd4ef3085);
    OPERATION(H, b, c, d, a,  6, 23, 0x04881d05);
    OPERATION(H, a, b, c, d,  9,  4, 0xd9d4d039);
    OPERATION(H, d, a, b, c, 12, 11, 0xe6db99e5);
    OPERATION(H, c, d, a, b, 15, 16, 0x1fa27cf8);
    OPERATION(H, b, c, d, a,  2, 23, 0xc4ac5665);

    OPERATION(I, a, b, c, d,  0,  6, 0xf4292244);
    OPERATION(I, d, a, b, c,  7, 10, 0x432aff97);
    OPERATION(I, c, d, a, b, 14, 15, 0xab9423a7);
    OPERATION(I, b, c, d, a,  5, 21, 0xfc93a039);
    OPERATION(I, a, b, c, d, 12,  6, 0x655b59c3);
    OPERATION(I, d, a, b, c,  3, 10, 0x8f0ccc92);
    OPERATION(I, c, d, a, b, 10, 15, 0xffeff47d);
    OPERATION(I, b, c, d, a,  1, 21, 0x85845dd1);
    OPERATION(I, a, b, c, d,  8,  6, 0x6fa87e4f);
    OPERATION(I, d, a, b, c, 15, 10, 0xfe2ce6e0);
    OPERATION(I, c, d, a, b,  6, 15, 0xa3014314);
    OPERATION(I, b, c, d, a, 13, 21, 0x4e0811a1);
    OPERATION(I, a, b, c, d,  4,  6, 0xf7537e82);
    OPERATION(I, d, a, b, c, 11, 10, 0xbd3af235);
    OPERATION(I, c, d, a, b,  2, 15, 0x2ad7d2bb);
    OPERATION(I, b, c, d, a,  9, 21, 0xeb86d391);

    m->a += a;
    m->b += b;
    m->c += c;
    m->d += d;
}

static void start(context *m)
{
    m->a = 0x67452301;
    m->b = 0xefcdab89;
    m->c = 0x98badcfe;
    m->d = 0x10325476;
    m->bytes = 0;
}

static void update(context *m, const uint8_t *p, size_t n)
{
    size_t held = m->bytes % 64;

    m->bytes += n;
    if (held > 0) {
        size_t free = 64 - held;
        if (n < free) {
            memcpy(m->block + held, p, n);
            return;
        }
        memcpy(m->block + held, p, free);
        process(m, m->block);
        p += free;
        n -= free;
    }
    for (; n >= 64; p += 64, n -= 64)
        process(m, p);
    memcpy(m->block, p, n);
}

static void put_word(uint8_t *p, uint32_t x)
{
    p[0] = (uint8_t)x;
    p[1] = (uint8_t)(x >> 8);
    p[2] = (uint8_t)(x >> 16);
    p[3] = (uint8_t)(x >> 24);
}

static void finish(context *m, uint8_t digest[16])
{
    size_t held = m->bytes % 64;
    uint64_t bits = m->bytes << 3;

    m->block[held++] = 0x80;
    if (held > 56) {
        memset(m->block + held, 0, 64 - held);
        process(m, m->block);
        held = 0;
    }
    memset(m->block + held, 0, 56 - held);
    put_word(m->block + 56, (uint32_t)bits);
    put_word(m->block + 60, (uint32_t)(bits >> 32));
    process(m, m->block);
    put_word(digest, m->a);
    put_word(digest + 4, m->b);
    put_word(digest + 8, m->c);
    put_word(digest + 12, m->d);
}

void plain_md5(const uint8_t *message, size_t length, uint8_t digest[16])
{
    context m;

    start(&m);
    update(&m, message, length);
    finish(&m, digest);
}

void plain_hmac_md5(const uint8_t *key, size_t key_length, const uint8_t *message, size_t length, uint8_t code[16])
{
    uint8_t short_key[16], pad[64], inner[16];
    context m;

    if (key_length > 64) {
        plain_md5(key, key_length, short_key);
        key = short_key;
        key_length = 16;
    }
    memset(pad, 0x36, 64);
    for (size_t i = 0; i < key_length; i++)
        pad[i] ^= key[i];
    start(&m);
    update(&m, pad, 64);
    update(&m, message, length);
    finish(&m, inner);

    memset(pad, 0x5c, 64);
    for (size_t i = 0; i < key_length; i++)
        pad[i] ^= key[i];
    start(&m);
    update(&m, pad, 64);
    update(&m, inner, 16);
    finish(&m, code);
}
