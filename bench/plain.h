// MD5 and HMAC-MD5 in plain C, written from RFC 1321 and RFC 2104: what the proved code is timed against.
#include <stddef.h>
#include <stdint.h>

void plain_md5(const uint8_t *message, size_t length, uint8_t digest[16]);
void plain_hmac_md5(const uint8_t *key, size_t key_length, const uint8_t *message, size_t length, uint8_t code[16]);
