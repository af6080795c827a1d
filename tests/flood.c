/* Finds texts, or pairs of numbers, whose hashes collide in an index table, for tests/flood.py.

   usage: flood HASH KEYS COUNT LENGTH SECONDS

   HASH is `fold`, the multiplying hash with its fixed seed, or `known`, SipHash-1-3 with the keys 0 and 0. KEYS is `texts` of LENGTH
   letters, or `pairs` of numbers below 65536. Prints COUNT of them, one a line, or as many as were found in so many seconds.

   An index table has groups of places, as many as a power of two. A search begins at the group that the low bits of the hash name, and
   goes on to the next one while that is marked as full; in each it compares all keys with the same highest 8 bits. So keys with the same
   highest bits and with a beginning in the first few groups are all compared with each other, at each size of the table up to
   1024 groups, which is 9,216 keys. */
#include <stdint.h>
#include <stdio.h>
#include <stdlib.h>
#include <string.h>
#include <time.h>

#define MULTIPLIER 0x9e3779b97f4a7c15u
#define SEED 0x243f6a8885a308d3u

static uint64_t folded(uint64_t a, uint64_t b) {
    unsigned __int128 product = (unsigned __int128)a * b;
    return (uint64_t)product ^ (uint64_t)(product >> 64);
}

/* A number of so many bytes, of 4 or more, written to the hasher at once. */
static uint64_t fold_number(uint64_t state, uint64_t value, int bytes) {
    return folded(state ^ (bytes == 4 ? value | value << 32 : value), MULTIPLIER ^ (uint64_t)(2 * bytes));
}

static uint64_t fold_byte(uint64_t state, uint8_t byte) {
    uint64_t wide = byte;
    return folded(state ^ (wide | wide << 8 | wide << 16), MULTIPLIER ^ 2);
}

#define ROTATED(x, b) ((x) << (b) | (x) >> (64 - (b)))
#define ROUND \
    a += b; b = ROTATED(b, 13); b ^= a; a = ROTATED(a, 32); c += d; d = ROTATED(d, 16); d ^= c; \
    a += d; d = ROTATED(d, 21); d ^= a; c += b; b = ROTATED(b, 17); b ^= c; c = ROTATED(c, 32);

static uint64_t siphash(const uint8_t *bytes, size_t length) {
    uint64_t a = 0x736f6d6570736575u, b = 0x646f72616e646f6du, c = 0x6c7967656e657261u, d = 0x7465646279746573u, word;
    size_t at;
    for (at = 0; at + 8 <= length; at += 8) {
        memcpy(&word, bytes + at, 8);
        d ^= word; ROUND a ^= word;
    }
    word = (uint64_t)length << 56;
    for (size_t i = 0; at + i < length; i++) word |= (uint64_t)bytes[at + i] << (8 * i);
    d ^= word; ROUND a ^= word;
    c ^= 0xff;
    ROUND ROUND ROUND
    return a ^ b ^ c ^ d;
}

static int collides(uint64_t hash) {
    uint32_t h = (uint32_t)(hash ^ hash >> 32);
    return h >> 24 == 0x5b && (h & 1023) < 8;
}

/* Of a text whose letters but the last three lead to this state of the multiplying hash. */
static uint64_t hash_of_text(int is_fold, uint64_t state, const uint8_t *text, size_t length) {
    uint8_t bytes[72] = {(uint8_t)length};
    if (is_fold) return fold_byte(fold_byte(fold_byte(state, text[length - 3]), text[length - 2]), text[length - 1]);
    memcpy(bytes + 8, text, length);
    return siphash(bytes, 8 + length);
}

static uint64_t hash_of_pair(int is_fold, uint32_t one, uint32_t other) {
    if (is_fold) return fold_number(fold_number(fold_number(SEED, 2, 8), one, 4), other, 4);
    uint8_t bytes[16] = {2};
    memcpy(bytes + 8, &one, 4);
    memcpy(bytes + 12, &other, 4);
    return siphash(bytes, 16);
}

int main(int argc, char **argv) {
    uint8_t text[65] = {0};
    if (argc != 6) return 2;
    int is_fold = strcmp(argv[1], "fold") == 0, are_texts = strcmp(argv[2], "texts") == 0;
    long count = atol(argv[3]), length = atol(argv[4]);
    clock_t end = clock() + (clock_t)(atof(argv[5]) * CLOCKS_PER_SEC);
    if (length < 8 || length > 64) return 2;
    memset(text, 'x', length);
    uint8_t *tail = text + length - 8;
    for (uint64_t i = 0; count > 0 && clock() < end; i++) {
        uint64_t rest = i;
        for (int at = 0; at < 5; at++, rest /= 26) tail[at] = 'a' + rest % 26;
        uint64_t state = fold_number(SEED, length, 8);
        for (int at = 0; at < length - 3; at++) state = fold_byte(state, text[at]);
        for (uint32_t j = 0; j < 17576 && count > 0; j++) {
            uint32_t one = (uint32_t)i & 65535, other = j;
            tail[5] = 'a' + j % 26; tail[6] = 'a' + j / 26 % 26; tail[7] = 'a' + j / 676;
            if (are_texts ? collides(hash_of_text(is_fold, state, text, length)) : collides(hash_of_pair(is_fold, one, other))) {
                if (are_texts) puts((char *)text); else printf("%u,%u\n", one, other);
                count--;
            }
        }
        if (!are_texts && i == 65535) break;
    }
    return 0;
}
