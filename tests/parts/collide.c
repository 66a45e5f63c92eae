/* Prints a stream of proxies with different interfaces: collide COUNT GROUPS SHARE. Hashed under the key 0, all their names begin in
 * the first part of a table of so many groups (a power of two), one of SHARE parts; with SHARE 1 they begin anywhere.
 *
 * The hash is SipHash-1-3 with both keys 0, of words: the key, the length of a name, its units, four a word, the first one highest,
 * and then a 1 with those units behind it that are left. The table takes the group of a hash from the low bits of its halves,
 * joined by xor. */
#include <stdint.h>
#include <stdio.h>
#include <stdlib.h>

enum { UNITS = 6, ROW = 1000 };

static const char LETTERS[] = "ABCDEFGHIJKLMNOPQRSTUVWXYZabcdefghijklmnopqrstuvwxyz";

static uint64_t v0, v1, v2, v3;

static uint64_t turned(uint64_t word, int bits) { return word << bits | word >> (64 - bits); }

static void mix(void) {
    v0 += v1, v2 += v3;
    v1 = turned(v1, 13) ^ v0, v3 = turned(v3, 16) ^ v2;
    v0 = turned(v0, 32), v2 += v1, v0 += v3;
    v1 = turned(v1, 17) ^ v2, v3 = turned(v3, 21) ^ v0;
    v2 = turned(v2, 32);
}

static void take(uint64_t word) {
    v3 ^= word;
    mix();
    v0 ^= word;
}

static uint64_t hash_of(const char *name) {
    uint64_t word = 1;
    v0 = 0x736f6d6570736575, v1 = 0x646f72616e646f6d, v2 = 0x6c7967656e657261, v3 = 0x7465646279746573;
    take(0);
    take(UNITS);
    for (int at = 0; at < UNITS; at++) {
        word = word << 16 | (unsigned char)name[at];
        if (at % 4 == 3) {
            take(word);
            word = 1;
        }
    }
    take(word);
    take((uint64_t)(8 * (2 + UNITS / 4 + 1)) << 56);
    v2 ^= 0xff;
    mix(), mix(), mix();
    return v0 ^ v1 ^ v2 ^ v3;
}

static void put(uint64_t number, int bytes) {
    while (bytes-- > 0) putchar((int)(number >> 8 * bytes & 255));
}

int main(int words, char **word) {
    if (words != 4) return 2;
    const long count = atol(word[1]);
    const uint32_t groups = (uint32_t)atol(word[2]), share = (uint32_t)atol(word[3]);
    long made = 0;
    put(0xaced0005, 4);
    for (uint64_t number = 0; made < count; number++) {
        char name[UNITS + 1] = "";
        uint64_t left = number;
        for (int at = UNITS - 1; at >= 0; at--, left /= 52) name[at] = LETTERS[left % 52];
        const uint64_t hash = hash_of(name);
        if (((uint32_t)(hash ^ hash >> 32) & (groups - 1)) >= groups / share) continue;
        if (made % ROW == 0) {
            if (made > 0) put(0x7870, 2);
            put(0x737d, 2);
            put((uint64_t)(count - made < ROW ? count - made : ROW), 4);
        }
        put(UNITS, 2);
        fputs(name, stdout);
        made++;
    }
    put(0x7870, 2);
    return 0;
}
