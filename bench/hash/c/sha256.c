/* SHA-256 (FIPS 180-4) in C, in two shapes, for bench/run to compare with. The compiler's -D sets NAME and, for the second shape, FUSED. */
#include <stddef.h>
#include <stdint.h>
#include <string.h>

static const uint32_t K[64] = {
    0x428a2f98, 0x71374491, 0xb5c0fbcf, 0xe9b5dba5, 0x3956c25b, 0x59f111f1, 0x923f82a4, 0xab1c5ed5,
    0xd807aa98, 0x12835b01, 0x243185be, 0x550c7dc3, 0x72be5d74, 0x80deb1fe, 0x9bdc06a7, 0xc19bf174,
    0xe49b69c1, 0xefbe4786, 0x0fc19dc6, 0x240ca1cc, 0x2de92c6f, 0x4a7484aa, 0x5cb0a9dc, 0x76f988da,
    0x983e5152, 0xa831c66d, 0xb00327c8, 0xbf597fc7, 0xc6e00bf3, 0xd5a79147, 0x06ca6351, 0x14292967,
    0x27b70a85, 0x2e1b2138, 0x4d2c6dfc, 0x53380d13, 0x650a7354, 0x766a0abb, 0x81c2c92e, 0x92722c85,
    0xa2bfe8a1, 0xa81a664b, 0xc24b8b70, 0xc76c51a3, 0xd192e819, 0xd6990624, 0xf40e3585, 0x106aa070,
    0x19a4c116, 0x1e376c08, 0x2748774c, 0x34b0bcb5, 0x391c0cb3, 0x4ed8aa4a, 0x5b9cca4f, 0x682e6ff3,
    0x748f82ee, 0x78a5636f, 0x84c87814, 0x8cc70208, 0x90befffa, 0xa4506ceb, 0xbef9a3f7, 0xc67178f2,
};

static inline uint32_t rotr(uint32_t x, int n) { return x >> n | x << (32 - n); }

static inline uint32_t load(const uint8_t *block, int t)
{
    return (uint32_t)block[4 * t] << 24 | (uint32_t)block[4 * t + 1] << 16 | (uint32_t)block[4 * t + 2] << 8 | block[4 * t + 3];
}

static inline uint32_t next(const uint32_t w[64], int t)
{
    uint32_t s0 = rotr(w[t - 15], 7) ^ rotr(w[t - 15], 18) ^ w[t - 15] >> 3;
    uint32_t s1 = rotr(w[t - 2], 17) ^ rotr(w[t - 2], 19) ^ w[t - 2] >> 10;
    return s1 + w[t - 7] + s0 + w[t - 16];
}

#ifdef FUSED
/* The shape of crates/hash: each word of the schedule is made just before its round, eight rounds in a turn, Ch and Σ0 in their short forms. */
struct state { uint32_t a, b, c, d, e, f, g, h; };

static inline struct state step(struct state s, uint32_t w[64], int t, uint32_t x)
{
    w[t] = x;
    uint32_t t1 = s.h + (rotr(s.e, 6) ^ rotr(s.e, 11) ^ rotr(s.e, 25)) + (s.g ^ (s.e & (s.f ^ s.g))) + K[t] + x;
    uint32_t t2 = rotr(s.a ^ rotr(s.a ^ rotr(s.a, 9), 11), 2) + ((s.a & s.b) ^ (s.a & s.c) ^ (s.b & s.c));
    return (struct state){t1 + t2, s.a, s.b, s.c, s.d + t1, s.e, s.f, s.g};
}

#define EIGHT(word) \
    s = step(s, w, t, word(t)), s = step(s, w, t + 1, word(t + 1)), s = step(s, w, t + 2, word(t + 2)), s = step(s, w, t + 3, word(t + 3)), \
    s = step(s, w, t + 4, word(t + 4)), s = step(s, w, t + 5, word(t + 5)), s = step(s, w, t + 6, word(t + 6)), s = step(s, w, t + 7, word(t + 7))
#define FIRST(t) load(block, t)
#define LATER(t) next(w, t)

static void compress(uint32_t hash[8], const uint8_t *block)
{
    uint32_t w[64];
    struct state s = {hash[0], hash[1], hash[2], hash[3], hash[4], hash[5], hash[6], hash[7]};
    for (int t = 0; t < 16; t += 8)
        EIGHT(FIRST);
    for (int t = 16; t < 64; t += 8)
        EIGHT(LATER);
    hash[0] += s.a, hash[1] += s.b, hash[2] += s.c, hash[3] += s.d, hash[4] += s.e, hash[5] += s.f, hash[6] += s.g, hash[7] += s.h;
}
#else
/* As the standard is written: the whole schedule, then the rounds. */
static void compress(uint32_t hash[8], const uint8_t *block)
{
    uint32_t w[64];
    for (int t = 0; t < 16; t++)
        w[t] = load(block, t);
    for (int t = 16; t < 64; t++)
        w[t] = next(w, t);
    uint32_t a = hash[0], b = hash[1], c = hash[2], d = hash[3], e = hash[4], f = hash[5], g = hash[6], h = hash[7];
    for (int t = 0; t < 64; t++) {
        uint32_t t1 = h + (rotr(e, 6) ^ rotr(e, 11) ^ rotr(e, 25)) + ((e & f) ^ (~e & g)) + K[t] + w[t];
        uint32_t t2 = (rotr(a, 2) ^ rotr(a, 13) ^ rotr(a, 22)) + ((a & b) ^ (a & c) ^ (b & c));
        h = g, g = f, f = e, e = d + t1, d = c, c = b, b = a, a = t1 + t2;
    }
    hash[0] += a, hash[1] += b, hash[2] += c, hash[3] += d, hash[4] += e, hash[5] += f, hash[6] += g, hash[7] += h;
}
#endif

void NAME(const uint8_t *message, size_t length, uint8_t digest[32])
{
    uint32_t hash[8] = {0x6a09e667, 0xbb67ae85, 0x3c6ef372, 0xa54ff53a, 0x510e527f, 0x9b05688c, 0x1f83d9ab, 0x5be0cd19};
    size_t rest = length % 64, end = rest < 56 ? 64 : 128;
    for (size_t at = 0; at + 64 <= length; at += 64)
        compress(hash, message + at);
    uint8_t last[128] = {0};
    if (rest)
        memcpy(last, message + length - rest, rest);
    last[rest] = 0x80;
    uint64_t bits = (uint64_t)length * 8;
    for (int i = 0; i < 8; i++)
        last[end - 1 - i] = (uint8_t)(bits >> (8 * i));
    for (size_t at = 0; at < end; at += 64)
        compress(hash, last + at);
    for (int i = 0; i < 32; i++)
        digest[i] = (uint8_t)(hash[i / 4] >> (24 - i % 4 * 8));
}
