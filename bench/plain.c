/* SHA-256, HMAC-SHA-256 and SipHash-2-4 in plain C, straight from their definitions, to compare the proved code with.
   NAMED gives each compiler's functions a name of their own. */
#include <stddef.h>
#include <stdint.h>
#include <string.h>

#define ROTR32(x, n) (((x) >> (n)) | ((x) << (32 - (n))))
#define ROTL64(x, n) (((x) << (n)) | ((x) >> (64 - (n))))

static const uint32_t K[64] = {
    0x428a2f98, 0x71374491, 0xb5c0fbcf, 0xe9b5dba5, 0x3956c25b, 0x59f111f1, 0x923f82a4, 0xab1c5ed5,
    0xd807aa98, 0x12835b01, 0x243185be, 0x550c7dc3, 0x72be5d74, 0x80deb1fe, 0x9bdc06a7, 0xc19bf174,
    0xe49b69c1, 0xefbe4786, 0x0fc19dc6, 0x240ca1cc, 0x2de92c6f, 0x4a7484aa, 0x5cb0a9dc, 0x76f988da,
    0x983e5152, 0xa831c66d, 0xb00327c8, 0xbf597fc7, 0xc6e00bf3, 0xd5a79147, 0x06ca6351, 0x14292967,
    0x27b70a85, 0x2e1b2138, 0x4d2c6dfc, 0x53380d13, 0x650a7354, 0x766a0abb, 0x81c2c92e, 0x92722c85,
    0xa2bfe8a1, 0xa81a664b, 0xc24b8b70, 0xc76c51a3, 0xd192e819, 0xd6990624, 0xf40e3585, 0x106aa070,
    0x19a4c116, 0x1e376c08, 0x2748774c, 0x34b0bcb5, 0x391c0cb3, 0x4ed8aa4a, 0x5b9cca4f, 0x682e6ff3,
    0x748f82ee, 0x78a5636f, 0x84c87814, 0x8cc70208, 0x90befffa, 0xa4506ceb, 0xbef9a3f7, 0xc67178f2};

static const uint32_t START[8] = {0x6a09e667, 0xbb67ae85, 0x3c6ef372, 0xa54ff53a,
                                  0x510e527f, 0x9b05688c, 0x1f83d9ab, 0x5be0cd19};

static uint32_t big_endian(const uint8_t *p) {
    return (uint32_t)p[0] << 24 | (uint32_t)p[1] << 16 | (uint32_t)p[2] << 8 | p[3];
}

static uint64_t little_endian(const uint8_t *p) {
    uint64_t x = 0;
    for (int i = 0; i < 8; i++) x |= (uint64_t)p[i] << (8 * i);
    return x;
}

static void compress(uint32_t state[8], const uint8_t *block) {
    uint32_t w[64];
    for (int t = 0; t < 16; t++) w[t] = big_endian(block + 4 * t);
    for (int t = 16; t < 64; t++) {
        uint32_t x = w[t - 15], y = w[t - 2];
        uint32_t s0 = ROTR32(x, 7) ^ ROTR32(x, 18) ^ (x >> 3);
        uint32_t s1 = ROTR32(y, 17) ^ ROTR32(y, 19) ^ (y >> 10);
        w[t] = s1 + w[t - 7] + s0 + w[t - 16];
    }
    uint32_t a = state[0], b = state[1], c = state[2], d = state[3];
    uint32_t e = state[4], f = state[5], g = state[6], h = state[7];
    for (int t = 0; t < 64; t++) {
        uint32_t t1 = h + (ROTR32(e, 6) ^ ROTR32(e, 11) ^ ROTR32(e, 25)) + ((e & f) ^ (~e & g)) + K[t] + w[t];
        uint32_t t2 = (ROTR32(a, 2) ^ ROTR32(a, 13) ^ ROTR32(a, 22)) + ((a & b) ^ (a & c) ^ (b & c));
        h = g, g = f, f = e, e = d + t1, d = c, c = b, b = a, a = t1 + t2;
    }
    state[0] += a, state[1] += b, state[2] += c, state[3] += d;
    state[4] += e, state[5] += f, state[6] += g, state[7] += h;
}

/* Goes on from a state that `before` bytes, whole blocks, have led to. */
static void finish(uint32_t state[8], const uint8_t *m, size_t n, size_t before, uint8_t out[32]) {
    size_t full = n / 64, left = n % 64, end = left < 56 ? 64 : 128;
    uint64_t bits = 8 * (uint64_t)(before + n);
    uint8_t last[128] = {0};
    for (size_t i = 0; i < full; i++) compress(state, m + 64 * i);
    memcpy(last, m + 64 * full, left);
    last[left] = 0x80;
    for (int i = 0; i < 8; i++) last[end - 8 + i] = (uint8_t)(bits >> (56 - 8 * i));
    compress(state, last);
    if (end == 128) compress(state, last + 64);
    for (int i = 0; i < 8; i++)
        for (int j = 0; j < 4; j++) out[4 * i + j] = (uint8_t)(state[i] >> (24 - 8 * j));
}

void NAMED(sha256)(const uint8_t *m, size_t n, uint8_t out[32]) {
    uint32_t state[8];
    memcpy(state, START, sizeof state);
    finish(state, m, n, 0, out);
}

static void keyed(const uint8_t key[32], uint8_t pad, const uint8_t *m, size_t n, uint8_t out[32]) {
    uint8_t block[64];
    uint32_t state[8];
    for (int i = 0; i < 64; i++) block[i] = pad ^ (i < 32 ? key[i] : 0);
    memcpy(state, START, sizeof state);
    compress(state, block);
    finish(state, m, n, 64, out);
}

void NAMED(hmac)(const uint8_t key[32], const uint8_t *m, size_t n, uint8_t out[32]) {
    uint8_t inner[32];
    keyed(key, 0x36, m, n, inner);
    keyed(key, 0x5c, inner, 32, out);
}

#define SIPROUND                                                                                              \
    v0 += v1, v2 += v3, v1 = ROTL64(v1, 13), v3 = ROTL64(v3, 16), v1 ^= v0, v3 ^= v2, v0 = ROTL64(v0, 32),    \
    v2 += v1, v0 += v3, v1 = ROTL64(v1, 17), v3 = ROTL64(v3, 21), v1 ^= v2, v3 ^= v0, v2 = ROTL64(v2, 32)

uint64_t NAMED(siphash)(const uint8_t key[16], const uint8_t *m, size_t n) {
    uint64_t k0 = little_endian(key), k1 = little_endian(key + 8);
    uint64_t v0 = k0 ^ 0x736f6d6570736575, v1 = k1 ^ 0x646f72616e646f6d;
    uint64_t v2 = k0 ^ 0x6c7967656e657261, v3 = k1 ^ 0x7465646279746573;
    size_t full = n / 8;
    uint64_t last = (uint64_t)n << 56;
    for (size_t i = 0; i < full; i++) {
        uint64_t w = little_endian(m + 8 * i);
        v3 ^= w, SIPROUND, SIPROUND, v0 ^= w;
    }
    for (size_t i = 0; i < n % 8; i++) last |= (uint64_t)m[8 * full + i] << (8 * i);
    v3 ^= last, SIPROUND, SIPROUND, v0 ^= last;
    v2 ^= 0xff, SIPROUND, SIPROUND, SIPROUND, SIPROUND;
    return v0 ^ v1 ^ v2 ^ v3;
}
