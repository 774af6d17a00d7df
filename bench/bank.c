// The line program in plain C, written for speed and without proofs: bench/calls compares the proved one with it.
#include <stdint.h>
#include <stdio.h>
#include <stdlib.h>
#include <string.h>

enum { F = 1, BOARDS = 3 * F + 1, ITEMS = 64, KEPT = 32, CLIENTS = 16, LIMIT = 65535, LONGEST = 854, BODY = 267 };

typedef struct {
    uint8_t body[4 + BODY]; // behind the label ENTR
    int len;                // of the body
    int shares;
    uint8_t has[BOARDS];
    uint8_t tag[BOARDS][16];
} entry;

typedef struct {
    uint32_t version;
    uint8_t len, value[32], digest[32];
} row;

static row rows[ITEMS];
static entry window[KEPT];
static uint32_t count;
static uint8_t chain[4 + 32 + BODY]; // label, chain, and room for a body behind it
static uint32_t next_number[CLIENTS], open_numbers[CLIENTS][4];
static uint8_t empty_digest[32];

static uint64_t rotl(uint64_t x, int b) { return x << b | x >> (64 - b); }

#define ROUND                                                                                                          \
    v0 += v1, v1 = rotl(v1, 13), v1 ^= v0, v0 = rotl(v0, 32), v2 += v3, v3 = rotl(v3, 16), v3 ^= v2, v0 += v3,         \
        v3 = rotl(v3, 21), v3 ^= v0, v2 += v1, v1 = rotl(v1, 17), v1 ^= v2, v2 = rotl(v2, 32)

// SipHash-2-4 under a key of bytes s.
static uint64_t siphash(uint8_t s, const uint8_t *m, size_t n) {
    uint64_t k = 0x0101010101010101ull * s, w;
    uint64_t v0 = k ^ 0x736f6d6570736575ull, v1 = k ^ 0x646f72616e646f6dull;
    uint64_t v2 = k ^ 0x6c7967656e657261ull, v3 = k ^ 0x7465646279746573ull;
    size_t whole = n / 8;
    for (size_t i = 0; i < whole; i++, m += 8) {
        memcpy(&w, m, 8);
        v3 ^= w;
        ROUND;
        ROUND;
        v0 ^= w;
    }
    w = (uint64_t)n << 56;
    for (size_t i = 0; i < n % 8; i++) w |= (uint64_t)m[i] << 8 * i;
    v3 ^= w;
    ROUND;
    ROUND;
    v0 ^= w;
    v2 ^= 0xff;
    ROUND;
    ROUND;
    ROUND;
    ROUND;
    return v0 ^ v1 ^ v2 ^ v3;
}

static void make_tag(uint8_t s, const uint8_t *m, size_t n, uint8_t *out) {
    uint64_t h = siphash(s, m, n);
    memcpy(out, &h, 8);
    memset(out + 8, 0, 8);
}

static int tag_passes(uint8_t s, const uint8_t *m, size_t n, const uint8_t *tag) {
    uint8_t want[16];
    make_tag(s, m, n, want);
    return memcmp(want, tag, 16) == 0;
}

static void put8(uint8_t *out, uint64_t x) {
    for (int i = 7; i >= 0; i--, x >>= 8) out[i] = (uint8_t)x;
}

// 64-bit FNV-1a, the length, two zero words.
static void digest(const uint8_t *m, size_t n, uint8_t *out) {
    uint64_t h = 14695981039346656037ull;
    for (size_t i = 0; i < n; i++) h = (h ^ m[i]) * 1099511628211ull;
    put8(out, h);
    put8(out + 8, n);
    memset(out + 16, 0, 16);
}

static uint32_t get2(const uint8_t *p) { return (uint32_t)p[0] << 8 | p[1]; }
static uint8_t *put2(uint8_t *p, uint32_t x) {
    p[0] = (uint8_t)(x >> 8);
    p[1] = (uint8_t)x;
    return p + 2;
}

static size_t refuse(uint8_t *out, uint8_t number, uint8_t layer, uint32_t place) {
    out[0] = 0xff;
    out[1] = number;
    out[2] = layer;
    put2(out + 3, place);
    return 5;
}

#define MALFORMED(p) return refuse(out, 1, 'F', (uint32_t)(p))

static size_t deliver(uint8_t *q, size_t n, uint8_t *out) {
    uint8_t reads_at[16], writes_at_item[8];
    size_t read_place[16], write_place[8], at = 6;
    if (n < 2) MALFORMED(n);
    if (q[1] >= CLIENTS) MALFORMED(1);
    if (n < 5) MALFORMED(n);
    if (q[4] > 16) MALFORMED(4);
    if (n < 6) MALFORMED(n);
    if (q[5] < 1 || q[5] > 8) MALFORMED(5);
    int reads = q[4], writes = q[5];
    for (int i = 0; i < reads; i++, at += 35) {
        if (at >= n) MALFORMED(n);
        if (q[at] >= ITEMS) MALFORMED(at);
        if (n < at + 35) MALFORMED(n);
        reads_at[i] = q[at];
        read_place[i] = at;
    }
    for (int i = 0; i < writes; i++) {
        if (at >= n) MALFORMED(n);
        if (q[at] >= ITEMS) MALFORMED(at);
        if (at + 1 >= n) MALFORMED(n);
        if (q[at + 1] > 32) MALFORMED(at + 1);
        if (n < at + 2 + q[at + 1]) MALFORMED(n);
        writes_at_item[i] = q[at];
        write_place[i] = at;
        at += 2 + q[at + 1];
    }
    if (n < at + 16) MALFORMED(n);
    if (n > at + 16) MALFORMED(at + 16);
    uint64_t read_items = 0;
    for (int i = 0; i < reads; i++) {
        if (i && reads_at[i] <= reads_at[i - 1]) return refuse(out, 2, 'F', (uint32_t)read_place[i]);
        read_items |= 1ull << reads_at[i];
    }
    for (int i = 1; i < writes; i++)
        if (writes_at_item[i] <= writes_at_item[i - 1]) return refuse(out, 2, 'F', (uint32_t)write_place[i]);
    for (int i = 0; i < writes; i++)
        if (!(read_items >> writes_at_item[i] & 1)) return refuse(out, 4, 'F', (uint32_t)write_place[i]);
    memcpy(q - 4, "RQST", 4);
    uint8_t client = q[1];
    if (!tag_passes(16 + client, q - 4, at + 4, q + at)) return refuse(out, 3, 'S', (uint32_t)at);
    uint32_t number = get2(q + 2);
    int slot = -1;
    for (int i = 0; i < 4; i++)
        if (number && open_numbers[client][i] == number) slot = i;
    if (slot < 0) return refuse(out, 10, 'B', 2);
    if (count >= LIMIT) return refuse(out, 11, 'B', 0);
    int pass = 1;
    for (int i = 0; i < reads && pass; i++) {
        const uint8_t *r = q + read_place[i];
        const row *w = &rows[r[0]];
        pass = get2(r + 1) == w->version && memcmp(r + 3, w->version ? w->digest : empty_digest, 32) == 0;
    }
    uint32_t opened = next_number[client] <= LIMIT ? next_number[client]++ : 0;
    open_numbers[client][slot] = opened;
    out[0] = 0;
    out[1] = (uint8_t)pass;
    if (!pass) {
        put2(put2(out + 2, 0), opened);
        return 6;
    }
    count++;
    entry *e = &window[count % KEPT];
    e->shares = 0;
    memset(e->has, 0, sizeof e->has);
    uint8_t *b = put2(e->body + 4, count);
    *b++ = (uint8_t)writes;
    for (int i = 0; i < writes; i++) {
        const uint8_t *w = q + write_place[i];
        row *to = &rows[w[0]];
        to->version = count;
        to->len = w[1];
        memcpy(to->value, w + 2, w[1]);
        digest(w + 2, w[1], to->digest);
        *b++ = w[0];
        memcpy(b, to->digest, 32);
        b += 32;
    }
    e->len = (int)(b - e->body) - 4;
    memcpy(chain + 36, e->body + 4, (size_t)e->len);
    digest(chain, 36 + (size_t)e->len, chain + 4);
    put2(put2(out + 2, count), opened);
    return 6;
}

static size_t share_in(const uint8_t *s, size_t n, uint8_t *out) {
    if (n < 4) MALFORMED(n);
    uint32_t v = get2(s + 2);
    if (v == 0) MALFORMED(2);
    if (n < 20) MALFORMED(n);
    if (n > 20) MALFORMED(20);
    if (s[1] >= BOARDS) return refuse(out, 5, 'F', 1);
    if (v > count) return refuse(out, 12, 'B', 0);
    if (v + KEPT <= count) return refuse(out, 13, 'B', 0);
    entry *e = &window[v % KEPT];
    if (e->has[s[1]] || e->shares > F) return refuse(out, 14, 'B', 0);
    if (!tag_passes(s[1], e->body, 4 + (size_t)e->len, s + 4)) return refuse(out, 3, 'S', 4);
    e->has[s[1]] = 1;
    memcpy(e->tag[s[1]], s + 4, 16);
    out[0] = 0;
    out[1] = (uint8_t)++e->shares;
    return 2;
}

static size_t share_out(uint32_t v, uint8_t *out) {
    if (v == 0) MALFORMED(1);
    if (v > count) return refuse(out, 12, 'B', 0);
    if (v + KEPT <= count) return refuse(out, 13, 'B', 0);
    entry *e = &window[v % KEPT];
    out[0] = 0;
    out[1] = 2;
    out[2] = 0;
    make_tag(0, e->body, 4 + (size_t)e->len, put2(out + 3, v));
    return 21;
}

static size_t proof(uint32_t low, uint32_t high, uint8_t *out) {
    if (low > high) MALFORMED(3);
    if (low == 0) low = 1;
    if (high > count) return refuse(out, 12, 'B', 0);
    if (high && low + KEPT <= count) return refuse(out, 13, 'B', 0);
    for (uint32_t v = low; v <= high; v++)
        if (window[v % KEPT].shares <= F) return refuse(out, 15, 'B', v);
    out[0] = 0;
    out[1] = 4;
    uint8_t *p = put2(put2(out + 2, low), high);
    for (uint32_t v = low; v <= high; v++) {
        const entry *e = &window[v % KEPT];
        memcpy(p, e->body + 4, (size_t)e->len);
        p += e->len;
        for (int s = 0; s < BOARDS; s++)
            if (e->has[s]) {
                *p++ = (uint8_t)s;
                memcpy(p, e->tag[s], 16);
                p += 16;
            }
    }
    return (size_t)(p - out);
}

static size_t item(uint8_t x, uint8_t *out) {
    if (x >= ITEMS) MALFORMED(1);
    const row *r = &rows[x];
    out[0] = 0;
    uint8_t *p = put2(out + 1, r->version);
    *p++ = r->len;
    memcpy(p, r->value, r->len);
    memcpy(p + r->len, r->version ? r->digest : empty_digest, 32);
    return 4 + (size_t)r->len + 32;
}

static size_t mark(uint8_t *out) {
    out[0] = 0;
    memcpy(put2(out + 1, count), chain + 4, 32);
    return 35;
}

static int8_t value_of[256];

// The answer to a line of n characters.
static size_t answer(const uint8_t *line, size_t n, uint8_t *out) {
    static uint8_t room[4 + LONGEST];
    uint8_t *q = room + 4;
    if (n == 0 || n % 2 || n > 2 * LONGEST) MALFORMED(0);
    for (size_t i = 0; i < n / 2; i++) {
        int high = value_of[line[2 * i]], low = value_of[line[2 * i + 1]];
        if ((high | low) < 0) MALFORMED(0);
        q[i] = (uint8_t)(high << 4 | low);
    }
    n /= 2;
    if (q[0] == 1) return deliver(q, n, out);
    if (q[0] == 2) return share_in(q, n, out);
    if (q[0] == 3 && n == 5) return proof(get2(q + 1), get2(q + 3), out);
    if (q[0] == 6 && n == 2) return item(q[1], out);
    if (q[0] == 7 && n == 1) return mark(out);
    if (q[0] == 8 && n == 3) return share_out(get2(q + 1), out);
    MALFORMED(0);
}

static void start(void) {
    memset(value_of, -1, sizeof value_of);
    for (int i = 0; i < 10; i++) value_of['0' + i] = (int8_t)i;
    for (int i = 0; i < 6; i++) value_of['a' + i] = value_of['A' + i] = (int8_t)(10 + i);
    digest((const uint8_t *)"", 0, empty_digest);
    memcpy(chain, "CHN1", 4);
    for (int i = 0; i < KEPT; i++) memcpy(window[i].body, "ENTR", 4);
    for (int c = 0; c < CLIENTS; c++) {
        next_number[c] = 5;
        for (int i = 0; i < 4; i++) open_numbers[c][i] = (uint32_t)i + 1;
    }
}

#ifndef WITHOUT_MAIN
static void show(const uint8_t *line, size_t n) {
    static uint8_t bytes[1 + 5 + KEPT * (BODY + 6 * 17)], digits[2 * sizeof bytes + 1];
    size_t k = answer(line, n, bytes);
    for (size_t i = 0; i < k; i++) {
        digits[2 * i] = (uint8_t) "0123456789abcdef"[bytes[i] >> 4];
        digits[2 * i + 1] = (uint8_t) "0123456789abcdef"[bytes[i] & 15];
    }
    digits[2 * k] = '\n';
    fwrite(digits, 1, 2 * k + 1, stdout);
}

int main(void) {
    static uint8_t line[2 * LONGEST + 1], chunk[4096];
    size_t len = 0, n;
    int begun = 0;
    start();
    while ((n = fread(chunk, 1, sizeof chunk, stdin)) > 0)
        for (size_t i = 0; i < n; i++) {
            if (chunk[i] == '\n') {
                show(line, len);
                len = 0, begun = 0;
            } else {
                begun = 1;
                if (len < sizeof line) line[len++] = chunk[i];
            }
        }
    if (begun) show(line, len);
    return 0;
}
#endif
