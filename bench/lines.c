// Writes lines for the line program, for bench/calls: lines KIND COUNT.
#define WITHOUT_MAIN
#include "bank.c"

static uint8_t frame[4 + LONGEST], said[20000];

static void print(const uint8_t *bytes, size_t n) {
    for (size_t i = 0; i < n; i++) printf("%02x", bytes[i]);
    putchar('\n');
}

// A request of 4 reads and 2 writes of 16 bytes under a number that is open; its reads are right, or one is old.
static void request(uint32_t turn, int right) {
    uint8_t *q = frame + 4, *p = q + 6, client = (uint8_t)(turn % CLIENTS);
    q[0] = 1;
    q[1] = client;
    put2(q + 2, open_numbers[client][turn / CLIENTS % 4]);
    q[4] = 4;
    q[5] = 2;
    uint8_t first = (uint8_t)(turn * 5 % 60);
    for (uint8_t x = first; x < first + 4; x++) {
        *p = x;
        put2(p + 1, rows[x].version + (right || x < first + 3 ? 0 : 1));
        memcpy(p + 3, rows[x].version ? rows[x].digest : empty_digest, 32);
        p += 35;
    }
    for (uint8_t x = first; x < first + 2; x++) {
        *p++ = x;
        *p++ = 16;
        for (int i = 0; i < 16; i++) *p++ = (uint8_t)(turn * 7 + x + (uint32_t)i);
    }
    memcpy(frame, "RQST", 4);
    make_tag(16 + client, frame, (size_t)(p - frame), p);
    size_t n = (size_t)(p - q) + 16;
    print(q, n);
    uint8_t copy[4 + LONGEST];
    memcpy(copy, frame, sizeof copy);
    deliver(copy + 4, n, said);
}

static void share(uint8_t signer, uint32_t v) {
    uint8_t s[20] = {2, signer};
    entry *e = &window[v % KEPT];
    make_tag(signer, e->body, 4 + (size_t)e->len, put2(s + 2, v));
    print(s, 20);
    share_in(s, 20, said);
}

int main(int argc, char **argv) {
    if (argc != 3) return 2;
    uint32_t n = (uint32_t)atoi(argv[2]);
    start();
    if (!strcmp(argv[1], "commit"))
        for (uint32_t i = 0; i < n; i++) request(i, 1);
    else if (!strcmp(argv[1], "abort"))
        for (uint32_t i = 0; i < n; i++) request(i, 0);
    else if (!strcmp(argv[1], "share"))
        for (uint32_t i = 0; i < n; i++) request(i, 1), share(1, count), share(2, count);
    else if (!strcmp(argv[1], "proof")) {
        for (uint32_t i = 0; i < KEPT; i++) request(i, 1), share(1, count), share(2, count);
        for (uint32_t i = 0; i < n; i++) puts("0300010020");
    } else if (!strcmp(argv[1], "item"))
        for (uint32_t i = 0; i < n; i++) puts("0605");
    else if (!strcmp(argv[1], "mark"))
        for (uint32_t i = 0; i < n; i++) puts("07");
    else if (!strcmp(argv[1], "own")) {
        request(0, 1);
        for (uint32_t i = 0; i < n; i++) puts("080001");
    } else
        return 2;
    return 0;
}
