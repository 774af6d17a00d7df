/* Times the proved code against the same algorithms in plain C, all in one run, and prints a table.
   The three take turns in short slices, so that whatever else the machine does falls on all of them;
   the figure is the time at a tenth of the slices in rising order.
   It first compares the results of all of them over many lengths, and stops if one differs. */
#include <stdbool.h>
#include <stddef.h>
#include <stdint.h>
#include <stdio.h>
#include <stdlib.h>
#include <string.h>
#include <time.h>

/* The proved code: a slice is a pointer and a length. */
bool proved_sha256(const uint8_t *m, size_t n, uint8_t out[32]);
bool proved_hmac(const uint8_t key[32], const uint8_t *m, size_t n, uint8_t out[32]);
uint64_t proved_siphash(const uint8_t key[16], const uint8_t *m, size_t n);

#define PLAIN(NAME)                                                                   \
    void NAME##_sha256(const uint8_t *m, size_t n, uint8_t out[32]);                   \
    void NAME##_hmac(const uint8_t key[32], const uint8_t *m, size_t n, uint8_t out[32]); \
    uint64_t NAME##_siphash(const uint8_t key[16], const uint8_t *m, size_t n);
PLAIN(gcc)
#ifdef WITH_CLANG
PLAIN(clang)
#endif

static uint8_t key[32];
static uint8_t message[65535];

typedef void algorithm(size_t n, uint8_t out[32]);

static void put(uint64_t x, uint8_t out[32]) { memcpy(out, &x, 8); }

#define RUNS(NAME)                                                                       \
    static void NAME##_run_sha256(size_t n, uint8_t out[32]) { NAME##_sha256(message, n, out); } \
    static void NAME##_run_hmac(size_t n, uint8_t out[32]) { NAME##_hmac(key, message, n, out); } \
    static void NAME##_run_siphash(size_t n, uint8_t out[32]) { put(NAME##_siphash(key, message, n), out); }
RUNS(proved)
RUNS(gcc)
#ifdef WITH_CLANG
RUNS(clang)
#define CLANG(ALGORITHM) clang_run_##ALGORITHM
#else
#define CLANG(ALGORITHM) NULL
#endif

static const struct {
    const char *name;
    algorithm *by[3];
} rows[] = {
    {"SHA-256", {proved_run_sha256, gcc_run_sha256, CLANG(sha256)}},
    {"HMAC-SHA-256", {proved_run_hmac, gcc_run_hmac, CLANG(hmac)}},
    {"SipHash-2-4", {proved_run_siphash, gcc_run_siphash, CLANG(siphash)}},
};
static const size_t sizes[] = {16, 64, 1024, 65535};

enum { ROWS = sizeof rows / sizeof *rows, SIZES = sizeof sizes / sizeof *sizes, REPEATS = 401 };

static double now(void) {
    struct timespec t;
    clock_gettime(CLOCK_MONOTONIC, &t);
    return 1e9 * (double)t.tv_sec + (double)t.tv_nsec;
}

static int by_size(const void *a, const void *b) {
    double x = *(const double *)a, y = *(const double *)b;
    return (x > y) - (x < y);
}

/* Each call's message has a byte of the result before it, so that no call is left out or moved. */
static double timed(algorithm *run, size_t n, long calls) {
    uint8_t out[32] = {0};
    double start = now();
    for (long i = 0; i < calls; i++) {
        run(n, out);
        message[0] ^= out[0];
    }
    return (now() - start) / (double)calls;
}

static void compare(void) {
    for (int r = 0; r < ROWS; r++)
        for (size_t n = 0; n <= 65535; n += n < 1100 ? 1 : 12887) {
            uint8_t first[32] = {0};
            rows[r].by[0](n, first);
            for (int c = 1; c < 3; c++) {
                uint8_t other[32] = {0};
                if (!rows[r].by[c]) continue;
                rows[r].by[c](n, other);
                if (memcmp(first, other, 32)) {
                    fprintf(stderr, "%s of %zu bytes differs\n", rows[r].name, n);
                    exit(1);
                }
            }
        }
}

int main(void) {
    for (size_t i = 0; i < sizeof message; i++) message[i] = (uint8_t)(131 * i + 7 * (i >> 8));
    for (size_t i = 0; i < sizeof key; i++) key[i] = (uint8_t)(7 * i + 1);
    compare();
    printf("| Algorithm | Bytes | proved, ns | gcc -O3, ns | clang -O3, ns | gcc / proved | clang / proved |\n");
    printf("|---|---|---|---|---|---|---|\n");
    for (int r = 0; r < ROWS; r++)
        for (int s = 0; s < SIZES; s++) {
            static double times[3][REPEATS];
            double low[3] = {0};
            long calls = (long)(6e4 / ((double)sizes[s] + 100)) + 1;
            for (int k = 0; k < REPEATS; k++)
                for (int c = 0; c < 3; c++)
                    if (rows[r].by[c]) times[c][k] = timed(rows[r].by[c], sizes[s], calls);
            for (int c = 0; c < 3; c++)
                if (rows[r].by[c]) {
                    qsort(times[c], REPEATS, sizeof(double), by_size);
                    low[c] = times[c][REPEATS / 10];
                }
            printf("| %s | %zu |", rows[r].name, sizes[s]);
            for (int c = 0; c < 3; c++)
                if (low[c] > 0) printf(" %.1f |", low[c]); else printf(" |");
            for (int c = 1; c < 3; c++)
                if (low[c] > 0) printf(" %.2f |", low[c] / low[0]); else printf(" |");
            printf("\n");
            fflush(stdout);
        }
    return 0;
}
