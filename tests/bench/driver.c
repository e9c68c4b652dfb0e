// How the price of the check and of each question grows with the rows of a store. The driver owns the memory: it writes the rows of a well
// formed store (16 peers, each row one text unit after the row before it) and calls the archive of crate bench_c.
#include <stdbool.h>
#include <stdint.h>
#include <stdio.h>
#include <stdlib.h>
#include <string.h>
#include <time.h>

bool bench_check(const uint8_t *s, size_t n);
uint64_t bench_visible_len(const uint8_t *s, size_t n);
uint32_t bench_real_span_at(const uint8_t *s, size_t n, uint32_t pos);
size_t bench_find(const uint8_t *s, size_t n, uint64_t peer, uint16_t counter);

static void u64(uint8_t *p, uint64_t v) { for (int i = 0; i < 8; i++) p[i] = v >> (8 * i); }
static void u32(uint8_t *p, uint32_t v) { for (int i = 0; i < 4; i++) p[i] = v >> (8 * i); }

static double now(void) {
    struct timespec t;
    clock_gettime(CLOCK_MONOTONIC, &t);
    return t.tv_sec + t.tv_nsec * 1e-9;
}

// Row i: an id, its real id, an origin left (none for the first row), text of one unit.
static void row(uint8_t *p, uint32_t i, uint64_t peer, uint32_t counter, uint64_t left_peer, uint32_t left_counter) {
    memset(p, 0, 72);
    u64(p, peer);
    u64(p + 8, peer);
    u32(p + 32, counter);
    u32(p + 36, i);
    u32(p + 40, counter);
    u32(p + 52, 2 * i);
    u32(p + 56, 2 * i + 1);
    u32(p + 64, i == 0 ? 8 : 8 + 16);
    if (i > 0) {
        u64(p + 16, left_peer);
        u32(p + 44, left_counter);
    }
}

static volatile uint64_t sink;

#define TIME(what, call)                                                             \
    do {                                                                             \
        double start = now(), took;                                                  \
        long runs = 0;                                                               \
        do {                                                                         \
            sink += (call);                                                          \
            runs++;                                                                  \
            took = now() - start;                                                    \
        } while (took < 0.2);                                                        \
        printf("  %-22s %12.1f us\n", what, took / runs * 1e6);                      \
    } while (0)

int main(int argc, char **argv) {
    static const uint32_t sizes[] = {100, 1000, 10000, 65536};
    for (int k = 0; k < 4; k++) {
        uint32_t n = sizes[k];
        if (argc > 1 && n > (uint32_t)atoi(argv[1])) break;
        size_t len = 72 * ((size_t)n + 1);
        uint8_t *s = calloc(len, 1);
        uint32_t next[17] = {0};
        uint64_t peer = 0, seed = 1, left_peer = 0;
        uint32_t left_counter = 0;
        u64(s, n);
        for (uint32_t i = 0; i < n; i++) {
            seed = seed * 6364136223846793005u + 1442695040888963407u;
            peer = 1 + (seed >> 33) % 16;
            row(s + 72 * ((size_t)i + 1), i, peer, next[peer], left_peer, left_counter);
            left_peer = peer;
            left_counter = next[peer]++;
        }
        if (!bench_check(s, len)) {
            printf("the store of %u rows is not well formed\n", n);
            return 1;
        }
        printf("%u rows\n", n);
        TIME("check", bench_check(s, len));
        TIME("visible_len", bench_visible_len(s, len));
        TIME("active_real_span_at", bench_real_span_at(s, len, n - 1));
        TIME("find_elem (last row)", bench_find(s, len, left_peer, left_counter));
        free(s);
    }
    return 0;
}
