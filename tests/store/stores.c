// Stores of 3, 200 and 65,536 rows, well formed and spoilt in one place each: what the check says of them.
#include <stdbool.h>
#include <stdint.h>
#include <stdio.h>
#include <stdlib.h>
#include <string.h>

bool bench_check(const uint8_t *s, size_t n);
uint64_t bench_visible_len(const uint8_t *s, size_t n);
uint32_t bench_real_span_at(const uint8_t *s, size_t n, uint32_t pos);

static void u64(uint8_t *p, uint64_t v) { for (int i = 0; i < 8; i++) p[i] = v >> (8 * i); }
static void u32(uint8_t *p, uint32_t v) { for (int i = 0; i < 4; i++) p[i] = v >> (8 * i); }

static int failed;

static void expect(uint32_t n, const char *what, uint64_t is, uint64_t want) {
    if (is != want) {
        printf("%u rows, %s: %lu, not %lu\n", n, what, (unsigned long)is, (unsigned long)want);
        failed = 1;
    }
}

// One text unit a row, by 16 peers, each after the row before it.
static uint8_t *store_of(uint32_t n) {
    uint8_t *s = calloc(72 * ((size_t)n + 1), 1);
    uint32_t next[17] = {0}, left_counter = 0;
    uint64_t seed = 1, left_peer = 0;
    u64(s, n);
    for (uint32_t i = 0; i < n; i++) {
        seed = seed * 6364136223846793005u + 1442695040888963407u;
        uint64_t peer = 1 + (seed >> 33) % 16;
        uint8_t *p = s + 72 * ((size_t)i + 1);
        u64(p, peer);
        u64(p + 8, peer);
        u32(p + 32, next[peer]);
        u32(p + 36, i);
        u32(p + 40, next[peer]);
        u32(p + 52, 2 * i);
        u32(p + 56, 2 * i + 1);
        u32(p + 64, i == 0 ? 8 : 8 + 16);
        if (i > 0) {
            u64(p + 16, left_peer);
            u32(p + 44, left_counter);
        }
        left_peer = peer;
        left_counter = next[peer]++;
    }
    return s;
}

int main(void) {
    static const uint32_t sizes[] = {3, 200, 65536};
    for (int k = 0; k < 3; k++) {
        uint32_t n = sizes[k];
        size_t len = 72 * ((size_t)n + 1);
        uint8_t *s = store_of(n), *last = s + 72 * (size_t)n, kept[72];
        uint64_t first;
        memcpy(&first, s + 72, 8);
        memcpy(kept, last, 72);
#define SPOIL(what, want, change)                         \
        do {                                              \
            change;                                       \
            expect(n, what, bench_check(s, len), want);   \
            memcpy(last, kept, 72);                       \
            u64(s, n);                                    \
        } while (0)
        SPOIL("as it is", 1, );
        SPOIL("an id twice", 0, u64(last, first); u32(last + 32, 0));
        SPOIL("an origin left that names no unit", 0, u32(last + 44, 1000000));
        SPOIL("an origin right that names no unit", 0, u32(last + 64, 56); u64(last + 24, 99));
        SPOIL("an origin right that names the first", 1, u32(last + 64, 56); u64(last + 24, first));
        SPOIL("an empty text (1)", 0, u32(last + 56, 2 * (n - 1)));
        SPOIL("a counter below zero (2)", 0, u32(last + 32, 0x80000000u));
        SPOIL("a real id of the unknown peer (2)", 0, u64(last + 8, UINT64_MAX));
        SPOIL("too many units", 0, u32(last + 56, 2 * (n - 1) + 70000));
        SPOIL("a row that joins the one before", 0, memcpy(last, last - 72, 72); u32(last + 32, *(uint32_t *)(last - 40) + 1);
              u32(last + 36, *(uint32_t *)(last - 36) + 1); u32(last + 40, *(uint32_t *)(last - 32) + 1); u64(last + 16, *(uint64_t *)(last - 72));
              u32(last + 44, *(uint32_t *)(last - 40)); u32(last + 64, 24); u32(last + 52, *(uint32_t *)(last - 16)); u32(last + 56, *(uint32_t *)(last - 16) + 1));
        SPOIL("more rows than room", 0, u64(s, n + 1));
        SPOIL("a row less", 1, u64(s, n - 1));
        SPOIL("spare bytes", 1, last[69] = 7; s[70] = 9);
        expect(n, "too few bytes for the header", bench_check(s, 71), 0);
        expect(n, "visible length", bench_visible_len(s, len), n);
        expect(n, "units left at the last position", bench_real_span_at(s, len, n - 1), 1);
        expect(n, "nothing at the visible length", bench_real_span_at(s, len, n), 0);
        free(s);
    }
    puts(failed ? "FAILED" : "ok");
    return failed;
}
