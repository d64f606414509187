#include <stdint.h>
#include <stdio.h>
#include <stdlib.h>
#include <time.h>

typedef unsigned __int128 u128;

/* what every node has: the first address, the length, how often, how many below, the least free length */
#define FIELDS u128 first; uint32_t count, total; uint8_t len, family, free_len, has_free;

struct wide { FIELDS uint64_t has_low, low, has_high, high; uint64_t pad[4]; };
struct line { FIELDS uint32_t low, high; uint8_t pad[24]; };
struct slim { FIELDS uint32_t low, high; };

static uint64_t mix(uint64_t *state) {
    uint64_t a = (*state += 0x9e3779b97f4a7c15u);
    a = (a ^ (a >> 30)) * 0xbf58476d1ce4e5b9u;
    a = (a ^ (a >> 27)) * 0x94d049bb133111ebu;
    return a ^ (a >> 31);
}
static double now(void) { struct timespec t; clock_gettime(CLOCK_MONOTONIC, &t); return t.tv_sec * 1e9 + t.tv_nsec; }
static u128 masked(u128 a, int len) { return len == 0 ? 0 : a & ~((((u128)1) << (128 - len)) - 1); }

/* the tree over a kind of node; 0 is no link, and the root stands at 1 */
#define TREE(NODE, LOW, HIGH, SET_LOW, SET_HIGH)                                                        \
static struct NODE *pool_##NODE; static uint32_t used_##NODE;                                           \
static uint32_t new_##NODE(u128 first, int len, int count) {                                            \
    struct NODE *n = &pool_##NODE[++used_##NODE];                                                       \
    n->first = first; n->len = len; n->count = count; return used_##NODE; }                             \
static void put_##NODE(u128 host, uint32_t *root) {                                                     \
    uint32_t at = *root, above = 0; int side = 0;                                                       \
    for (;;) {                                                                                          \
        if (!at) { uint32_t made = new_##NODE(host, 128, 1);                                            \
            if (!above) *root = made; else if (side) SET_HIGH(above, made); else SET_LOW(above, made);  \
            return; }                                                                                   \
        struct NODE *n = &pool_##NODE[at];                                                              \
        if (masked(host, n->len) == n->first) {                                                         \
            if (n->len == 128) { n->count++; return; }                                                  \
            above = at; side = (int)(host >> (127 - n->len)) & 1;                                       \
            at = side ? HIGH(n) : LOW(n); continue; }                                                   \
        u128 differ = host ^ n->first; int len = 0;                                                     \
        while (!((differ >> (127 - len)) & 1)) len++;                                                   \
        uint32_t parting = new_##NODE(masked(host, len), len, 0), made = new_##NODE(host, 128, 1);      \
        if ((host >> (127 - len)) & 1) { SET_LOW(parting, at); SET_HIGH(parting, made); }               \
        else { SET_LOW(parting, made); SET_HIGH(parting, at); }                                         \
        if (!above) *root = parting; else if (side) SET_HIGH(above, parting); else SET_LOW(above, parting); \
        return; } }                                                                                     \
static uint32_t times_##NODE(u128 host, uint32_t root) {                                                \
    uint32_t at = root;                                                                                 \
    while (at) { struct NODE *n = &pool_##NODE[at];                                                     \
        if (masked(host, n->len) != n->first) return 0;                                                 \
        if (n->len == 128) return n->count;                                                             \
        at = ((host >> (127 - n->len)) & 1) ? HIGH(n) : LOW(n); }                                       \
    return 0; }                                                                                         \
static double run_##NODE(u128 *hosts, uint32_t count, uint64_t *sum) {                                  \
    uint32_t root = 0; used_##NODE = 0;                                                                 \
    pool_##NODE = aligned_alloc(64, ((size_t)(2 * count + 2) * sizeof(struct NODE) + 63) / 64 * 64);    \
    for (size_t i = 0; i < (size_t)(2 * count + 2); i++) pool_##NODE[i] = (struct NODE){0};             \
    for (uint32_t i = 0; i < count; i++) put_##NODE(hosts[i], &root);                                   \
    double best = 1e18;                                                                                 \
    for (int turn = 0; turn < 5; turn++) { uint64_t s = 0; uint32_t at = 0; double start = now();       \
        for (uint32_t i = 0; i < count; i++) { at += 314159; at %= count; s += times_##NODE(hosts[at], root); } \
        double took = (now() - start) / count; if (took < best) best = took; *sum = s; }                \
    free(pool_##NODE); return best; }

#define LOW_W(n) ((n)->has_low ? (uint32_t)(n)->low : 0)
#define HIGH_W(n) ((n)->has_high ? (uint32_t)(n)->high : 0)
#define SET_LOW_W(i, to) (pool_wide[i].has_low = 1, pool_wide[i].low = (to))
#define SET_HIGH_W(i, to) (pool_wide[i].has_high = 1, pool_wide[i].high = (to))
TREE(wide, LOW_W, HIGH_W, SET_LOW_W, SET_HIGH_W)
#define LOW_S(n) ((n)->low)
#define HIGH_S(n) ((n)->high)
#define SET_LOW_L(i, to) (pool_line[i].low = (to))
#define SET_HIGH_L(i, to) (pool_line[i].high = (to))
TREE(line, LOW_S, HIGH_S, SET_LOW_L, SET_HIGH_L)
#define SET_LOW_S(i, to) (pool_slim[i].low = (to))
#define SET_HIGH_S(i, to) (pool_slim[i].high = (to))
TREE(slim, LOW_S, HIGH_S, SET_LOW_S, SET_HIGH_S)

int main(int argc, char **argv) {
    uint32_t count = argc > 1 ? (uint32_t)atoi(argv[1]) : 500000;
    u128 *hosts = malloc(count * sizeof(u128));
    uint64_t state = 1, a = 0, b = 0, c = 0;
    for (uint32_t i = 0; i < count; i++) hosts[i] = (u128)(0x0a000000u | (uint32_t)(mix(&state) & 0xffffff)) << 96;
    double wide = run_wide(hosts, count, &a), line = run_line(hosts, count, &b), slim = run_slim(hosts, count, &c);
    if (a != b || b != c) { fprintf(stderr, "the answers differ\n"); return 1; }
    printf("%zu bytes: %.0f ns a search\n%zu bytes: %.0f ns (%.2f)\n%zu bytes: %.0f ns (%.2f)\n",
        sizeof(struct wide), wide, sizeof(struct line), line, wide / line, sizeof(struct slim), slim, wide / slim);
    return 0;
}
