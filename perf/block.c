/* block [TURNS]: the proved block call beside the plain one (plain.h) in one process, turn about: nanoseconds a step, the least
   processor time of so many turns, by default 15. Ends with status 1 where the two write different records or end in different states. */
#include <stdio.h>
#include <stdlib.h>
#include <time.h>
#include "plain.h"

#ifdef DIRECT /* the call itself, for a look at unproved forms */
typedef struct { const void *at; size_t length; } slice;
typedef struct { uint8_t number; state s; } ended;
extern void block_run(ended *, const table *, const state *, const slice *, const slice *, const slice *);
extern void block_run_in_frame(ended *, const table *, const frame *, const state *, const slice *, const slice *, const slice *);
#else
/* perf/pace: blocks of m steps (wide bytes) in turn from a fresh state; a window is domain * 65536 + length, and none is no frame. Gives a
   sum over the end state, or 100,000 and the refusal. */
extern uint32_t mikuzerao_pace(const uint8_t *table, size_t length, const uint32_t *windows, size_t count, const uint32_t *masks, size_t steps,
    const uint8_t *bytes, size_t all, uint8_t *out, size_t room, size_t m, size_t wide);
#endif

enum { STEPS = 100000, SHAPES = 5 };
static const char *const shapes[SHAPES] = {"even", "long", "short", "full", "events"};
static uint8_t bytes[STEPS * 32], ours[STEPS], plain[STEPS], text[1024];
static uint32_t masks[STEPS];
static size_t length;

static double now(void) { struct timespec t; clock_gettime(CLOCK_THREAD_CPUTIME_ID, &t); return t.tv_sec * 1e9 + t.tv_nsec; }

static uint32_t seed = 1;
static unsigned dice(void) { seed = seed * 1664525u + 1013904223u; return seed >> 24; }

static void put(unsigned v) {
    for (; v >= 128; v /= 128) text[length++] = v % 128 + 128;
    text[length++] = v;
}

/* Domain i flows to the domains from i on, and the priorities rise or fall with the domain: all threads above another domain are marked, or none. */
static void make(unsigned threads, unsigned marked, unsigned shape) {
    unsigned domains = threads < 16 ? threads : 16, events = shape == 4;
    length = 0;
    put(1 + events), put(domains), put(threads);
    for (unsigned i = 0; i < domains; i++) put((1u << domains) - (1u << i));
    for (unsigned i = 0; i < threads; i++) {
        unsigned period = 50 + 7 * i, offset = i % 5, budget = 3, slack = i % 3, blocking = 1, kind = events && i % 2;
        if (shape == 1) period = 1000 + 1803 * i, offset = 13 * i, budget = period / threads, slack = i % 3 * 20, blocking = 0;
        if (shape == 2) period = 1 + i % 12, offset = 0, budget = 1, slack = 0, blocking = 0;
        if (shape == 3) period = 200 + 7 * i, offset = i, budget = period - 5, slack = 0, blocking = 0;
        put(i * domains / threads), put(marked ? 10 + 3 * i : 250 - 3 * i), put(period), put(kind ? 0 : offset), put(budget);
        put(period - slack), put(blocking);
        if (events) put(kind);
    }
    for (size_t k = 0; k < STEPS; k++) {
        masks[k] = 0;
        if (events) for (unsigned i = 1; i < threads; i += 2) masks[k] |= (uint32_t)(dice() < 10) << i;
    }
}

static uint32_t mix(uint32_t sum, uint32_t v) { return (sum * 31 + v % 65521) % 65521; }

/* A sum over all of a state, as perf/pace makes it. */
static uint32_t sum_of(const state *s) {
    uint32_t sum = s->clock % 65521;
    for (unsigned i = 0; i < 32; i++) {
        const progress *p = &s->threads[i];
        sum = mix(mix(mix(mix(mix(sum, p->rest), p->execution), p->finished), p->ran), p->since);
    }
    return sum;
}

/* All STEPS from a fresh state, in blocks of m, by the plain call. */
static uint32_t run_plain(const frame *f, size_t m) {
    reader r = {.bytes = text, .length = length};
    table t;
    state s;
    unsigned why;
    read_table(&r, &t);
    if (r.why) return 100000 + r.why;
    fresh(&t, &s);
    for (size_t k = 0; k < STEPS; k += m)
        if ((why = run(&t, f, &s, masks + k, m, bytes + k * t.count, m * t.count, plain + k, STEPS - k))) return 100000 + why;
    return sum_of(&s);
}

/* The same by the proved call. */
static uint32_t run_ours(const frame *f, size_t m, unsigned threads) {
#ifdef DIRECT
    reader r = {.bytes = text, .length = length};
    table t;
    state s;
    read_table(&r, &t);
    fresh(&t, &s);
    for (size_t k = 0; k < STEPS; k += m) {
        slice a = {masks + k, m}, b = {bytes + k * threads, m * threads}, o = {ours + k, STEPS - k};
        ended e;
        if (f) block_run_in_frame(&e, &t, f, &s, &a, &b, &o);
        else block_run(&e, &t, &s, &a, &b, &o);
        if (e.number) return 100000 + e.number;
        s = e.s;
    }
    return sum_of(&s);
#else
    uint32_t windows[64];
    size_t count = f ? f->count : 0;
    for (size_t k = 0; k < count; k++) windows[k] = (uint32_t)f->windows[k].domain << 16 | f->windows[k].length;
    return mikuzerao_pace(text, length, windows, count, masks, STEPS, bytes, (size_t)STEPS * threads, ours, STEPS, m, m * threads);
#endif
}

static double worst;

static void measure(unsigned threads, unsigned marked, unsigned shape, const frame *f, size_t m, unsigned turns, const char *word) {
    double best[2] = {1e18, 1e18};
    make(threads, marked, shape);
    memset(ours, 99, sizeof ours);
    for (unsigned k = 0; k < turns; k++) {
        double t0 = now();
        uint32_t x = run_plain(f, m);
        double t1 = now();
        uint32_t y = run_ours(f, m, threads);
        double t2 = now();
        if (x != y || x >= 100000 || memcmp(ours, plain, STEPS)) {
            printf("%u threads, shape %s: C gives %u, the block %u, or another record\n", threads, shapes[shape], x, y);
            exit(1);
        }
        if (t1 - t0 < best[0]) best[0] = t1 - t0;
        if (t2 - t1 < best[1]) best[1] = t2 - t1;
    }
    double ratio = best[1] / best[0];
    if (m == 10000 && !f && ratio > worst) worst = ratio;
    printf("%-6s %7u %5s %6s %6zu %8.1f %8.1f %6.2f\n", shapes[shape], threads, marked ? "yes" : "no", word, m, best[1] / STEPS, best[0] / STEPS, ratio);
    fflush(stdout);
}

int main(int argc, char **argv) {
    static const unsigned counts[] = {2, 12, 32};
    unsigned turns = argc > 1 ? atoi(argv[1]) : 15;
    /* four windows of 250 steps each: each ranks the threads anew */
    frame f = {.count = 4, .windows = {{0, 250}, {1, 250}, {0, 250}, {1, 250}}};
    for (size_t k = 0; k < sizeof bytes; k++) { unsigned r = dice(); bytes[k] = r < 140 ? 1 : r < 200 ? 0 : r < 240 ? 2 : r; }
    puts("shape  threads marks  frame      m    block        C  ratio");
    for (unsigned shape = 0; shape < SHAPES; shape++)
        for (unsigned c = 0; c < 3; c++)
            for (unsigned marked = 0; marked < 2; marked++) measure(counts[c], marked, shape, 0, 10000, turns, "no");
    printf("worst ratio %.2f\n", worst);
    for (unsigned c = 0; c < 3; c++)
        for (unsigned marked = 0; marked < 2; marked++) measure(counts[c], marked, 4, &f, 10000, turns, "yes");
    for (unsigned c = 0; c < 3; c++)
        for (size_t m = 10; m < 10000; m *= 10) measure(counts[c], 0, 0, 0, m, turns, "no");
    return 0;
}
