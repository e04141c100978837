/* clean [TURNS]: the proved cleanings of a trace beside plain C in one process, turn about: nanoseconds a step, the least processor time of so many
   turns, by default 15, and millions of cleanings counted a second. In `few` 63 cleanings are judged, counted and listed in 64 places, in `many` more are
   counted than have room, and refused with 16. Ends with status 1 where the two differ. */
#include <stdio.h>
#include <stdlib.h>
#include <time.h>
#include "plain.h"

/* perf/pace: the cleanings in 64 places, as a sum over them, or 100,000 and the refusal. */
extern uint32_t mikuzerao_clean_pace(const uint8_t *table, size_t length, const uint8_t *trace, size_t steps);

enum { STEPS = 1000000, ROOM = 64 };
typedef struct { uint64_t step; uint8_t before, after; } cleaning;
static uint8_t trace[STEPS], text[1024];
static size_t length, counted;

static double now(void) { struct timespec t; clock_gettime(CLOCK_THREAD_CPUTIME_ID, &t); return t.tv_sec * 1e9 + t.tv_nsec; }

static uint32_t seed = 1;
static unsigned dice(void) { seed = seed * 1664525u + 1013904223u; return seed >> 8; }

static void put(unsigned v) {
    for (; v >= 128; v /= 128) text[length++] = v % 128 + 128;
    text[length++] = v;
}

/* Domain i flows to the domains from i on: a pass to a later domain cleans nothing, and one to an earlier domain does. */
static void make(unsigned threads, unsigned many) {
    unsigned domains = threads < 16 ? threads : 16;
    length = 0;
    put(1), put(domains), put(threads);
    for (unsigned i = 0; i < domains; i++) put((1u << domains) - (1u << i));
    for (unsigned i = 0; i < threads; i++) put(i * domains / threads), put(i), put(10), put(0), put(1), put(10), put(0);
    for (size_t k = 0; k < STEPS; k++) {
        size_t part = STEPS / ROOM, at = k < part * ROOM ? k % part : part - 1;
        unsigned i = many ? dice() % threads : at * threads / part;
        trace[k] = dice() % 8 ? i : dice() % 2 ? 255 : 32 + i;
    }
}

static unsigned barred(const table *t, unsigned a, unsigned b) {
    return a < t->count && a != b && !(t->rows[t->threads[a].domain] >> t->threads[b].domain & 1);
}

/* One pass judges and counts, one lists. */
static unsigned clean(const table *t, cleaning *list) {
    size_t n = 0;
    unsigned last = 255;
    for (size_t k = 0; k < STEPS; k++) {
        unsigned b = trace[k];
        if (b < t->count) n += barred(t, last, b), last = b;
        else if (b < 32 || (b >= 32u + t->count && b != 255)) return 21;
    }
    counted = n;
    if (n > ROOM) return 16;
    n = 0, last = 255;
    for (size_t k = 0; k < STEPS; k++) {
        unsigned b = trace[k];
        if (b >= t->count) continue;
        if (barred(t, last, b)) list[n++] = (cleaning){k, last, b};
        last = b;
    }
    return 0;
}

static uint32_t mix(uint32_t sum, uint32_t v) { return (sum * 31 + v % 65521) % 65521; }

static uint32_t run_plain(void) {
    reader r = {.bytes = text, .length = length};
    cleaning list[ROOM] = {{0}};
    table t;
    uint32_t sum = 0;
    unsigned why;
    read_table(&r, &t);
    if (r.why) return 100000 + r.why;
    if ((why = clean(&t, list))) return 100000 + why;
    for (unsigned i = 0; i < ROOM; i++) sum = mix(mix(mix(sum, list[i].step % 65521), list[i].before), list[i].after);
    return sum;
}

int main(int argc, char **argv) {
    static const unsigned counts[] = {2, 12, 32};
    unsigned turns = argc > 1 ? atoi(argv[1]) : 15;
    puts("shape threads cleanings    clean        C  ratio   counted: clean        C");
    for (unsigned many = 0; many < 2; many++)
        for (unsigned c = 0; c < 3; c++) {
            double best[2] = {1e18, 1e18};
            make(counts[c], many);
            for (unsigned k = 0; k < turns; k++) {
                double t0 = now();
                uint32_t x = run_plain();
                double t1 = now();
                uint32_t y = mikuzerao_clean_pace(text, length, trace, STEPS);
                double t2 = now();
                if (x != y || (x >= 100000) != many) {
                    printf("%u threads: C gives %u, the proved call %u\n", counts[c], x, y);
                    return 1;
                }
                if (t1 - t0 < best[0]) best[0] = t1 - t0;
                if (t2 - t1 < best[1]) best[1] = t2 - t1;
            }
            printf("%-5s %7u %9zu %8.2f %8.2f %6.2f", many ? "many" : "few", counts[c], counted, best[1] / STEPS, best[0] / STEPS, best[1] / best[0]);
            if (many) printf(" %16.1f %8.1f", counted / best[1] * 1e3, counted / best[0] * 1e3);
            putchar('\n');
            fflush(stdout);
        }
    return 0;
}
