/* make THREADS MARKED STEPS: writes table.bin and steps.bin, the same each time. Domain i flows to the domains from i on; the
   priorities rise or fall with the domain, so that every thread above another domain is marked, or none is. */
#include <stdint.h>
#include <stdio.h>
#include <stdlib.h>

static void number(FILE *f, unsigned v) {
    while (v >= 128) { fputc(v % 128 + 128, f); v /= 128; }
    fputc(v, f);
}

int main(int argc, char **argv) {
    if (argc != 4) return 2;
    unsigned threads = atoi(argv[1]), marked = atoi(argv[2]);
    unsigned long steps = strtoul(argv[3], 0, 10), left;
    unsigned domains = threads < 16 ? threads : 16;
    uint32_t random = 1;
    FILE *f = fopen("table.bin", "wb");
    if (!f) return 1;
    number(f, 1);
    number(f, domains);
    number(f, threads);
    for (unsigned i = 0; i < domains; i++) number(f, (1u << domains) - (1u << i));
    for (unsigned i = 0; i < threads; i++) {
        unsigned period = 50 + 7 * i;
        number(f, i * domains / threads);
        number(f, marked ? 10 + 3 * i : 250 - 3 * i);
        number(f, period);
        number(f, i % 5);
        number(f, 3);
        number(f, period - i % 3);
        number(f, 1);
    }
    if (fclose(f)) return 1;
    f = fopen("steps.bin", "wb");
    if (!f) return 1;
    for (left = steps * threads; left > 0; left--) {
        random = random * 1664525u + 1013904223u;
        unsigned r = random >> 24;
        fputc(r < 140 ? 1 : r < 200 ? 0 : r < 240 ? 2 : (int)r, f);
    }
    return fclose(f) ? 1 : 0;
}
