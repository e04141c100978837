/* The bench in plain C, for its speed beside the proved one: table.bin and step bytes in, the same text out.
   Built with -DEACH it tests the table and the state and prepares order and marks at every step, as a single call does. */
#include <stdio.h>
#include <stdlib.h>
#include "plain.h"

static char out[1 << 16];
static size_t filled;

static void put(const char *text, size_t n) {
    if (filled + n > sizeof out) { fwrite(out, 1, filled, stdout); filled = 0; }
    memcpy(out + filled, text, n);
    filled += n;
}

static size_t decimal(char *to, uint32_t v) {
    char back[10];
    size_t n = 0;
    do back[n++] = '0' + v % 10; while (v /= 10);
    for (size_t i = 0; i < n; i++) to[i] = back[n - 1 - i];
    return n;
}

static void line(uint32_t clock, unsigned answer) {
    char text[24];
    size_t n = decimal(text, clock);
    text[n++] = ' ';
    if (answer == 255) { text[n++] = '-'; text[n++] = '-'; }
    else {
        text[n++] = answer < 32 ? 'T' : 'I';
        n += decimal(text + n, answer % 32);
    }
    text[n++] = '\n';
    put(text, n);
}

int main(void) {
    static uint8_t file[4096], steps[65536];
    FILE *f = fopen("table.bin", "rb");
    reader r = {.bytes = file};
    table t;
    state s;
    prepared q;
    char text[48];
    if (f) { r.length = fread(file, 1, sizeof file, f); fclose(f); }
    read_table(&r, &t);
    if (r.why) { printf("refused %u %zu\n", r.why, r.place); return 0; }
    fresh(&t, &s);
    prepare(&t, &q);
    put(text, sprintf(text, "threads %u\n", t.count));
    size_t whole = sizeof steps / t.count * t.count, got;
    while ((got = fread(steps, 1, whole, stdin)) > 0) {
        for (size_t k = 0; k < got; k += t.count) {
            uint32_t clock = s.clock;
            unsigned why = got - k < t.count ? 13 : clock >= 1000000000 ? 14 : 0;
#ifdef EACH
            if (!legal(&t)) why = 11;
            else if (!fits(&t, &s)) why = 12;
            prepare(&t, &q);
#endif
            if (why) {
                put(text, sprintf(text, "refused %u %u\n", why, clock));
                fwrite(out, 1, filled, stdout);
                return 0;
            }
            line(clock, step(&t, &q, &s, 0, steps + k)); /* every mask is empty */
        }
        if (got < whole) break;
    }
    put(text, sprintf(text, "end %u\n", s.clock));
    fwrite(out, 1, filled, stdout);
    return 0;
}
