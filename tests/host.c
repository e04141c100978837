/* Links the archive as the turbine's host does, and holds every call to document 01. */
#include "mikuzerao.h"

#include <stdio.h>
#include <string.h>

static int checked, wrong;

static void expect(const char *what, uint32_t got, uint32_t wanted) {
    checked++;
    if (got != wanted) {
        wrong++;
        printf("%s: %u, not %u\n", what, (unsigned)got, (unsigned)wanted);
    }
}

/* A table that every call refuses with this number; mark and bound for a thread that it could have, and for one that it could not. */
static void refused(const char *what, const uint8_t *bytes, size_t length, uint32_t number) {
    expect(what, mikuzerao_verdict(bytes, length), number);
    expect(what, mikuzerao_mark(bytes, length, 0), MIKUZERAO_REFUSED + number);
    expect(what, mikuzerao_mark(bytes, length, 4294967295u), MIKUZERAO_REFUSED + number);
    expect(what, mikuzerao_bound(bytes, length, 0), MIKUZERAO_REFUSED + number);
    expect(what, mikuzerao_bound(bytes, length, 4294967295u), MIKUZERAO_REFUSED + number);
}

#define REFUSED(what, bytes, number) refused(what, bytes, sizeof bytes, number)

static size_t put(uint8_t *to, unsigned v) {
    size_t n = 0;
    while (v >= 128) {
        to[n++] = v % 128 + 128;
        v /= 128;
    }
    to[n++] = v;
    return n;
}

/* The longest table of a version: every number that can take three bytes does, and every priority that can takes two. */
static size_t longest(uint8_t *to, unsigned version) {
    size_t n = put(to, version);
    n += put(to + n, 16);
    n += put(to + n, 32);
    for (unsigned i = 0; i < 16; i++) n += put(to + n, 65535);
    for (unsigned i = 0; i < 32; i++) {
        n += put(to + n, 15);
        n += put(to + n, 255 - i);
        n += put(to + n, 60000);
        n += put(to + n, 59999);
        n += put(to + n, 60000);
        n += put(to + n, 60000);
        n += put(to + n, 60000);
        if (version == 2) n += put(to + n, 0);
    }
    return n;
}

int main(void) {
    static const uint8_t e[] = {1, 2, 2, 3, 2, 1, 30, 10, 0, 4, 10, 2, 0, 20, 10, 0, 3, 10, 0};
    uint8_t b[700];
    size_t n;
    expect("E", mikuzerao_verdict(e, sizeof e), 0);
    expect("E, mark of 0", mikuzerao_mark(e, sizeof e, 0), 1);
    expect("E, mark of 1", mikuzerao_mark(e, sizeof e, 1), MIKUZERAO_NONE);
    expect("E, bound of 0", mikuzerao_bound(e, sizeof e, 0), 4);
    expect("E, bound of 1", mikuzerao_bound(e, sizeof e, 1), 7);
    static const uint32_t none[] = {2, 31, 32, 255, 256, 257, 65536, 4294967295u};
    for (size_t i = 0; i < sizeof none / sizeof *none; i++) {
        expect("E, mark of no thread", mikuzerao_mark(e, sizeof e, none[i]), MIKUZERAO_REFUSED + 15);
        expect("E, bound of no thread", mikuzerao_bound(e, sizeof e, none[i]), MIKUZERAO_REFUSED + 15);
    }
    memcpy(b, e, sizeof e);
    b[16] = 6;
    expect("E with budget 6, bound of 1", mikuzerao_bound(b, sizeof e, 1), 10);
    b[16] = 7;
    expect("E with budget 7, bound of 1", mikuzerao_bound(b, sizeof e, 1), 0);
    expect("E with budget 7, verdict", mikuzerao_verdict(b, sizeof e), 0);
    memcpy(b, e, sizeof e);
    b[4] = 3;
    expect("E with row 1 as 3, mark of 0", mikuzerao_mark(b, sizeof e, 0), MIKUZERAO_NONE);
    static const uint8_t other[] = {1, 2, 2, 3, 2, 0, 20, 10, 0, 3, 10, 0, 1, 30, 10, 0, 4, 10, 2};
    expect("E with its threads exchanged, mark of 0", mikuzerao_mark(other, sizeof other, 0), MIKUZERAO_NONE);
    expect("E with its threads exchanged, mark of 1", mikuzerao_mark(other, sizeof other, 1), 0);

    refused("no bytes", NULL, 0, 1);
    for (n = 0; n < sizeof e; n++) refused("E cut short", e, n, 1);
    static const uint8_t two[] = {0x80, 0}, three[] = {0x80, 0x80, 4}, longer[] = {0x80, 0x80, 0x80, 1}, four[] = {3};
    static const uint8_t zero_domains[] = {1, 0}, seventeen[] = {1, 17}, zero_threads[] = {1, 1, 0}, thirty_three[] = {1, 1, 33};
    static const uint8_t six_more[] = {1, 2, 2, 7}, six_own[] = {1, 2, 2, 2}, seven[] = {1, 3, 1, 3, 6, 4};
    static const uint8_t eight[] = {1, 1, 1, 1, 0, 5, 0}, nine[] = {1, 1, 2, 1, 0, 5, 1, 0, 1, 1, 0, 0, 5};
    REFUSED("not the shortest form", two, 2);
    REFUSED("above 65,535", three, 3);
    REFUSED("a fourth byte", longer, 3);
    REFUSED("version 3", four, 4);
    REFUSED("no domains", zero_domains, 5);
    REFUSED("17 domains", seventeen, 5);
    REFUSED("no threads", zero_threads, 5);
    REFUSED("33 threads", thirty_three, 5);
    REFUSED("a bit of a missing domain", six_more, 6);
    REFUSED("its own bit missing", six_own, 6);
    REFUSED("not transitive", seven, 7);
    REFUSED("period 0", eight, 8);
    REFUSED("a priority twice", nine, 9);
    memcpy(b, e, sizeof e);
    b[sizeof e] = 0;
    refused("an extra byte", b, sizeof e + 1, 10);

    static const uint8_t e2[] = {2, 2, 2, 3, 2, 1, 30, 10, 0, 4, 10, 2, 0, 0, 20, 10, 0, 3, 10, 0, 1};
    expect("E in version 2, thread 1 of event kind", mikuzerao_verdict(e2, sizeof e2), 0);
    expect("E in version 2, mark of 0", mikuzerao_mark(e2, sizeof e2, 0), 1);
    expect("E in version 2, bound of 1", mikuzerao_bound(e2, sizeof e2, 1), 7);
    for (n = 0; n < sizeof e2; n++) refused("E in version 2 cut short", e2, n, 1);
    memcpy(b, e2, sizeof e2);
    b[20] = 2;
    refused("a kind of 2", b, sizeof e2, 8);
    b[20] = 1;
    b[16] = 1;
    refused("an event thread with an offset", b, sizeof e2, 8);

    n = longest(b, 1);
    expect("the longest table's bytes in version 1", (uint32_t)n, 627);
    expect("the longest table in version 1", mikuzerao_verdict(b, n), 0);
    n = longest(b, 2);
    expect("the longest table's bytes", (uint32_t)n, 659);
    expect("the longest table", mikuzerao_verdict(b, n), 0);
    expect("the longest table, mark of 31", mikuzerao_mark(b, n, 31), MIKUZERAO_NONE);
    expect("the longest table, mark of 32", mikuzerao_mark(b, n, 32), MIKUZERAO_REFUSED + 15);
    expect("the longest table, bound of 0", mikuzerao_bound(b, n, 0), 60000);
    expect("the longest table, bound of 1", mikuzerao_bound(b, n, 1), 0);
    b[n] = 0;
    refused("the longest table and a byte", b, n + 1, 10);
    for (size_t k = 0; k < n; k++) expect("the longest table cut short", mikuzerao_verdict(b, k), 1);

    printf("host: %d checks, %d wrong\n", checked, wrong);
    return wrong != 0;
}
