/* An example of a host: reads a table from a file, and prints its verdict and each thread's mark and bound. */
#include "mikuzerao.h"

#include <stdio.h>

int main(int argc, char **argv) {
    /* One byte more than the longest table, so that a longer file is refused for its extra byte. */
    static uint8_t bytes[628];
    size_t length;
    uint32_t verdict, mark;
    FILE *file;
    if (argc != 2) {
        fprintf(stderr, "usage: host TABLE\n");
        return 2;
    }
    file = fopen(argv[1], "rb");
    if (!file) {
        perror(argv[1]);
        return 1;
    }
    length = fread(bytes, 1, sizeof bytes, file);
    if (ferror(file)) {
        perror(argv[1]);
        return 1;
    }
    fclose(file);
    verdict = mikuzerao_verdict(bytes, length);
    if (verdict != 0) {
        printf("refused %u\n", (unsigned)verdict);
        return 1;
    }
    for (uint32_t i = 0; (mark = mikuzerao_mark(bytes, length, i)) < MIKUZERAO_REFUSED; i++) {
        uint32_t bound = mikuzerao_bound(bytes, length, i);
        if (mark == MIKUZERAO_NONE) printf("thread %u: not marked, ", (unsigned)i);
        else printf("thread %u: marked for thread %u, ", (unsigned)i, (unsigned)mark);
        if (bound) printf("bound %u\n", (unsigned)bound);
        else printf("no bound\n");
    }
    return 0;
}
