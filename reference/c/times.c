/* Times sst_process over the files that are named: a line each, the least microseconds of a call over so many tries; with 0 tries each is processed once
 * and not timed. For scripts/bench-before, which links it with two libraries in turn.
 *
 * times TRIES FILE.. */
#define _POSIX_C_SOURCE 199309L
#include <stdio.h>
#include <stdlib.h>
#include <time.h>

#include "sst.h"

enum { MOST = 40000, CALLS = 20 };

static double now(void) {
    struct timespec t;
    clock_gettime(CLOCK_PROCESS_CPUTIME_ID, &t);
    return (double)t.tv_sec + 1e-9 * (double)t.tv_nsec;
}

int main(int count, char **arguments) {
    static uint8_t text[MOST], table[8192];
    if (count < 3) {
        fputs("times TRIES FILE..\n", stderr);
        return 2;
    }
    for (int i = 2; i < count; i++) {
        FILE *file = fopen(arguments[i], "rb");
        if (!file) {
            perror(arguments[i]);
            return 1;
        }
        size_t bytes = fread(text, 1, sizeof text, file);
        fclose(file);
        double least = 1;
        uint64_t start, len, words, finishing, figure, figure_number;
        int tries = atoi(arguments[1]);
        if (tries == 0) {
            sst_process(text, bytes, table, sizeof table, &start, &len, &words, &finishing, &figure, &figure_number);
            continue;
        }
        for (int left = tries; left > 0; left--) {
            double began = now();
            for (int call = 0; call < CALLS; call++)
                sst_process(text, bytes, table, sizeof table, &start, &len, &words, &finishing, &figure, &figure_number);
            double one = (now() - began) / CALLS;
            if (one < least) least = one;
        }
        printf("%s %.2f\n", arguments[i], least * 1e6);
    }
    return 0;
}
