/* Processes one file, or with -DMAPS maps its rules, once, so that the instructions of that call can be counted. For scripts/text-costs.
 *
 * cost FILE */
#include <stdio.h>

#include "sst-desk.h"
#include "sst.h"

enum { MOST = 40000 };

int main(int count, char **arguments) {
    static uint8_t text[MOST];
    FILE *file = count == 2 ? fopen(arguments[1], "rb") : NULL;
    if (!file) {
        fputs("cost FILE\n", stderr);
        return 2;
    }
    size_t bytes = fread(text, 1, sizeof text, file);
    fclose(file);
#ifdef MAPS
    static uint8_t rows[SST_RULES * SST_RULE_BYTES];
    uint64_t rules;
    sst_rules(text, bytes, rows, sizeof rows, &rules);
#else
    static uint8_t table[8192];
    uint64_t start, len, words, finishing, figure, figure_number;
    sst_process(text, bytes, table, sizeof table, &start, &len, &words, &finishing, &figure, &figure_number);
#endif
    return 0;
}
