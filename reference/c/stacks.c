/* The stack of the device's main entries on the processor that this is compiled for, with a painted stack (stack.c): the text is the one that
 * sst_process needs the most stack for (src/programs.rs, deep_update). For scripts/devices; bench_stack measures every entry, on x86-64.
 */
#include <stdio.h>
#include <stdlib.h>
#include <string.h>

#include "sst.h"

#define NESTED 32
#define STACK (1 << 19)

uint64_t cs_used(void (*run)(void *), void *context, uint8_t *stack, size_t size);

static char text[1024];
static uint8_t table[SST_TABLE_BYTES], file[SST_FILE_BYTES], set[SST_SET_BYTES], walk[SST_WALK_BYTES], events[60 * SST_EVENT_BYTES];
static uint64_t words, file_words;

static void process(void *unused)
{
    uint64_t start, len, finishing, figure, figure_number;
    (void)unused;
    sst_process((const uint8_t *)text, strlen(text), table, sizeof table, &start, &len, &words, &finishing, &figure, &figure_number);
}

static void load(void *unused)
{
    uint64_t verdict, location;
    (void)unused;
    sst_load_admitted(file, 2 * (size_t)file_words, set, sizeof set, table, sizeof table, &words, &verdict, &location);
}

static void walk_table(void *unused)
{
    uint64_t written, steps;
    (void)unused;
    sst_fresh(walk, sizeof walk, 0);
    sst_paused(table, 2 * (size_t)words, set, 0, 0, 0, 100, walk, sizeof walk, events, sizeof events, &written, &steps);
}

int main(void)
{
    uint8_t *stack = malloc(STACK);
    int i;
    if (!stack)
        return 1;
    strcpy(text, "type T: v; mechanism m: f(T); rules M: ");
    for (i = 0; i < NESTED; i++)
        strcat(text, "[ | *: ");
    strcat(text, "f(v)");
    for (i = 0; i < NESTED; i++)
        strcat(text, "]");
    strcat(text, "; end");
    process(NULL);
    printf("stack: sst_process %lu", (unsigned long)cs_used(process, NULL, stack, STACK));
    sst_write_file(table, 2 * (size_t)words, 1, file, sizeof file, &file_words);
    load(NULL);
    printf(", sst_load_admitted %lu", (unsigned long)cs_used(load, NULL, stack, STACK));
    walk_table(NULL);
    printf(", sst_paused %lu\n", (unsigned long)cs_used(walk_table, NULL, stack, STACK));
    free(stack);
    return words == 0;
}
