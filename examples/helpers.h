/* What the examples share: words in byte buffers, events by their parts, and the processor's many results in one place. */
#ifndef HELPERS_H
#define HELPERS_H

#include <stdio.h>
#include <string.h>

#include "sst.h"

#define COUNT(list) (sizeof(list) / sizeof((list)[0]))

/* A word in an initialiser of bytes, high byte first. */
#define WORD(x) (x) >> 8, (x) & 255

/* Words one after the other into a buffer. */
static inline void put_words(uint8_t *bytes, const uint16_t *words, size_t count)
{
    size_t i;
    for (i = 0; i < count; i++)
        sst_put_word(bytes, i, words[i]);
}

/* An event of a buffer. */
struct event {
    uint16_t kind, value, parameter;
};

static inline struct event event_at(const uint8_t *events, size_t i)
{
    struct event event;
    event.kind = sst_get_word(events, SST_EVENT_WORDS * i);
    event.value = sst_get_word(events, SST_EVENT_WORDS * i + 1);
    event.parameter = sst_get_word(events, SST_EVENT_WORDS * i + 2);
    return event;
}

/* What sst_process says of a text beside its number. */
struct translation {
    uint64_t start, len, words, finishing, figure, figure_number;
};

static inline uint16_t translate(const char *text, uint8_t *table, size_t table_bytes, struct translation *told)
{
    return sst_process((const uint8_t *)text, strlen(text), table, table_bytes, &told->start, &told->len, &told->words, &told->finishing,
                       &told->figure, &told->figure_number);
}

/* The line of a place in a text, from 1. */
static inline unsigned line_of(const char *text, uint64_t place)
{
    unsigned line = 1;
    uint64_t i;
    for (i = 0; i < place; i++)
        line += text[i] == '\n';
    return line;
}

/* Translates rules that are a part of the program: a refusal is shown, and the answer is 0. Else the table's words. */
static inline size_t translate_rules(const char *text, uint8_t *table, size_t table_bytes)
{
    struct translation told;
    uint16_t number = translate(text, table, table_bytes, &told);
    if (number != SST_OK)
        printf("refused %u line %u: \"%.*s\"\n", (unsigned)number, line_of(text, told.start), (int)told.len, text + told.start);
    return (size_t)told.words;
}

#endif
