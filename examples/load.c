/* Loads a table file and walks its table; then shows what the loader answers to files that it does not take.
 *
 *   cc -std=c99 examples/load.c $(pkg-config --cflags --libs sst) -o load
 *
 * The file is that of
 *
 *   input: a b blank illegalChar;  error: badChar = 10;
 *   rules
 *     M: {[ | blank: | illegalChar: #badChar | *: > ]};
 *   end
 *
 * as `make table` writes it. A walk on a table that was loaded never answers SST_BAD_TABLE, whoever wrote the file.
 */
#include "helpers.h"

static const uint8_t scanner[] = {
    'H', 'D', WORD(2), WORD(18), WORD(1), /* 18 words, claimed to be finishing */
    'T', 'W', WORD(18), WORD(7),  WORD(7),  WORD(1), WORD(12), WORD(6), WORD(10), WORD(1), WORD(8), WORD(2),
    WORD(2),  WORD(8),  WORD(3),  WORD(8),  WORD(1), WORD(3),  WORD(2), WORD(16), WORD(9),
};

/* The byte of the file that a damage changes, and its new value; the bytes that are handed over; the words of the lent table. */
struct damage {
    const char *name;
    size_t at;
    uint8_t value;
    size_t bytes, words;
};

#define FILE_BYTES sizeof scanner
#define TABLE_WORDS (SST_TABLE_BYTES / 2)

static const struct damage damages[] = {
    {"the last byte missing", 0, 'H', FILE_BYTES - 1, TABLE_WORDS},
    {"another mark", 8, 't', FILE_BYTES, TABLE_WORDS},
    {"a verdict word of 2", 7, 2, FILE_BYTES, TABLE_WORDS},
    {"a lent table of 17 words", 0, 'H', FILE_BYTES, 17},
    {"a jump back that is a word longer, to location 0", 45, 17, FILE_BYTES, TABLE_WORDS},
    {"the last return made an instruction that is none", 47, 14, FILE_BYTES, TABLE_WORDS},
};

static uint8_t table[SST_TABLE_BYTES];
static uint8_t walk[SST_WALK_BYTES];

/* Walks the table that was loaded over a few tokens. */
static void walk_table(size_t words)
{
    static const uint8_t tokens[] = {WORD(2), WORD(3), WORD(3), WORD(0)}; /* blank, illegalChar twice, a */
    static const uint8_t answers[1];                                      /* none are wanted */
    static uint8_t events[8 * SST_EVENT_BYTES];
    uint64_t written, steps;
    uint16_t number;
    size_t i;

    sst_fresh(walk, sizeof walk, 0);
    number = sst_whole(table, 2 * words, tokens, sizeof tokens, answers, 0, 100, walk, sizeof walk, events, sizeof events, &written, &steps);
    printf("walk answered %u after %lu steps, tokens read %lu\n", (unsigned)number, (unsigned long)steps,
           (unsigned long)sst_read(walk, sizeof walk));
    for (i = 0; i < (size_t)written; i++) {
        struct event event = event_at(events, i);
        printf("  %s %u\n", event.kind == SST_EVENT_ERROR ? "error" : "event", (unsigned)event.value);
    }
}

/* Loads a copy of the file with one byte changed. */
static void load_damaged(const struct damage *damage)
{
    static uint8_t file[FILE_BYTES];
    uint64_t words, verdict;
    uint16_t number;

    memcpy(file, scanner, FILE_BYTES);
    file[damage->at] = damage->value;
    number = sst_load(file, damage->bytes, table, 2 * damage->words, &words, &verdict);
    printf("%s: answered %u, words %lu, first word of the table %u\n", damage->name, (unsigned)number, (unsigned long)words,
           (unsigned)sst_get_word(table, 0));
}

int main(void)
{
    uint64_t words, verdict;
    size_t i;
    uint16_t number = sst_load(scanner, sizeof scanner, table, sizeof table, &words, &verdict);

    printf("answered %u, words %lu, finishing by the sender's claim: %s\n", (unsigned)number, (unsigned long)words,
           verdict ? "yes" : "no");
    if (number != SST_OK)
        return 1;
    walk_table((size_t)words);
    for (i = 0; i < COUNT(damages); i++)
        load_damaged(&damages[i]);
    return 0;
}
