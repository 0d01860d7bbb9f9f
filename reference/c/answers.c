/* What a library answers to many inputs, as one sum for each group of entries: the same lines must come from the libraries of all processors.
 *
 *   answers ROUNDS TEXT..
 *
 * Each text is processed as it stands and damaged, so many times; what is accepted is walked, whole and in pauses, written, loaded, admitted,
 * and shown on a screen beside another book. Filters are drawn. All that is drawn comes from one fixed seed.
 */
#include <stdio.h>
#include <stdlib.h>
#include <string.h>

#include "sst.h"

#define MOST_TOKENS 400
#define EVENTS_BYTES 600
#define CALLS 12
#define LARGEST_BUDGET 300

enum group { TEXTS, WALKS, FILES, RIGHTS, SCREENS, FILTERS, GROUPS };
static const char *const names[GROUPS] = {"texts", "walks", "files", "rights", "screens", "filters"};
static uint64_t cases[GROUPS], sums[GROUPS];

static uint8_t original[SST_TEXT_BYTES + 1], text[SST_TEXT_BYTES + 1], table[SST_TABLE_BYTES], file[SST_FILE_BYTES];
static uint8_t tokens[2 * MOST_TOKENS], answers[2 * MOST_TOKENS], events[EVENTS_BYTES];
static size_t original_len;

/* Numbers in no order, always the same ones: no more than one is drawn in the arguments of a call, whose order is the compiler's. */
static uint64_t draw(uint64_t below)
{
    static uint64_t seed = UINT64_C(88172645463325252);
    seed ^= seed << 13;
    seed ^= seed >> 7;
    seed ^= seed << 17;
    return seed % below;
}

static void draw_bytes(uint8_t *bytes, size_t count)
{
    size_t i;
    for (i = 0; i < count; i++)
        bytes[i] = (uint8_t)draw(256);
}

static void add_bytes(enum group group, const uint8_t *bytes, size_t count)
{
    size_t i;
    for (i = 0; i < count; i++)
        sums[group] = (sums[group] ^ bytes[i]) * UINT64_C(1099511628211);
}

static void add(enum group group, uint64_t number)
{
    uint8_t bytes[8];
    int i;
    for (i = 0; i < 8; i++)
        bytes[i] = (uint8_t)(number >> 8 * i);
    add_bytes(group, bytes, sizeof bytes);
}

/* The text as it stands, or with up to three bytes changed; now and then cut. Answers its length. */
static size_t damage(int round)
{
    size_t i, changes = round == 0 ? 0 : (size_t)draw(4);
    memcpy(text, original, original_len);
    for (i = 0; i < changes; i++) {
        size_t at = (size_t)draw(original_len);
        text[at] = draw(2) ? original[draw(original_len)] : (uint8_t)draw(256);
    }
    return round == 0 || draw(8) != 0 ? original_len : (size_t)draw(original_len);
}

/* Answers the words of the table, 0 where the text is refused. */
static size_t process(size_t len, size_t room)
{
    uint64_t start, part, words, finishing, figure, figure_number;
    memset(table, 0xA5, sizeof table);
    add(TEXTS, sst_process(text, len, table, room, &start, &part, &words, &finishing, &figure, &figure_number));
    add(TEXTS, start);
    add(TEXTS, part);
    add(TEXTS, words);
    add(TEXTS, finishing);
    add(TEXTS, figure);
    add(TEXTS, figure_number);
    add_bytes(TEXTS, table, sizeof table);
    cases[TEXTS]++;
    return (size_t)words;
}

/* Tokens and answers with small values, as programs have them; some are large. */
static void draw_words(uint8_t *words, uint64_t below)
{
    size_t i;
    for (i = 0; i < MOST_TOKENS; i++)
        sst_put_word(words, i, (uint16_t)draw(draw(50) == 0 ? 65536 : below));
}

static void add_walk(const uint8_t *walk)
{
    add_bytes(WALKS, walk, SST_WALK_BYTES);
    add(WALKS, sst_phase(walk, SST_WALK_BYTES));
    add(WALKS, sst_reason(walk, SST_WALK_BYTES));
    add(WALKS, sst_location(walk, SST_WALK_BYTES));
    add(WALKS, sst_read(walk, SST_WALK_BYTES));
    add(WALKS, sst_used(walk, SST_WALK_BYTES));
    add(WALKS, sst_allowance(walk, SST_WALK_BYTES));
    cases[WALKS]++;
}

/* Some calls of a walk, whole or paused, with budgets and buffers of all sizes. */
static void walk_on(uint8_t *walk, size_t words)
{
    int i, paused = draw(2) != 0;
    uint16_t number, given = 0;
    uint64_t written, steps;
    sst_fresh(walk, SST_WALK_BYTES, (uint16_t)draw(4));
    for (i = 0; i < CALLS; i++) {
        uint64_t budget = draw(LARGEST_BUDGET);
        size_t room = (size_t)draw(sizeof events + 1), count = 2 * (size_t)draw(MOST_TOKENS + 1);
        number = paused ? sst_paused(table, 2 * words, tokens, count, given, (uint16_t)draw(4), budget, walk, SST_WALK_BYTES, events, room,
                                     &written, &steps)
                        : sst_whole(table, 2 * words, tokens, count, answers, count, budget, walk, SST_WALK_BYTES, events, room,
                                    &written, &steps);
        given = number == SST_WAITS;
        add(WALKS, number);
        add(WALKS, written);
        add(WALKS, steps);
        add_bytes(WALKS, events, sizeof events);
        add_walk(walk);
    }
}

/* The table's file, loaded as it is and with a bit changed; the table is the last one loaded afterwards. */
static void load(size_t words)
{
    uint64_t file_words, loaded, verdict = draw(3);
    size_t at, room = draw(4) ? sizeof file : (size_t)draw(sizeof file);
    int i;
    memset(file, 0x5A, sizeof file);
    add(FILES, sst_write_file(table, 2 * words, verdict, file, room, &file_words));
    add(FILES, file_words);
    add_bytes(FILES, file, sizeof file);
    for (i = 0; i < 3 && file_words != 0; i++) {
        add(FILES, sst_load(file, 2 * (size_t)file_words, table, sizeof table, &loaded, &verdict));
        add(FILES, loaded);
        add(FILES, verdict);
        add_bytes(FILES, table, sizeof table);
        cases[FILES]++;
        at = (size_t)draw(2 * file_words);
        file[at] ^= (uint8_t)(1 << draw(8));
    }
}

static void admit(size_t words)
{
    uint8_t set[SST_SET_BYTES];
    uint64_t loaded, verdict, location;
    draw_bytes(set, sizeof set);
    add(RIGHTS, sst_admit(table, 2 * words, set, (size_t)draw(sizeof set + 1), &location));
    add(RIGHTS, location);
    add(RIGHTS, sst_load_admitted(file, (size_t)draw(sizeof file + 1), set, sizeof set, table, sizeof table, &loaded, &verdict, &location));
    add(RIGHTS, loaded + verdict + location);
    add_bytes(RIGHTS, table, sizeof table);
    cases[RIGHTS]++;
}

/* Turns of two books, refilled now and then. */
static void take_turns(size_t words)
{
    uint8_t screen[SST_SCREEN_BYTES];
    uint16_t given[2] = {0, 0}, number, allowance = (uint16_t)draw(3);
    uint64_t written, steps;
    int i;
    sst_screen_fresh(screen, sizeof screen, allowance, (uint16_t)draw(3));
    for (i = 0; i < CALLS; i++) {
        uint16_t book = (uint16_t)draw(2);
        if (draw(2))
            sst_refill(screen, sizeof screen, book, draw(LARGEST_BUDGET));
        number = draw(4) ? sst_turn_paused(table, 2 * words, tokens, sizeof tokens, given[book], (uint16_t)draw(4), book, screen, sizeof screen,
                                           events, sizeof events, &written, &steps)
                         : sst_turn_whole(table, 2 * words, tokens, sizeof tokens, answers, sizeof answers, book, screen, sizeof screen, events,
                                          sizeof events, &written, &steps);
        given[book] = number == SST_WAITS;
        add(SCREENS, number);
        add(SCREENS, written);
        add(SCREENS, steps);
        add_bytes(SCREENS, screen, sizeof screen);
        add_bytes(SCREENS, events, sizeof events);
        cases[SCREENS]++;
    }
}

static void try_text(int round)
{
    uint8_t walk[SST_WALK_BYTES];
    size_t at, len = damage(round), words = process(len, draw(16) ? sizeof table : (size_t)draw(sizeof table));

    if (words == 0)
        return;
    draw_words(tokens, 12);
    draw_words(answers, 4);
    walk_on(walk, words);
    take_turns(words);
    load(words);
    admit(words);
    /* a foreign table: a word of the last one that was loaded changed */
    at = (size_t)draw(words);
    sst_put_word(table, at, (uint16_t)draw(16));
    walk_on(walk, words);
}

/* A filter of entries that follow each other, with a fault now and then. */
static void try_filter(void)
{
    uint8_t filter[SST_FILTER_ENTRY_BYTES * (SST_FILTER_ENTRIES + 2)] = {0};
    uint64_t at, written;
    size_t count = 0, room = sizeof tokens - (size_t)draw(3), len = original_len < MOST_TOKENS ? original_len : MOST_TOKENS;
    unsigned first = 0;
    while (first < 256 && count <= SST_FILTER_ENTRIES) {
        unsigned last = first + (unsigned)draw(30);
        uint8_t *entry = filter + SST_FILTER_ENTRY_BYTES * count++;
        entry[0] = (uint8_t)first;
        entry[1] = (uint8_t)(last < 255 ? last : 255);
        sst_put_word(entry, 1, (uint16_t)draw(65536));
        first = last + (unsigned)(draw(60) ? 1 : draw(3));
    }
    draw_bytes(tokens, sizeof tokens);
    add(FILTERS, sst_filter(filter, SST_FILTER_ENTRY_BYTES * count + (size_t)draw(4), original, len, tokens, room, &at, &written));
    add(FILTERS, at);
    add(FILTERS, written);
    add_bytes(FILTERS, tokens, sizeof tokens);
    cases[FILTERS]++;
}

static int read_text(const char *path)
{
    FILE *in = fopen(path, "rb");
    if (!in)
        return 0;
    original_len = fread(original, 1, sizeof original, in);
    fclose(in);
    return original_len > 0;
}

int main(int argc, char **argv)
{
    int i, round, rounds = argc > 2 ? atoi(argv[1]) : 0;
    if (rounds < 1) {
        fprintf(stderr, "answers ROUNDS TEXT..\n");
        return 2;
    }
    for (i = 0; i < GROUPS; i++)
        sums[i] = UINT64_C(1469598103934665603);
    for (i = 2; i < argc; i++) {
        if (!read_text(argv[i])) {
            perror(argv[i]);
            return 2;
        }
        for (round = 0; round < rounds; round++) {
            try_text(round);
            try_filter();
        }
    }
    for (i = 0; i < GROUPS; i++)
        printf("%s: %lu answers, sum %08lx%08lx\n", names[i], (unsigned long)cases[i], (unsigned long)(sums[i] >> 32),
               (unsigned long)(sums[i] & UINT32_MAX));
    return 0;
}
