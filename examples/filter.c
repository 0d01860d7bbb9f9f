/* Folds a publisher's text into the input tokens of a scanner by a character filter, and walks the scanner over them.
 *
 *   cc -std=c99 examples/filter.c $(pkg-config --cflags --libs sst) -o filter
 *
 * The scanner knows letters, digits and a few signs. Which characters these are is the publisher's: entries of first byte, last byte and
 * token, with every byte value in one entry and no more. One walk scans one syntax token, from where the walk before it stopped reading.
 */
#include "helpers.h"

static const char scanner[] = "% A scanner for identifiers, integers, ';', '+', and '-'\n"
                              "input: letter digit blank illegalChar;\n"
                              "output: identifier integer;\n"
                              "input output: semicolon ';' plus '+' minus '-';\n"
                              "error: badChar;\n"
                              "mechanism Buffer: BufferSave; % Save last accepted character\n"
                              "rules\n"
                              "Scanner:\n"
                              "  @SkipNoise\n"
                              "  [\n"
                              "    | letter: BufferSave {[ | letter, digit: BufferSave | *: .identifier > ]}\n"
                              "    | digit: BufferSave {[ | digit: BufferSave | *: .integer > ]}\n"
                              "    | ';': .semicolon\n"
                              "    | '+': .plus\n"
                              "    | '-': .minus\n"
                              "  ];\n"
                              "SkipNoise:\n"
                              "  {[ | blank: | illegalChar: #badChar | *: > ]};\n"
                              "end\n";

enum token { LETTER, DIGIT, BLANK, ILLEGAL, SEMICOLON, PLUS, MINUS };
static const char *const output_names[] = {"identifier", "integer", "", "", "semicolon", "plus", "minus"};

#define TABLE_WORDS 128
#define LONGEST_TEXT 64
#define EVENTS (LONGEST_TEXT + 2)
#define BUDGET 10000

struct entry {
    unsigned char first, last;
    uint16_t token;
};

struct filter {
    const char *name;
    size_t entry_count;
    struct entry entries[SST_FILTER_ENTRIES];
};

static const struct filter filters[] = {
    {"letters and digits", 17,
     {{'A', 'Z', LETTER}, {'a', 'z', LETTER}, {'0', '9', DIGIT}, {' ', ' ', BLANK}, {';', ';', SEMICOLON}, {'+', '+', PLUS},
      {'-', '-', MINUS}, {0, 8, ILLEGAL}, {9, 10, BLANK}, {11, 31, ILLEGAL}, {33, 42, ILLEGAL}, {44, 44, ILLEGAL},
      {46, 47, ILLEGAL}, {58, 58, ILLEGAL}, {60, 64, ILLEGAL}, {91, 96, ILLEGAL}, {123, 255, ILLEGAL}}},
    {"letters, digits, low line and all bytes from 128 on", 20,
     {{'A', 'Z', LETTER}, {'a', 'z', LETTER}, {'_', '_', LETTER}, {128, 255, LETTER}, {'0', '9', DIGIT}, {' ', ' ', BLANK},
      {';', ';', SEMICOLON}, {'+', '+', PLUS}, {'-', '-', MINUS}, {0, 8, ILLEGAL}, {9, 10, BLANK}, {11, 31, ILLEGAL},
      {33, 42, ILLEGAL}, {44, 44, ILLEGAL}, {46, 47, ILLEGAL}, {58, 58, ILLEGAL}, {60, 64, ILLEGAL}, {91, 94, ILLEGAL},
      {96, 96, ILLEGAL}, {123, 127, ILLEGAL}}},
    {"an entry turned round", 2, {{0, 99, LETTER}, {255, 100, DIGIT}}},
    {"the digits twice", 2, {{0, 255, ILLEGAL}, {'0', '9', DIGIT}}},
    {"the minus sign forgotten", 2, {{0, 44, ILLEGAL}, {46, 255, LETTER}}},
};

static const char text[] = "left_margin + 12 -\n gap2;";

static uint8_t table[2 * TABLE_WORDS];
static uint8_t tokens[2 * LONGEST_TEXT];
static uint8_t walk[SST_WALK_BYTES];
static uint8_t events[SST_EVENT_BYTES * EVENTS];

/* The bytes of a filter's entries; answers how many. */
static size_t put_entries(uint8_t *bytes, const struct filter *filter)
{
    size_t i;
    for (i = 0; i < filter->entry_count; i++) {
        uint8_t *entry = bytes + SST_FILTER_ENTRY_BYTES * i;
        entry[0] = filter->entries[i].first;
        entry[1] = filter->entries[i].last;
        sst_put_word(entry, 1, filter->entries[i].token);
    }
    return SST_FILTER_ENTRY_BYTES * filter->entry_count;
}

/* The events of a walk; answers how many characters it saved. */
static size_t show_events(uint64_t written)
{
    size_t i, saved = 0;
    for (i = 0; i < (size_t)written; i++) {
        struct event event = event_at(events, i);
        switch (event.kind) {
        case SST_EVENT_OUTPUT:
            printf(" output %s", output_names[event.value]);
            break;
        case SST_EVENT_ERROR:
            printf(" error badChar");
            break;
        case SST_EVENT_OPERATION:
            saved++;
            printf(" BufferSave");
            break;
        }
    }
    return saved;
}

/* Walks the scanner over the tokens, one syntax token after the other. What a walk saved are the last characters that it read. */
static void scan(size_t words, size_t token_count)
{
    size_t at = 0, saved;
    uint64_t written, steps;
    uint16_t number;
    uint8_t answers[2];

    while (at < token_count) {
        sst_fresh(walk, sizeof walk, 0);
        number = sst_whole(table, 2 * words, tokens + 2 * at, 2 * (token_count - at), answers, 0, BUDGET, walk, sizeof walk, events,
                           sizeof events, &written, &steps);
        at += (size_t)sst_read(walk, sizeof walk);
        printf("  answered %u:", (unsigned)number);
        saved = show_events(written);
        if (saved > 0)
            printf(", saved \"%.*s\"", (int)saved, text + at - saved);
        printf("\n");
        if (number != SST_OK)
            return;
    }
}

static void show_tokens(uint64_t written)
{
    size_t i;
    printf("  tokens");
    for (i = 0; i < (size_t)written; i++)
        printf(" %u", (unsigned)sst_get_word(tokens, i));
    printf("\n");
}

int main(void)
{
    uint8_t filter[SST_FILTER_ENTRY_BYTES * SST_FILTER_ENTRIES];
    uint64_t at, written;
    size_t i, filter_bytes, words = translate_rules(scanner, table, sizeof table);
    uint16_t number;

    if (words == 0)
        return 1;
    printf("%s\n", text);
    for (i = 0; i < COUNT(filters); i++) {
        printf("%s\n", filters[i].name);
        filter_bytes = put_entries(filter, &filters[i]);
        number = sst_filter(filter, filter_bytes, (const uint8_t *)text, strlen(text), tokens, sizeof tokens, &at, &written);
        if (number != SST_OK) {
            printf("  refused %u, naming %lu\n", (unsigned)number, (unsigned long)at);
            continue;
        }
        show_tokens(written);
        scan(words, (size_t)written);
    }
    return 0;
}
