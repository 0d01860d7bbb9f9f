/* Takes figures over a shelf of two books: the steps of each, the mean, what was executed, and the steps rule by rule.
 *
 *   cc -std=c99 examples/figures.c $(pkg-config --cflags --libs sst-desk) -o figures
 *
 * Figures begin as zeros, and each book is added by one call, which walks it and counts. They can be kept and added to later: bytes that are no
 * figures are refused with SST_REFUSED. `make figures` prints a longer report on books in files.
 */
#include "helpers.h"
#include "sst-desk.h"

static const char text[] =
    "input: word note mark; output: set;\n"
    "rules\n"
    "Page: {[ | word: .set | note: @Note | *: > ]};\n"
    "Note: mark .set;\n"
    "end";

/* The tokens, by their order in the text. */
enum token { A_WORD, A_NOTE, A_MARK };

#define RULES 2
#define BUDGET 1000

static const uint8_t plain[] = {WORD(A_WORD), WORD(A_WORD), WORD(A_WORD)};
static const uint8_t noted[] = {WORD(A_WORD), WORD(A_NOTE), WORD(A_MARK), WORD(A_WORD)};

static uint8_t table[SST_TABLE_BYTES];
static uint8_t figures[SST_FIGURES_BYTES];

static void add(const char *name, const uint8_t *tokens, size_t tokens_len)
{
    uint8_t events[10 * SST_EVENT_BYTES], none[1] = {0};
    uint64_t written, steps;
    uint16_t number = sst_add_book(table, sizeof table, tokens, tokens_len, none, 0, BUDGET, 0, figures, sizeof figures, events, sizeof events,
                                   &written, &steps);

    printf("%s: number %u, %u events, %u steps\n", name, (unsigned)number, (unsigned)written, (unsigned)steps);
}

static void report(void)
{
    uint64_t books, total, covered, mean, rest;
    uint16_t number = sst_shelf(figures, sizeof figures, &books, &total, &covered, &mean, &rest);

    printf("number %u: %u books, %u steps, %u a book and %u over, %u locations executed\n", (unsigned)number, (unsigned)books, (unsigned)total,
           (unsigned)mean, (unsigned)rest, (unsigned)covered);
}

/* A rule's steps: the counts from its location up to the next rule's, or to the table's end. */
static void report_rules(size_t table_words)
{
    uint8_t rows[RULES * SST_RULE_BYTES];
    uint64_t rules, l;
    size_t i;

    if (sst_rules((const uint8_t *)text, strlen(text), rows, sizeof rows, &rules) != SST_OK)
        return;
    for (i = 0; i < rules; i++) {
        const uint8_t *row = rows + i * SST_RULE_BYTES;
        uint64_t end = i + 1 < rules ? sst_get_64(row + SST_RULE_BYTES + 16) : table_words + 1, sum = 0;

        for (l = sst_get_64(row + 16); l < end; l++)
            sum += sst_get_64(figures + 8 * (l - 1));
        printf("%.*s: %u steps\n", (int)sst_get_64(row + 8), text + sst_get_64(row), (unsigned)sum);
    }
}

int main(void)
{
    size_t words = translate_rules(text, table, sizeof table);

    if (words == 0)
        return 1;
    report();
    add("plain", plain, sizeof plain);
    add("noted", noted, sizeof noted);
    report();
    report_rules(words);
    figures[0] = 1;
    puts("with a count changed:");
    add("plain", plain, sizeof plain);
    report();
    return 0;
}
