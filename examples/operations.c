/* The host's side of a page breaker: a C function for each operation of the rules, found by the operation's number, and the loop that
 * does a walk's events in order and answers its questions. Two books are read in turn over one table, a few steps at a time.
 *
 *   cc -std=c99 examples/operations.c $(pkg-config --cflags --libs sst) -o operations
 *
 * The table is admitted with the operations that there are functions for, so that no walk over it writes an event of any other, whoever
 * wrote the rules.
 */
#include "helpers.h"

static const char rules[] = "input: line heading endOfBook;\n"
                            "output: pageDone;\n"
                            "type Fit: fits full;\n"
                            "type Place: top within;\n"
                            "type Height: none one two three;\n"
                            "mechanism Page: TurnPage PlaceLine PlaceHeading\n"
                            "  Skip(Height)  Where >> Place  Room(Height) >> Fit;\n"
                            "rules\n"
                            "  Book: {[ | line: @Line | heading: @Heading | endOfBook: .pageDone > ]};\n"
                            "  Line: [ Room(one) | fits: | full: @Turn ] PlaceLine;\n"
                            "  % a heading stands with room for a blank line and a line of text, but at the top of a page\n"
                            "  Heading: [ Room(three) | fits: | full: @Turn ]\n"
                            "           [ Where | top: | within: Skip(one) ] PlaceHeading;\n"
                            "  Turn: TurnPage .pageDone;\n"
                            "end\n";

enum token { LINE, HEADING, END_OF_BOOK };
enum fit { FITS, FULL };
enum place { TOP, WITHIN };

#define LINES_A_PAGE 4
#define STEPS_A_TURN 9 /* small ones, so that books are left in the middle */
#define EVENTS 2

/* What the host keeps of an open book. The answer of an operation stays until the next call takes it. */
struct book {
    const char *name;
    const uint8_t *tokens;
    size_t token_bytes;
    uint8_t walk[SST_WALK_BYTES];
    unsigned page, lines;
    uint16_t given, answer, number;
    unsigned waits, full, spent;
};

/* An operation changes its book; one that is asked answers. */
typedef uint16_t operation(struct book *book, uint16_t parameter);

static uint16_t turn_page(struct book *book, uint16_t parameter)
{
    (void)parameter;
    book->page++;
    book->lines = 0;
    return 0;
}

static uint16_t place_line(struct book *book, uint16_t parameter)
{
    (void)parameter;
    book->lines++;
    printf("%s: page %u line %u\n", book->name, book->page, book->lines);
    return 0;
}

static uint16_t place_heading(struct book *book, uint16_t parameter)
{
    (void)parameter;
    book->lines++;
    printf("%s: page %u line %u, a heading\n", book->name, book->page, book->lines);
    return 0;
}

static uint16_t skip(struct book *book, uint16_t height)
{
    book->lines += height;
    return 0;
}

static uint16_t where(struct book *book, uint16_t parameter)
{
    (void)parameter;
    return book->lines == 0 ? TOP : WITHIN;
}

static uint16_t room(struct book *book, uint16_t height)
{
    return book->lines + height <= LINES_A_PAGE ? FITS : FULL;
}

/* The functions of each kind of operations, in the order of their declarations. */
static operation *const updates[] = {turn_page, place_line, place_heading};
static operation *const updates_with_parameter[] = {skip};
static operation *const choices[] = {where};
static operation *const choices_with_parameter[] = {room};

static const struct kind {
    uint16_t first;
    operation *const *functions;
    size_t count;
} kinds[] = {
    {SST_UPDATE, updates, COUNT(updates)},
    {SST_UPDATE_PARAMETER, updates_with_parameter, COUNT(updates_with_parameter)},
    {SST_CHOICE, choices, COUNT(choices)},
    {SST_CHOICE_PARAMETER, choices_with_parameter, COUNT(choices_with_parameter)},
};

static const uint8_t novel_tokens[] = {WORD(HEADING), WORD(LINE), WORD(LINE), WORD(LINE), WORD(HEADING), WORD(LINE), WORD(END_OF_BOOK)};
static const uint8_t poem_tokens[] = {WORD(LINE), WORD(HEADING), WORD(LINE), WORD(END_OF_BOOK)};

static uint8_t table[SST_TABLE_BYTES];

/* The function of an operation's number: kinds are as far apart as each has numbers. */
static operation *function_of(uint16_t number)
{
    const struct kind *kind = &kinds[(number - SST_UPDATE) / SST_OPERATIONS];
    return kind->functions[number - kind->first];
}

/* Admits the table with the operations that have a function. */
static uint16_t admit(size_t table_bytes)
{
    uint8_t set[SST_SET_BYTES] = {0};
    uint64_t location;
    size_t k, i;

    for (k = 0; k < COUNT(kinds); k++)
        for (i = 0; i < kinds[k].count; i++) {
            size_t bit = kinds[k].first - SST_UPDATE + i;
            set[bit / 8] |= (uint8_t)(128 >> bit % 8);
        }
    return sst_admit(table, table_bytes, set, sizeof set, &location);
}

static void open_book(struct book *book, const char *name, const uint8_t *tokens, size_t token_bytes)
{
    memset(book, 0, sizeof *book);
    book->name = name;
    book->tokens = tokens;
    book->token_bytes = token_bytes;
    book->page = 1;
    sst_fresh(book->walk, sizeof book->walk, 0);
}

/* Does the events in their order. Where the walk waits, the last one is the operation that was asked: what it answers is what it wants. */
static void do_events(struct book *book, const uint8_t *events, size_t count)
{
    size_t i;
    for (i = 0; i < count; i++) {
        struct event event = event_at(events, i);
        if (event.kind == SST_EVENT_OPERATION)
            book->answer = function_of(event.value)(book, event.parameter);
        else if (event.kind == SST_EVENT_OUTPUT)
            printf("%s: a page is done\n", book->name);
    }
}

/* One turn of a book, up to so many steps. Answers whether there is more of it. */
static int read_on(struct book *book, size_t table_bytes)
{
    uint8_t events[SST_EVENT_BYTES * EVENTS];
    uint64_t written, steps, left = STEPS_A_TURN;

    do {
        book->number = sst_paused(table, table_bytes, book->tokens, book->token_bytes, book->given, book->answer, left, book->walk,
                                  sizeof book->walk, events, sizeof events, &written, &steps);
        left -= steps;
        do_events(book, events, (size_t)written);
        book->given = book->number == SST_WAITS;
        book->waits += book->number == SST_WAITS;
        book->full += book->number == SST_EVENTS_FULL;
    } while (book->number == SST_WAITS || book->number == SST_EVENTS_FULL);
    book->spent += book->number == SST_BUDGET_SPENT;
    return book->number == SST_BUDGET_SPENT;
}

static void close_book(const struct book *book)
{
    printf("%s: ended with %u on page %u; asked %u times, buffer full %u times, budget spent %u times\n", book->name,
           (unsigned)book->number, book->page, book->waits, book->full, book->spent);
}

int main(void)
{
    struct book novel, poem;
    int more_novel = 1, more_poem = 1;
    size_t table_bytes = 2 * translate_rules(rules, table, sizeof table);

    if (table_bytes == 0 || admit(table_bytes) != SST_OK)
        return 1;
    open_book(&novel, "novel", novel_tokens, sizeof novel_tokens);
    open_book(&poem, "poem", poem_tokens, sizeof poem_tokens);
    while (more_novel || more_poem) {
        more_novel = more_novel && read_on(&novel, table_bytes);
        more_poem = more_poem && read_on(&poem, table_bytes);
    }
    close_book(&novel);
    close_book(&poem);
    return 0;
}
