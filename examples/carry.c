/* Carries a reading position to new rules. The rules that a device shipped with turn pages for ever at a footnote that is taller than a page; an update
 * mends that. A book that is half paginated goes on with the new rules where it stands; one that is inside the footnote is begun again.
 *
 *   cc -std=c99 examples/carry.c $(pkg-config --cflags --libs sst-carry) -o carry
 */
#include "helpers.h"
#include "sst-carry.h"

#define SECTIONS                                  \
    "input: line note noteLine endOfBook;\n"      \
    "output: placed pageTurned;\n"                \
    "type Fit: fits full;\n"                      \
    "mechanism Page: RoomForLine >> Fit\n"        \
    "    RoomForNote >> Fit Place PlaceNote TurnPage;\n"

#define BOOK_AND_LINE                                             \
    "Book: {[ | line: @Line | note: @Note | endOfBook: > ]};\n"   \
    "Line: [ RoomForLine | fits: | full: TurnPage .pageTurned ] Place .placed;\n"

/* The note is placed whole, on the first page with room for it. */
static const char shipped[] = SECTIONS "rules\n" BOOK_AND_LINE
    "Note: {[ RoomForNote | fits: PlaceNote > | full: TurnPage .pageTurned ]} {[ | noteLine: | *: > ]};\n"
    "end\n";

/* Every line of the note is placed as a line of the book; the rule Note moved to the front and has other words. */
static const char mended[] = SECTIONS "rules\n"
    "Start: @Book;\n"
    "Note: {[ | noteLine: @Line | *: > ]};\n" BOOK_AND_LINE "end\n";

/* Another token in a section. */
static const char renumbered[] = "input: chapter;\n" SECTIONS "rules\n" BOOK_AND_LINE "Note: ; end\n";

enum token { LINE, NOTE, NOTE_LINE, END_OF_BOOK };

/* Operations of each kind in the order of their declarations. */
enum operation { PLACE = SST_UPDATE, PLACE_NOTE, TURN_PAGE, ROOM_FOR_LINE = SST_CHOICE, ROOM_FOR_NOTE };
enum fit { FITS, FULL };

#define LINES_A_PAGE 3
#define NOTE_LINES 4
#define BUDGET 1000
#define ALL_QUESTIONS 100
#define EVENTS 8

struct rules {
    const char *text;
    uint8_t table[SST_TABLE_BYTES];
};

/* What the device holds of an open book: its walk, the page that it is on, lines on that page. */
struct book {
    uint8_t walk[SST_WALK_BYTES];
    unsigned page, lines;
    uint16_t given, answer;
};

static const uint16_t words_of_book[] = {LINE, LINE, NOTE, NOTE_LINE, NOTE_LINE, NOTE_LINE, NOTE_LINE, LINE, END_OF_BOOK};
#define TOKENS COUNT(words_of_book)

static uint8_t tokens[2 * TOKENS];

static void ship(struct rules *rules, const char *name, const char *text)
{
    struct translation told;
    unsigned number = translate(text, rules->table, sizeof rules->table, &told);
    rules->text = text;
    printf("%s: number %u, %lu words, finishing %s\n", name, number, (unsigned long)told.words, told.finishing ? "yes" : "no");
}

static void begin(struct book *book)
{
    sst_fresh(book->walk, sizeof book->walk, 0);
    book->page = 1;
    book->lines = 0;
    book->given = 0;
    book->answer = 0;
}

/* Does one operation; a choice operation leaves its answer for the next call. */
static void operate(struct book *book, unsigned operation)
{
    switch (operation) {
    case PLACE:
        book->lines++;
        printf("    page %u line %u\n", book->page, book->lines);
        break;
    case TURN_PAGE:
        book->page++;
        book->lines = 0;
        break;
    case ROOM_FOR_LINE:
        book->given = 1;
        book->answer = book->lines < LINES_A_PAGE ? FITS : FULL;
        break;
    case ROOM_FOR_NOTE:
        book->given = 1;
        book->answer = book->lines + NOTE_LINES <= LINES_A_PAGE ? FITS : FULL;
        break;
    default:
        break;
    }
}

/* Walks on until so many questions have been asked, or to the end. Answers the number of the last call. */
static unsigned walk_on(struct book *book, const struct rules *rules, unsigned questions)
{
    uint8_t events[SST_EVENT_BYTES * EVENTS];
    uint64_t written, steps;
    unsigned number = SST_WAITS;
    size_t i;
    while (number == SST_WAITS && questions > 0) {
        number = sst_paused(rules->table, sizeof rules->table, tokens, sizeof tokens, book->given, book->answer, BUDGET, book->walk,
                            sizeof book->walk, events, sizeof events, &written, &steps);
        book->given = 0;
        for (i = 0; i < (size_t)written; i++)
            if (event_at(events, i).kind == SST_EVENT_OPERATION)
                operate(book, event_at(events, i).value);
        questions--;
    }
    return number;
}

/* Walks to the end and says where that is. */
static void finish(struct book *book, const struct rules *rules)
{
    unsigned number = walk_on(book, rules, ALL_QUESTIONS);
    printf("  ended with %u on page %u\n", number, book->page);
}

/* The update arrives: the walk is carried, or the chapter is begun again. */
static void update(struct book *book, const struct rules *old, const struct rules *new)
{
    uint64_t text, start, len;
    unsigned before = sst_location(book->walk, sizeof book->walk);
    unsigned number = sst_carry((const uint8_t *)old->text, strlen(old->text), (const uint8_t *)new->text, strlen(new->text), book->walk,
                                sizeof book->walk, &text, &start, &len);
    if (number == SST_OK) {
        printf("  carried from location %u to %u, %lu tokens read\n", before, sst_location(book->walk, sizeof book->walk),
               (unsigned long)sst_read(book->walk, sizeof book->walk));
        return;
    }
    printf("  number %u%s, begun again\n", number, number == SST_RULE_DIFFERS ? ": a rule in progress differs" : ": the sections differ");
    begin(book);
}

int main(void)
{
    static struct rules old, new, other;
    struct book book;

    put_words(tokens, words_of_book, TOKENS);
    ship(&old, "shipped", shipped);
    ship(&new, "mended", mended);
    ship(&other, "renumbered", renumbered);

    printf("An update in the middle of a line\n");
    begin(&book);
    walk_on(&book, &old, 2);
    update(&book, &old, &new);
    finish(&book, &new);

    printf("An update inside the footnote\n");
    begin(&book);
    walk_on(&book, &old, 9);
    printf("  on page %u, and no end\n", book.page);
    update(&book, &old, &new);
    finish(&book, &new);

    printf("An update with other sections\n");
    begin(&book);
    walk_on(&book, &old, 2);
    update(&book, &old, &other);
    return 0;
}
