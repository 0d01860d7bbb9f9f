/* Shows two books on a split screen: they are walked in turn over one table, each with a counter of steps of its own, refilled at each refresh.
 *
 *   cc -std=c99 examples/split.c $(pkg-config --cflags --libs sst) -o split
 *
 * Book 0 is plain text: each line asks the page whether it fits, so its turns are paused ones. Book 1 has a long table and asks nothing: its
 * turns are whole ones. A turn may do the steps that are left to its book; a book that answers SST_BUDGET_SPENT goes on after its next refill. However long
 * the table of book 1, book 0 gets its steps at each refresh.
 */
#include "helpers.h"

static const char rules[] = "input: line row bookEnd;\n"
                            "output: paragraph cell done;\n"
                            "type answer: no yes;\n"
                            "mechanism page: newPage  fits >> answer;\n"
                            "rules\n"
                            "  Book: {[ | line: [ fits | yes: | no: newPage ] .paragraph\n"
                            "           | row: .cell\n"
                            "           | bookEnd: .done > ]};\n"
                            "end\n";

enum token { LINE, ROW, BOOK_END };
enum answer { NO, YES };

#define TABLE_WORDS 64
#define EVENTS 32
#define LINES 3
#define ROWS 12
#define BOOKS 2
#define STEPS_A_REFILL 20

static uint8_t table[2 * TABLE_WORDS];
static uint8_t screen[SST_SCREEN_BYTES];
static uint8_t text[2 * (LINES + 1)];
static uint8_t rows[2 * (ROWS + 1)];
static size_t table_bytes;

/* Which books are still walked. */
static int open_books[BOOKS] = {1, 1};

/* A book's tokens: one again and again, and the end. */
static void write_book(uint8_t *tokens, uint16_t token, size_t count)
{
    size_t i;
    for (i = 0; i < count; i++)
        sst_put_word(tokens, i, token);
    sst_put_word(tokens, count, BOOK_END);
}

/* The walk of a book; its steps left stand behind it. */
static const uint8_t *walk_of(uint16_t book)
{
    return screen + book * SST_BOOK_BYTES;
}

static unsigned long steps_left(uint16_t book)
{
    return (unsigned long)sst_get_64(walk_of(book) + SST_WALK_BYTES);
}

static void show(uint16_t book, uint16_t number, uint64_t written, uint64_t steps)
{
    printf("  book %u: answered %u, events %lu, steps %lu, left %lu\n", (unsigned)book, (unsigned)number, (unsigned long)written,
           (unsigned long)steps, steps_left(book));
    open_books[book] = number == SST_WAITS || number == SST_BUDGET_SPENT;
}

/* Book 0: each question is answered by a turn of its own; every second line does not fit. */
static void turn_text(void)
{
    static uint16_t given, asked;
    uint8_t events[SST_EVENT_BYTES * EVENTS];
    uint64_t written, steps;
    uint16_t number;

    do {
        number = sst_turn_paused(table, table_bytes, text, sizeof text, given, asked % 2 ? YES : NO, 0, screen, sizeof screen, events,
                                 sizeof events, &written, &steps);
        show(0, number, written, steps);
        given = number == SST_WAITS;
        asked = (uint16_t)(asked + given);
    } while (number == SST_WAITS);
}

static void turn_rows(void)
{
    uint8_t events[SST_EVENT_BYTES * EVENTS], answers[2];
    uint64_t written, steps;
    uint16_t number = sst_turn_whole(table, table_bytes, rows, sizeof rows, answers, 0, 1, screen, sizeof screen, events, sizeof events,
                                     &written, &steps);

    show(1, number, written, steps);
}

int main(void)
{
    unsigned refreshes;
    uint16_t book;

    table_bytes = 2 * translate_rules(rules, table, sizeof table);
    if (table_bytes == 0)
        return 1;
    write_book(text, LINE, LINES);
    write_book(rows, ROW, ROWS);
    sst_screen_fresh(screen, sizeof screen, 0, 0);
    for (refreshes = 1; open_books[0] || open_books[1]; refreshes++) {
        printf("refresh %u: %d steps for each book\n", refreshes, STEPS_A_REFILL);
        for (book = 0; book < BOOKS; book++)
            sst_refill(screen, sizeof screen, book, STEPS_A_REFILL);
        if (open_books[1])
            turn_rows();
        if (open_books[0])
            turn_text();
    }
    for (book = 0; book < BOOKS; book++)
        printf("book %u: tokens read %lu, stopped with %u\n", (unsigned)book, (unsigned long)sst_read(walk_of(book), SST_WALK_BYTES),
               (unsigned)sst_reason(walk_of(book), SST_WALK_BYTES));
    return 0;
}
