/* Figures over a shelf of books, for a release desk. This program is not proved: it calls the library and prints what it left.
 *
 *   sst-figures --version
 *   sst-figures TEXT BOOK..   adds each book to empty figures over the program's table, and prints
 *
 *     book FILE number N steps S                       what the book's walk answered and did
 *     books B steps S mean W remainder R               mean steps a book
 *     locations executed X of Y                        of those at which an instruction begins
 *     rule NAME line L location P executions E share D.D%     share of all steps, rounded down to tenths of a percent
 *     rules together S                                 the sum of the above; "but S book by book" where that differs
 *     never P rule NAME line L                         a location at which an instruction begins, never executed
 *
 * A book is a text file of lines `NAME: number ..`; numbers are decimal, a percent sign begins a comment, lines may be empty:
 *
 *     tokens: 0 0 3        the input tokens; several such lines are one after the other
 *     answers: 1 0         the answers of its choice operations, likewise
 *     allowance: 2         tokens that may be repaired; 0 where the line is missing
 *     budget: 1000         steps at most; 1,000,000,000 where the line is missing
 *
 * Status 0 with a report, 1 where the text or a book was refused or the sums differ, 2 where a file could not be read or is no book.
 */
#include <inttypes.h>
#include <stdlib.h>

#include "input.h"
#include "sst-desk.h"

#define TABLE_WORDS (SST_TABLE_BYTES / 2)
#define LARGEST_WORD 65535
#define USUAL_BUDGET UINT64_C(1000000000)

/* Instructions with an operand of their own kind, those of one word, and the first operation. */
enum { INPUT_CHOICE = 7, CHOICE = 11, INPUT_ANY = 4, RETURN = 9, END_CHOICE = 12, FIRST_OPERATION = SST_UPDATE };

/* Words, high byte first, in a buffer that grows. */
struct words {
    uint8_t *bytes;
    size_t used, room;
};

struct book {
    struct words tokens, answers;
    uint16_t allowance;
    uint64_t budget;
};

struct rule {
    const uint8_t *name;
    int name_len;
    unsigned long line;
    size_t location, end;
};

static uint8_t text[TEXT_BYTES];
static uint8_t table[SST_TABLE_BYTES];
static uint8_t figures[SST_FIGURES_BYTES];
static struct rule rules[SST_RULES];
static uint8_t rows[SST_RULES * SST_RULE_BYTES];
static size_t rule_count, table_words;

/* Whether an instruction begins at a location, from 1. */
static uint8_t begins[TABLE_WORDS + 1];

/* Reading a book */

static int add_word(struct words *w, uint64_t x)
{
    if (w->used + 2 > w->room) {
        size_t room = w->room ? 2 * w->room : 256;
        uint8_t *bytes = realloc(w->bytes, room);
        if (!bytes)
            return 0;
        w->bytes = bytes;
        w->room = room;
    }
    sst_put_word(w->bytes, w->used / 2, (uint16_t)x);
    w->used += 2;
    return 1;
}

/* The next byte that is no space; the rest of a line behind a percent sign is passed over. */
static int next_byte(FILE *in)
{
    int c = fgetc(in);
    while (c == ' ' || c == '\t' || c == '\r')
        c = fgetc(in);
    if (c == '%')
        while (c != '\n' && c != EOF)
            c = fgetc(in);
    return c;
}

/* A number up to `most`, whose first digit is c. */
static int read_number(FILE *in, int c, uint64_t most, uint64_t *n)
{
    *n = 0;
    for (; c >= '0' && c <= '9'; c = fgetc(in)) {
        uint64_t digit = (uint64_t)(c - '0');
        if (*n > (most - digit) / 10)
            return 0;
        *n = 10 * *n + digit;
    }
    ungetc(c, in);
    return 1;
}

static int take_number(struct book *b, const char *name, uint64_t n)
{
    if (strcmp(name, "tokens") == 0)
        return add_word(&b->tokens, n);
    if (strcmp(name, "answers") == 0)
        return add_word(&b->answers, n);
    if (strcmp(name, "allowance") == 0)
        b->allowance = (uint16_t)n;
    else
        b->budget = n;
    return 1;
}

static int is_name(const char *name)
{
    return strcmp(name, "tokens") == 0 || strcmp(name, "answers") == 0 || strcmp(name, "allowance") == 0 || strcmp(name, "budget") == 0;
}

/* A line whose first byte is c. */
static int read_line(FILE *in, int c, struct book *b)
{
    char name[16];
    size_t used = 0;
    uint64_t n, most;

    for (; c >= 'a' && c <= 'z' && used < sizeof name - 1; c = fgetc(in))
        name[used++] = (char)c;
    name[used] = 0;
    if (c != ':' || !is_name(name))
        return 0;
    most = strcmp(name, "budget") == 0 ? UINT64_MAX : LARGEST_WORD;
    for (c = next_byte(in); c != '\n' && c != EOF; c = next_byte(in))
        if (c < '0' || c > '9' || !read_number(in, c, most, &n) || !take_number(b, name, n))
            return 0;
    return 1;
}

static enum status read_book(const char *path, struct book *b)
{
    FILE *in = fopen(path, "rb");
    int c, good = 1;

    if (!in)
        return failed(path);
    b->tokens.used = b->answers.used = 0;
    b->allowance = 0;
    b->budget = USUAL_BUDGET;
    while (good && (c = next_byte(in)) != EOF)
        good = c == '\n' || read_line(in, c, b);
    if (ferror(in)) {
        fclose(in);
        return failed(path);
    }
    fclose(in);
    if (!good)
        fprintf(stderr, "%s: no book\n", path);
    return good ? DONE : FAILED;
}

/* Walking */

/* The bytes of a book, which are never at no address. */
static const uint8_t *bytes_of(const struct words *w)
{
    static const uint8_t none[1];
    return w->bytes ? w->bytes : none;
}

/* The events that a book's walk writes, found by a walk of its own. */
static uint64_t count_events(const struct book *b)
{
    uint8_t walk[SST_WALK_BYTES], events[SST_EVENT_BYTES * 1024];
    uint64_t written, steps, all = 0, left = b->budget;
    uint16_t number;

    sst_fresh(walk, sizeof walk, b->allowance);
    do {
        number = sst_whole(table, sizeof table, bytes_of(&b->tokens), b->tokens.used, bytes_of(&b->answers), b->answers.used, left, walk,
                           sizeof walk, events, sizeof events, &written, &steps);
        all += written;
        left -= steps;
    } while (number == SST_EVENTS_FULL);
    return all;
}

/* Lends room for one event more than the walk writes: an operation whose answer is missing is 34 only where its event would have had room, else 35. */
static enum status add_book(const char *path, const struct book *b)
{
    uint64_t written, steps, room = SST_EVENT_BYTES * (count_events(b) + 1);
    uint8_t *events = malloc((size_t)room);
    uint16_t number;

    if (!events)
        return failed(path);
    number = sst_add_book(table, sizeof table, bytes_of(&b->tokens), b->tokens.used, bytes_of(&b->answers), b->answers.used, b->budget,
                          b->allowance, figures, sizeof figures, events, (size_t)room, &written, &steps);
    free(events);
    printf("book %s number %u steps %" PRIu64 "%s\n", path, (unsigned)number, steps, number == SST_BUDGET_SPENT ? ", its budget is done" : "");
    return number == SST_REFUSED || number == SST_PAST_64_BITS ? REFUSED : DONE;
}

/* The report */

static unsigned word_at(size_t location)
{
    return sst_get_word(table, location - 1);
}

static uint64_t count_at(size_t location)
{
    return sst_get_64(figures + 8 * (location - 1));
}

static unsigned long line_of(uint64_t start)
{
    unsigned long line = 1;
    uint64_t i;

    for (i = 0; i < start; i++)
        line += text[i] == '\n';
    return line;
}

/* The rules of the text, each with the locations of its words. */
static uint16_t find_rules(size_t text_len)
{
    uint64_t count;
    size_t i;
    uint16_t number = sst_rules(text, text_len, rows, sizeof rows, &count);

    rule_count = (size_t)count;
    for (i = 0; i < rule_count; i++) {
        const uint8_t *row = rows + i * SST_RULE_BYTES;
        uint64_t start = sst_get_64(row);
        rules[i].name = text + start;
        rules[i].name_len = (int)sst_get_64(row + 8);
        rules[i].line = line_of(start);
        rules[i].location = (size_t)sst_get_64(row + 16);
        rules[i].end = i + 1 < rule_count ? (size_t)sst_get_64(row + SST_RULE_BYTES + 16) : table_words + 1;
    }
    return number;
}

/* The locations at which an instruction begins: words one after the other, past the choice tables that their instructions lead to. */
static size_t find_instructions(void)
{
    static uint8_t choice_table[TABLE_WORDS + 1];
    size_t l = 1, found = 0;

    while (l <= table_words) {
        unsigned k = word_at(l);
        if (choice_table[l]) {
            l += 1 + 2 * (size_t)k;
            continue;
        }
        if ((k == INPUT_CHOICE || k == CHOICE) && l + 1 + word_at(l + 1) <= table_words)
            choice_table[l + 1 + word_at(l + 1)] = 1;
        begins[l] = 1;
        found++;
        l += k == INPUT_ANY || k == RETURN || k == END_CHOICE || k >= FIRST_OPERATION ? 1 : 2;
    }
    return found;
}

/* The next decimal digit of rest / total, where rest is below total; rest becomes what is left. */
static unsigned next_digit(uint64_t *rest, uint64_t total)
{
    uint64_t sum = 0;
    unsigned i, digit = 0;

    for (i = 0; i < 10; i++)
        if (sum >= total - *rest) {
            sum -= total - *rest;
            digit++;
        } else {
            sum += *rest;
        }
    *rest = sum;
    return digit;
}

static void print_share(uint64_t part, uint64_t total)
{
    unsigned tens = 0, ones = 0, tenths = 0;

    if (part != 0 && part == total) {
        tens = 10;
    } else if (part != 0) {
        tens = next_digit(&part, total);
        ones = next_digit(&part, total);
        tenths = next_digit(&part, total);
    }
    printf("share %u.%u%%\n", 10 * tens + ones, tenths);
}

/* Where a name goes on behind blanks and comments. */
static int past_blanks(const struct rule *r, int i)
{
    while (i < r->name_len && strchr(" \t\r\n%", r->name[i])) {
        if (r->name[i] == '%')
            while (i < r->name_len && r->name[i] != '\n')
                i++;
        else
            i++;
    }
    return i;
}

/* "rule NAME line L", with one space for blanks in the name: a rule made for operators has their use for a name, as the text has it. */
static void print_rule(const struct rule *r)
{
    int i = 0, next;

    printf("rule ");
    while (i < r->name_len) {
        next = past_blanks(r, i);
        putchar(next > i ? ' ' : r->name[next++]);
        i = next;
    }
    printf(" line %lu", r->line);
}

static void print_rules(uint64_t total)
{
    size_t i;

    for (i = 0; i < rule_count; i++) {
        const struct rule *r = &rules[i];
        uint64_t sum;
        sst_rule_total(figures, sizeof figures, r->location, r->end, &sum);
        print_rule(r);
        printf(" location %lu executions %" PRIu64 " ", (unsigned long)r->location, sum);
        print_share(sum, total);
    }
}

static void print_never(void)
{
    size_t i, l;

    for (i = 0; i < rule_count; i++)
        for (l = rules[i].location; l < rules[i].end; l++)
            if (begins[l] && count_at(l) == 0) {
                printf("never %lu ", (unsigned long)l);
                print_rule(&rules[i]);
                putchar('\n');
            }
}

static enum status report(void)
{
    uint64_t books, total, covered, mean, rest, together;

    if (sst_shelf(figures, sizeof figures, &books, &total, &covered, &mean, &rest) != SST_OK)
        return REFUSED;
    printf("books %" PRIu64 " steps %" PRIu64 " mean %" PRIu64 " remainder %" PRIu64 "\n", books, total, mean, rest);
    printf("locations executed %" PRIu64 " of %lu\n", covered, (unsigned long)find_instructions());
    print_rules(total);
    if (sst_rules_total(figures, sizeof figures, rows, rule_count * SST_RULE_BYTES, table_words + 1, &together) != SST_OK)
        return REFUSED;
    if (together == total)
        printf("rules together %" PRIu64 "\n", together);
    else
        printf("rules together %" PRIu64 ", but %" PRIu64 " book by book\n", together, total);
    print_never();
    return together == total ? DONE : REFUSED;
}

int main(int argc, char **argv)
{
    static struct book book;
    uint64_t start, len, words, finishing, figure, figure_number;
    enum status status;
    uint16_t number;
    long count;
    int i;

    if (tells_version(argc, argv, "sst-figures"))
        return DONE;
    if (argc < 2) {
        fprintf(stderr, "sst-figures TEXT BOOK..\n");
        return FAILED;
    }
    count = read_bytes(argv[1], text, sizeof text);
    if (count < 0)
        return failed(argv[1]);
    number = sst_process(text, (size_t)count, table, sizeof table, &start, &len, &words, &finishing, &figure, &figure_number);
    table_words = (size_t)words;
    if (number == SST_OK)
        number = find_rules((size_t)count);
    if (number != SST_OK)
        return refused(number, argv[1]);
    for (i = 2; i < argc; i++) {
        status = read_book(argv[i], &book);
        if (status == DONE)
            status = add_book(argv[i], &book);
        if (status != DONE)
            return status;
    }
    return report();
}
