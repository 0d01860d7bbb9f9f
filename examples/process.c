/* Hands program texts to the processor and walks the tables that it writes.
 *
 *   cc -std=c99 examples/process.c $(pkg-config --cflags --libs sst) -o process
 */
#include "helpers.h"

#define TABLE_WORDS 64
#define EVENTS 16

struct walk_case {
    uint64_t budget;
    size_t token_count;
    uint16_t tokens[4];
    size_t answer_count;
    uint16_t answers[4];
};

struct program {
    const char *name;
    const char *text;
    size_t table_words; /* lent */
    size_t walk_count;
    struct walk_case walks[3];
};

static const char scanner[] = "input: letter digit blank illegalChar;\n"
                              "error: badChar = 10;\n"
                              "rules\n"
                              "  M: {[ | blank: | illegalChar: #badChar | *: > ]};\n"
                              "end\n";

static const char signs[] = "input: num = 1; output: plus = 7 minus = 8; error: bad = 5;\n"
                            "type sign: neg pos;\n"
                            "mechanism m: sign >> sign  note(sign);\n"
                            "rules\n"
                            "  M: { [ | num: [ sign | neg: .minus | pos: .plus | *: #bad ] note(pos)\n"
                            "         | *: > ] };\n"
                            "end\n";

static const struct program programs[] = {
    {"P1", "rules M: ; end", TABLE_WORDS, 1, {{10, 0, {0}, 0, {0}}}},
    {"P2", scanner, TABLE_WORDS, 1, {{100, 4, {2, 3, 3, 0}, 0, {0}}}},
    {"P3", "rules M: { } ; end", TABLE_WORDS, 1, {{5, 0, {0}, 0, {0}}}},
    {"P4", "rules M: { > } ; end", TABLE_WORDS, 1, {{5, 0, {0}, 0, {0}}}},
    {"P5", "input: a; rules M: a; end", TABLE_WORDS, 3, {{2, 1, {0}, 0, {0}}, {1, 1, {0}, 0, {0}}, {1, 0, {0}, 0, {0}}}},
    {"P6", "input: a b; rules M: [ | b: ]; end", TABLE_WORDS, 1, {{2, 1, {0}, 0, {0}}}},
    {"P7", "rules M: @M; end", TABLE_WORDS, 2, {{64, 0, {0}, 0, {0}}, {65, 0, {0}, 0, {0}}}},
    {"P8", "rules M: > ; end", TABLE_WORDS, 0, {{0, 0, {0}, 0, {0}}}},
    {"operations, as in walk.c", signs, TABLE_WORDS, 1, {{1000, 3, {1, 1, 1}, 3, {1, 0, 2}}}},
    {"P2 in a table of 17 words", scanner, 17, 0, {{0, 0, {0}, 0, {0}}}},
};

static uint8_t table[2 * TABLE_WORDS];
static uint8_t walk[SST_WALK_BYTES];
static uint8_t events[SST_EVENT_BYTES * EVENTS];

static void show_events(uint64_t written)
{
    size_t i;
    for (i = 0; i < (size_t)written; i++) {
        struct event event = event_at(events, i);
        switch (event.kind) {
        case SST_EVENT_OUTPUT:
            printf("    output %u\n", (unsigned)event.value);
            break;
        case SST_EVENT_ERROR:
            printf("    error %u\n", (unsigned)event.value);
            break;
        default:
            printf("    operation %u, parameter %u\n", (unsigned)event.value, (unsigned)event.parameter);
        }
    }
}

static void walk_table(size_t words, const struct walk_case *given)
{
    uint8_t tokens[8], answers[8];
    uint64_t written, steps;
    unsigned number;

    put_words(tokens, given->tokens, given->token_count);
    put_words(answers, given->answers, given->answer_count);
    sst_fresh(walk, sizeof walk, 0);
    number = sst_whole(table, 2 * words, tokens, 2 * given->token_count, answers, 2 * given->answer_count, given->budget, walk,
                       sizeof walk, events, sizeof events, &written, &steps);
    printf("  walk of %lu tokens, budget %lu: answered %u, steps %lu, tokens read %lu\n", (unsigned long)given->token_count,
           (unsigned long)given->budget, number, (unsigned long)steps, (unsigned long)sst_read(walk, sizeof walk));
    show_events(written);
}

static void show_table(const struct translation *told)
{
    size_t i;
    printf("  words %lu, finishing %s", (unsigned long)told->words, told->finishing ? "yes" : "no");
    if (told->figure_number == SST_NO_FIGURE)
        printf(", no figure: %lu", (unsigned long)told->figure_number);
    else if (told->figure != 0)
        printf(", figure %lu", (unsigned long)told->figure);
    printf(":");
    for (i = 0; i < (size_t)told->words; i++)
        printf(" %u", (unsigned)sst_get_word(table, i));
    printf("\n");
}

static void run(const struct program *program)
{
    struct translation told;
    size_t i;
    unsigned number = translate(program->text, table, 2 * program->table_words, &told);
    printf("%s\n", program->name);
    if (number != SST_OK) {
        printf("  refused %u line %u, at %lu: \"%.*s\"\n", number, line_of(program->text, told.start), (unsigned long)told.start,
               (int)told.len, program->text + told.start);
        return;
    }
    show_table(&told);
    for (i = 0; i < program->walk_count; i++)
        walk_table((size_t)told.words, &program->walks[i]);
}

int main(void)
{
    size_t i;
    for (i = 0; i < COUNT(programs); i++)
        run(&programs[i]);
    return 0;
}
