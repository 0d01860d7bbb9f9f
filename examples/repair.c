/* Walks chapters that miss marks, with no repair allowance and with one, and prints the events side by side.
 *
 *   cc -std=c99 examples/repair.c $(pkg-config --cflags --libs sst) -o repair
 *
 * A repair writes an event of its own, so that the reader can note where a chapter was mended. Where an input choice has no label for the
 * present token and no otherwise, a repair takes its first alternative: the rules below put the one first that closes what is open.
 */
#include "helpers.h"

static const char rules[] = "input: text open '<em>' close '</em>' chapterEnd;\n"
                            "output: run emphasisOn emphasisOff chapterDone;\n"
                            "rules\n"
                            "  Chapter: {[ | chapterEnd: .chapterDone >\n"
                            "              | text: .run\n"
                            "              | open: @Emphasis ]};\n"
                            "  Emphasis: .emphasisOn {[ | text: .run | *: > ]} close .emphasisOff;\n"
                            "end\n";

enum token { TEXT, OPEN, CLOSE, CHAPTER_END };
static const char *const token_names[] = {"text", "<em>", "</em>", "chapterEnd"};
static const char *const output_names[] = {"run", "emphasisOn", "emphasisOff", "chapterDone"};

#define TABLE_WORDS 64
#define TOKENS 6
#define EVENTS 16
#define BUDGET 1000

/* The tokens are words, high byte first. */
struct chapter {
    const char *name;
    size_t token_count;
    uint8_t tokens[2 * TOKENS];
};

static const struct chapter chapters[] = {
    {"nothing missing", 5, {0, TEXT, 0, OPEN, 0, TEXT, 0, CLOSE, 0, CHAPTER_END}},
    {"a closing mark missing", 4, {0, TEXT, 0, OPEN, 0, TEXT, 0, CHAPTER_END}},
    {"a closing mark and the chapter's end missing", 3, {0, TEXT, 0, OPEN, 0, TEXT}},
    {"two closing marks and the chapter's end missing", 4, {0, OPEN, 0, TEXT, 0, OPEN, 0, TEXT}},
};

/* A walk of a chapter, as it is printed. */
struct walked {
    uint16_t number, left;
    uint64_t events, read;
    uint8_t buffer[SST_EVENT_BYTES * EVENTS];
};

static uint8_t table[2 * TABLE_WORDS];

static void walk_chapter(struct walked *walked, const struct chapter *chapter, size_t words, uint16_t allowance)
{
    static uint8_t walk[SST_WALK_BYTES];
    uint8_t answers[2];
    uint64_t steps;

    sst_fresh(walk, sizeof walk, allowance);
    walked->number = sst_whole(table, 2 * words, chapter->tokens, 2 * chapter->token_count, answers, 0, BUDGET, walk, sizeof walk,
                               walked->buffer, sizeof walked->buffer, &walked->events, &steps);
    walked->left = sst_allowance(walk, sizeof walk);
    walked->read = sst_read(walk, sizeof walk);
}

/* The event at index i in words; nothing past the last one. */
static void describe(char *line, size_t size, const struct walked *walked, size_t i)
{
    struct event event;

    line[0] = '\0';
    if (i >= walked->events)
        return;
    event = event_at(walked->buffer, i);
    if (event.kind == SST_EVENT_REPAIR)
        snprintf(line, size, "repaired %s", token_names[event.value]);
    else if (event.kind == SST_EVENT_OUTPUT)
        snprintf(line, size, "output %s", output_names[event.value]);
}

static void show(const struct walked *strict, const struct walked *mending)
{
    char left[32], right[32];
    size_t i;

    for (i = 0; i < strict->events || i < mending->events; i++) {
        describe(left, sizeof left, strict, i);
        describe(right, sizeof right, mending, i);
        if (right[0] == '\0')
            printf("  %s\n", left);
        else
            printf("  %-24s%s\n", left, right);
    }
    snprintf(left, sizeof left, "answered %u, read %lu", (unsigned)strict->number, (unsigned long)strict->read);
    printf("  %-24sanswered %u, read %lu, repairs left %u\n", left, (unsigned)mending->number, (unsigned long)mending->read,
           (unsigned)mending->left);
}

int main(void)
{
    static struct walked strict, mending;
    size_t i, words = translate_rules(rules, table, sizeof table);

    if (words == 0)
        return 1;
    for (i = 0; i < COUNT(chapters); i++) {
        walk_chapter(&strict, &chapters[i], words, 0);
        walk_chapter(&mending, &chapters[i], words, 2);
        printf("%s\n  %-24s%s\n", chapters[i].name, "no allowance", "an allowance of 2");
        show(&strict, &mending);
    }
    return 0;
}
