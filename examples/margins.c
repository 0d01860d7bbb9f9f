/* Margins built from widths: processes the text of examples/margins.ssl, walks the tokens of some margins and prints what comes out, in
 * postfix order.
 *
 *   cc -std=c99 examples/margins.c $(pkg-config --cflags --libs sst) -o margins
 */
#include "helpers.h"

static const char text[] = "input output: gutter indent ratio depth grade;\n"
                           "input: plus '+' minus '-' times '*' over '/' power '^' open '(' close ')'\n"
                           "  margin endOfMargin ';' endOfStyle;\n"
                           "output: add subtract multiply divide raise setMargin;\n"
                           "error: widthMissing = 10;\n"
                           "operators Sum: '+' 1 left add '-' 1 left subtract '*' 2 left multiply '/' 2 left divide '^' 3 right raise;\n"
                           "rules\n"
                           "  Style: {[ | margin: ^Sum @Width ';' .setMargin | endOfStyle: > ]};\n"
                           "  Width: [ | gutter: .gutter | indent: .indent | ratio: .ratio | depth: .depth | grade: .grade\n"
                           "           | '(': ^Sum @Width ')' | *: #widthMissing ];\n"
                           "end\n";

/* The tokens' names by their numbers, as a style sheet has them and as they come out. */
static const char *const inputs[] = {"gutter", "indent", "ratio", "depth", "grade",  "+", "-",  "*",
                                     "/",      "^",      "(",     ")",     "margin", ";", "end"};
static const char *const outputs[] = {"gutter",   "indent",   "ratio",  "depth", "grade",    "add",
                                      "subtract", "multiply", "divide", "raise", "setMargin"};

static const char *const styles[] = {
    "margin gutter + indent * ratio ^ depth ^ grade ; end",
    "margin gutter - indent - ratio ; end",
    "margin ( gutter + indent ) * ratio / depth ; margin gutter ; end",
    "margin gutter + * ratio ; end",
};

#define TOKENS 32
#define BUDGET 1000

static uint8_t table[SST_TABLE_BYTES];

/* The tokens of a style sheet's words, which single spaces part; how many bytes they are. */
static size_t put_tokens(uint8_t *tokens, const char *style)
{
    size_t bytes = 0;
    while (*style != '\0') {
        size_t length = strcspn(style, " "), i = 0;
        while (strlen(inputs[i]) != length || memcmp(inputs[i], style, length) != 0)
            i++;
        sst_put_word(tokens, bytes / 2, (uint16_t)i);
        bytes += 2;
        style += length + (style[length] == ' ');
    }
    return bytes;
}

static void walk_style(const char *style)
{
    static uint8_t tokens[2 * TOKENS], walk[SST_WALK_BYTES], events[SST_EVENT_BYTES * TOKENS];
    static const uint8_t none[1] = {0};
    uint64_t written, steps;
    size_t i, bytes = put_tokens(tokens, style);
    unsigned number;

    sst_fresh(walk, sizeof walk, 0);
    number = sst_whole(table, sizeof table, tokens, bytes, none, 0, BUDGET, walk, sizeof walk, events, sizeof events, &written, &steps);
    printf("%s\n  answered %u:", style, number);
    for (i = 0; i < (size_t)written; i++) {
        struct event event = event_at(events, i);
        printf(" %s", event.kind == SST_EVENT_OUTPUT ? outputs[event.value] : "(width missing)");
    }
    printf("\n");
}

int main(void)
{
    struct translation told;
    size_t i;
    unsigned number = translate(text, table, sizeof table, &told);

    if (number != SST_OK) {
        printf("refused %u: \"%.*s\"\n", number, (int)told.len, text + told.start);
        return 1;
    }
    printf("words %lu, finishing %s\n", (unsigned long)told.words, told.finishing ? "yes" : "no");
    for (i = 0; i < COUNT(styles); i++)
        walk_style(styles[i]);
    return 0;
}
