/* Translates the two parts of a small program separately and links them; then shows what is answered where the parts do not fit together.
 *
 *   cc -std=c99 examples/link.c $(pkg-config --cflags --libs sst-desk) -o link
 *
 * The table that is linked is compared with that of the one text. `make link` does the same with files.
 */
#include "helpers.h"
#include "sst-desk.h"

#define SECTIONS "input: word mark; output: set; type Kind: plain noted;\n"

static const char common[] = SECTIONS "rules Next >> Kind; end";
static const char page[] = "rules Page: {[ @Next | plain: .set | noted: @Note > ]}; end";
static const char note[] = "rules Note: mark .set; Next >> Kind: [ | word: >> plain | *: >> noted ]; end";
static const char one[] =
    SECTIONS "rules Page: {[ @Next | plain: .set | noted: @Note > ]}; Note: mark .set; Next >> Kind: [ | word: >> plain | *: >> noted ]; end";

/* The second part without its choice rule. */
static const char lacking[] = "rules Note: mark .set; end";

#define OBJECT_BYTES 4096
#define MOST 4

static uint8_t objects[MOST * OBJECT_BYTES];
static uint8_t table[SST_TABLE_BYTES];
static uint8_t whole[SST_TABLE_BYTES];

/* Translates a part; its object is written at a place of `objects`. The place behind it, or 0 where it is refused. */
static size_t translate_part(const char *part, size_t at)
{
    uint64_t text, start, len, words;
    uint16_t number = sst_part((const uint8_t *)common, strlen(common), (const uint8_t *)part, strlen(part), objects + at, OBJECT_BYTES, &text, &start, &len, &words);

    if (number != SST_OK) {
        printf("part refused: %u at %.*s\n", (unsigned)number, (int)len, (text == 0 ? common : part) + start);
        return 0;
    }
    return at + 2 * (size_t)words;
}

/* Links two parts. The words of the table, or 0 where they are refused. */
static size_t link_two(const char *name, const char *first, const char *second)
{
    const char *texts[3] = {common, first, second};
    uint64_t text, start, len, words, finishing, figure, figure_number;
    uint16_t number;
    size_t end = translate_part(first, 0);

    end = translate_part(second, end);
    number = sst_link((const uint8_t *)common, strlen(common), objects, end, table, sizeof table, &text, &start, &len, &words, &finishing, &figure, &figure_number);
    if (number != SST_OK) {
        printf("%s: %u at %.*s in text %u\n", name, (unsigned)number, (int)len, texts[text] + start, (unsigned)text);
        return 0;
    }
    printf("%s: %u words, finishing %u, figure %u\n", name, (unsigned)words, (unsigned)finishing, (unsigned)figure);
    return (size_t)words;
}

int main(void)
{
    uint64_t text, start, len, words, finishing, figure, figure_number;
    struct translation told;
    size_t linked = link_two("two parts", page, note);

    translate(one, whole, sizeof whole, &told);
    printf("the table of the one text: %s\n", linked == told.words && memcmp(table, whole, sizeof table) == 0 ? "the same" : "another");
    link_two("a choice rule missing", page, lacking);
    link_two("the same part twice", note, note);
    link_two("the other order", note, page);

    /* An object changed after it was written is refused, or is that of another program that may be linked. */
    translate_part(page, 0);
    objects[1] ^= 1;
    printf("a changed mark: %u\n",
           (unsigned)sst_link((const uint8_t *)common, strlen(common), objects, OBJECT_BYTES, table, sizeof table, &text, &start, &len, &words, &finishing, &figure,
                              &figure_number));
    return 0;
}
