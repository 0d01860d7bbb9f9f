/* Parts of a program, translated separately and linked, for layout authors and the release desk. This program is not proved: it calls the library and
 * prints what it left.
 *
 *   sst-link COMMON PART..          prints the table of the whole as sst-list prints that of one text
 *   sst-link -o FILE COMMON PART..  writes its table file
 *   sst-link --version
 *
 * Each part is translated with the common part, then all are linked in the order given. What is refused is told by one line,
 *
 *     refused NUMBER FILE line LINE
 *
 * and the word at fault on standard error. Status 0 with a table, 1 where something was refused, 2 where a file could not be read or written.
 */
#include <inttypes.h>
#include <stdlib.h>

#include "input.h"
#include "sst-desk.h"

#define FIRST_ROOM 65536

/* The common part, then the parts; one part more than may be linked, so that linking tells SST_OVER_LIMIT. */
#define MOST_TEXTS (SST_PARTS + 2)

struct text {
    const char *path;
    uint8_t bytes[TEXT_BYTES];
    size_t len;
};

/* Bytes in a buffer that grows. */
struct buffer {
    uint8_t *bytes;
    size_t used, room;
};

static struct text texts[MOST_TEXTS];
static uint8_t table[SST_TABLE_BYTES];
static uint8_t file[SST_FILE_BYTES];

static unsigned long line_of(const struct text *t, uint64_t start)
{
    unsigned long line = 1;
    uint64_t i;

    for (i = 0; i < start && i < t->len; i++)
        line += t->bytes[i] == '\n';
    return line;
}

/* A refusal, and the word that it shows. */
static enum status shown(uint16_t number, const struct text *t, uint64_t start, uint64_t len)
{
    printf("refused %u %s line %lu\n", (unsigned)number, t->path, line_of(t, start));
    fflush(stdout);
    if (len == 0)
        fprintf(stderr, "at: the end of the text\n");
    else
        fprintf(stderr, "at: %.*s\n", (int)len, (const char *)t->bytes + start);
    return REFUSED;
}

static int make_room(struct buffer *b, size_t room)
{
    uint8_t *bytes = realloc(b->bytes, room);

    if (!bytes)
        return 0;
    b->bytes = bytes;
    b->room = room;
    return 1;
}

/* Translates a part; its object goes behind the others. Where there is no room for it there is twice as much at the next try. */
static enum status translate(const struct text *part, struct buffer *objects)
{
    uint64_t text, start, len, words;
    uint16_t number;

    for (;;) {
        number = sst_part(texts[0].bytes, texts[0].len, part->bytes, part->len, objects->bytes + objects->used, objects->room - objects->used, &text, &start, &len,
                          &words);
        if (number != SST_TOO_SHORT)
            break;
        if (!make_room(objects, 2 * objects->room))
            return failed(part->path);
    }
    if (number != SST_OK)
        return shown(number, text == 0 ? &texts[0] : part, start, len);
    objects->used += 2 * (size_t)words;
    return DONE;
}

/* The lines of sst-list. */
static void list(uint64_t words, uint64_t finishing, uint64_t figure, uint64_t figure_number)
{
    uint64_t i;

    printf("table %" PRIu64 " finishing %s\n", words, finishing ? "yes" : "no");
    if (finishing && figure_number == 0)
        printf("%" PRIu64 "\n", figure);
    for (i = 0; i < words; i++)
        printf("%" PRIu64 " %u\n", i + 1, (unsigned)sst_get_word(table, (size_t)i));
}

static enum status write_file(const char *path, uint64_t words, uint64_t finishing)
{
    uint64_t file_words;
    uint16_t number = sst_write_file(table, 2 * (size_t)words, finishing, file, sizeof file, &file_words);
    size_t bytes = 2 * (size_t)file_words;
    FILE *out;

    if (number != SST_OK) {
        printf("not written: %u\n", (unsigned)number);
        return REFUSED;
    }
    out = fopen(path, "wb");
    if (!out)
        return failed(path);
    if (fwrite(file, 1, bytes, out) != bytes) {
        fclose(out);
        return failed(path);
    }
    if (fclose(out) != 0)
        return failed(path);
    printf("table %" PRIu64 " finishing %s, file of %lu bytes: %s\n", words, finishing ? "yes" : "no", (unsigned long)bytes, path);
    return DONE;
}

static enum status link_all(const struct buffer *objects, const char *out)
{
    uint64_t text, start, len, words, finishing, figure, figure_number;
    uint16_t number = sst_link(texts[0].bytes, texts[0].len, objects->bytes, objects->used, table, sizeof table, &text, &start, &len, &words, &finishing, &figure,
                               &figure_number);

    if (number != SST_OK)
        return shown(number, &texts[text], start, len);
    if (out)
        return write_file(out, words, finishing);
    list(words, finishing, figure, figure_number);
    return DONE;
}

static enum status run(int count, char **paths, const char *out)
{
    struct buffer objects = {0, 0, 0};
    enum status status = DONE;
    int i;

    if (!make_room(&objects, FIRST_ROOM))
        return failed("sst-link");
    for (i = 0; i < count; i++) {
        long len = read_bytes(paths[i], texts[i].bytes, TEXT_BYTES);
        if (len < 0) {
            free(objects.bytes);
            return failed(paths[i]);
        }
        texts[i].path = paths[i];
        texts[i].len = (size_t)len;
    }
    for (i = 1; i < count && status == DONE; i++)
        status = translate(&texts[i], &objects);
    if (status == DONE)
        status = link_all(&objects, out);
    free(objects.bytes);
    return status;
}

int main(int argc, char **argv)
{
    const char *out = 0;

    if (tells_version(argc, argv, "sst-link"))
        return DONE;
    if (argc > 2 && strcmp(argv[1], "-o") == 0) {
        out = argv[2];
        argc -= 2;
        argv += 2;
    }
    if (argc < 2 || argv[1][0] == '-') {
        fprintf(stderr, "sst-link COMMON PART.., or sst-link -o FILE COMMON PART..\n");
        return FAILED;
    }
    return run(argc - 1 < MOST_TEXTS ? argc - 1 : MOST_TEXTS, argv + 1, out);
}
