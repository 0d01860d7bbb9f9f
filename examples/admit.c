/* Loads footnote styles that publishers sent and admits them by the operations that each publisher was granted.
 *
 *   cc -std=c99 examples/admit.c $(pkg-config --cflags --libs sst) -o admit
 *
 * A footnote style has no business erasing bookmarks: one that does is turned away with SST_NOT_GRANTED, naming the location of the
 * operation. Its table stays where it was loaded, so that it can be looked at. A walk of a table that was admitted writes no event of an
 * operation outside the set.
 */
#include "helpers.h"

#define DECLARATIONS                                         \
    "input: note; output: notePlaced; type Fit: fits full;\n" \
    "mechanism Page: PlaceNote TurnPage RoomForNote >> Fit;\n" \
    "mechanism Marks: EraseBookmark;\n"

static const char modest[] = DECLARATIONS "rules Footnote: note [ RoomForNote | fits: | full: TurnPage ] PlaceNote .notePlaced; end";
static const char greedy[] = DECLARATIONS "rules Footnote: note [ RoomForNote | fits: | full: TurnPage EraseBookmark ] PlaceNote .notePlaced; end";

/* Each kind of operations is numbered from its first on, in the order of their declarations. */
enum operation { PLACE_NOTE = SST_UPDATE, TURN_PAGE, ERASE_BOOKMARK, ROOM_FOR_NOTE = SST_CHOICE };

#define FILE_WORDS 64

static uint8_t table[SST_TABLE_BYTES];
static uint8_t set[SST_SET_BYTES];

/* A bit for each operation, the highest of the first byte for SST_UPDATE. */
static void grant(unsigned operation)
{
    unsigned bit = operation - SST_UPDATE;
    set[bit / 8] |= (uint8_t)(128 >> bit % 8);
}

static const char *name_of(unsigned operation)
{
    switch (operation) {
    case PLACE_NOTE:
        return "PlaceNote";
    case TURN_PAGE:
        return "TurnPage";
    case ERASE_BOOKMARK:
        return "EraseBookmark";
    case ROOM_FOR_NOTE:
        return "RoomForNote";
    default:
        return "no operation of this style";
    }
}

/* What a publisher sends: the file of a program; answers its bytes. */
static size_t send(const char *text, uint8_t *file, size_t file_bytes)
{
    struct translation told;
    uint64_t words;
    translate(text, table, sizeof table, &told);
    sst_write_file(table, 2 * (size_t)told.words, told.finishing, file, file_bytes, &words);
    return 2 * (size_t)words;
}

static void show(const char *call, unsigned number, uint64_t location)
{
    printf("  %s answered %u", call, number);
    if (number == SST_NOT_GRANTED)
        printf(": %s at location %lu", name_of(sst_get_word(table, (size_t)location - 1)), (unsigned long)location);
    printf("\n");
}

/* The reader's side: a file that came in, with the bytes of the set that the publisher holds. */
static void receive(const char *name, const uint8_t *file, size_t file_bytes, size_t set_bytes)
{
    uint64_t words, verdict, location;
    uint16_t number = sst_load_admitted(file, file_bytes, set, set_bytes, table, sizeof table, &words, &verdict, &location);
    printf("%s, a set of %lu bytes: %lu words loaded\n", name, (unsigned long)set_bytes, (unsigned long)words);
    show("sst_load_admitted", number, location);
    show("sst_admit", sst_admit(table, 2 * (size_t)words, set, set_bytes, &location), location);
}

int main(void)
{
    static uint8_t file[2 * FILE_WORDS];
    size_t bytes;

    grant(PLACE_NOTE);
    grant(TURN_PAGE);
    grant(ROOM_FOR_NOTE);
    bytes = send(modest, file, sizeof file);
    receive("a style that turns pages", file, bytes, SST_SET_BYTES);
    receive("the same", file, bytes, (ROOM_FOR_NOTE - SST_UPDATE) / 8);
    receive("the same", file, bytes, 0);
    receive("the same with its last byte missing", file, bytes - 1, SST_SET_BYTES);
    bytes = send(greedy, file, sizeof file);
    receive("a style that erases bookmarks", file, bytes, SST_SET_BYTES);
    grant(ERASE_BOOKMARK);
    receive("the same, with the right to", file, bytes, SST_SET_BYTES);
    return 0;
}
