/* Table files for a release desk.
 *
 *   sst-file write TEXT FILE   translates a program and writes its table file
 *   sst-file check FILE        says what the loader says of a file: its number, the words of the table, the sender's verdict
 *   sst-file --version
 *
 * Status 0 where a file was written or taken, 1 where it was refused, 2 where a file could not be read or written.
 */
#include "input.h"

static uint8_t text[TEXT_BYTES];
static uint8_t table[SST_TABLE_BYTES];
static uint8_t file[SST_FILE_BYTES + 1];

static int write_bytes(const char *path, const uint8_t *bytes, size_t count)
{
    FILE *out = fopen(path, "wb");
    size_t written;

    if (!out)
        return 0;
    written = fwrite(bytes, 1, count, out);
    return fclose(out) == 0 && written == count;
}

static enum status write_file(const char *from, const char *to)
{
    uint64_t start, len, words, finishing, figure, figure_number, file_words;
    uint16_t number;
    long count = read_bytes(from, text, sizeof text);

    if (count < 0)
        return failed(from);
    number = sst_process(text, (size_t)count, table, sizeof table, &start, &len, &words, &finishing, &figure, &figure_number);
    if (number != SST_OK)
        return refused(number, from);
    number = sst_write_file(table, 2 * (size_t)words, finishing, file, SST_FILE_BYTES, &file_words);
    if (number != SST_OK) {
        printf("not written: %u\n", (unsigned)number);
        return REFUSED;
    }
    if (!write_bytes(to, file, 2 * (size_t)file_words))
        return failed(to);
    printf("table %lu finishing %s, file of %lu bytes: %s\n", (unsigned long)words, finishing ? "yes" : "no", 2 * (unsigned long)file_words, to);
    return DONE;
}

static enum status check_file(const char *path)
{
    uint64_t words, verdict;
    uint16_t number;
    long count = read_bytes(path, file, sizeof file);

    if (count < 0)
        return failed(path);
    number = sst_load(file, (size_t)count, table, sizeof table, &words, &verdict);
    printf("number %u words %lu verdict %lu\n", (unsigned)number, (unsigned long)words, (unsigned long)verdict);
    return number == SST_OK ? DONE : REFUSED;
}

int main(int argc, char **argv)
{
    if (tells_version(argc, argv, "sst-file"))
        return DONE;
    if (argc == 4 && strcmp(argv[1], "write") == 0)
        return write_file(argv[2], argv[3]);
    if (argc == 3 && strcmp(argv[1], "check") == 0)
        return check_file(argv[2]);
    fprintf(stderr, "sst-file write TEXT FILE, or sst-file check FILE\n");
    return FAILED;
}
