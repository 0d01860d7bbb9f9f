/* What the tools of a release desk share: reading files, and how they end. */
#ifndef INPUT_H
#define INPUT_H

#include <stdio.h>
#include <string.h>

#include "sst.h"

/* One byte more than a text may have: an over-long text is refused with SST_OVER_LIMIT whatever follows. */
#define TEXT_BYTES (SST_TEXT_BYTES + 1)

enum status { DONE, REFUSED, FAILED };

static enum status failed(const char *path)
{
    perror(path);
    return FAILED;
}

/* The first bytes of a file, as many as there is room for; -1 where it cannot be read. */
static long read_bytes(const char *path, uint8_t *bytes, size_t room)
{
    FILE *in = fopen(path, "rb");
    size_t count;
    int bad;

    if (!in)
        return -1;
    count = fread(bytes, 1, room, in);
    bad = ferror(in);
    fclose(in);
    return bad ? -1 : (long)count;
}

/* Whether a tool is asked for its version alone, which is told. */
static int tells_version(int argc, char **argv, const char *tool)
{
    if (argc != 2 || strcmp(argv[1], "--version") != 0)
        return 0;
    printf("%s %s\n", tool, SST_VERSION);
    return 1;
}

static inline enum status refused(uint16_t number, const char *path)
{
    printf("refused %u: `make list FILE=%s` shows where\n", (unsigned)number, path);
    return REFUSED;
}

#endif
