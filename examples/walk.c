/* Walks a table in pauses: each operation that wants an answer is handed out, done here, and its answer given to the next call.
 *
 *   cc -std=c99 examples/walk.c $(pkg-config --cflags --libs sst) -o walk
 *
 * The table is that of
 *
 *   input: num = 1;  output: plus = 7 minus = 8;  error: bad = 5;
 *   type sign: neg pos;
 *   mechanism m: sign >> sign  note(sign);
 *   rules
 *     M: { [ | num: [ sign | neg: .minus | pos: .plus | *: #bad ] note(pos)
 *            | *: > ] };
 *   end
 */
#include "helpers.h"

static const uint8_t table[] = {
    WORD(7), WORD(24),    /*  1 input choice, its table at 26 */
    WORD(768),            /*  3 num: sign */
    WORD(11), WORD(9),    /*  4 choice, its table at 14 */
    WORD(5), WORD(8),     /*  6 neg: emit minus */
    WORD(1), WORD(12),    /*  8 to 21 */
    WORD(5), WORD(7),     /* 10 pos: emit plus */
    WORD(1), WORD(8),     /* 12 to 21 */
    WORD(2),              /* 14 two labels */
    WORD(0), WORD(10),    /* 15 neg, back to 6 */
    WORD(1), WORD(8),     /* 17 pos, back to 10 */
    WORD(6), WORD(5),     /* 19 otherwise: error bad */
    WORD(13), WORD(1),    /* 21 parameter pos */
    WORD(512),            /* 23 note */
    WORD(1), WORD(6),     /* 24 to 31 */
    WORD(1),              /* 26 one label */
    WORD(1), WORD(25),    /* 27 num, back to 3 */
    WORD(1), WORD(3),     /* 29 otherwise: out of the cycle, to 33 */
    WORD(2), WORD(31),    /* 31 back to 1 */
    WORD(9)               /* 33 return */
};
static const uint8_t tokens[] = {WORD(1), WORD(1), WORD(1)};

/* What the operation `sign` looks at, one for each token. */
static const int values[] = {5, -3, 0};

static uint8_t walk[SST_WALK_BYTES];
static uint8_t events[SST_EVENT_BYTES]; /* room for one */

/* The kinds of events; a walk without repairs writes no other. */
static const char *const event_kinds[] = {"", "output", "error", "operation"};

static void show(unsigned number, uint64_t written, uint64_t steps)
{
    size_t i;
    printf("answered %u, steps %lu\n", number, (unsigned long)steps);
    for (i = 0; i < (size_t)written; i++) {
        struct event event = event_at(events, i);
        printf("  %s %u", event_kinds[event.kind], (unsigned)event.value);
        if (event.kind == SST_EVENT_OPERATION)
            printf(", parameter %u", (unsigned)event.parameter);
        printf("\n");
    }
}

int main(void)
{
    uint16_t number, given = 0, answer = 0;
    uint64_t written, steps, all = 0;

    sst_fresh(walk, sizeof walk, 0);
    do {
        /* A small budget and buffer: the walk is called on until it stops. */
        number = sst_paused(table, sizeof table, tokens, sizeof tokens, given, answer, 5, walk, sizeof walk, events, sizeof events,
                            &written, &steps);
        show(number, written, steps);
        all += steps;
        given = number == SST_WAITS;
        if (given) {
            int value = values[sst_used(walk, sizeof walk)];
            answer = value < 0 ? 0 : value > 0 ? 1 : 2;
            printf("  the answer for %d is %u\n", value, (unsigned)answer);
        }
    } while (number == SST_WAITS || number == SST_EVENTS_FULL || number == SST_BUDGET_SPENT);

    printf("phase %u, reason %u, location %u, tokens read %lu, answers used %lu, steps %lu\n", (unsigned)sst_phase(walk, sizeof walk),
           (unsigned)sst_reason(walk, sizeof walk), (unsigned)sst_location(walk, sizeof walk),
           (unsigned long)sst_read(walk, sizeof walk), (unsigned long)sst_used(walk, sizeof walk), (unsigned long)all);

    /* A walk that does not wait takes no answer. */
    number = sst_paused(table, sizeof table, tokens, sizeof tokens, 1, 0, 5, walk, sizeof walk, events, sizeof events, &written, &steps);
    printf("an answer too many: %u\n", (unsigned)number);

    /* The same at once, with room for all events. */
    {
        static const uint8_t answers[] = {WORD(1), WORD(0), WORD(2)};
        static uint8_t room[10 * SST_EVENT_BYTES];
        sst_fresh(walk, sizeof walk, 0);
        number = sst_whole(table, sizeof table, tokens, sizeof tokens, answers, sizeof answers, 1000, walk, sizeof walk, room,
                           sizeof room, &written, &steps);
        printf("whole: answered %u, steps %lu, events %lu\n", (unsigned)number, (unsigned long)steps, (unsigned long)written);
    }
    return number != SST_OK;
}
