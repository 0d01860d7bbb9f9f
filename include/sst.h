/* S/SL tables: from a program's text to its table and verdict, table files, walking a table, whole or in pauses, and
 * from characters to input tokens. C99 and C++.
 *
 * Words are 16 bits, high byte first (sst_get_word, sst_put_word); an odd last byte of a buffer counts for nothing and
 * is never touched. A buffer is a pointer and its length in bytes; the pointer is not null, also where the length is 0.
 * Buffers of one call do not overlap, and neither do the numbers that a call writes through pointers. Nothing is kept
 * between calls: the walk is the SST_WALK_BYTES bytes that the caller lends, a screen of two books its SST_SCREEN_BYTES
 * bytes (docs/LAYOUT.md), and any bytes may be handed in.
 *
 * Threads. The library has no variable of its own, allocates nothing and calls nothing but memcpy, memmove and memset.
 * So any entries may be called from several threads at once, and from a signal or interrupt handler whose stack is
 * large enough, as long as no buffer that one call writes is read or written by another call at that time: a table,
 * tokens and texts may be shared, a walk, a screen and an event buffer may not.
 *
 * The host's loop, with sst_paused:
 *   1. sst_fresh writes the walk. `given` is 0.
 *   2. sst_paused, with room for one event or more: with less than SST_EVENT_BYTES it answers SST_EVENTS_FULL for ever.
 *   3. Do the `*written` events of the buffer in their order, whatever the number is.
 *   4. SST_WAITS: the last of them is the operation that wants an answer. Go to 2 with `given` 1 and its answer.
 *      SST_EVENTS_FULL: all events that the buffer held are done, so it is empty. Go to 2 with it and `given` 0.
 *      SST_BUDGET_SPENT: go to 2 with `given` 0, now or when there is time again.
 *      Any other number: the walk has stopped. SST_OK is the end of the rules, the others say why not; SST_REFUSED does
 *      not come from this loop. Table and tokens are the same in all calls of a walk. With sst_whole there is no
 *      SST_WAITS: all answers are there beforehand, and are the same in all its calls. How many steps a walk can do in
 *      all is told by its program's figure (sst_process): fewer than 65 * figure * (n + r + 1), which can pass 64 bits.
 */
#ifndef SST_H
#define SST_H

#include <stddef.h>
#include <stdint.h>

#ifdef __cplusplus
extern "C" {
#endif

/* The version of this header and of its library. */
#define SST_VERSION_MAJOR 0
#define SST_VERSION_MINOR 1
#define SST_VERSION_PATCH 0
#define SST_STRING_OF(x) #x
#define SST_STRING(x) SST_STRING_OF(x)
#define SST_VERSION SST_STRING(SST_VERSION_MAJOR) "." SST_STRING(SST_VERSION_MINOR) "." SST_STRING(SST_VERSION_PATCH)

/* A length in bytes: size_t, but 64 bits wide also where pointers are of 32 bits, since that is how the library takes
 * it. */
#if SIZE_MAX < UINT64_MAX
typedef uint64_t sst_size;
#else
typedef size_t sst_size;
#endif

/* What every entry answers where all is well: accepted, loaded, written, admitted; of a walk: it has stopped, returned
 * with nothing pending. */
#define SST_OK 0

/* The numbers of a text, which sst_process answers (docs/FAULTS.md has a bad and a mended text for each). */
#define SST_NO_WORD 1                   /* a byte or a quote that makes no word */
#define SST_NOT_ALLOWED 2               /* a word that is not allowed here, or the text ends early */
#define SST_UNDECLARED 3                /* a name or string that is declared nowhere, or a type not declared yet */
#define SST_REPEATED 4                  /* declared twice, or a value repeated */
#define SST_WRONG_CLASS 5               /* declared, but not in the class wanted here */
#define SST_LABEL_REPEATED 6            /* a label repeated */
#define SST_NO_CYCLE 7                  /* `>` outside a cycle */
#define SST_WRONG_RETURN 8              /* a choice rule that reaches its semicolon, `>>` without its value, or with one
                                         * in a procedure rule */
#define SST_OVER_LIMIT 9                /* over a limit; sst_filter: more than SST_FILTER_ENTRIES entries */
#define SST_TOO_SHORT 20                /* what is to be written passes the lent buffer; a table: or 4,096 words */
#define SST_OPERATORS_CONTRADICT 45     /* operators: a level with both sides, or a token listed twice */
#define SST_NO_FIGURE 47                /* no answer of an entry, but `*figure_number`: the figure passes
                                         * 4,294,967,295 */

/* The numbers of a walk, which sst_whole, sst_paused and the turns of a screen answer. Only SST_WAITS, SST_EVENTS_FULL
 * and SST_BUDGET_SPENT leave a walk that can be called on; the stops are final, and repeat. */
#define SST_REFUSED 21                  /* an answer for a walk that is not waiting, none for one that is, a waiting one
                                         * given to sst_whole, or bytes that are no walk. Walk and event buffer are
                                         * unchanged, no event and no step is counted */
#define SST_WAITS 22                    /* the last event written is the operation that wants an answer */
#define SST_TOKEN_DIFFERS 30            /* stopped: the token differs from the one required, or there is none, and no
                                         * repair is left */
#define SST_TOKEN_MISSING 31            /* stopped: any token is required and there is none; this is not repaired */
#define SST_UNLABELLED 32               /* stopped: no label for the value of a choice without otherwise */
#define SST_TOO_DEEP 33                 /* stopped: a call with SST_PENDING pending */
#define SST_UNANSWERED 34               /* stopped: the answers of sst_whole are used up */
#define SST_EVENTS_FULL 35              /* fewer than three words are left in the event buffer: call again with it
                                         * empty */
#define SST_BUDGET_SPENT 36             /* the budget is done: call again */
#define SST_BAD_TABLE 37                /* stopped: the table is no table of the processor's. On a table that sst_load
                                         * or sst_process has answered with SST_OK no walk from sst_fresh comes to it,
                                         * whatever the tokens, the answers and the allowance */

/* The numbers of a table file, which sst_load and sst_write_file answer, in this order: SST_BAD_FORM, SST_TOO_SHORT,
 * SST_NOT_TAKEN; with each all that was lent is zeroed. */
#define SST_BAD_FORM 40                 /* loading: bytes that are not exactly a table file (docs/LAYOUT.md), be it a
                                         * byte more or less, another mark or count, a verdict word above 1 or a length
                                         * outside 1 to 4,096. Writing: such a verdict or such a length */
#define SST_NOT_TAKEN 41                /* a location that can be reached gives SST_BAD_TABLE: every jump target, label,
                                         * default, call and place after a call counts as possible, from location 1
                                         * on */

/* The number of a publisher's rights, which sst_admit answers after SST_NOT_TAKEN, and sst_load_admitted after all that
 * sst_load does. */
#define SST_NOT_GRANTED 48              /* an operation at a location that can be reached is not in the granted set: the
                                         * lowest such location */

/* The numbers of a character filter, which sst_filter answers, the first that holds: SST_OVER_LIMIT, these,
 * SST_TOO_SHORT (the token buffer has fewer words than the text has bytes). */
#define SST_RANGE_REVERSED 42           /* the first byte of an entry exceeds its last: the first such entry, from 0 */
#define SST_BYTE_TWICE 43               /* a byte value is in two entries or more: the lowest such byte */
#define SST_BYTE_MISSING 44             /* a byte value is in no entry: the lowest such byte */

/* An event: three words, its kind, its value and a parameter or 0. */
#define SST_EVENT_WORDS 3
#define SST_EVENT_BYTES 6
#define SST_EVENT_OUTPUT 1              /* the value is an output token */
#define SST_EVENT_ERROR 2               /* the value is an error */
#define SST_EVENT_OPERATION 3           /* the value is an operation's instruction number, then its parameter or 0 */
#define SST_EVENT_REPAIR 4              /* the value is the input token that was required and is repaired */

/* The instruction numbers of operations: each kind from its first on, in the order of their declarations. Only those
 * from SST_CHOICE on want an answer. */
#define SST_UPDATE 256                  /* an operation that updates */
#define SST_UPDATE_PARAMETER 512        /* the same with a parameter */
#define SST_CHOICE 768                  /* an operation that chooses: its answer is a value of its type */
#define SST_CHOICE_PARAMETER 1024       /* the same with a parameter */
#define SST_OPERATIONS 256              /* the most of a kind */

/* Limits, and the bytes of the longest text and table, of its file, of a walk, of a screen and of each book in it, of a
 * granted set, and of a filter's entry. */
#define SST_PENDING 64                  /* the most return locations of a walk */
#define SST_TEXT_BYTES 32768
#define SST_TABLE_BYTES 8192
#define SST_FILE_BYTES 8264
#define SST_WALK_BYTES 158
#define SST_SCREEN_BYTES 332
#define SST_BOOK_BYTES 166              /* the walk, then the steps left, 64 bits, high byte first */
#define SST_SET_BYTES 128
#define SST_FILTER_ENTRIES 64
#define SST_FILTER_ENTRY_BYTES 4

/* The word at an index, from 0: the third word of event i is sst_get_word(events, SST_EVENT_WORDS * i + 2). */
static inline uint16_t sst_get_word(const uint8_t *bytes, size_t index)
{
    return (uint16_t)((unsigned)bytes[2 * index] << 8 | bytes[2 * index + 1]);
}

/* Writes the word at an index. */
static inline void sst_put_word(uint8_t *bytes, size_t index, uint16_t word)
{
    bytes[2 * index] = (uint8_t)(word >> 8);
    bytes[2 * index + 1] = (uint8_t)(word & 255);
}

/* A number of 64 bits in eight bytes, high byte first. */
static inline uint64_t sst_get_64(const uint8_t *bytes)
{
    uint64_t number = 0;
    int i;
    for (i = 0; i < 8; i++)
        number = number << 8 | bytes[i];
    return number;
}

/* Translates a program. Read: text, any bytes. Lent: table, every whole word of which is written: the table's words and
 * then zeros, or zeros alone on a refusal. `*start` and `*len` become the part of the text at fault (0 and 0 on
 * acceptance; the empty part at the end for SST_TOO_SHORT and for a text over SST_TEXT_BYTES), `*words` the number of
 * the table's words, `*finishing` 1 where the verdict is "finishing" (both 0 on a refusal). For a finishing program
 * `*figure` becomes its figure Q, which is at least 1, and `*figure_number` 0: a walk from sst_fresh with n tokens and
 * the allowance r, each of its calls over this table with the same tokens, each of sst_whole with the same answers,
 * does fewer than 65 * figure * (n + r + 1) steps in all its calls together. That product can pass 64 bits, with the
 * greatest figure from some 66 million tokens on; a budget is for one call, so a walk with more steps to do is called
 * again while it answers SST_BUDGET_SPENT. Where Q is above 4,294,967,295 `*figure_number` becomes SST_NO_FIGURE and
 * `*figure` 0; that is no refusal: the answer is SST_OK, and table and verdict are as without it. Both are 0 for a
 * program that is not finishing and on a refusal. Answers SST_OK or a number of a text. */
uint16_t sst_process(const uint8_t *text, sst_size text_len, uint8_t *table, sst_size table_len, uint64_t *start,
                     uint64_t *len, uint64_t *words, uint64_t *finishing, uint64_t *figure, uint64_t *figure_number);

/* Loads a table file. Read: file, any bytes. Lent: table, every whole word of which is written: the file's table and
 * then zeros, or zeros alone where it is not loaded; an odd last byte is kept. `*words` becomes the number of the
 * table's words, `*verdict` the file's verdict word, 1 for "finishing" and 0 for not, which is what the sender claims:
 * nothing here has tested it (both 0 where it is not loaded). Answers SST_OK, SST_BAD_FORM, SST_TOO_SHORT,
 * SST_NOT_TAKEN. Up to 4,096 words are loaded, so a table of SST_TABLE_BYTES bytes is never too short. */
uint16_t sst_load(const uint8_t *file, sst_size file_bytes, uint8_t *table, sst_size table_bytes, uint64_t *words,
                  uint64_t *verdict);

/* Writes the file of a table and a verdict. Read: table, all of whose whole words are the table, so `table_bytes` is
 * twice the `*words` of sst_process; verdict, 1 or 0. Lent: file, every whole word of which is written: the file's
 * words and then zeros, or zeros alone where it is not written; an odd last byte is kept. `*words` becomes the number
 * of the file's words (0 where it is not written). Answers SST_OK, SST_BAD_FORM, SST_TOO_SHORT, SST_NOT_TAKEN. A buffer
 * of SST_FILE_BYTES bytes is never too short. What is written, sst_load takes. */
uint16_t sst_write_file(const uint8_t *table, sst_size table_bytes, uint64_t verdict, uint8_t *file,
                        sst_size file_bytes, uint64_t *words);

/* Whether a table is admitted for a publisher. Read: table, any bytes (words past 4,096 count for nothing, and what
 * stands behind a loaded table changes nothing); set, the operations that the publisher was granted: a bit for each
 * instruction number from SST_UPDATE on, the highest bit of the first byte first (docs/LAYOUT.md); missing bytes grant
 * nothing, and bytes past SST_SET_BYTES count for nothing. `*location` becomes the location that SST_NOT_GRANTED names,
 * else 0. Answers SST_OK where every operation at a location that can be reached is granted: then no walk from
 * sst_fresh writes an event of any other; SST_NOT_TAKEN for a table that sst_load would not take; SST_NOT_GRANTED. */
uint16_t sst_admit(const uint8_t *table, sst_size table_bytes, const uint8_t *set, sst_size set_bytes,
                   uint64_t *location);

/* Loads a table file and admits its table in one call: file, table, `*words` and `*verdict` as with sst_load, set and
 * `*location` as with sst_admit. With SST_NOT_GRANTED the loaded table stays, and `*words` and `*verdict` are those of
 * the file. Answers what sst_load does, and SST_NOT_GRANTED. */
uint16_t sst_load_admitted(const uint8_t *file, sst_size file_bytes, const uint8_t *set, sst_size set_bytes,
                           uint8_t *table, sst_size table_bytes, uint64_t *words, uint64_t *verdict,
                           uint64_t *location);

/* Turns a text into input tokens by a character filter. Read: filter, entries of SST_FILTER_ENTRY_BYTES bytes (first
 * byte, last byte, token, high byte first; docs/LAYOUT.md), up to three bytes behind the last whole one count for
 * nothing; text, any bytes. Lent: tokens, written from its start with a word for each byte of the text, the token of
 * the entry that has it; what stands behind is kept, and on a refusal all of it. `*at` becomes the entry
 * (SST_RANGE_REVERSED) or the byte (SST_BYTE_TWICE, SST_BYTE_MISSING) that the number names, else 0; `*written` the
 * number of tokens, 0 on a refusal. Answers SST_OK or a number of a character filter. */
uint16_t sst_filter(const uint8_t *filter, sst_size filter_len, const uint8_t *text, sst_size text_len, uint8_t *tokens,
                    sst_size tokens_len, uint64_t *at, uint64_t *written);

/* Writes a fresh walk. `allowance` is how many tokens it may repair: where the token that is required differs or is
 * absent, the event SST_EVENT_REPAIR, that token, 0 is written, one repair less is left, and the walk goes on, the
 * present token unread. With 0 it stops with SST_TOKEN_DIFFERS there. Lent: walk, SST_WALK_BYTES bytes. Answers SST_OK;
 * SST_REFUSED where the length is another, and then nothing is written. */
uint16_t sst_fresh(uint8_t *walk, sst_size walk_len, uint16_t allowance);

/* A whole call: up to `budget` steps, with all the operations' answers as words. Read: table (words past 4,096 count
 * for nothing), tokens, answers. Lent: walk, read and written; events, written from its start with SST_EVENT_WORDS
 * words an event, the rest kept. `*written` becomes the number of events, `*steps` the number of steps of this call.
 * Answers SST_OK or a number of a walk but SST_WAITS. */
uint16_t sst_whole(const uint8_t *table, sst_size table_len, const uint8_t *tokens, sst_size tokens_len,
                   const uint8_t *answers, sst_size answers_len, uint64_t budget, uint8_t *walk, sst_size walk_len,
                   uint8_t *events, sst_size events_len, uint64_t *written, uint64_t *steps);

/* A paused call: as sst_whole, but an operation that wants an answer is handed out: its event is written, and the walk
 * waits. The answer is given to the next call: `given` 1 and the answer; `given` 0 otherwise (any other value counts as
 * 1). Answers SST_OK or a number of a walk; SST_UNANSWERED only where sst_whole had stopped the walk with it. */
uint16_t sst_paused(const uint8_t *table, sst_size table_len, const uint8_t *tokens, sst_size tokens_len,
                    uint16_t given, uint16_t answer, uint64_t budget, uint8_t *walk, sst_size walk_len, uint8_t *events,
                    sst_size events_len, uint64_t *written, uint64_t *steps);

/* Two books over one table. A screen is SST_SCREEN_BYTES bytes: for each book its SST_BOOK_BYTES, its walk and its
 * steps left, 64 bits, high byte first, in one piece (docs/LAYOUT.md). A book's turns and refills see and write its own
 * bytes alone: what the other book's bytes hold, what it is given and what it does changes nothing for this book. */

/* Writes two fresh walks with their repair allowances, and 0 steps left to each book: turns answer SST_BUDGET_SPENT
 * until its first refill. Lent: screen. Answers SST_OK; SST_REFUSED where the length is another, and then nothing is
 * written. */
uint16_t sst_screen_fresh(uint8_t *screen, sst_size screen_len, uint16_t allowance_0, uint16_t allowance_1);

/* Sets the steps left to book 0 or 1 to any number; what was left is lost. Lent: screen, of which that book's counter
 * is written and nothing is read: its walk may be any bytes. Answers SST_OK; SST_REFUSED for another book and another
 * length, and then nothing is written. */
uint16_t sst_refill(uint8_t *screen, sst_size screen_len, uint16_t book, uint64_t left);

/* A turn of book 0 or 1: the call sst_whole of that book's walk, its budget the steps left to it, which fall by
 * `*steps`. Lent: screen, of which the book's walk and counter are read and written; events, `*written` and `*steps` as
 * with sst_whole. Answers what sst_whole does, and SST_REFUSED also for another book and another length. With
 * SST_REFUSED nothing is touched, and `*written` and `*steps` are 0. */
uint16_t sst_turn_whole(const uint8_t *table, sst_size table_len, const uint8_t *tokens, sst_size tokens_len,
                        const uint8_t *answers, sst_size answers_len, uint16_t book, uint8_t *screen,
                        sst_size screen_len, uint8_t *events, sst_size events_len, uint64_t *written, uint64_t *steps);

/* The same with the call sst_paused. */
uint16_t sst_turn_paused(const uint8_t *table, sst_size table_len, const uint8_t *tokens, sst_size tokens_len,
                         uint16_t given, uint16_t answer, uint16_t book, uint8_t *screen, sst_size screen_len,
                         uint8_t *events, sst_size events_len, uint64_t *written, uint64_t *steps);

/* The parts of a walk; nothing is written. */

/* What sst_phase answers. */
#define SST_GOING 0                     /* going on */
#define SST_WAITING 1                   /* waiting for an answer */
#define SST_STOPPED 2                   /* stopped */
#define SST_NO_WALK 3                   /* bytes that are no walk */
uint16_t sst_phase(const uint8_t *walk, sst_size walk_len);

/* The number that a stopped walk answers; SST_NO_REASON for a walk that has not stopped and for bytes that are no
 * walk. */
#define SST_NO_REASON 65535
uint16_t sst_reason(const uint8_t *walk, sst_size walk_len);

/* The location of the next instruction; 0 for bytes that are no walk. */
uint16_t sst_location(const uint8_t *walk, sst_size walk_len);

/* Tokens read; 0 for bytes that are no walk. */
uint64_t sst_read(const uint8_t *walk, sst_size walk_len);

/* Answers used, up to 2^64 - 1; 0 for bytes that are no walk. */
uint64_t sst_used(const uint8_t *walk, sst_size walk_len);

/* Repairs left; 0 for bytes that are no walk. */
uint16_t sst_allowance(const uint8_t *walk, sst_size walk_len);

/* The stack that an entry takes at most, in bytes, on x86-64: measured with a painted stack over texts and tables at
 * all limits, rounded up; the tests hold these figures against what is measured. docs/DEVICE.md has other processors.
 * Code and constants, linked and measured by hand: sst_process brings 57 KB, all entries of walks and screens together 10 KB,
 * each of the others 2 to 3 KB, all entries together 72 KB. */
#define SST_STACK_PROCESS 51200
#define SST_STACK_LOAD 13312
#define SST_STACK_WRITE_FILE 13312
#define SST_STACK_ADMIT 13312
#define SST_STACK_LOAD_ADMITTED 14336
#define SST_STACK_FILTER 2048
#define SST_STACK_FRESH 1024
#define SST_STACK_WHOLE 3072
#define SST_STACK_PAUSED 3072
#define SST_STACK_SCREEN_FRESH 1024
#define SST_STACK_REFILL 1024
#define SST_STACK_TURN_WHOLE 3072
#define SST_STACK_TURN_PAUSED 3072
#define SST_STACK_PHASE 2048
#define SST_STACK_REASON 2048
#define SST_STACK_LOCATION 2048
#define SST_STACK_READ 2048
#define SST_STACK_USED 2048
#define SST_STACK_ALLOWANCE 2048

#ifdef __cplusplus
}
#endif

#endif
