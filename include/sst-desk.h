/* S/SL tables at the release desk: figures over a shelf of books, where the rules of a program stand in text and table,
 * and parts of a program that are translated separately and linked. These entries are in libsst-desk.a, apart from the
 * device's library; words, buffers, threads and the numbers of walks and texts are those of sst.h.
 */
#ifndef SST_DESK_H
#define SST_DESK_H

#include "sst.h"

#ifdef __cplusplus
extern "C" {
#endif

/* The numbers that no other entry answers. */
#define SST_PAST_64_BITS 46             /* a figure would pass 64 bits: the number of books, the grand total, a sum over
                                         * rules */
#define SST_RULE_MISSING 49             /* linking: a called rule that no part has, or a rule of another sort or type
                                         * than the common part says */
#define SST_RULE_TWICE 50               /* linking: a rule name in two parts */

/* Limits and sizes. */
#define SST_FIGURES_BYTES 33296         /* figures: 4,162 numbers of 64 bits */
#define SST_RULES 128                   /* the most rules of a program */
#define SST_RULE_BYTES 24               /* a rule's row: three numbers of 64 bits */
#define SST_PARTS 16                    /* the most parts of a program */

/* Figures are 4,162 numbers of 64 bits, each 8 bytes, high byte first (sst_get_64, docs/LAYOUT.md): how often each
 * location 1 to 4,096 was executed; 64 words with one bit a location; books; grand total. Empty figures are all zero
 * bytes. Bytes of another length, or with parts that do not fit together, are no figures. */

/* Adds a book to figures by a whole call from a fresh walk: table, tokens, answers and budget as with sst_whole,
 * allowance as with sst_fresh. All books of one shelf are walked over the same table. Lent: figures, SST_FIGURES_BYTES
 * bytes, read and written: each step that is done counts at the location of its instruction, also the step that stops
 * the walk; SST_EVENTS_FULL, SST_BUDGET_SPENT and SST_BAD_TABLE do nothing and count nothing. Lent: events, written
 * from its start with SST_EVENT_WORDS words an event, the rest kept. `*written` becomes the number of events, `*steps`
 * the number of steps (both 0 with SST_REFUSED and SST_PAST_64_BITS). Where `budget` could take the grand total past 64
 * bits the book is walked twice, first without writing. Answers the first of these that holds: SST_REFUSED for bytes
 * that are no figures; SST_PAST_64_BITS where the number of books or the grand total would pass 64 bits; with both,
 * figures and event buffer are unchanged; else what the book's own call of sst_whole answers: it is added, be it
 * finished or not. */
uint16_t sst_add_book(const uint8_t *table, sst_size table_len, const uint8_t *tokens, sst_size tokens_len,
                      const uint8_t *answers, sst_size answers_len, uint64_t budget, uint16_t allowance,
                      uint8_t *figures, sst_size figures_len, uint8_t *events, sst_size events_len, uint64_t *written,
                      uint64_t *steps);

/* What figures say of the whole shelf. Read: figures, any bytes. `*books` becomes the number of books, `*total` the
 * grand total of steps, `*covered` how many locations were executed at all, `*mean` and `*rest` the mean steps a book,
 * whole part and remainder (both 0 for an empty shelf). Answers SST_OK; SST_REFUSED for bytes that are no figures, and
 * then all five are 0. */
uint16_t sst_shelf(const uint8_t *figures, sst_size figures_len, uint64_t *books, uint64_t *total, uint64_t *covered,
                   uint64_t *mean, uint64_t *rest);

/* Maps a program's rules. Read: text, any bytes. Lent: rows, written from its start with SST_RULE_BYTES bytes for each
 * rule, in text order: the start of its name in the text, the length of its name, the location of its first word in the
 * table, each 64 bits, high byte first; bytes behind the last row are kept, and on a refusal all of them. Behind them
 * stand, in the table's order, rows for the rules that operators stand for: the name of such a rule is what stands from
 * the `^` of the first use of its section and operand rule to the end of that rule's name, the same for each level, the
 * lowest first; it may hold blanks and line feeds. A rule's words end where the next rule's begin, the last one's with
 * the table. `*rules` becomes the number of rules, those among them, 0 on a refusal. Answers SST_OK for a text that
 * sst_process accepts with a table of SST_TABLE_BYTES bytes, else the number that it gives there; then SST_TOO_SHORT
 * where rows has no room for all of them. Room for SST_RULES rules is never too little. */
uint16_t sst_rules(const uint8_t *text, sst_size text_len, uint8_t *rows, sst_size rows_len, uint64_t *rules);

/* The second way of a report, rule by rule. How often the words of one rule were executed: those from location `from`
 * on, up to location `to` and without it, which are the locations of its row and of the next one (the location behind
 * the table's last word, for the last rule). Read: figures, any bytes. `*total` becomes the sum of their counts.
 * Answers SST_OK; SST_REFUSED for bytes that are no figures, and then `*total` is 0. */
uint16_t sst_rule_total(const uint8_t *figures, sst_size figures_len, uint64_t from, uint64_t to, uint64_t *total);

/* All rules together: the sum of what sst_rule_total gives for each row. Read: figures, any bytes; rows, whole rows of
 * SST_RULE_BYTES bytes as sst_rules writes them, for all rules and no more (a part of a row at the end counts for
 * nothing); `end`, the location behind the table's last word. For figures over the table of an accepted program and the
 * rows of its text `*total` is the grand total that sst_shelf tells. Answers SST_OK; SST_REFUSED for bytes that are no
 * figures; SST_PAST_64_BITS for a sum past 64 bits, as of rows that overlap; then `*total` is 0. */
uint16_t sst_rules_total(const uint8_t *figures, sst_size figures_len, const uint8_t *rows, sst_size rows_len,
                         uint64_t end, uint64_t *total);

/* Parts translated separately. A program is split into a common part, its sections, then `rules`, a line `NAME >>
 * type;` for each choice rule, `end`; and 1 to SST_PARTS further parts, each `rules`, one rule or more, `end`. Texts
 * are numbered from 0, the common part; the parts are 1 to SST_PARTS in the order of their objects. */

/* Translates a part by itself with its common part. Read: common and part, any bytes, SST_TEXT_BYTES at most each.
 * Lent: object, every whole word of which is written: the words of the part's object (docs/LAYOUT.md) and then zeros;
 * zeros alone on a refusal. Answers SST_OK, and `*words` is the number of the object's words; or a number of a text,
 * its text in `*text` (0 the common part, 1 the part), the part of that text at fault in `*start` and `*len`, and
 * `*words` is 0. SST_TOO_SHORT is for an object that does not fit, at the end of the part: lend more. */
uint16_t sst_part(const uint8_t *common, sst_size common_len, const uint8_t *part, sst_size part_len, uint8_t *object,
                  sst_size object_len, uint64_t *text, uint64_t *start, uint64_t *len, uint64_t *words);

/* Links parts of one common part. Read: common; objects, those of the parts one behind the other in the order in which
 * they are linked, any bytes. Lent: table, as with sst_process. Answers SST_OK with the table, verdict and figure of
 * the program that has the common part's sections and all rules of the parts in order, as sst_process answers for that
 * as one text, but that the byte limit counts for each part. Or the first of these that holds, its text in `*text` and
 * the part of that text at fault in `*start` and `*len`; then every lent word is zero, and the other four are 0:
 *   1. a number of a text for the common part, text 0
 *   2. SST_BAD_FORM: bytes that are no objects of this common part; `*text` is the number of the first that is none,
 *      `*start` and `*len` are 0
 *   3. SST_OVER_LIMIT: no object, or more than SST_PARTS, at the end of the common part
 *   4. SST_WRONG_CLASS: the first rule of the first part has a type, at its name
 *   5. SST_RULE_MISSING, at the word that calls the rule or names it
 *   6. SST_RULE_TWICE, at the name in the later part
 *   7. SST_OVER_LIMIT: a limit passed by the rules of all parts, at the first name past it; by the rules that operators
 *      stand for, at the `^`
 *   8. SST_TOO_SHORT: the table passes the lent buffer or 4,096 words, at the end of the last part
 *
 * Whoever wrote the objects, a table that is answered with SST_OK is that of a program as sst_process accepts it:
 * sst_load takes it, no walk answers SST_BAD_TABLE, and with `*finishing` 1 every walk ends. */
uint16_t sst_link(const uint8_t *common, sst_size common_len, const uint8_t *objects, sst_size objects_len,
                  uint8_t *table, sst_size table_len, uint64_t *text, uint64_t *start, uint64_t *len, uint64_t *words,
                  uint64_t *finishing, uint64_t *figure, uint64_t *figure_number);

/* The stack that an entry takes at most, in bytes, as in sst.h: no device calls sst_part. */
#define SST_STACK_ADD_BOOK 67584
#define SST_STACK_SHELF 66560
#define SST_STACK_RULES 49152
#define SST_STACK_RULE_TOTAL 66560
#define SST_STACK_RULES_TOTAL 66560
#define SST_STACK_PART 301056
#define SST_STACK_LINK 66560

#ifdef __cplusplus
}
#endif

#endif
