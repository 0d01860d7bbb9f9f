/* S/SL tables: carrying a reading position to new rules. An update of the rules arrives while a chapter is half walked;
 * sst_carry moves the walk from the old rules' table to the new rules' table, where it can go on. This entry is in
 * libsst-carry.a, apart from sst_process and the walks: a device that is never updated links nothing of it. Buffers,
 * walks and threads are as in sst.h.
 */
#ifndef SST_CARRY_H
#define SST_CARRY_H

#include "sst.h"

#ifdef __cplusplus
extern "C" {
#endif

/* The numbers that no other entry answers. What the device does with them: it begins the chapter again, with sst_fresh
 * and the new table. docs/CARRYING.md tells which edits of a text are carried. */
#define SST_SECTIONS_DIFFER 51          /* the texts have not the same words before `rules`; blanks and comments count
                                         * for nothing */
#define SST_RULE_DIFFERS 52             /* the rule that the walk is in, or one that it returns to, has other words in
                                         * the new text or is not there; or a place of the walk lies in no rule. Words
                                         * are those of the table, and a call is compared by the name of the rule that
                                         * it calls */

/* Carries a walk from the table of one text to the table of another. Read: both texts, any bytes; the tables are made
 * anew inside, so none is lent: the new one comes from sst_process. Lent: walk, SST_WALK_BYTES bytes. With SST_OK it
 * holds the carried walk: its location and return locations are the same places of the same rules in the new table, and
 * all else is as it was: phase, reason, result, parameter, tokens read, answers used, repairs left. A walk that waits
 * still waits, one that has stopped is still stopped. With every other number no byte of it has changed. `*text`
 * becomes 1 where the old text is not accepted and 2 where the new one is not, and `*start` and `*len` the part of that
 * text at fault; all three are 0 otherwise. Answers the first of these that holds: SST_REFUSED for bytes that are no
 * walk; a number that sst_process gives for the old text with a table of SST_TABLE_BYTES bytes, then for the new text;
 * SST_SECTIONS_DIFFER; SST_RULE_DIFFERS; SST_OK.
 *
 * For a walk that calls from sst_fresh over the old table led to, each with the same tokens and the answers in order:
 * from there on calls over the new table do what the new rules say from the same places, none answers SST_BAD_TABLE,
 * and where sst_process told the figure Q of the new text they do no more than 65 * Q * (n + r + 1) steps in all, n
 * being the number of tokens and r the repairs left. Carrying such a walk to its own text changes no byte. */
uint16_t sst_carry(const uint8_t *old_text, sst_size old_len, const uint8_t *new_text, sst_size new_len, uint8_t *walk,
                   sst_size walk_len, uint64_t *text, uint64_t *start, uint64_t *len);

/* The stack that it takes at most, in bytes, as in sst.h. Its code and constants are 50 KB. */
#define SST_STACK_CARRY 64512

#ifdef __cplusplus
}
#endif

#endif
