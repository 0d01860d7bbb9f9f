/* A plain walker for S/SL tables, with the entries of include/sst.h under the prefix cw_. */
#include <stddef.h>
#include <stdint.h>
#include <string.h>

#define WALK_BYTES 158
#define MAX_RETURNS 64
#define MAX_TABLE 4096

enum { GOING = 0, WAITING = 1, STOPPED = 2 };

struct walk {
    uint16_t phase, reason, location, result, parameter, held, allowance;
    uint64_t read, used;
    uint16_t returns[MAX_RETURNS];
};

static inline uint16_t word(const uint8_t *bytes, size_t i)
{
    return (uint16_t)(bytes[2 * i] << 8 | bytes[2 * i + 1]);
}

static inline void put(uint8_t *bytes, size_t i, uint16_t value)
{
    bytes[2 * i] = (uint8_t)(value >> 8);
    bytes[2 * i + 1] = (uint8_t)value;
}

static uint64_t long_word(const uint8_t *bytes, size_t i)
{
    return (uint64_t)word(bytes, i) << 48 | (uint64_t)word(bytes, i + 1) << 32 | (uint64_t)word(bytes, i + 2) << 16 | word(bytes, i + 3);
}

static void put_long(uint8_t *bytes, size_t i, uint64_t value)
{
    int k;
    for (k = 3; k >= 0; k--, value >>= 16)
        put(bytes, i + (size_t)k, (uint16_t)value);
}

/* Whether the bytes are a walk; then it is in *w. */
static int decode(const uint8_t *bytes, size_t len, struct walk *w)
{
    size_t i;
    if (len != WALK_BYTES)
        return 0;
    w->phase = word(bytes, 0);
    w->reason = word(bytes, 1);
    w->location = word(bytes, 2);
    w->result = word(bytes, 3);
    w->parameter = word(bytes, 4);
    w->held = word(bytes, 5);
    w->allowance = word(bytes, 6);
    w->read = long_word(bytes, 7);
    w->used = long_word(bytes, 11);
    if (w->phase > STOPPED || w->held > MAX_RETURNS)
        return 0;
    if (w->phase != STOPPED && w->reason != 0)
        return 0;
    if (w->reason != 0 && w->reason != 37 && (w->reason < 30 || w->reason > 34))
        return 0;
    for (i = 0; i < MAX_RETURNS; i++) {
        w->returns[i] = word(bytes, 15 + i);
        if (i >= w->held && w->returns[i] != 0)
            return 0;
    }
    return 1;
}

static void encode(uint8_t *bytes, const struct walk *w)
{
    size_t i;
    memset(bytes, 0, WALK_BYTES);
    put(bytes, 0, w->phase);
    put(bytes, 1, w->reason);
    put(bytes, 2, w->location);
    put(bytes, 3, w->result);
    put(bytes, 4, w->parameter);
    put(bytes, 5, w->held);
    put(bytes, 6, w->allowance);
    put_long(bytes, 7, w->read);
    put_long(bytes, 11, w->used);
    for (i = 0; i < w->held; i++)
        put(bytes, 15 + i, w->returns[i]);
}

/* Steps until the call ends. `answers` is null in a paused call. */
static uint16_t run(const uint8_t *table, size_t table_len, const uint8_t *tokens, size_t tokens_len, const uint8_t *answers,
                    size_t answers_len, uint64_t budget, struct walk *w, uint8_t *events, size_t events_len, uint64_t *events_written,
                    uint64_t *steps_done)
{
    const size_t size = table_len / 2 < MAX_TABLE ? table_len / 2 : MAX_TABLE;
    const uint64_t token_count = tokens_len / 2, answer_count = answers_len / 2, room = events_len / 6;
    size_t location = w->location, held = w->held;
    uint16_t result = w->result, parameter = w->parameter;
    uint64_t read = w->read, used = w->used, written = 0, steps = 0;
    uint16_t number;

    for (;;) {
        uint16_t op, operand;
        size_t target, first, count, i;
        if (steps == budget) {
            number = 36;
            goto end;
        }
        /* Words are counted from 0 in memory: the operand of the instruction at `location` is word `location`. */
        if (location == 0 || location > size)
            goto outside;
        op = word(table, location - 1);
        switch (op) {
        case 1:
        case 2:
            if (location >= size)
                goto outside;
            operand = word(table, location);
            if (op == 1) {
                target = location + 1 + operand;
                if (target > size)
                    goto outside;
            } else {
                if (operand > location)
                    goto outside;
                target = location + 1 - operand;
            }
            location = target;
            break;
        case 3:
            if (location >= size)
                goto outside;
            if (read < token_count && word(tokens, read) == word(table, location)) {
                read++;
            } else if (w->allowance == 0) {
                number = 30;
                goto stop;
            } else {
                if (written == room)
                    goto full;
                put(events, 3 * written, 4);
                put(events, 3 * written + 1, word(table, location));
                put(events, 3 * written + 2, 0);
                written++;
                w->allowance--;
            }
            location += 2;
            break;
        case 4:
            if (read >= token_count) {
                number = 31;
                goto stop;
            }
            read++;
            location++;
            break;
        case 5:
        case 6:
            if (location >= size)
                goto outside;
            if (written == room)
                goto full;
            put(events, 3 * written, op - 4);
            put(events, 3 * written + 1, word(table, location));
            put(events, 3 * written + 2, 0);
            written++;
            location += 2;
            break;
        case 7:
        case 11: {
            uint16_t value;
            int search = 1;
            if (location >= size)
                goto outside;
            first = location + 1 + word(table, location);
            if (first > size)
                goto outside;
            count = word(table, first - 1);
            if (first + 2 * count > size)
                goto outside;
            value = result;
            if (op == 7) {
                search = read < token_count;
                if (search)
                    value = word(tokens, read);
            }
            i = count;
            if (search)
                for (i = 0; i < count; i++)
                    if (word(table, first + 2 * i) == value)
                        break;
            if (i < count) {
                size_t here = first + 2 * i + 2;
                uint16_t distance = word(table, here - 1);
                if (distance >= here)
                    goto outside;
                target = here - distance;
                if (op == 7)
                    read++;
            } else {
                target = first + 2 * count + 1;
                if (target > size)
                    goto outside;
            }
            result = value;
            location = target;
            break;
        }
        case 8:
            if (location >= size)
                goto outside;
            target = word(table, location);
            if (target == 0 || target > size)
                goto outside;
            if (held == MAX_RETURNS) {
                number = 33;
                goto stop;
            }
            w->returns[held++] = (uint16_t)(location + 2);
            location = target;
            break;
        case 9:
            if (held == 0) {
                number = 0;
                goto stop;
            }
            target = w->returns[held - 1];
            if (target == 0 || target > size)
                goto outside;
            held--;
            location = target;
            break;
        case 10:
        case 13:
            if (location >= size)
                goto outside;
            operand = word(table, location);
            if (op == 10)
                result = operand;
            else
                parameter = operand;
            location += 2;
            break;
        case 12:
            number = 32;
            goto stop;
        default:
            if (op < 256 || op >= 1280)
                goto outside;
            if (written == room)
                goto full;
            if (op >= 768 && answers != NULL && used >= answer_count) {
                number = 34;
                goto stop;
            }
            put(events, 3 * written, 3);
            put(events, 3 * written + 1, op);
            put(events, 3 * written + 2, (op >= 512 && op < 768) || op >= 1024 ? parameter : 0);
            written++;
            location++;
            if (op >= 768) {
                if (answers == NULL) {
                    steps++;
                    w->phase = WAITING;
                    number = 22;
                    goto end;
                }
                result = word(answers, used);
                used++;
            }
            break;
        }
        steps++;
    }
full:
    number = 35;
    goto end;
outside:
    number = 37;
    w->phase = STOPPED;
    w->reason = 37;
    goto end;
stop:
    steps++;
    w->phase = STOPPED;
    w->reason = number;
end:
    w->location = (uint16_t)location;
    w->held = (uint16_t)held;
    w->result = result;
    w->parameter = parameter;
    w->read = read;
    w->used = used;
    *events_written = written;
    *steps_done = steps;
    return number;
}

uint16_t cw_fresh(uint8_t *walk, size_t walk_len, uint16_t allowance)
{
    if (walk_len != WALK_BYTES)
        return 21;
    memset(walk, 0, WALK_BYTES);
    put(walk, 2, 1);
    put(walk, 6, allowance);
    return 0;
}

uint16_t cw_whole(const uint8_t *table, size_t table_len, const uint8_t *tokens, size_t tokens_len, const uint8_t *answers,
                  size_t answers_len, uint64_t budget, uint8_t *walk, size_t walk_len, uint8_t *events, size_t events_len,
                  uint64_t *written, uint64_t *steps)
{
    struct walk w;
    uint16_t number;
    *written = 0;
    *steps = 0;
    if (!decode(walk, walk_len, &w) || w.phase == WAITING)
        return 21;
    if (w.phase == STOPPED)
        return w.reason;
    number = run(table, table_len, tokens, tokens_len, answers, answers_len, budget, &w, events, events_len, written, steps);
    encode(walk, &w);
    return number;
}

uint16_t cw_paused(const uint8_t *table, size_t table_len, const uint8_t *tokens, size_t tokens_len, uint16_t given, uint16_t answer,
                   uint64_t budget, uint8_t *walk, size_t walk_len, uint8_t *events, size_t events_len, uint64_t *written,
                   uint64_t *steps)
{
    struct walk w;
    uint16_t number;
    *written = 0;
    *steps = 0;
    if (!decode(walk, walk_len, &w) || (w.phase == WAITING) != (given != 0))
        return 21;
    if (w.phase == STOPPED)
        return w.reason;
    if (w.phase == WAITING) {
        w.phase = GOING;
        w.result = answer;
        if (w.used != UINT64_MAX)
            w.used++;
    }
    number = run(table, table_len, tokens, tokens_len, NULL, 0, budget, &w, events, events_len, written, steps);
    encode(walk, &w);
    return number;
}

uint16_t cw_phase(const uint8_t *walk, size_t walk_len)
{
    struct walk w;
    return decode(walk, walk_len, &w) ? w.phase : 3;
}

uint16_t cw_reason(const uint8_t *walk, size_t walk_len)
{
    struct walk w;
    return decode(walk, walk_len, &w) && w.phase == STOPPED ? w.reason : 65535;
}

/* A walk; one of zeros for bytes that are none. */
static struct walk decoded(const uint8_t *walk, size_t walk_len)
{
    static const struct walk none;
    struct walk w;
    return decode(walk, walk_len, &w) ? w : none;
}

uint16_t cw_location(const uint8_t *walk, size_t walk_len)
{
    return decoded(walk, walk_len).location;
}

uint64_t cw_read(const uint8_t *walk, size_t walk_len)
{
    return decoded(walk, walk_len).read;
}

uint64_t cw_used(const uint8_t *walk, size_t walk_len)
{
    return decoded(walk, walk_len).used;
}

uint16_t cw_allowance(const uint8_t *walk, size_t walk_len)
{
    return decoded(walk, walk_len).allowance;
}
