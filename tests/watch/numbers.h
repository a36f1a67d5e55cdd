/*
 * The numbers of a slot, by their names and in the order of its line, as `watch`
 * tells them: 57, and behind them of a slot with a sensor the three of its pin,
 * of an older module its own three (request P9).  Taken from the second opinion's
 * own fields.  Included by rewatch.c and watcher.c.  The file planted.txt replaces
 * single lines of it: keep the two in step.
 *
 * Of most of them the second opinion has a field.  It has none of these, and
 * they follow from what it has:
 *
 *   phase       from `doing`, and in a protect, clear or lasting form from
 *               `taken`.  Where it still remembers why a slot is deaf
 *               (SENSOR_FULL), it is deaf.
 *   place       the counter's offset while data bytes are taken, else 0
 *   coming      the protection, with what an order or a running cycle brings
 *   mark        `latched` while data bytes are taken and while their cycle runs;
 *               the second opinion forgets them only at the next control byte
 *   latch       the marked bytes.  One that is not marked has no counterpart: the
 *               document says nothing of it.  The crates' choice, an empty latch
 *               holds 0, is held here.
 *   word        the first byte of a sensor write, high, or both of a read, in
 *               their phases, else 0 (docs/DECISIONS.md, 8)
 *   level       high or low by bit 1 of the configuration, and the other where
 *               the pin is not asserted (request P8)
 *   lasting     1 while a lasting form is given or worked off, else 0
 */
#ifndef NUMBERS_H
#define NUMBERS_H
#include "model.h"

enum {
    AT_KIND, AT_LENGTH, AT_LEFT, AT_HALF, AT_COUNTER, AT_PLACE, AT_VOLTAGE, AT_PHASE,
    AT_PROTECTION,
    AT_COMING = AT_PROTECTION + BLOCKS,
    AT_LATCH = AT_COMING + BLOCKS,
    AT_MARK = AT_LATCH + PAGE,
    AT_POINTER = AT_MARK + PAGE,
    AT_CONFIGURATION, AT_HIGH, AT_LOW, AT_CRITICAL, AT_TEMPERATURE, AT_RESOLUTION, AT_TIMEOUT, AT_WORD,
    AT_ASSERTED, AT_LEVEL, AT_PENDING,  /* of a sensor alone */
    AT_PERMANENT, AT_LASTING, AT_WRITE_PROTECT,  /* of an older module alone */
    NUMBERS
};

static const char *const name_of[NUMBERS] = {
    "kind", "length", "left", "half", "counter", "place", "voltage", "phase",
    "protection0", "protection1", "protection2", "protection3", "coming0", "coming1", "coming2", "coming3",
    "latch0", "latch1", "latch2", "latch3", "latch4", "latch5", "latch6", "latch7",
    "latch8", "latch9", "latch10", "latch11", "latch12", "latch13", "latch14", "latch15",
    "mark0", "mark1", "mark2", "mark3", "mark4", "mark5", "mark6", "mark7",
    "mark8", "mark9", "mark10", "mark11", "mark12", "mark13", "mark14", "mark15",
    "pointer", "configuration", "high", "low", "critical", "temperature", "resolution", "timeout", "word",
    "asserted", "level", "pending", "permanent", "lasting", "write-protect",
};

/* Whether a slot of this kind has it. */
static int has_number(long kind, int at)
{
    if (at >= AT_PERMANENT)
        return kind == OLDER;
    return at < AT_ASSERTED || kind == MEMORY_WITH_SENSOR;
}

static int phase_of(const struct slot *s)
{
    switch (s->doing) {
    case IDLE: return 0;
    case STARTED: return 1;
    case WRITE_COUNTER: return 3;
    case WRITE_DATA: return 4;
    case READ_DATA: return 5;
    case HALF_SELECTED: return 6;
    case ORDERED: return 7 + s->taken;
    case SENSOR_POINTER: return 10;
    case SENSOR_HIGH: return 11;
    case SENSOR_LOW: return 12;
    case SENSOR_READ_1: return 13;
    case SENSOR_READ_2: return 14;
    default: return 2;            /* deaf, also behind a sensor's second byte */
    }
}

/* The order that is being given or worked off, or -1. */
static int order_of(const struct slot *s)
{
    if (s->doing == ORDERED)
        return s->order;
    return s->ticks_left > 0 && s->work != STORE_PAGE ? s->work : -1;
}

static int coming_of(const struct slot *s, int block)
{
    int order = order_of(s);

    if (order == FOR_EVER)
        order = 0;                /* it protects block 0 */
    return order == CLEAR_ALL ? 0 : order == block ? 1 : s->is_protected[block];
}

static int is_marked(const struct slot *s, int place)
{
    int counts = s->doing == WRITE_DATA || (s->ticks_left > 0 && s->work == STORE_PAGE);

    return counts && s->latched[place];
}

static int word_of(const struct slot *s)
{
    if (s->doing == SENSOR_LOW)
        return 256 * s->high_byte;
    return s->doing == SENSOR_READ_1 || s->doing == SENSOR_READ_2 ? s->fixed : 0;
}

/* Whether the pin is high.  A released one is what an asserted one is not, while
 * it is disabled too. */
static int level_of(const struct slot *s)
{
    int active_high = (s->reg[1] & ACTIVE_HIGH) != 0;

    return is_asserted(s) ? active_high : !active_high;
}

/* Those that the slot does not have are 0. */
static void numbers_of(const struct slot *s, long to[NUMBERS])
{
    static const int registers[] = { 1, 2, 3, 4, 5, 8, 9 };

    to[AT_KIND] = s->kind;
    to[AT_LENGTH] = s->length;
    to[AT_LEFT] = s->ticks_left;
    to[AT_HALF] = s->half;
    to[AT_COUNTER] = s->counter;
    to[AT_PLACE] = s->doing == WRITE_DATA ? s->counter % PAGE : 0;
    to[AT_VOLTAGE] = s->high_voltage;
    to[AT_PHASE] = phase_of(s);
    for (int b = 0; b < BLOCKS; b++) {
        to[AT_PROTECTION + b] = s->is_protected[b];
        to[AT_COMING + b] = coming_of(s, b);
    }
    for (int i = 0; i < PAGE; i++) {
        to[AT_LATCH + i] = is_marked(s, i) ? s->latch[i] : 0;
        to[AT_MARK + i] = is_marked(s, i);
    }
    to[AT_POINTER] = s->pointer;
    for (int i = 0; i < 7; i++)
        to[AT_CONFIGURATION + i] = s->reg[registers[i]];
    to[AT_WORD] = word_of(s);
    for (int i = AT_ASSERTED; i < NUMBERS; i++)
        to[i] = 0;
    if (s->kind == MEMORY_WITH_SENSOR) {
        to[AT_ASSERTED] = is_asserted(s);
        to[AT_LEVEL] = level_of(s);
        to[AT_PENDING] = s->pending;
    }
    if (s->kind == OLDER) {
        to[AT_PERMANENT] = s->permanent;
        to[AT_LASTING] = order_of(s) == FOR_EVER;
        to[AT_WRITE_PROTECT] = s->write_protect;
    }
}

#endif
