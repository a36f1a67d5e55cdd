/*
 * Saved forms (request P5, "Saving a bench overnight", with tag 5 of request P8,
 * "The EVENT pin", and tag 6 of request P9, "Older 2-Kbit modules"): when a bench
 * may be saved, a writer and a reader, over the second opinion's own model.
 * Written from the sentences of the requests; no line of it comes from the
 * crates.  Included by keeper.c and resave.c.  The file planted.txt replaces
 * single lines of it: keep the two in step.
 */
#ifndef FORMS_H
#define FORMS_H
#include "model.h"

enum { HEAD = 3, OF_SLOT = 4, OF_SENSOR = 15 };  /* bytes: tag and length; in tag 3; in tag 4 */
enum { MOST = 5 * HEAD + SETUP + SLOTS * (SLOT_BYTES + OF_SLOT + OF_SENSOR + 1) };  /* eight sensors */
enum { SAVED = 7 };               /* registers of a sensor that are saved */

static const int saved[SAVED] = { 1, 2, 3, 4, 5, 8, 9 };
static const int kept_bits[REGISTERS] = { [1] = 0x07CF, [2] = 0x1FFC, [3] = 0x1FFC, [4] = 0x1FFC,
                                          [5] = 0xFFFF, [8] = 0x0003, [9] = 0x0001 };

/* "unless every present slot is idle and in no write cycle" */
static int quiet(void)
{
    for (int n = 0; n < SLOTS; n++) {
        if (bus[n].kind == ABSENT)  /* whatever it does */
            continue;
        if (bus[n].doing != IDLE)
            return 0;
        if (bus[n].ticks_left > 0)
            return 0;
    }
    return 1;
}

/* Bytes of a slot's memory that are saved, its first: "256 bytes (so many in tag
 * 2)" of an older module. */
static int bytes_of(int kind)
{
    if (kind == OLDER)
        return SLOT_BYTES / 2;
    return kind == ABSENT ? 0 : SLOT_BYTES;
}

/* ---- Writing -------------------------------------------------------------- */

static unsigned char form[MOST];  /* the last that was written */
static size_t form_length;

static void put(int byte) { form[form_length++] = (unsigned char)byte; }

static void put_word(int word)    /* the high byte first */
{
    put(word >> 8);
    put(word & 255);
}

static void put_head(int tag, int length)
{
    put(tag);
    put_word(length);
}

static void put_slot(const struct slot *s)
{
    int blocks = 0;

    for (int b = 0; b < BLOCKS; b++)
        blocks |= s->is_protected[b] << b;
    put(blocks);
    put(s->half);
    put(s->counter);
    put(s->high_voltage);
}

/* Bit 4 of 01h is "saved as 0": it is no bit of the register. */
static void put_sensor(const struct slot *s)
{
    put(s->pointer);
    for (int i = 0; i < SAVED; i++)
        put_word(s->reg[saved[i]]);
}

static int any_pending(void)
{
    for (int n = 0; n < SLOTS; n++)
        if (bus[n].kind == MEMORY_WITH_SENSOR && bus[n].pending)
            return 1;
    return 0;
}

static int slots_of(int kind)
{
    int many = 0;

    for (int n = 0; n < SLOTS; n++)
        many += bus[n].kind == kind;
    return many;
}

static int present_slots(void) { return SLOTS - slots_of(ABSENT); }

static int present_bytes(void)
{
    int many = 0;

    for (int n = 0; n < SLOTS; n++)
        many += bytes_of(bus[n].kind);
    return many;
}

/* Tag 5, "a byte for each sensor, 1 if a change is pending, present only when
 * one is 1". */
static void put_pending(void)
{
    if (!any_pending())
        return;
    put_head(5, slots_of(MEMORY_WITH_SENSOR));
    for (int n = 0; n < SLOTS; n++)
        if (bus[n].kind == MEMORY_WITH_SENSOR)
            put(bus[n].pending);  /* of a sensor */
}

/* "Bit 0 permanent, bit 1 pin." */
static int older_bits(const struct slot *s) { return s->permanent | s->write_protect << 1; }

static int any_older_bits(void)
{
    for (int n = 0; n < SLOTS; n++)
        if (bus[n].kind == OLDER && older_bits(&bus[n]) != 0)
            return 1;
    return 0;
}

/* Tag 6, "a byte for each such slot, present only when one is not 0". */
static void put_older(void)
{
    if (!any_older_bits())
        return;
    put_head(6, slots_of(OLDER));
    for (int n = 0; n < SLOTS; n++)
        if (bus[n].kind == OLDER)
            put(older_bits(&bus[n]));
}

static void write_form(void)
{
    form_length = 0;
    put_head(1, SETUP);
    for (int n = 0; n < SLOTS; n++) {
        put(bus[n].kind);
        put(bus[n].length);       /* of an absent slot it is 0 */
    }
    put_head(2, present_bytes());
    for (int n = 0; n < SLOTS; n++)
        for (int i = 0; i < bytes_of(bus[n].kind); i++)
            put(memory[SLOT_BYTES * n + i]);
    put_head(3, OF_SLOT * present_slots());
    for (int n = 0; n < SLOTS; n++)
        if (bus[n].kind != ABSENT)
            put_slot(&bus[n]);
    put_head(4, OF_SENSOR * slots_of(MEMORY_WITH_SENSOR));
    for (int n = 0; n < SLOTS; n++)
        if (bus[n].kind == MEMORY_WITH_SENSOR)
            put_sensor(&bus[n]);
    put_pending();
    put_older();                  /* behind tag 5 */
}

/* ---- Reading -------------------------------------------------------------- */

static const unsigned char *rest, *end;  /* what is still to read of a form */

static int word_at(const unsigned char *at) { return 256 * at[0] + at[1]; }

/* The contents of the next field; NULL if it is not of this tag and length. */
static const unsigned char *field(int tag, int length)
{
    const unsigned char *contents = rest + HEAD;

    if (end - rest < HEAD + length)
        return NULL;
    if (rest[0] != tag)
        return NULL;
    if (word_at(rest + 1) != length)
        return NULL;
    rest = contents + length;
    return contents;
}

static int pair_in_range(int kind, int length)
{
    if (kind == ABSENT)
        return length == 0;
    return kind <= OLDER && length >= 1 && length <= 5;
}

/* "Another half or bit falls under 10" of an older module, whose half is 0 and
 * whose protection is bit 0 alone. */
static int slot_in_range(int kind, const unsigned char *four)
{
    if (kind == OLDER && four[0] > 1)
        return 0;
    if (kind == OLDER && four[1] != 0)
        return 0;
    return four[0] <= 15 && four[1] <= 1 && four[3] <= 1;  /* any counter is */
}

static int sensor_in_range(const unsigned char *fifteen)
{
    if (fifteen[0] > 9)
        return 0;
    for (int i = 0; i < SAVED; i++)
        if (word_at(fifteen + 1 + 2 * i) & ~kept_bits[saved[i]])
            return 0;
    return 1;
}

/* Tag 5, where it is there: "a 1 where no change can be pending falls under 10",
 * and so does any other number than 0, and a field without a 1. */
static int pending_in_range(const unsigned char *ones, const unsigned char *fifteens, int sensors)
{
    int many = 0;

    for (int i = 0; i < sensors; i++) {
        int configuration = word_at(fifteens + OF_SENSOR * i + 1);

        if (ones[i] > 1)
            return 0;
        if (ones[i] == 1 && !can_pend(configuration))
            return 0;
        many += ones[i];
    }
    return many > 0;              /* else the field is not there */
}

/* A byte of tag 6, of a slot with this protection: bit 0 of the protection is
 * "set if permanent". */
static int older_in_range(int bits, int blocks)
{
    if (bits > 3)
        return 0;
    if (bits & 1 && !(blocks & 1))
        return 0;
    return 1;
}

static void take_slot(struct slot *s, const unsigned char *four)
{
    for (int b = 0; b < BLOCKS; b++)
        s->is_protected[b] = four[0] >> b & 1;
    s->half = four[1];
    s->counter = four[2];
    s->high_voltage = four[3];
}

static void take_sensor(struct slot *s, const unsigned char *fifteen)
{
    s->pointer = fifteen[0];
    for (int i = 0; i < SAVED; i++)
        s->reg[saved[i]] = word_at(fifteen + 1 + 2 * i);
}

static void take_older(struct slot *s, int bits)
{
    s->permanent = bits & 1;
    s->write_protect = bits >> 1;
}

/* The contents of the fields of a form. */
struct contents {
    const unsigned char *pairs, *bytes, *fours, *fifteens;
    const unsigned char *ones;    /* NULL where there is no tag 5 */
    const unsigned char *bits;    /* NULL where there is no tag 6 */
    int present, sensors, older;  /* slots of the setup */
    int stored;                   /* bytes of their memory */
};

/* "What was saved reads back the same, the rest as fresh, absent slots' bytes
 * untouched", and the upper 256 of older modules too.  Without tag 5 nothing is
 * pending; without tag 6 nothing is permanent, and the pins are off. */
static void restore(const struct contents *c)
{
    const unsigned char *bytes = c->bytes, *fours = c->fours, *fifteens = c->fifteens, *ones = c->ones, *bits = c->bits;
    unsigned char before[sizeof memory];

    memcpy(before, memory, sizeof memory);
    setup(c->pairs);              /* all fresh, but it fills the memory */
    memcpy(memory, before, sizeof memory);
    for (int n = 0; n < SLOTS; n++) {
        if (bus[n].kind == ABSENT)
            continue;
        memcpy(memory + SLOT_BYTES * n, bytes, (size_t)bytes_of(bus[n].kind));
        bytes += bytes_of(bus[n].kind);
        take_slot(&bus[n], fours);
        fours += OF_SLOT;
        if (bus[n].kind == MEMORY_WITH_SENSOR) {
            take_sensor(&bus[n], fifteens);
            fifteens += OF_SENSOR;
            if (ones != NULL)
                bus[n].pending = *ones++;
        }
        if (bus[n].kind == OLDER && bits != NULL)
            take_older(&bus[n], *bits++);
    }
}

/* A field of this tag, or what is left of one, is next. */
static int is_next(int tag) { return rest != end && rest[0] == tag; }

/* Finds the fields; 0 if one is missing, has another length or has something
 * behind it that is none. */
static int find_fields(struct contents *c)
{
    c->present = c->sensors = c->older = c->stored = 0;
    c->pairs = field(1, SETUP);
    if (c->pairs == NULL)
        return 0;
    for (int n = 0; n < SLOTS; n++) {
        if (!pair_in_range(c->pairs[2 * n], c->pairs[2 * n + 1]))
            return 0;
        c->present += c->pairs[2 * n] != ABSENT;
        c->sensors += c->pairs[2 * n] == MEMORY_WITH_SENSOR;
        c->older += c->pairs[2 * n] == OLDER;
        c->stored += bytes_of(c->pairs[2 * n]);
    }
    if ((c->bytes = field(2, c->stored)) == NULL)
        return 0;
    if ((c->fours = field(3, OF_SLOT * c->present)) == NULL)
        return 0;
    if ((c->fifteens = field(4, OF_SENSOR * c->sensors)) == NULL)
        return 0;
    c->ones = c->bits = NULL;
    if (is_next(5) && (c->ones = field(5, c->sensors)) == NULL)
        return 0;
    if (is_next(6) && (c->bits = field(6, c->older)) == NULL)
        return 0;
    return rest == end;           /* no bytes behind the end */
}

/* What tags 3 and 6 say of the slots, each by its kind.  A tag 6 of zeros is a
 * field that would not be there. */
static int slots_in_range(const struct contents *c)
{
    const unsigned char *four = c->fours, *bits = c->bits;
    int many = 0;

    for (int n = 0; n < SLOTS; n++) {
        int kind = c->pairs[2 * n];

        if (kind == ABSENT)
            continue;
        if (!slot_in_range(kind, four))
            return 0;
        if (kind == OLDER && bits != NULL) {
            if (!older_in_range(*bits, four[0]))
                return 0;
            many += *bits++ != 0;
        }
        four += OF_SLOT;          /* of the next that is present */
    }
    return bits == NULL || many > 0;
}

/* 1 if the form is accepted; the bench is then as it says.  Else 0, and the
 * bench stays. */
static int read_form(const unsigned char *bytes, size_t length)
{
    struct contents c;

    rest = bytes;
    end = bytes + length;
    if (!find_fields(&c))
        return 0;
    if (!slots_in_range(&c))
        return 0;
    for (int i = 0; i < c.sensors; i++)
        if (!sensor_in_range(c.fifteens + OF_SENSOR * i))
            return 0;
    if (c.ones != NULL && !pending_in_range(c.ones, c.fifteens, c.sensors))
        return 0;
    restore(&c);
    return 1;
}
#endif
