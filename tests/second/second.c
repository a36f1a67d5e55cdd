/*
 * The second opinion: the script program of document 01, written from that
 * document and sharing no line with the proved model.  At the few places where
 * the document is silent it takes the choices of docs/DECISIONS.md.  A power
 * cycle has a number, as request P3 ("Power lost in a write cycle") has it, a
 * temperature goes to the nearest step, as request P7 ("Rounding of
 * temperature") has it, a sensor has the pin of request P8 ("The EVENT pin"),
 * of which a script sees bit 4 of register 01h, and slots of kind 3 are as
 * request P9 ("Older 2-Kbit modules") has them.
 *
 * It follows the document's sections and uses its words.  It is meant to be
 * read beside the document, so it is plain rather than clever.  The file
 * tests/bus/planted.txt replaces single lines of it: keep the two in step.
 */
#include <stdio.h>
#include <string.h>

/* ---- What is modelled --------------------------------------------------- */

enum { SLOTS = 8, SLOT_BYTES = 512, PAGE = 16, BLOCKS = 4, REGISTERS = 10 };
enum { ABSENT = 0, MEMORY = 1, MEMORY_WITH_SENSOR = 2, OLDER = 3 };

/* What a slot makes of the next byte or read. */
enum doing {
    IDLE,           /* after a stop, a timeout or power: ignores, stays idle */
    DEAF,           /* hears nothing until the next start */
    STARTED,        /* the next byte is the control byte */
    WRITE_COUNTER,  /* memory write: the next byte loads the counter */
    WRITE_DATA,     /* memory write: the next byte is latched */
    READ_DATA,      /* memory read */
    HALF_SELECTED,  /* after 6Ch or 6Eh */
    ORDERED,        /* protect, clear or lasting form: see order and taken */
    SENSOR_POINTER, /* sensor write: the next byte is the pointer */
    SENSOR_HIGH,    /* sensor write: the next byte is the high byte */
    SENSOR_LOW,     /* sensor write: the next byte is the low byte */
    SENSOR_FULL,    /* sensor write: a third byte gets NACK */
    SENSOR_READ_1,  /* sensor read: the high byte is next */
    SENSOR_READ_2   /* sensor read: the low byte is next */
};

/* What a write cycle does when it ends: 0 to 3 protects that block, and
 * FOR_EVER, the lasting form of an older module, block 0. */
enum { CLEAR_ALL = 4, STORE_PAGE = 5, FOR_EVER = 6 };

/* Bits of 01h, the configuration: of the sensor, and of its EVENT pin. */
enum { HYSTERESIS = 0x0600, SHUTDOWN = 0x0100, LOCK_04 = 0x0080, LOCK_02_03 = 0x0040 };
enum { CLEAR_EVENT = 0x0020, READS_ASSERTED = 0x0010 };  /* neither is kept */
enum { ENABLED = 0x0008, CRITICAL_ALONE = 0x0004, ACTIVE_HIGH = 0x0002, INTERRUPT = 0x0001 };

/* Bits of 05h, the temperature: its flags. */
enum { ABOVE_CRITICAL = 0x8000, ABOVE_HIGH = 0x4000, BELOW_LOW = 0x2000 };

struct slot {
    int kind;                     /* 0 absent, 1 memory, 2 with sensor, 3 older */
    int length;                   /* of a write cycle, in ticks; absent: 0 */
    int is_protected[BLOCKS];
    int high_voltage;
    int half;                     /* the selected half */
    int counter;                  /* 0..255 */
    enum doing doing;
    unsigned char latch[PAGE];    /* bytes waiting for the stop or the cycle */
    int latched[PAGE];            /* which places of the latch hold one */
    int order;                    /* in ORDERED: block, CLEAR_ALL or FOR_EVER */
    int taken;                    /* in ORDERED: bytes taken so far */
    int ticks_left;               /* 0: no write cycle */
    int work;                     /* of the running write cycle */
    int pointer;                  /* of the sensor, 00h..09h */
    int reg[REGISTERS];
    int pending;                  /* a change of the high or low flag is */
    int high_byte;                /* in SENSOR_LOW: the byte before */
    int fixed;                    /* in SENSOR_READ: both bytes */
    int permanent;                /* kind 3: block 0 is protected for ever */
    int write_protect;            /* kind 3: the pin is on */
};

static struct slot bus[SLOTS];
static unsigned char memory[SLOTS * SLOT_BYTES];

/* ---- Fresh state and power cycle ---------------------------------------- */

/* All that setup and a power cycle have in common; protection, also for ever,
 * high voltage, the write-protect pin and memory are not touched here. */
static void make_fresh(struct slot *s)
{
    s->doing = IDLE;
    s->half = 0;
    s->counter = 0;
    s->ticks_left = 0;            /* no write cycle */
    s->pointer = 0;
    s->pending = 0;               /* nothing is */
    memset(s->latched, 0, sizeof s->latched);
    memset(s->reg, 0, sizeof s->reg);
    s->reg[0] = 0x00EF;           /* capability */
    s->reg[6] = 0x104A;
    s->reg[7] = 0x2201;
    s->reg[8] = 0x0001;           /* resolution */
    s->reg[9] = 0x0001;           /* timeout */
}

/* Takes the eight pairs; 0 if they are bad (refusal 5). */
static int setup(const unsigned char pairs[2 * SLOTS])
{
    for (int n = 0; n < SLOTS; n++) {
        int kind = pairs[2 * n];
        int length = pairs[2 * n + 1];
        struct slot *s = &bus[n];

        if (kind > 3)
            return 0;
        if (kind != ABSENT && (length < 1 || length > 5))
            return 0;
        memset(s, 0, sizeof *s);  /* no protection, voltage and pin off */
        s->kind = kind;
        s->length = kind == ABSENT ? 0 : length;
        make_fresh(s);
    }
    memset(memory, 0xFF, sizeof memory);
    return 1;
}

/* ---- Write cycle -------------------------------------------------------- */

static void begin_cycle(struct slot *s, int work)
{
    s->work = work;
    s->ticks_left = s->length;
}

/* Address = 256 x half + counter, within the slot's 512 bytes.  An older
 * module has the first 256 of them, and half 0 always. */
static int address(const struct slot *s)
{
    return 256 * s->half + s->counter;
}

/* Stores the latched bytes, in ascending page offset, the first so many of
 * them, and touches no other.  While the cycle runs the slot acknowledges
 * nothing, so half and counter still stand as at the stop. */
static void store_first(int n, int many)
{
    struct slot *s = &bus[n];
    int page = SLOT_BYTES * n + address(s) / PAGE * PAGE;

    for (int i = 0; i < PAGE && many > 0; i++)
        if (s->latched[i]) {
            memory[page + i] = s->latch[i];
            many--;               /* bytes are counted, not places */
        }
}

/* The new protection of a protect, a clear or a lasting form. */
static void change_protection(struct slot *s)
{
    if (s->work == CLEAR_ALL) {
        for (int b = 0; b < BLOCKS; b++)
            s->is_protected[b] = 0;
    } else if (s->work == FOR_EVER) {
        s->is_protected[0] = 1;   /* "set if permanent" */
        s->permanent = 1;
    } else {
        s->is_protected[s->work] = 1;
    }
}

/* "The tick that ends it puts the latched bytes in memory and touches no
 * other"; "protection changes when it ends". */
static void end_cycle(int n)
{
    if (bus[n].work == STORE_PAGE)
        store_first(n, PAGE);     /* however many there are */
    else
        change_protection(&bus[n]);
}

static void tick(int n)
{
    struct slot *s = &bus[n];

    if (s->ticks_left == 0)
        return;
    s->ticks_left--;
    if (s->ticks_left == 0)
        end_cycle(n);
}

/* ---- Power lost in a write cycle (request P3) --------------------------- */

/* "Of the bytes latched in a running cycle, in ascending page offset, the
 * first so many are stored and the rest are lost.  For protect and clear, 0
 * keeps the old protection and any other number brings the new." */
static void cut_cycle(int n, int number)
{
    if (bus[n].work == STORE_PAGE)
        store_first(n, number);
    else if (number > 0)
        change_protection(&bus[n]);
}

/* Every slot in a cycle counts for itself.  A write whose stop has not come is
 * in no cycle, so its bytes are abandoned whatever the number. */
static void power_cycle(int n, int number)
{
    struct slot *s = &bus[n];
    int running = s->ticks_left > 0;

    if (running)                  /* else "the number has no effect" */
        cut_cycle(n, number);
    make_fresh(s);
}

/* ---- The EVENT pin (request P8) ----------------------------------------- */

/* "A change is pending only while the pin is enabled in interrupt mode with
 * bit 2 at 0." */
static int can_pend(int configuration)
{
    return (configuration & (ENABLED | CRITICAL_ALONE | INTERRUPT)) == (ENABLED | INTERRUPT);
}

/* Whether the pin is asserted, whatever its level then is.  "The critical flag
 * keeps comparator behaviour" in interrupt mode. */
static int is_asserted(const struct slot *s)
{
    int configuration = s->reg[1];
    int flags = s->reg[5];

    if (!(configuration & ENABLED))
        return 0;
    if (flags & ABOVE_CRITICAL)
        return 1;
    if (configuration & INTERRUPT)
        return s->pending;
    if (configuration & CRITICAL_ALONE)
        return 0;
    return (flags & (ABOVE_HIGH | BELOW_LOW)) != 0;
}

/* After a write to 01h with this word: one with bit 5 set clears, under a lock
 * too; one that leaves the mode in which a change can pend drops it for good. */
static void drop_pending(struct slot *s, int value)
{
    if (value & CLEAR_EVENT)
        s->pending = 0;
    if (!can_pend(s->reg[1]))
        s->pending = 0;
}

/* What a read of the pointed register gives as it stands now.  "Bit 5 reads 0
 * and bit 4 reads whether the pin is asserted." */
static int word_to_read(const struct slot *s)
{
    int word = s->reg[s->pointer];

    if (s->pointer == 1 && is_asserted(s))
        word |= READS_ASSERTED;
    return word;
}

/* ---- Control byte ------------------------------------------------------- */

/* Each returns 1 for an ACK, with what the slot does from then on. */

static int take_order(struct slot *s, int order)
{
    s->doing = ORDERED;
    s->order = order;
    s->taken = 0;
    return 1;
}

static int protect_or_clear(struct slot *s, int order)
{
    if (!s->high_voltage)
        return 0;
    if (order != CLEAR_ALL && s->is_protected[order])
        return 0;
    return take_order(s, order);
}

static int select_half(struct slot *s, int half)
{
    s->half = half;               /* takes effect at the ACK */
    s->doing = HALF_SELECTED;
    return 1;
}

static int read_protection(struct slot *s, int block)
{
    s->doing = DEAF;              /* afterwards bytes get NACK, reads FFh */
    return !s->is_protected[block];
}

static int read_half(struct slot *s)
{
    s->doing = DEAF;              /* the same */
    return s->half == 0;
}

/* The 0110 bytes of an older module (request P9): 62h and 66h and their read
 * forms with high voltage on, its own select and its read form with it off.
 * Whoever a 62h is meant for, a module with select 1 takes it as its own. */
static int older_command(int n, int byte)
{
    struct slot *s = &bus[n];
    int own = 0x60 + 2 * n;       /* its select, and a write bit */

    if (s->permanent)
        return 0;                 /* "every 0110 byte gets NACK" */
    if (s->high_voltage) {
        if (byte == 0x62)
            return protect_or_clear(s, 0);
        if (byte == 0x66)
            return protect_or_clear(s, CLEAR_ALL);
        if (byte == 0x63 || byte == 0x67)
            return read_protection(s, 0);
        return 0;                 /* its own select too */
    }
    if (byte == own)
        return take_order(s, FOR_EVER);  /* on a protected block too */
    if (byte == own + 1)
        return read_protection(s, 0);
    return 0;                     /* halves too: it has one */
}

static int command(int n, int byte)
{
    struct slot *s = &bus[n];

    if (s->kind == OLDER)
        return older_command(n, byte);
    switch (byte) {
    case 0x62: return protect_or_clear(s, 0);
    case 0x68: return protect_or_clear(s, 1);
    case 0x6A: return protect_or_clear(s, 2);
    case 0x60: return protect_or_clear(s, 3);
    case 0x66: return protect_or_clear(s, CLEAR_ALL);
    case 0x63: return read_protection(s, 0);
    case 0x69: return read_protection(s, 1);
    case 0x6B: return read_protection(s, 2);
    case 0x61: return read_protection(s, 3);
    case 0x6C: return select_half(s, 0);
    case 0x6E: return select_half(s, 1);
    case 0x6D: return read_half(s);
    default: return 0;            /* 64h 65h 67h 6Fh: never */
    }
}

static int control_byte(int n, int byte)
{
    struct slot *s = &bus[n];
    int family = byte >> 4;
    int selects_me = (byte >> 1 & 7) == n;
    int reading = byte & 1;

    if (s->kind == ABSENT)
        return 0;
    if (s->ticks_left > 0)        /* in a write cycle: acknowledges none */
        return 0;
    if (family == 0xA && selects_me) {
        memset(s->latched, 0, sizeof s->latched);  /* none yet */
        s->doing = reading ? READ_DATA : WRITE_COUNTER;
        return 1;
    }
    if (family == 0x3 && selects_me && s->kind == MEMORY_WITH_SENSOR) {
        s->fixed = word_to_read(s);  /* both bytes fixed at this ACK */
        s->doing = reading ? SENSOR_READ_1 : SENSOR_POINTER;
        return 1;
    }
    if (family == 0x6)
        return command(n, byte);
    return 0;
}

/* ---- Memory exchanges --------------------------------------------------- */

/* Whether the write-protect pin of an older module is on (request P9); other
 * slots have none. */
static int pin_is_on(const struct slot *s)
{
    return s->kind == OLDER && s->write_protect;
}

static int latch_byte(struct slot *s, int byte)
{
    int block = address(s) / 128;
    int offset = s->counter % PAGE;

    if (s->is_protected[block])
        return 0;                 /* NACK, deaf, counter still */
    if (pin_is_on(s))
        return 0;                 /* the same, in both blocks */
    s->latch[offset] = (unsigned char)byte;
    s->latched[offset] = 1;
    s->counter = s->counter / 16 * 16 + (offset + 1) % 16;
    return 1;
}

static int read_memory(int n)
{
    struct slot *s = &bus[n];
    int byte = memory[SLOT_BYTES * n + address(s)];

    s->counter = (s->counter + 1) % 256;
    return byte;
}

static int any_latched(const struct slot *s)
{
    for (int offset = 0; offset < PAGE; offset++)
        if (s->latched[offset])
            return 1;
    return 0;
}

/* ---- Sensor ------------------------------------------------------------- */

static int write_configuration(int old, int value)
{
    int locks = (old | value) & (LOCK_04 | LOCK_02_03);  /* a set lock holds */
    int others = HYSTERESIS | 0x000F;

    if (old & (LOCK_04 | LOCK_02_03))
        return (old & others) | (old & value & SHUTDOWN) | locks;
    return (value & others) | (value & SHUTDOWN) | locks;
}

/* 00h, 05h, 06h, 07h and locked registers ignore writes, yet acknowledge. */
static void write_register(struct slot *s, int value)
{
    int configuration = s->reg[1];

    switch (s->pointer) {
    case 1:
        s->reg[1] = write_configuration(configuration, value);
        drop_pending(s, value);
        break;
    case 2:
    case 3:
        if (!(configuration & LOCK_02_03))
            s->reg[s->pointer] = value & 0x1FFC;
        break;
    case 4:
        if (!(configuration & LOCK_04))
            s->reg[4] = value & 0x1FFC;
        break;
    case 8:
        s->reg[8] = value & 0x0003;
        break;
    case 9:
        s->reg[9] = value & 0x0001;
        break;
    }
}

/* Bits 12:0 as a number in two's complement. */
static int signed_13(int bits)
{
    bits &= 0x1FFF;
    return bits >= 0x1000 ? bits - 0x2000 : bits;
}

/* The multiple of step that is nearest to the given number; where two are
 * equally near, the greater, below zero too (request P7). */
static int nearest(int given, int step)
{
    int rest = given % step;      /* has the sign of given, or is 0 */

    if (rest < 0)
        rest += step;             /* now above the multiple below */
    if (2 * rest < step)
        return given - rest;
    return given - rest + step;
}

/* The flags are judged by t, the rounded number; limits, with and without
 * hysteresis, are taken as they are. */
static void convert(struct slot *s, int given)
{
    static const int step_of[4] = { 8, 4, 2, 1 };
    static const int hysteresis_of[4] = { 0, 24, 48, 96 };
    int configuration = s->reg[1];
    int step = step_of[s->reg[8]];
    int t = nearest(given, step);
    int h = hysteresis_of[(configuration & HYSTERESIS) >> 9];
    int high = signed_13(s->reg[2]);
    int low = signed_13(s->reg[3]);
    int critical = signed_13(s->reg[4]);
    int flags = s->reg[5] & (ABOVE_CRITICAL | ABOVE_HIGH | BELOW_LOW);

    if (configuration & SHUTDOWN)
        return;

    if (t >= critical)
        flags |= ABOVE_CRITICAL;
    if (t < critical - h)
        flags &= ~ABOVE_CRITICAL;

    if (t > high)
        flags |= ABOVE_HIGH;
    if (t <= high - h)
        flags &= ~ABOVE_HIGH;

    if (t < low - h)
        flags |= BELOW_LOW;
    if (t >= low)
        flags &= ~BELOW_LOW;

    s->reg[5] = flags | ((t + 0x2000) & 0x1FFF);
}

/* A conversion after which the high or the low flag is not what it was before
 * is a change, and pends where one can (request P8). */
static void temperature(struct slot *s, int given)
{
    int before = s->reg[5];
    int changed;

    convert(s, given);
    changed = (s->reg[5] ^ before) & (ABOVE_HIGH | BELOW_LOW);
    if (changed && can_pend(s->reg[1]))
        s->pending = 1;           /* until it is cleared, or dropped */
}

/* ---- Events on one slot ------------------------------------------------- */

static void start(struct slot *s)
{
    s->doing = STARTED;           /* abandons bytes, cancels protect and clear */
}

/* What the slot does with a byte; 1 for an ACK. */
static int take_byte(int n, int byte)
{
    struct slot *s = &bus[n];

    switch (s->doing) {
    case STARTED:
        return control_byte(n, byte);

    case WRITE_COUNTER:
        s->counter = byte;
        s->doing = WRITE_DATA;
        return 1;
    case WRITE_DATA:
        return latch_byte(s, byte);

    case HALF_SELECTED:           /* acknowledged and ignored */
        return 1;
    case ORDERED:                 /* one address byte and one data byte */
        s->taken++;
        return s->taken <= 2;

    case SENSOR_POINTER:
        if (byte > 0x09)
            return 0;
        s->pointer = byte;
        s->doing = SENSOR_HIGH;
        return 1;
    case SENSOR_HIGH:
        s->high_byte = byte;
        s->doing = SENSOR_LOW;
        return 1;
    case SENSOR_LOW:
        write_register(s, 256 * s->high_byte + byte);
        s->doing = SENSOR_FULL;
        return 1;

    default:                      /* deaf, reading, third sensor byte */
        return 0;
    }
}

/* "A slot that doesn't acknowledge is deaf until the next start." */
static int byte_to_slot(int n, int byte)
{
    if (bus[n].doing == IDLE)     /* "ignores bytes and stays idle" */
        return 0;
    if (take_byte(n, byte))
        return 1;
    bus[n].doing = DEAF;
    return 0;
}

/* What the slot drives, or -1 if it drives nothing. */
static int read_from_slot(int n, int master_acks)
{
    struct slot *s = &bus[n];
    int byte = -1;
    enum doing next = DEAF;       /* not served: deaf */

    if (s->doing == IDLE)
        return -1;
    if (s->doing == READ_DATA) {
        byte = read_memory(n);
        next = READ_DATA;
    } else if (s->doing == SENSOR_READ_1) {
        byte = s->fixed / 256;
        next = SENSOR_READ_2;
    } else if (s->doing == SENSOR_READ_2) {
        byte = s->fixed % 256;
    }
    if (!master_acks)
        next = DEAF;              /* after a master NACK the slot is deaf */
    s->doing = next;
    return byte;
}

static void stop(struct slot *s)
{
    if (s->doing == WRITE_DATA && any_latched(s))
        begin_cycle(s, STORE_PAGE);
    if (s->doing == ORDERED && s->taken == 2 && !pin_is_on(s))
        begin_cycle(s, s->order); /* else "without cycle or effect" */
    s->doing = IDLE;              /* a stop makes it idle */
}

static void timeout(struct slot *s)
{
    s->doing = IDLE;              /* abandons; a running cycle goes on */
}

static void high_voltage(struct slot *s, int on)
{
    s->high_voltage = on;
    if (!on && s->doing == ORDERED && s->order != FOR_EVER)
        s->doing = DEAF;          /* going off before the stop cancels */
}

/* It is asked at each data byte, and at the stop of a command; a write whose
 * bytes were acknowledged and a running cycle are not touched. */
static void write_protect(struct slot *s, int on)
{
    s->write_protect = on;
}

/* ---- Refusal numbers ---------------------------------------------------- */

/* 0 if the event is not refused.  1, 5 and 6 cannot come up in a script. */
static int refusal(int kind, int slot, int value)
{
    if (kind < 1 || kind > 10)
        return 2;
    if (kind == 7 && (slot > 7 || bus[slot].kind == ABSENT))
        return 3;
    if (kind == 9 && (slot > 7 || bus[slot].kind != MEMORY_WITH_SENSOR))
        return 3;
    if (kind == 10 && (slot > 7 || bus[slot].kind != OLDER))
        return 3;
    if (kind == 2 && (value < 0 || value > 255))
        return 4;
    if (kind == 3 && (value < 0 || value > 1))
        return 4;
    if (kind == 7 && (value < 0 || value > 1))
        return 4;
    if (kind == 8 && (value < 0 || value > 16))
        return 4;                 /* whether or not a cycle runs */
    if (kind == 9 && (value < -640 || value > 2000))
        return 4;
    if (kind == 10 && (value < 0 || value > 1))
        return 4;
    return 0;
}

/* ---- The script program ------------------------------------------------- */

static unsigned char out[65536];
static size_t out_length;

static void flush(void)
{
    fwrite(out, 1, out_length, stdout);
    out_length = 0;
}

static void say(const char *text)
{
    size_t length = strlen(text);

    if (out_length + length + 1 > sizeof out)
        flush();
    memcpy(out + out_length, text, length);
    out_length += length;
    out[out_length++] = 0x0A;
}

/* Does one event and says its line. */
static void event(int kind, int slot, int value)
{
    static const char digits[] = "0123456789ABCDEF";
    int number = refusal(kind, slot, value);
    int acks = 0;
    int data = -1;

    if (number != 0) {
        char line[3] = { 'R', digits[number], 0 };
        say(line);
        return;
    }
    for (int n = 0; n < SLOTS; n++) {
        struct slot *s = &bus[n];
        int driven;

        switch (kind) {
        case 1: start(s); break;
        case 2: acks += byte_to_slot(n, value); break;
        case 3:
            driven = read_from_slot(n, value);
            if (data < 0)         /* of several driving slots the lowest */
                data = driven;
            break;
        case 4: stop(s); break;
        case 5: timeout(s); break;
        case 6: tick(n); break;
        case 7: if (n == slot) high_voltage(s, value); break;
        case 8: power_cycle(n, value); break;
        case 9: if (n == slot) temperature(s, value); break;
        case 10: if (n == slot) write_protect(s, value); break;
        }
    }
    if (kind == 2) {
        say(acks > 0 ? "A" : "N");
    } else if (kind == 3) {
        if (data < 0)
            data = 0xFF;          /* none drives */
        char line[4] = { 'D', digits[data / 16], digits[data % 16], 0 };
        say(line);
    } else {
        say("-");
    }
}

static void records(void)
{
    static unsigned char in[65536];  /* a whole number of records */
    size_t length;

    do {
        length = fread(in, 1, sizeof in, stdin);
        for (size_t i = 0; i + 4 <= length; i += 4) {
            int value = 256 * in[i + 2] + in[i + 3];
            if (value >= 32768)
                value -= 65536;   /* two's complement */
            event(in[i], in[i + 1], value);
        }
        if (length % 4 != 0)      /* only at the end of the input */
            say("short");
    } while (length == sizeof in);
}

int main(void)
{
    unsigned char pairs[2 * SLOTS];

    if (fread(pairs, 1, sizeof pairs, stdin) < sizeof pairs)
        say("short");
    else if (!setup(pairs))
        say("R5");
    else
        records();
    flush();
    return 0;
}
