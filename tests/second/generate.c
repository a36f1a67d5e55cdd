/*
 * generate SEED EVENTS [odd]: writes a script for the script program of
 * document 01 to standard output: a setup and EVENTS records.
 *
 * The scripts are random but meant: whole exchanges of every sort, a good
 * share of them then disturbed (cut, interrupted, mixed up), with ticks,
 * voltage and temperature events around them, power lost in write cycles, and
 * all that the EVENT pin, or an older module and its write-protect pin, minds or
 * should not.  The generator knows nothing of the device's answers; it only
 * remembers what it wrote where, so that it comes back to the same places.  The
 * same arguments always give the same script.
 *
 * With `odd` the setup is bad or cut short, or the last record is cut.
 */
#include <stdio.h>
#include <stdlib.h>
#include <string.h>
#include "chance.h"

enum { START = 1, BYTE, READ, STOP, TIMEOUT, TICK, VOLTAGE, POWER, TEMPERATURE, WRITE_PROTECT };

/* ---- What the generator remembers --------------------------------------- */

static int kind_of[8], length_of[8];     /* the setup */
static int favourite[2], with_sensor;    /* slots most exchanges go to */
static int older;                        /* a slot of kind 3, if there is one */
static int places[4];                    /* addresses this script comes back to */
static int limit[8][3];                  /* last written: high, low, critical */
static int resolution[8];                /* last written: 0 to 3 */
static int lately;                       /* 0, 1 or 2: the limit written last */
static int configured[8];                /* register 01h, by what was written since power came */
static int voltage[8], pin[8];           /* on or off, as they were set last */
static int in_hand;                      /* the slot of the exchange being made */
static long left;                        /* records still to write */

static void forget(void)
{
    memset(limit, 0, sizeof limit);
    memset(configured, 0, sizeof configured);
    for (int n = 0; n < 8; n++)
        resolution[n] = 1;
}

static int locks(int n) { return configured[n] & 0x00C0; }

static int hysteresis(int n)
{
    static const int sixteenths[] = { 0, 24, 48, 96 };

    return sixteenths[configured[n] >> 9 & 3];
}

/* ---- Records ------------------------------------------------------------ */

static void record(int kind, int slot, int value)
{
    if (left <= 0)
        return;
    left--;
    if (kind == POWER && value >= 0 && value <= 16)
        forget();
    if (kind == VOLTAGE && slot < 8)
        voltage[slot] = value;
    if (kind == WRITE_PROTECT && slot < 8)
        pin[slot] = value;
    putchar(kind);
    putchar(slot);
    putchar(value >> 8 & 255);
    putchar(value & 255);
}

static int any_value(void)
{
    static const int ends[] = { -32768, -641, -640, -2, -1, 0, 1, 2, 255, 256,
                                2000, 2001, 32767 };
    return one_in(6) ? between(-32768, 32767) : ONE_OF(ends);
}

static int any_slot(void)
{
    static const int high[] = { 8, 8, 8, 8, 8, 9, 16, 128, 255 };
    return one_in(2) ? ONE_OF(high) : below(8);
}

/* An exchange is gathered here first, so that it can be disturbed. */
struct event { int kind, slot, value; };
static struct event gathered[200];
static int count;

static void insert(int at, int kind, int slot, int value)
{
    if (count == 200)
        return;
    memmove(gathered + at + 1, gathered + at, (size_t)(count - at) * sizeof gathered[0]);
    gathered[at].kind = kind;
    gathered[at].slot = slot;
    gathered[at].value = value;
    count++;
}

static void add(int kind, int value) { insert(count, kind, 0, value); }

/* ---- Slots, addresses, temperatures ------------------------------------- */

static int any_of_eight(void)
{
    int n = below(8);
    return kind_of[n] ? n : below(8);    /* mostly one that is there */
}

static int a_slot(void)
{
    return in_hand = below(3) ? favourite[below(2)] : any_of_eight();
}

static int a_sensor(void) { return in_hand = below(8) ? with_sensor : any_of_eight(); }

/* Near the ends of pages, of blocks and of the half. */
static int an_address(void)
{
    static const int ends[] = { 0x00, 0x01, 0x0E, 0x0F, 0x10, 0x1F, 0x70, 0x7E, 0x7F,
                                0x80, 0x81, 0x8F, 0xEF, 0xF0, 0xFD, 0xFE, 0xFF };
    switch (below(8)) {
    case 0: return below(256);
    case 1: return ONE_OF(ends);
    default: return ONE_OF(places);
    }
}

/* A limit, with or without hysteresis. */
static int an_edge(int n)
{
    int edge = limit[n][one_in(2) ? lately : below(3)];

    return one_in(2) ? edge - hysteresis(n) : edge;
}

static int step_of(int n) { return 8 >> resolution[n]; }

/* So many half steps from there, few or none, or one sixteenth beside that. */
static int beside(int n, int there)
{
    static const int halves[] = { 0, 0, 1, 1, -1, -1, 2, -2 };
    int many = ONE_OF(halves);

    return there + many * step_of(n) / 2 + between(-1, 1);
}

/* In the middle between two steps, or one sixteenth beside that. */
static int a_middle(int n)
{
    int many = one_in(2) ? between(-4, 3) : between(-80, 80);

    return many * step_of(n) + step_of(n) / 2 + between(-1, 1);
}

static int within(int t) { return t < -640 ? -640 : t > 2000 ? 2000 : t; }

/* Mostly around a limit, where the given one and the rounded one may be on
 * different sides of it, or in the middle between two steps. */
static int a_temperature(int n)
{
    static const int ends[] = { -640, -639, -641, 2000, 1999, 2001, -32768, 32767 };
    static const int near[] = { 0, 0, 0, 1, -1, 2, -2, 3, -3, 4, -4, 8, -8 };
    int edge = an_edge(n);

    switch (below(16)) {
    case 0: return ONE_OF(ends);
    case 1: return between(-640, 2000);
    case 2: return between(-9, 9);
    case 3: case 4: case 5: return within(a_middle(n));
    case 6: return within(edge + between(-100, 100));
    case 7: case 8: case 9: case 10: return within(edge + ONE_OF(near));
    default: return within(beside(n, edge));
    }
}

/* ---- Disturbing and playing --------------------------------------------- */

/* Kinds, slots and values out of their ranges, or at the ends of them. */
static void rubbish_at(int at)
{
    static const int kinds[] = { 0, 11, 255, 128, BYTE, BYTE, READ, READ, VOLTAGE, VOLTAGE, POWER,
                                 TEMPERATURE, TEMPERATURE, TEMPERATURE, WRITE_PROTECT, WRITE_PROTECT };
    static const int ends[11][4] = {
        [BYTE] = { -1, 0, 255, 256 }, [READ] = { -1, 0, 1, 2 }, [POWER] = { -1, 0, 16, 17 },
        [VOLTAGE] = { -1, 0, 1, 2 }, [TEMPERATURE] = { -641, -640, 2000, 2001 },
        [WRITE_PROTECT] = { -1, 1, 2, 256 } };
    int kind = ONE_OF(kinds);
    int slot = !one_in(3) ? any_slot() : kind == WRITE_PROTECT ? older : with_sensor;

    insert(at, kind, slot, kind <= WRITE_PROTECT && one_in(2) ? ends[kind][below(4)] : any_value());
}

static void intrude(int at)
{
    int n = one_in(2) ? in_hand : below(8);

    switch (below(15)) {
    case 0: insert(at, START, 0, 0); break;
    case 1: insert(at, STOP, 0, 0); break;
    case 2: insert(at, TIMEOUT, 0, 0); break;
    case 3: case 4: insert(at, READ, 0, below(2)); break;
    case 5: insert(at, BYTE, 0, below(256)); break;
    case 6: for (int k = between(1, 5); k > 0; k--) insert(at, TICK, 0, 0); break;
    case 7: insert(at, TICK, 0, 0); break;
    case 8: insert(at, VOLTAGE, n, below(2)); break;
    case 9: insert(at, VOLTAGE, in_hand, 0); break;
    case 10: insert(at, TEMPERATURE, n, a_temperature(n)); break;
    case 11: insert(at, TEMPERATURE, with_sensor, a_temperature(with_sensor)); break;
    case 12: rubbish_at(at); break;
    case 13: insert(at, WRITE_PROTECT, one_in(2) ? older : n, below(2)); break;
    default: insert(at, POWER, 0, one_in(4) ? a_number() : a_wrong_number()); break;
    }
}

static void disturb(void)
{
    int at = below(count + 1);

    switch (below(8)) {
    case 0: count = at; break;                         /* cut */
    case 1: count--; break;                            /* no stop */
    case 2: gathered[count - 1].kind = TIMEOUT; break; /* instead of the stop */
    case 3:                                            /* one is lost */
        if (at < count) {
            memmove(gathered + at, gathered + at + 1,
                    (size_t)(count - at - 1) * sizeof gathered[0]);
            count--;
        }
        break;
    default: intrude(at); break;
    }
}

/* Writes the gathered events; cells that are to be ignored hold anything. */
static void play_as_is(void)
{
    for (int i = 0; i < count; i++) {
        struct event e = gathered[i];
        if (e.kind >= START && e.kind <= POWER && e.kind != VOLTAGE && one_in(8)) {
            e.slot = below(256);
            if (e.kind != BYTE && e.kind != READ && e.kind != POWER)
                e.value = any_value();
        }
        record(e.kind, e.slot, e.value);
    }
    count = 0;
}

static void play(void)
{
    if (one_in(4))
        do
            disturb();
        while (count > 0 && one_in(3));
    play_as_is();
}

/* ---- Exchanges ---------------------------------------------------------- */

/* A byte or a read where none belongs; bytes are so many in four. */
static void stray(int bytes)
{
    int kind = below(4) < bytes ? BYTE : READ;
    add(kind, below(2));
}

static void reads(int many)
{
    for (int i = 1; i <= many; i++) {
        if (one_in(30))
            add(BYTE, below(256));
        add(READ, i < many || one_in(10));
    }
    if (one_in(8))
        add(READ, below(2));
}

/* So many ticks that the slot's write cycle is often just over, or just not. */
static void ticks(int n)
{
    int many = kind_of[n] ? length_of[n] : 3;

    switch (below(8)) {
    case 0: many = 0; break;
    case 1: many -= 1; break;
    case 2: many += 1; break;
    case 3: many = below(7); break;
    }
    while (many-- > 0)
        add(TICK, 0);
    if (one_in(12)) {
        int on = below(2);
        insert(below(count + 1), VOLTAGE, n, on);
    }
    play_as_is();
}

static void random_read(int n, int place, int many)
{
    add(START, 0);
    add(BYTE, 0xA0 | n << 1);
    add(BYTE, place);
    if (one_in(4))
        add(STOP, 0);
    add(START, 0);
    add(BYTE, 0xA1 | n << 1);
    reads(many);
    add(STOP, 0);
    play();
}

static void current_read(int n)
{
    add(START, 0);
    add(BYTE, 0xA1 | n << 1);
    reads(between(1, 4));
    add(STOP, 0);
    play();
}

static void remember(int n, int which, int value)
{
    int changes = locks(n) ? 0 : 0x060F;

    if (which == 1) {
        if (locks(n))
            value &= ~0x0100 | configured[n];
        configured[n] = (configured[n] & (0x06CF & ~changes)) | (value & (0x01C0 | changes));
    } else if (which >= 2 && which <= 4) {
        if (!(locks(n) & (which == 4 ? 0x0080 : 0x0040)))
            limit[n][lately = which - 2] = (value & 0x0FFC) - (value & 0x1000);
    } else if (which == 8) {
        resolution[n] = value & 3;
    }
}

static int a_register_value(int n, int which)
{
    static const int ends[] = { 0x1000, 0x1000, 0x0FFC, 0x1FFC, 0xFFFF };
    int value = below(65536);

    if (which == 1) {
        value &= 0xF83F;
        value |= below(4) << 9;
        if (one_in(6)) value |= 0x0080;
        if (one_in(6)) value |= 0x0040;
        if (one_in(locks(n) || value & 0x00C0 ? 2 : 6)) value |= 0x0100;
    } else if (which >= 2 && which <= 4) {
        if (one_in(which == 4 ? 3 : 4))
            value = ONE_OF(ends);
        else if (one_in(4))
            value = between(-160, 500) * 4;
        else if (below(8))
            value = between(-30, 60) * 4;
    } else if (which == 8 && one_in(2)) {
        value = (value & 0xFFFC) + below(3);  /* a step that has a middle */
    }
    return value & 0xFFFF;
}

static void point(int n, int which)
{
    add(START, 0);
    add(BYTE, 0x30 | n << 1);
    add(BYTE, which);
}

/* With which < 0 the pointer is left where it is. */
static void sensor_read(int n, int which)
{
    if (which >= 0)
        point(n, which);
    add(START, 0);
    add(BYTE, 0x31 | n << 1);
    reads(one_in(5) ? between(0, 4) : 2);
    if (one_in(8)) {                     /* between the two bytes, or near */
        int t = a_temperature(n);
        insert(count - below(3), TEMPERATURE, n, t);
    }
    add(STOP, 0);
    play();
}

/* From so far off that the flag is sure, right to where it may change: mostly
 * from below to the limit, and from above to the limit less hysteresis. */
static void approach(int n)
{
    int lower = one_in(2);
    int from_above = one_in(6) ? !lower : lower;
    int edge = limit[n][below(3)] - (lower ? hysteresis(n) : 0);
    int far = hysteresis(n) + between(12, 40);

    record(TEMPERATURE, n, within(from_above ? edge + far : edge - far));
    record(TEMPERATURE, n, within(beside(n, edge)));
    sensor_read(n, 5);
}

static void send_register(int n, int which, int value)
{
    remember(n, which, value);
    point(n, which);
    add(BYTE, value >> 8);
    add(BYTE, value & 255);
}

static void set_register(int n, int which, int value)
{
    send_register(n, which, value);
    add(STOP, 0);
    play_as_is();
}

/* Not shut down, and all three limits alike, so that each temperature tries
 * all three flags; often in steps of 8, between which a limit may lie.  Then a
 * new resolution, which waits. */
static void try_flags(int n)
{
    int edge = between(-60, 120) * 4 & 0xFFFF;

    set_register(n, 1, below(4) << 9);
    set_register(n, 8, one_in(3) ? 0 : below(4));
    for (int which = 2; which <= 4; which++)
        set_register(n, which, edge);
    for (int k = between(3, 6); k > 0; k--)
        approach(n);
    if (one_in(2)) {
        set_register(n, 8, below(4));
        sensor_read(n, 5);
    }
}

/* One temperature, or several: to a limit, here and there, or a walk. */
static void measure(int n)
{
    int many = one_in(2) ? 1 : between(2, 8);
    int step = one_in(2) ? 0 : between(-4, 4);
    int t = a_temperature(n);

    if (one_in(6)) {
        try_flags(n);
        return;
    }
    if (one_in(3)) {
        approach(n);
        return;
    }
    for (int i = 0; i < many; i++) {
        record(TEMPERATURE, n, t);
        sensor_read(n, i == 0 ? 5 : -1);
        t = step != 0 ? t + step : a_temperature(n);
    }
}

static void sensor_write(void)
{
    static const int pointers[] = { 1, 1, 1, 2, 2, 3, 3, 4, 4, 8, 8, 8, 9 };
    int n = a_sensor();
    int which = one_in(6) ? below(12) : locks(n) && one_in(3) ? 1 : ONE_OF(pointers);
    int value = a_register_value(n, which);
    int many = one_in(8) ? below(4) : 2;

    remember(n, which, value);
    point(n, one_in(40) ? below(256) : which);
    if (many > 0) add(BYTE, value >> 8);
    if (many > 1) add(BYTE, value & 255);
    if (many > 2) add(BYTE, below(256));
    if (many < 2 && one_in(2)) {         /* a repeated start, then the read */
        add(START, 0);
        add(BYTE, 0x31 | n << 1);
        reads(2);
    }
    add(STOP, 0);
    play();
    if (one_in(3))
        sensor_read(n, one_in(which == 8 ? 2 : 4) ? 5 : which);
    if (one_in(which == 8 ? 2 : 3))
        measure(n);
}

/* Sets the limits, the resolution and the configuration of a sensor. */
static void prime(int n)
{
    static const int order[] = { 8, 4, 3, 2, 1 };

    for (int i = 0; i < 5; i++)
        set_register(n, order[i], a_register_value(n, order[i]));
}

/* ---- The EVENT pin ------------------------------------------------------ */

/* Bits 3:0 of a configuration: mostly those with which a change can pend. */
static int pin_bits(void) { return one_in(2) ? below(16) : one_in(2) ? 0x0009 : 0x000B; }

static int bits_now(int n) { return configured[n] & 0x000F; }

/* Low, high and critical so far apart that each flag can be had alone; the
 * critical one is mostly out of the way. */
static void part_limits(int n)
{
    int low = between(-60, 40) * 4;
    int high = low + between(25, 55) * 4;
    int critical = one_in(2) ? high + between(-5, 40) * 4 : 0x0FFC;

    set_register(n, 4, critical & 0xFFFF);
    set_register(n, 3, low & 0xFFFF);
    set_register(n, 2, high & 0xFFFF);
}

/* Between the high and the low limit, and between the critical and the high one,
 * where a flag that was set stays. */
static int below_high(int n) { return within((limit[n][0] - hysteresis(n) + limit[n][1]) / 2); }
static int below_critical(int n) { return within((limit[n][2] - hysteresis(n) + limit[n][0]) / 2); }

/* To where the high or the low flag is sure, or neither, or the critical one
 * alone changes; or to any limit. */
static int a_move(int n)
{
    int far = hysteresis(n) + between(8, 40);

    switch (below(8)) {
    case 0: case 1: return within(limit[n][0] + far);
    case 2: case 3: return within(limit[n][1] - far);
    case 4: return below_high(n);
    case 5: return below_critical(n);
    case 6: return within(limit[n][2] + (one_in(2) ? far : -far));
    default: return a_temperature(n);
    }
}

static void move(int n) { record(TEMPERATURE, n, a_move(n)); }

/* A read of 01h, often with a temperature in it: before the control byte or
 * behind it, between the two reads or behind them. */
static void look_at_pin(int n)
{
    if (below(5))
        point(n, 1);
    add(START, 0);
    add(BYTE, 0x31 | n << 1);
    add(READ, 1);
    add(READ, one_in(8));
    if (one_in(2)) {
        int t = a_move(n);
        insert(count - below(5), TEMPERATURE, n, t);
    }
    add(STOP, 0);
    play_as_is();
}

/* A write to 01h of these bits 3:0, and more: bit 5, 6, 7 or 8.  Hysteresis
 * stays mostly; bits that are not kept hold anything. */
static void configure(int n, int bits, int more)
{
    int value = bits | more | (one_in(6) ? below(4) << 9 : configured[n] & 0x0600);

    if (one_in(3))
        value |= below(65536) & 0xF810;
    send_register(n, 1, value);
    if (below(6))                        /* else it is open still */
        add(STOP, 0);
    play_as_is();
}

/* To a mode in which nothing pends, mostly by one bit alone, or by power; and
 * back, with a change between them or none. */
static void leave_and_return(int n)
{
    static const int leaving[] = { 0x0001, 0x0004, 0x0008 };
    int back = one_in(2) ? 0x0009 : bits_now(n);

    if (one_in(4))
        record(POWER, 0, 0);
    else
        configure(n, one_in(3) ? below(16) : back ^ ONE_OF(leaving), 0);
    if (one_in(2))
        move(n);
    if (one_in(3))
        look_at_pin(n);
    configure(n, back, 0);
    look_at_pin(n);
}

/* A write to 01h that ends before its second byte, or with a third one. */
static void configure_badly(int n)
{
    int many = one_in(4) ? 3 : below(2);

    point(n, 1);
    if (many > 0) add(BYTE, one_in(2) ? 0x20 : below(8));
    if (many > 1) add(BYTE, bits_now(n));
    if (many > 2) add(BYTE, 0x20 | below(16));
    switch (below(5)) {
    case 0: add(STOP, 0); break;
    case 1: add(TIMEOUT, 0); break;
    case 2: add(READ, below(2)); add(STOP, 0); break;
    case 3: insert(count, TEMPERATURE, n, a_move(n)); break;
    default: break;                      /* the next start cuts it */
    }
    play_as_is();
}

/* Bit 5 in a write to another register: to a limit, which may go to the other
 * side of the temperature, or to any. */
static void clear_elsewhere(int n)
{
    static const int others[] = { 0, 5, 5, 6, 7, 8, 9 };
    int which = one_in(2) ? between(2, 3) : one_in(4) ? 4 : ONE_OF(others);
    int value = below(65536);

    if (which >= 2 && which <= 4)
        value = limit[n][which - 2] + (which == 4 || one_in(3) ? 0 : between(-40, 40) * 4);
    set_register(n, which, (value | 0x0020) & 0xFFFF);
    if (one_in(3))
        sensor_read(n, which);
}

/* A page is being written: the slot hears nothing, and converts. */
static void move_while_busy(int n)
{
    add(START, 0);
    add(BYTE, 0xA0 | n << 1);
    add(BYTE, an_address());
    add(BYTE, below(256));
    add(STOP, 0);
    play_as_is();
    move(n);
    if (one_in(2))
        look_at_pin(n);
    if (one_in(2))
        configure(n, bits_now(n), 0x0020);
    ticks(n);
}

/* In shutdown nothing converts, and the pin stays as it is. */
static void shut_down(int n)
{
    configure(n, bits_now(n), 0x0100);
    for (int k = below(3); k > 0; k--)
        move(n);
    look_at_pin(n);
    if (one_in(2)) {
        configure(n, bits_now(n), 0x0120);
        look_at_pin(n);
    }
    configure(n, bits_now(n), one_in(4) ? 0x0020 : 0);
}

/* From where no flag is to above the critical limit, perhaps cleared there, and
 * below it again, where the high flag stays. */
static void over_critical(int n)
{
    set_register(n, 4, (limit[n][0] + hysteresis(n) + between(4, 20) * 4) & 0xFFFF);
    record(TEMPERATURE, n, below_high(n));
    if (one_in(2))
        configure(n, 0x0009, 0x0020);
    record(TEMPERATURE, n, within(limit[n][2] + below(20)));
    if (one_in(2))
        configure(n, bits_now(n), one_in(3) ? 0 : 0x0020);
    record(TEMPERATURE, n, below_critical(n));
    look_at_pin(n);
}

/* Power or a temperature that is refused, or a timeout. */
static void leave_alone(int n)
{
    switch (below(5)) {
    case 0: case 1: record(POWER, 0, a_wrong_number()); break;
    case 2: record(TIMEOUT, 0, 0); break;
    case 3: record(TEMPERATURE, one_in(2) ? 8 : n + 8, a_move(n)); break;
    default: record(TEMPERATURE, n, one_in(2) ? -641 : 2001); break;
    }
}

/* One thing that may change the pin, or should not. */
static void touch_pin(int n)
{
    int bits = pin_bits(), clear = one_in(2) ? 0x0020 : 0, lock = between(1, 3) << 6;

    switch (below(19)) {
    case 0: case 1: case 2: case 3: case 4: move(n); break;
    case 5: case 6: configure(n, bits_now(n), 0x0020); break;
    case 7: case 8: configure(n, bits, clear); break;
    case 9: case 10: leave_and_return(n); break;
    case 11: configure_badly(n); break;
    case 12: case 13: clear_elsewhere(n); break;
    case 14: shut_down(n); break;
    case 15: configure(n, clear ? bits_now(n) : bits, lock | clear); break;
    case 16: over_critical(n); break;
    case 17: leave_alone(n); break;
    default: move_while_busy(n); break;
    }
}

/* Limits and a mode, then much that touches the pin, with looks at it.  What is
 * locked stays so till power is lost. */
static void try_pin(int n)
{
    if (locks(n) && one_in(2))
        record(POWER, 0, 0);
    part_limits(n);
    configure(n, pin_bits(), 0);
    for (int k = between(5, 12); k > 0; k--) {
        touch_pin(n);
        if (below(4))
            look_at_pin(n);
    }
}

/* ---- Pages -------------------------------------------------------------- */

static void page_write(void)
{
    int n = a_slot();
    int place = an_address();
    int many = one_in(4) ? below(21) : below(5);
    int warm = kind_of[n] == 2 && one_in(5);  /* a temperature while busy */

    add(START, 0);
    add(BYTE, 0xA0 | n << 1);
    add(BYTE, place);
    while (many-- > 0)
        add(BYTE, below(256));
    if (one_in(20))
        add(READ, below(2));             /* abandons them */
    if (one_in(30))
        insert(count, VOLTAGE, n, 0);    /* does not */
    add(STOP, 0);
    play();
    if (one_in(12))
        record(POWER, 0, a_number());
    if (warm)
        record(TEMPERATURE, n, a_temperature(n));
    ticks(n);
    if (warm)
        sensor_read(n, 5);
    if (one_in(4))
        current_read(n);
    if (one_in(3))
        place &= 0xF0;
    if (one_in(2))
        random_read(n, place, one_in(5) ? 17 : between(1, 4));
}

/* ---- The 0110 commands -------------------------------------------------- */

static const int protect_codes[] = { 0x62, 0x68, 0x6A, 0x60 };
static const int ask_codes[] = { 0x63, 0x69, 0x6B, 0x61, 0x6D, 0x6D };

static void ask(void)
{
    add(START, 0);
    add(BYTE, ONE_OF(ask_codes));
    for (int k = below(3); k > 0; k--)
        stray(2);
    add(STOP, 0);
    play();
}

static void half(void)
{
    add(START, 0);
    add(BYTE, one_in(2) ? 0x6C : 0x6E);
    for (int k = one_in(3) ? below(5) : 0; k > 0; k--)
        stray(3);
    add(STOP, 0);
    play();
    if (one_in(3))
        ask();
    if (one_in(3))
        current_read(a_slot());
}

static void protect(void)
{
    int n = favourite[below(2)];
    int block = below(6);
    int many = one_in(5) ? below(5) : 2;

    if (one_in(4))
        record(VOLTAGE, n, below(4) != 0);
    add(START, 0);
    add(BYTE, block < 4 ? protect_codes[block] : 0x66);
    while (many-- > 0)
        add(BYTE, below(256));
    if (one_in(8)) {                     /* the voltage goes before the stop */
        int at = between(1, count);
        if (one_in(2))
            insert(at, VOLTAGE, n, 1);
        insert(at, VOLTAGE, n, 0);
    }
    add(STOP, 0);
    play();
    if (one_in(12))
        record(POWER, 0, a_number());
    ticks(n);
    if (one_in(2))
        ask();
}

/* ---- Power lost in a write cycle ---------------------------------------- */

/* As a rule all slots listen when the cycles are begun. */
static void settle(void)
{
    for (int k = one_in(6) ? below(5) : 5; k > 0; k--)
        add(TICK, 0);
    play_as_is();
}

static void choose_half(int half)
{
    add(START, 0);
    add(BYTE, half ? 0x6E : 0x6C);
    add(STOP, 0);
    play_as_is();
}

/* Some bytes of a page, often round its end, or more than it holds.  Gives how
 * many. */
static int send_page(int n, int place)
{
    int many = one_in(3) ? between(14, 20) : between(1, 9);

    add(START, 0);
    add(BYTE, 0xA0 | n << 1);
    add(BYTE, place);
    for (int i = 0; i < many; i++)
        add(BYTE, below(256));
    return many;
}

static void send_order(int code)
{
    add(START, 0);
    add(BYTE, code);
    add(BYTE, below(256));
    add(BYTE, below(256));
}

/* Mostly the stop that begins the cycle; else the bytes stay open, or are
 * abandoned by a timeout. */
static void end_sending(int open)
{
    if (!open)
        add(STOP, 0);
    else if (one_in(3))
        add(TIMEOUT, 0);
    play_as_is();
}

/* Some blocks are protected in full cycles, so that there is much to clear. */
static void protect_some(void)
{
    for (int block = 0; block < 4; block++) {
        if (one_in(2))
            continue;
        send_order(protect_codes[block]);
        end_sending(0);
        settle();
    }
}

/* Whether a block is protected: by its command, which all slots hear, and by
 * what this slot says to a data byte, which a timeout abandons; and where the
 * counter then stands. */
static void look_at_block(int n, int block)
{
    add(START, 0);
    add(BYTE, ask_codes[block]);
    add(STOP, 0);
    play_as_is();
    choose_half(block / 2);
    add(START, 0);
    add(BYTE, 0xA0 | n << 1);
    add(BYTE, 128 * (block % 2) + ONE_OF(places) % 128);
    add(BYTE, below(256));
    add(TIMEOUT, 0);
    play_as_is();
    if (one_in(3))
        current_read(n);
}

/* The cut itself.  After a refused one the cycles go on, and a look may come
 * before their ends or after. */
static void lose_power(int number)
{
    for (int k = one_in(2) ? 0 : below(4); k > 0; k--)
        add(TICK, 0);
    add(POWER, number);
    if (number < 0 || number > 16)
        for (int k = below(6); k > 0; k--)
            add(TICK, 0);
    play_as_is();
}

/* A number for a page of which so many bytes were sent: often just that, or
 * below it. */
static int a_number_for(int sent)
{
    int most = sent < 16 ? sent : 16;

    switch (below(3)) {
    case 0: return below(3) ? most : most - 1;
    case 1: return between(1, most);
    default: return a_number();
    }
}

/* Page writes to some slots, so that several cycles run at once, or one that
 * is open still; then power, and a look at each page.  Done twice, the second
 * finds old bytes that are not FFh. */
static void cut_pages(void)
{
    int slots[4], place[4];
    int many = one_in(3) ? 1 : between(2, 4);
    int upper = one_in(3);

    for (int i = 0; i < many; i++) {
        slots[i] = i < 2 ? favourite[i] : any_of_eight();
        place[i] = an_address();
    }
    for (int rounds = between(1, 2); rounds > 0; rounds--) {
        int most = 0;                    /* sent to one slot */

        settle();
        choose_half(upper);
        for (int i = 0; i < many; i++) {
            int sent = send_page(slots[i], place[i]);
            if (sent > most)
                most = sent;
            end_sending(i == many - 1 && one_in(4));
        }
        lose_power(a_number_for(most));
        if (upper && below(8))           /* power selects half 0 */
            choose_half(1);
        for (int i = 0; i < many; i++)
            random_read(slots[i], place[i] & 0xF0, 16);
    }
}

/* A protect or clear, and perhaps a page beside it; then power, and a look at
 * each block. */
static void cut_order(void)
{
    int n = favourite[below(2)];
    int clear = one_in(2);
    int beside = one_in(2) ? any_of_eight() : n;
    int place = an_address();

    record(VOLTAGE, n, 1);
    settle();
    if (clear)
        protect_some();
    if (beside != n) {
        choose_half(0);
        send_page(beside, place);
        end_sending(0);
    }
    send_order(clear ? 0x66 : protect_codes[below(4)]);
    end_sending(one_in(4));
    if (one_in(3))
        record(VOLTAGE, n, 0);           /* too late to cancel */
    lose_power(one_in(3) ? 0 : one_in(3) ? between(1, 3) : a_number());
    if (beside != n)
        random_read(beside, place & 0xF0, 16);
    for (int block = 0; block < 4; block++)
        look_at_block(n, block);
    if (one_in(2)) {                     /* so that not all stays protected */
        record(VOLTAGE, n, 1);
        send_order(0x66);
        end_sending(0);
        settle();
    }
}

/* ---- Older 2-Kbit modules ----------------------------------------------- */

/* Mostly the same one for a while. */
static int a_module(void)
{
    for (int n = below(8), k = one_in(6) ? 8 : 0; k > 0; k--, n = (n + 1) % 8)
        if (kind_of[n] == 3 && n != older) {
            older = n;
            break;
        }
    return in_hand = below(30) ? older : any_of_eight();
}

static void set_voltage(int n, int on)
{
    if (voltage[n] != on || one_in(8))
        record(VOLTAGE, n, on);
}

static void set_pin(int n, int on)
{
    if (pin[n] != on || one_in(8))
        record(WRITE_PROTECT, n, on);
}

/* Its own select, with a write bit. */
static int own(int n) { return 0x60 | n << 1; }

/* A control byte that the module minds as the voltage stands, or any other. */
static int a_0110(int n, int on)
{
    static const int minded[] = { 0x62, 0x63, 0x66, 0x67 };

    switch (below(6)) {
    case 0: case 1: return 0x60 | below(16);
    case 2: on = !on;                    /* fall through */
    default: return on ? ONE_OF(minded) : own(n) | below(2);
    }
}

/* The first byte of the upper half of its 256, or of its pages, or near. */
static int a_place(void)
{
    static const int ends[] = { 0x7F, 0x7F, 0x80, 0x80, 0x7E, 0x81, 0x00, 0xFF, 0xFE };

    return one_in(2) ? ONE_OF(ends) : an_address();
}

/* What the module says to its own memory's control byte: nothing in a cycle. */
static void is_busy(int n)
{
    add(START, 0);
    add(BYTE, 0xA0 | n << 1 | below(2));
    add(STOP, 0);
    play_as_is();
}

/* Some 0110 bytes of which nothing comes; a read form may have more behind it. */
static void ask_module(int n)
{
    for (int many = between(1, 3); many > 0; many--) {
        int code;

        if (one_in(3))
            record(VOLTAGE, n, below(2));
        code = a_0110(n, voltage[n]);
        add(START, 0);
        add(BYTE, code);
        for (int k = !one_in(3) ? 0 : code % 2 ? between(1, 3) : 1; k > 0; k--)
            stray(3);
        if (one_in(3))
            add(STOP, 0);
        play_as_is();
        if (code % 2 && one_in(4))
            is_busy(n);
    }
}

/* A data byte in the lower half of the 256 or the upper, which a timeout
 * abandons; and where the counter then stands. */
static void try_byte(int n)
{
    add(START, 0);
    add(BYTE, 0xA0 | n << 1);
    add(BYTE, one_in(2) ? a_place() % 128 : a_place());
    for (int k = between(1, 2); k > 0; k--)
        add(BYTE, below(256));
    add(TIMEOUT, 0);
    play_as_is();
    if (one_in(2))
        current_read(n);
}

/* The pin goes on or off at any place of what is gathered, and perhaps back. */
static void move_pin(int n)
{
    int at = below(count + 1), on = below(4) != 0;

    insert(at, WRITE_PROTECT, n, on);
    if (below(3)) {
        at = one_in(2) ? count : between(at + 1, count);
        insert(at, WRITE_PROTECT, n, !on);
    }
}

/* A page, while the pin goes on and off: before a byte, between the last one
 * and the stop, or in the cycle. */
static void write_module(int n)
{
    int place = a_place();

    set_pin(n, one_in(8));
    add(START, 0);
    add(BYTE, 0xA0 | n << 1);
    add(BYTE, place);
    for (int k = one_in(4) ? below(19) : between(1, 4); k > 0; k--)
        add(BYTE, below(256));
    switch (below(4)) {
    case 0: insert(count, WRITE_PROTECT, n, 1); break;
    case 1: case 2: move_pin(n); break;
    }
    add(STOP, 0);
    one_in(8) ? play() : play_as_is();
    if (one_in(3))
        record(WRITE_PROTECT, n, below(2));
    if (one_in(4))
        record(POWER, 0, a_number());
    if (one_in(3))
        is_busy(n);
    ticks(n);
    if (one_in(2))
        current_read(n);
    if (below(3))
        random_read(n, one_in(2) ? place : place & 0xF0, one_in(6) ? 17 : between(1, 4));
}

/* What keeps an order, of which the stop is still to come, from its effect: a
 * byte too many or too few, something else before the stop, or the pin. */
static void hinder(int n)
{
    switch (below(12)) {
    case 0: case 1: add(BYTE, below(256)); break;
    case 2: count--; break;
    case 3: add(READ, below(2)); break;
    case 4: add(START, 0); break;
    case 5: add(TIMEOUT, 0); break;
    case 6: case 7: add(POWER, one_in(2) ? between(1, 16) : a_number()); break;
    case 8: insert(below(count), WRITE_PROTECT, n, 1); break;
    default: insert(count, WRITE_PROTECT, n, 1); break;
    }
}

/* Voltage that goes and comes back, or comes and goes, behind the control byte. */
static void move_voltage(int n)
{
    int at = between(2, count), on = !voltage[n];

    insert(at, VOLTAGE, n, on);
    if (one_in(2)) {
        at = between(at + 1, count);
        insert(at, VOLTAGE, n, !on);
    }
}

/* While a cycle of an order runs: the pin, voltage, power, which leaves most
 * lasting forms undone. */
static void meddle(int n, int lasting)
{
    if (one_in(3))
        record(WRITE_PROTECT, n, below(4) != 0);
    if (one_in(3))
        record(VOLTAGE, n, !voltage[n]);
    if (one_in(2)) {
        for (int k = below(3); k > 0; k--)
            add(TICK, 0);
        is_busy(n);
    }
    if (lasting ? below(6) : one_in(4))
        record(POWER, 0, below(4) ? 0 : one_in(2) ? 1 : a_number());
}

/* 62h, 66h or the module's own select, with two bytes and a stop.  Protection
 * that lasts ends much, so that this is mostly hindered. */
static void order_module(int n)
{
    int lasting = one_in(2);
    int hindered = lasting ? below(5) < 3 : one_in(5);

    if (one_in(4))
        settle();
    set_voltage(n, one_in(12) ? lasting : !lasting);
    set_pin(n, 0);
    send_order(one_in(12) ? 0x60 | below(16) : lasting ? own(n) : one_in(2) ? 0x62 : 0x66);
    if (hindered)
        hinder(n);
    else if (one_in(3))
        move_pin(n);
    if (one_in(lasting ? 2 : 6))
        move_voltage(n);
    if (below(10))
        add(STOP, 0);
    play_as_is();
    meddle(n, lasting);
    ticks(n);
    if (one_in(2))
        is_busy(n);
    if (one_in(6))
        record(POWER, 0, 0);
    if (below(3))
        set_pin(n, 0);
    ask_module(n);
}

/* A control byte that no module answers to, or a half; and what is then read. */
static void mislead(int n)
{
    static const int codes[] = { 0x6C, 0x6D, 0x6E, 0x6E };

    add(START, 0);
    add(BYTE, one_in(2) ? ONE_OF(codes) : 0x30 | n << 1 | below(2));
    for (int k = one_in(3); k > 0; k--)
        stray(3);
    add(STOP, 0);
    play_as_is();
    random_read(n, a_place(), between(1, 3));
}

/* An event that is refused, and what it should not have changed. */
static void refuse(int n)
{
    static const int outside[] = { -1, -1, 2, 256, 257, -32768, 32767 };

    switch (below(6)) {
    case 0: record(POWER, 0, a_wrong_number()); break;
    case 1: record(TEMPERATURE, n, between(0, 30)); break;
    case 2: record(one_in(4) ? VOLTAGE : WRITE_PROTECT, n + 8, below(2)); break;
    default: record(one_in(4) ? VOLTAGE : WRITE_PROTECT, n, ONE_OF(outside)); break;
    }
    one_in(3) ? ask_module(n) : try_byte(n);
}

/* One thing that an older module minds, or should not. */
static void touch_module(int n)
{
    switch (below(18)) {
    case 0: case 1: case 2: case 3: write_module(n); break;
    case 4: case 5: case 6: case 7: case 8: case 9: case 10: case 11: order_module(n); break;
    case 12: ask_module(n); break;
    case 13: case 14: try_byte(n); break;
    case 15: mislead(n); break;
    case 16: refuse(n); break;
    default:
        if (one_in(2))
            record(one_in(2) ? POWER : TIMEOUT, 0, 0);
        else
            record(WRITE_PROTECT, n, below(2));
        break;
    }
}

static void try_module(int n)
{
    for (int k = between(1, 4); k > 0; k--) {
        touch_module(n);
        if (one_in(3))
            one_in(2) ? try_byte(n) : ask_module(n);
    }
}

/* ---- Other bytes, and what stands between ------------------------------- */

static void unknown(void)
{
    static const int codes[] = { 0x64, 0x65, 0x67, 0x6F };

    add(START, 0);
    add(BYTE, one_in(3) ? ONE_OF(codes) : one_in(2) ? below(256) : below(16) << 4 | a_slot() << 1);
    for (int k = below(4); k > 0; k--)
        stray(3);
    add(STOP, 0);
    play();
}

/* A start, power, and a control byte that comes too late. */
static void power_behind_start(void)
{
    add(START, 0);
    add(POWER, a_number());
    add(BYTE, 0xA1 | a_slot() << 1);
    add(READ, 0);
    play_as_is();
}

static void between_exchanges(void)
{
    if (one_in(6))
        power_behind_start();
    for (int k = between(1, 3); k > 0; k--)
        intrude(count);
    play_as_is();
}

static void rubbish(void)
{
    for (int k = between(2, 6); k > 0; k--)
        rubbish_at(count);
    play_as_is();
}

/* ---- The script --------------------------------------------------------- */

/* Each script has a leaning, so that state of one sort builds up in it; a long
 * one has several, one after the other. */
enum { MIXED, MEMORY, SENSOR, PROTECTION, OLD };

static int a_leaning(void)
{
    static const int leanings[] = { MIXED, MEMORY, SENSOR, SENSOR, SENSOR, PROTECTION, OLD, OLD };

    return ONE_OF(leanings);
}

/* Another one, or the same; none that the setup has no slots for. */
static int next_leaning(void)
{
    int leaning = a_leaning();

    if (leaning == SENSOR && kind_of[with_sensor] != 2)
        return MIXED;
    if (leaning == OLD && kind_of[older] != 3)
        return MIXED;
    return leaning;
}

static void exchange(int leaning)
{
    static const int shares[5][15] = {
        /* write read current sensor-w sensor-r measure half protect ask unknown between cut-pages cut-order pin module */
        [MIXED] = { 18, 7, 5, 14, 4, 9, 6, 9, 3, 3, 4, 4, 2, 4, 4 },
        [MEMORY] = { 38, 14, 9, 2, 1, 2, 9, 3, 2, 3, 3, 7, 1, 0, 2 },
        [SENSOR] = { 1, 1, 1, 42, 4, 18, 1, 2, 1, 1, 4, 1, 0, 20, 0 },
        [PROTECTION] = { 21, 5, 4, 2, 1, 1, 8, 28, 9, 3, 4, 2, 5, 0, 4 },
        [OLD] = { 5, 3, 2, 1, 1, 1, 3, 4, 2, 3, 3, 2, 2, 0, 66 },
    };
    int chosen = below(100);             /* beyond the shares: rubbish */
    int which = 0;
    int n, place;

    while (which < 15 && chosen >= shares[leaning][which])
        chosen -= shares[leaning][which++];
    switch (which) {
    case 0: page_write(); break;
    case 1:
        n = a_slot();
        place = an_address();
        random_read(n, place, one_in(8) ? between(5, 20) : between(1, 4));
        break;
    case 2: current_read(a_slot()); break;
    case 3: sensor_write(); break;
    case 4: n = a_sensor(); sensor_read(n, between(-3, 10)); break;
    case 5: measure(a_sensor()); break;
    case 6: half(); break;
    case 7: protect(); break;
    case 8: ask(); break;
    case 9: unknown(); break;
    case 10: between_exchanges(); break;
    case 11:
        cut_pages();
        if (leaning == SENSOR)
            prime(with_sensor);
        break;
    case 12: cut_order(); break;
    case 13: try_pin(a_sensor()); break;
    case 14: kind_of[older] == 3 ? try_module(a_module()) : page_write(); break;
    default: rubbish(); break;
    }
    if (one_in(120)) {
        record(POWER, 0, a_number());
        if (leaning == SENSOR)
            prime(with_sensor);
    }
}

/* Older modules stand among the others, or alone. */
static int a_kind(int leaning)
{
    if (one_in(leaning == OLD ? 2 : leaning == SENSOR ? 16 : 8))
        return 3;
    return between(1, 2);
}

/* Mostly full buses; one script in three has one or two slots only, since
 * on a full bus the answers to the 0110 commands drown each other. */
static void choose_setup(unsigned char setup[16], int leaning)
{
    int few = one_in(leaning == OLD ? 2 : 3);
    int alike = leaning == OLD && one_in(3);
    int found = 0, modules = 0;

    favourite[0] = below(8);
    older = with_sensor = favourite[0];
    favourite[1] = below(3) ? below(8) : favourite[0];
    for (int n = 0; n < 8; n++) {
        int mine = n == favourite[0] || n == favourite[1];
        kind_of[n] = !mine && (few || one_in(8)) ? 0 : alike ? 3 : a_kind(leaning);
        if (n == favourite[0] && leaning != OLD && (leaning == SENSOR || one_in(2)))
            kind_of[n] = 2;
        if (n == favourite[0] && leaning == OLD)
            kind_of[n] = 3;
        length_of[n] = kind_of[n] ? between(1, 5) : one_in(2) ? 0 : below(256);
        setup[2 * n] = (unsigned char)kind_of[n];
        setup[2 * n + 1] = (unsigned char)length_of[n];
        if (kind_of[n] == 2 && one_in(++found))
            with_sensor = n;
        if (kind_of[n] == 3 && one_in(++modules))
            older = n;
    }
    for (int i = 0; i < 4; i++) {
        static const int starts[] = { 0x00, 0x10, 0x60, 0x70, 0x80, 0xE0, 0xF0 };
        int page = ONE_OF(starts);
        places[i] = page + (one_in(3) ? below(16) : one_in(2) ? 15 : 14);
    }
}

/* A kind or a length that is just or far out of its range. */
static void spoil(unsigned char setup[16])
{
    static const int kinds[] = { 4, 4, 5, 128, 255 };
    static const int lengths[] = { 0, 0, 0, 6, 6, 6, 255 };
    int n = below(8);

    if (one_in(2)) {
        setup[2 * n] = (unsigned char)ONE_OF(kinds);
    } else {
        setup[2 * n] = (unsigned char)between(1, 3);
        setup[2 * n + 1] = (unsigned char)ONE_OF(lengths);
    }
}

int main(int argc, char **argv)
{
    unsigned char setup[16];
    int odd = argc > 3 && strcmp(argv[3], "odd") == 0;
    int oddness, leaning;

    if (argc < 3) {
        fputs("usage: generate SEED EVENTS [odd]\n", stderr);
        return 2;
    }
    seed_with(strtoull(argv[1], NULL, 10));
    left = strtol(argv[2], NULL, 10);
    forget();
    leaning = a_leaning();
    choose_setup(setup, leaning);
    oddness = odd ? below(4) : -1;
    if (oddness == 0 || oddness == 1)
        spoil(setup);
    if (oddness == 2) {                  /* the setup is cut */
        if (one_in(3))
            spoil(setup);
        fwrite(setup, 1, (size_t)below(16), stdout);
        return 0;
    }
    fwrite(setup, 1, sizeof setup, stdout);
    for (int k = 0; k < 2; k++)
        if (one_in(2) || leaning == PROTECTION)
            record(VOLTAGE, favourite[k], 1);
    if (leaning == SENSOR || one_in(4))
        prime(with_sensor);
    for (long since = left; left > 0;) {
        exchange(leaning);
        if (since - left > 1200) {
            leaning = next_leaning();
            since = left;
        }
    }
    if (oddness == 3 || oddness == 0)
        fwrite("\1\0\0", 1, (size_t)between(1, 3), stdout);  /* a cut record */
    return 0;
}
