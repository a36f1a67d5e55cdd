/*
 * A saved form, and the ways in which it is damaged.  Included by resave.c,
 * after forms.h and judge.h.
 */
/* ---- A form, and its fields ----------------------------------------------------- */

static unsigned char good[MOST];  /* the form that was saved */
static size_t good_length;
static unsigned char bad[1 << 16];         /* the same, damaged */
static size_t bad_length;

static void keep_form(void)
{
    write_form();
    memcpy(good, form, form_length);
    good_length = form_length;
}

static void begin(const char *words)
{
    memcpy(bad, good, good_length);
    bad_length = good_length;
    SAY_WHAT("%s", words);
}

/* Where a field of the good form begins; of the one behind the last, the end. */
static size_t field_at(int which)
{
    size_t at = 0;

    while (which-- > 0)
        at += HEAD + (size_t)word_at(good + at + 1);
    return at;
}

/* Four; one more where a change is pending, and one where a module is protected
 * for ever or a write-protect pin is on. */
static int fields(void)
{
    int many = 0;

    while (field_at(many) < good_length)
        many++;
    return many;
}

static size_t field_length(int which) { return field_at(which + 1) - field_at(which) - HEAD; }

/* Which field of the good form has this tag, or would stand there. */
static int place_of(int tag)
{
    int which = 0;

    while (which < fields() && good[field_at(which)] < tag)
        which++;
    return which;
}

static int has_tag(int tag) { return place_of(tag) < fields() && good[field_at(place_of(tag))] == tag; }

/* Bytes of the field of this tag with its head, 0 where there is none. */
static size_t whole_length(int tag) { return has_tag(tag) ? HEAD + field_length(place_of(tag)) : 0; }

/* A byte that is not in the memory. */
static size_t place_outside_memory(void)
{
    size_t stored = field_at(1) + HEAD;
    size_t at = (size_t)below((int)(good_length - field_length(1)));

    return at < stored ? at : at + field_length(1);
}

/* Another byte: the least, the greatest, those beside it, the one that differs
 * in the highest bit alone, or any. */
static unsigned char other_than(unsigned char byte)
{
    int bytes[] = { 0x00, 0xFF, byte + 1, byte - 1, byte ^ 0x80, below(256) };
    unsigned char other = (unsigned char)ONE_OF(bytes);

    return other != byte ? other : byte ^ 1;
}

static void change_at(size_t at, int byte)
{
    bad[at] = (unsigned char)byte;
    ADD_WHAT(", byte %lu changed to %02Xh", (unsigned long)at, byte & 255);
}

/* Leaves out `less` bytes there, and puts `more` others in. */
static void splice(size_t at, size_t less, const unsigned char *bytes, size_t more)
{
    memmove(bad + at + more, bad + at + less, bad_length - at - less);
    if (more > 0)
        memcpy(bad + at, bytes, more);
    bad_length += more - less;
}

/* What the good form has of this tag, if anything, is left out. */
static void leave_out(int tag)
{
    splice(field_at(place_of(tag)), whole_length(tag), NULL, 0);
    ADD_WHAT(", field %d left out", tag);
}

/* The form with this field of a tag, whatever it had of it. */
static void put_field(int tag, const unsigned char *bytes, int many)
{
    const unsigned char head[HEAD] = { (unsigned char)tag, 0, (unsigned char)many };
    size_t at = field_at(place_of(tag));

    splice(at, whole_length(tag), head, HEAD);
    splice(at + HEAD, 0, bytes, (size_t)many);
    ADD_WHAT(", field %d of %d bytes", tag, many);
    for (int i = 0; i < many; i++)
        ADD_WHAT(" %d", bytes[i]);
}

/* ---- Numbers of a form, just in their ranges and just out of them -------------- */

static void change_pair(void)
{
    static const int kinds[] = { 0, 1, 2, 3, 3, 4, 4, 255 };
    static const int lengths[] = { 0, 0, 1, 5, 6, 6, 255 };
    size_t at = HEAD + 2 * (size_t)below(SLOTS);

    if (one_in(3))
        change_at(at, ONE_OF(kinds));
    else
        change_at(at + 1, ONE_OF(lengths));
}

static void change_slot(void)
{
    static const int ends[OF_SLOT][5] = { { 1, 15, 16, 31, 240 }, { 0, 1, 1, 2, 3 }, { 0, 128, 254, 255, 255 }, { 0, 1, 1, 2, 3 } };
    int slots = (int)field_length(2) / OF_SLOT;
    int which = below(OF_SLOT);

    if (slots > 0)
        change_at(field_at(2) + HEAD + (size_t)(OF_SLOT * below(slots) + which), ONE_OF(ends[which]));
}

static int sensors_in_form(void) { return (int)field_length(3) / OF_SENSOR; }

/* The pointer, or one bit of a register. */
static void change_sensor(void)
{
    static const int pointers[] = { 0, 9, 9, 10, 10, 11, 16, 255 };
    int sensors = sensors_in_form();
    size_t at = field_at(3) + HEAD;

    if (sensors == 0)
        return;
    at += (size_t)(OF_SENSOR * below(sensors));
    if (one_in(4)) {
        change_at(at, ONE_OF(pointers));
    } else {
        at += (size_t)between(1, OF_SENSOR - 1);
        change_at(at, bad[at] ^ 1 << below(8));
    }
}

/* One of the low bits of a configuration: by 3, 2 and 0 a change can pend. */
static void change_mode(int sensor, int bit)
{
    size_t at = field_at(3) + HEAD + (size_t)(OF_SENSOR * sensor) + 2;

    change_at(at, bad[at] ^ 1 << bit);
}

/* ---- Tag 5, which is there only where a change is pending ----------------------- */

/* Any ones and zeros, mostly one for each sensor, and seldom another number. */
static void change_ones(void)
{
    static const int numbers[] = { 2, 2, 3, 128, 255 };
    unsigned char ones[SLOTS + 2] = { 0 };
    int sensors = sensors_in_form();
    int many = sensors + (one_in(6) ? 1 : sensors > 0 && one_in(6) ? -1 : 0);
    int other = ONE_OF(numbers);

    for (int i = 0; i < many; i++)
        ones[i] = (unsigned char)below(2);
    if (many > 0 && one_in(4))
        ones[below(many)] = (unsigned char)other;
    put_field(5, ones, many);
}

/* Something behind the last field: a byte, or a field without contents. */
static void put_behind(int tag, int bytes)
{
    const unsigned char more[HEAD] = { (unsigned char)tag, 0, 0 };

    splice(bad_length, 0, more, (size_t)bytes);
    ADD_WHAT(", %d bytes behind it, from %02Xh on", bytes, tag);
}

static void damage_pending(void)
{
    static const unsigned char none[SLOTS];
    static const int bits[] = { 0, 2, 3 };
    int sensors = sensors_in_form(), bit = ONE_OF(bits), tag = between(4, 7);

    begin("what is pending");
    switch (below(6)) {
    case 0: put_field(5, none, sensors); break;
    case 1: leave_out(5); break;
    case 2: if (sensors > 0) change_mode(below(sensors), bit); break;
    case 3: put_behind(tag, one_in(2) ? 1 : HEAD); break;
    default: change_ones(); break;
    }
}

/* ---- Older modules, and tag 6 --------------------------------------------------- */

static int kind_in_form(int n) { return good[HEAD + 2 * n]; }

static int in_form(int kind)
{
    int many = 0;

    for (int n = 0; n < SLOTS; n++)
        many += kind_in_form(n) == kind;
    return many;
}

/* The slot of a kind with so many of that kind before it; one must be there. */
static int slot_in_form(int kind, int which)
{
    int n = 0;

    while (kind_in_form(n) != kind || which-- > 0)
        n++;
    return n;
}

/* Where the four bytes of a present slot are, and where its memory begins. */
static size_t four_at(int n)
{
    size_t at = field_at(2) + HEAD;

    while (n-- > 0)
        at += kind_in_form(n) == ABSENT ? 0 : OF_SLOT;
    return at;
}

static size_t stored_at(int n)
{
    size_t at = field_at(1) + HEAD;

    while (n-- > 0)
        at += (size_t)bytes_of(kind_in_form(n));
    return at;
}

/* A byte for each older module, mostly one that its protection admits, and seldom
 * another number. */
static void change_bits(void)
{
    static const int numbers[] = { 4, 4, 5, 6, 7, 8, 128, 129, 255 };
    unsigned char bits[SLOTS + 2] = { 0 };
    int modules = in_form(OLDER);
    int many = modules + (one_in(6) ? 1 : modules > 0 && one_in(6) ? -1 : 0);
    int other = ONE_OF(numbers);

    for (int i = 0; i < many; i++) {
        int protects = i < modules && good[four_at(slot_in_form(OLDER, i))] & 1;

        bits[i] = (unsigned char)below(4);
        if (!protects && below(4))
            bits[i] &= 2;
    }
    if (many > 0 && one_in(4))
        bits[below(many)] = (unsigned char)other;
    put_field(6, bits, many);
}

/* Protection or half of an older module: what it may have and what only the
 * others may; and bit 0 away from under what is for ever. */
static void change_module(void)
{
    static const int blocks[] = { 0, 0, 1, 1, 2, 3, 4, 5, 8, 9, 15 };
    size_t at;

    if (in_form(OLDER) == 0)
        return;
    at = four_at(slot_in_form(OLDER, below(in_form(OLDER))));
    if (one_in(3))
        change_at(at + 1, between(0, 2));
    else
        change_at(at, ONE_OF(blocks));
}

/* The field twice, or before a field that belongs in front of it. */
static void move_six(int where)
{
    const unsigned char *six = good + field_at(place_of(6));
    size_t many = whole_length(6);

    if (where == 6) {
        splice(field_at(place_of(6)), 0, six, many);
        ADD_WHAT(", field 6 twice");
        return;
    }
    splice(field_at(place_of(6)), many, NULL, 0);
    splice(field_at(place_of(where)), 0, six, many);
    ADD_WHAT(", field 6 before field %d", where);
}

/* The sensors' field, of which one is left out or put in at slot n. */
static void change_sensors(int n, int more)
{
    static const unsigned char zeros[OF_SENSOR];
    size_t at = field_at(3) + HEAD;

    for (int i = 0; i < n; i++)
        at += kind_in_form(i) == MEMORY_WITH_SENSOR ? OF_SENSOR : 0;
    splice(at, more ? 0 : OF_SENSOR, zeros, more ? OF_SENSOR : 0);
    bad[field_at(3) + 2] = (unsigned char)(OF_SENSOR * (sensors_in_form() + (more ? 1 : -1)));
}

/* The memory's field, of which the upper half of slot n is left out or put in.  Of
 * several slots the last comes first, so that the places hold. */
static void change_stored(int n, int more)
{
    static const unsigned char upper[SLOT_BYTES / 2] = { 0x5A };
    size_t half = sizeof upper, head = field_at(1) + 1;
    size_t now = (size_t)word_at(bad + head) + (more ? half : -half);

    splice(stored_at(n) + half, more ? 0 : half, upper, more ? half : 0);
    bad[head] = (unsigned char)(now >> 8);
    bad[head + 1] = (unsigned char)now;
}

/* Every older module with all its 512 bytes. */
static void store_all(void)
{
    for (int n = SLOTS - 1; n >= 0; n--)
        if (kind_in_form(n) == OLDER)
            change_stored(n, 1);
    ADD_WHAT(", 512 bytes of each");
}

/* An older module becomes another slot, or another one an older.  The fields stay
 * as they are; or they follow, without tags 5 and 6, from which a form may come
 * that is accepted. */
static void change_kind(int n, int follow)
{
    int from = kind_in_form(n);
    int to = from == OLDER ? between(MEMORY, MEMORY_WITH_SENSOR) : OLDER;

    if (from == ABSENT)
        return;
    change_at(HEAD + 2 * (size_t)n, to);
    if (!follow)
        return;
    ADD_WHAT(", and its fields");
    leave_out(6);                 /* the last first, so that the places hold */
    leave_out(5);
    if (from == MEMORY_WITH_SENSOR || to == MEMORY_WITH_SENSOR)
        change_sensors(n, to == MEMORY_WITH_SENSOR);
    if (one_in(2)) {
        bad[four_at(n)] &= 1;
        bad[four_at(n) + 1] = 0;
    }
    change_stored(n, from == OLDER);
}

static void damage_older(void)
{
    static const unsigned char none[SLOTS];
    int modules = in_form(OLDER), where = between(1, 6), n = below(SLOTS);

    begin("older modules");
    switch (below(13)) {
    case 0: put_field(6, none, modules); break;
    case 1: leave_out(6); break;
    case 2: case 3: change_module(); break;
    case 4: case 5: change_kind(n, 1); break;
    case 6: change_kind(n, 0); break;
    case 7: move_six(one_in(2) ? 5 : where); break;
    case 8: store_all(); break;
    default: change_bits(); break;
    }
}

/* ---- Fields that are not as they should be ------------------------------------- */

static void exchange_fields(void)
{
    static unsigned char first[MOST];
    int which = below(fields() - 1);
    size_t at = field_at(which), middle = field_at(which + 1), behind = field_at(which + 2);

    memcpy(first, bad + at, middle - at);
    memmove(bad + at, bad + middle, behind - middle);
    memcpy(bad + at + behind - middle, first, middle - at);
}

/* Another field somewhere between the fields: one of a tag that is not known,
 * or one of them once more. */
static void add_field(void)
{
    static const int tags[] = { 0, 5, 6, 6, 7, 17, 255 };
    unsigned char other[HEAD + 1] = { (unsigned char)ONE_OF(tags), 0, 0, 0 };
    size_t at = field_at(below(fields() + 1));
    int which = below(fields());

    if (one_in(2)) {
        splice(at, 0, good + field_at(which), HEAD + field_length(which));
    } else {
        other[2] = (unsigned char)below(2);
        splice(at, 0, other, HEAD + (size_t)other[2]);
    }
}

static void drop_field(void)
{
    int which = below(fields());

    splice(field_at(which), field_at(which + 1) - field_at(which), NULL, 0);
}

/* A field that says it is longer or shorter, and mostly is. */
static void resize_field(void)
{
    static const int steps[] = { 1, 1, 2, 4, 15, 16, 256, 512 };
    static const unsigned char more[512];
    int which = below(fields()), step = ONE_OF(steps);
    int now = (int)field_length(which), grows = one_in(2) || now < step;
    size_t at = field_at(which);

    if (!one_in(4))
        splice(field_at(which + 1) - (grows ? 0 : (size_t)step), grows ? 0 : (size_t)step, more, grows ? (size_t)step : 0);
    now += grows ? step : -step;
    bad[at + 1] = (unsigned char)(now >> 8);
    bad[at + 2] = (unsigned char)now;
}

static void turn_length(void)     /* the low byte first */
{
    size_t at = field_at(below(fields()));
    unsigned char high = bad[at + 1];

    bad[at + 1] = bad[at + 2];
    bad[at + 2] = high;
}

static void append(void)
{
    static const unsigned char more[] = { 0, 0, 0, 5, 0, 0, 255, 0 };

    splice(bad_length, 0, more + below(4), (size_t)between(1, 4));
}

/* ---- One of them --------------------------------------------------------------- */

static void damage_field(void)
{
    switch (below(7)) {
    case 0: begin("two fields exchanged"); exchange_fields(); break;
    case 1: begin("a field more"); add_field(); break;
    case 2: begin("a field less"); drop_field(); break;
    case 3: begin("the low byte of a length first"); turn_length(); break;
    case 4: begin("bytes behind the end"); append(); break;
    case 5: begin("a form that ends early"); bad_length -= (size_t)between(1, one_in(2) ? 20 : (int)good_length); break;
    default: begin("a field of another length"); resize_field(); break;
    }
}

static void damage_number(void)
{
    size_t at;

    begin("a number changed");
    switch (below(5)) {
    case 0: change_pair(); break;
    case 1: change_slot(); break;
    case 2: change_sensor(); break;
    case 3:
        at = place_outside_memory();
        change_at(at, other_than(bad[at]));
        break;
    default:
        at = (size_t)below((int)good_length);
        change_at(at, other_than(bad[at]));
        break;
    }
}
