/*
 * Chance that is the same for the same seed (splitmix for the seed, then
 * xorshift).  Included by generate.c and by the judges: replan.c, recapture.c,
 * resave.c, relist.c and rewatch.c.
 */
static unsigned long long state;

static inline void seed_with(unsigned long long seed)
{
    seed += 0x9E3779B97F4A7C15ULL;
    seed = (seed ^ seed >> 30) * 0xBF58476D1CE4E5B9ULL;
    seed = (seed ^ seed >> 27) * 0x94D049BB133111EBULL;
    state = (seed ^ seed >> 31) | 1;
}

static inline int below(int n)
{
    state ^= state >> 12;
    state ^= state << 25;
    state ^= state >> 27;
    return (int)((state * 0x2545F4914F6CDD1DULL >> 33) % (unsigned)n);
}

static inline int between(int low, int high) { return low + below(high - low + 1); }
static inline int one_in(int n) { return below(n) == 0; }

#define ONE_OF(array) ((array)[below((int)(sizeof (array) / sizeof (array)[0]))])

/* A number that no power cycle takes (request P3). */
static inline int a_wrong_number(void)
{
    static const int outside[] = { -1, -1, 17, 17, 255, 256, -32768, 32767 };

    return ONE_OF(outside);
}

/* The number of a power cycle, 0 to 16: mostly none, few or all.  One in eight
 * is wrong. */
static inline int a_number(void)
{
    static const int often[] = { 0, 0, 1, 1, 2, 3, 4, 5, 15, 16, 16 };

    if (one_in(8))
        return a_wrong_number();
    return one_in(3) ? below(17) : ONE_OF(often);
}
