/* A whole log at once: climboat_pT_log against climboat_pT, place by place; and when it refuses. All runs of a call lie in one memory, which is compared whole with what is expected of it: so a
 * place that is wrong or left out shows, and so does any byte that is changed before, between or behind the runs, or in the inputs. */
#include "questions.h"
#include <signal.h>
#include <stdio.h>
#include <stdlib.h>
#include <string.h>

#define LOGS_PER_PROPERTY 8u
#define MOST (CLIMBOAT_LONGEST_LOG + 1)
#define AREA ((MOST + 16) * sizeof(double))
#define AREAS 8u

enum { P, T, VALUES, NUMBERS, RUNS };
static const char *const names[RUNS] = {"p", "T", "values", "numbers"};
static const size_t sizes[RUNS] = {sizeof(double), sizeof(double), sizeof(double), sizeof(uint32_t)};
#define EVERY_RUN ((1u << RUNS) - 1)

/* A call: where each run begins in the memory, the length that is told of it, and whether it is lent as null. */
struct log {
    uint32_t region;
    uint32_t property;
    size_t at[RUNS];
    size_t length[RUNS];
    unsigned null; /* a bit for each run */
};

static double memory_of_doubles[AREAS * AREA / sizeof(double)]; /* doubles, so that it is aligned for them */
static unsigned char *const memory = (unsigned char *)memory_of_doubles;
static unsigned char expected[AREAS * AREA];
static double states[2][MOST];

static struct {
    uint32_t calls;
    uint32_t differ;
    uint32_t places;
    uint32_t refused[CLIMBOAT_REGION_5 + 1][CLIMBOAT_P_OUT_OF_RANGE + 1]; /* places, by region and number */
    uint32_t by[CLIMBOAT_RUNS_NOT_LENT + 1];                              /* calls, by what came back */
} count;

/* Each run in an area of its own. */
static struct log apart(uint32_t region, uint32_t property, size_t length)
{
    struct log log = {region, property, {0}, {0}, 0};
    size_t i;
    for (i = 0; i < RUNS; i++) {
        log.at[i] = i * AREA + sizeof(double);
        log.length[i] = length;
    }
    return log;
}

static void draw_states(uint32_t region)
{
    size_t k;
    for (k = 0; k < MOST; k++) draw_state(region, &states[P][k], &states[T][k]);
}

/* The states for p and T, as far as there are places; every other byte is one that no answer has. */
static void prepare(const struct log *log)
{
    size_t i;
    memset(memory, 0xa5, AREAS * AREA);
    for (i = P; i <= T; i++) {
        if ((log->null >> i & 1) == 0 && log->length[i] <= MOST) memcpy(memory + log->at[i], states[i], log->length[i] * sizes[i]);
    }
}

/* What the single calls give, into the expected memory. */
static void fill_expected(const struct log *log)
{
    size_t k;
    for (k = 0; k < log->length[P]; k++) {
        struct climboat_answer single;
        double p, t;
        memcpy(&p, memory + log->at[P] + k * sizes[P], sizeof p);
        memcpy(&t, memory + log->at[T] + k * sizes[T], sizeof t);
        single = climboat_pT(log->region, log->property, p, t);
        memcpy(expected + log->at[VALUES] + k * sizes[VALUES], &single.value, sizeof single.value);
        memcpy(expected + log->at[NUMBERS] + k * sizes[NUMBERS], &single.number, sizeof single.number);
        count.places++;
        if (single.number <= CLIMBOAT_P_OUT_OF_RANGE) count.refused[log->region][single.number]++;
    }
}

/* A run as the call is lent it; by way of void, since a run may begin where no double may. */
static void *lent(const struct log *log, size_t run)
{
    return (log->null >> run & 1) != 0 ? NULL : memory + log->at[run];
}

static uint32_t ask_log(const struct log *log)
{
    return climboat_pT_log(log->region, log->property, (const double *)lent(log, P), log->length[P], (const double *)lent(log, T), log->length[T], (double *)lent(log, VALUES),
                           log->length[VALUES], (uint32_t *)lent(log, NUMBERS), log->length[NUMBERS]);
}

static void tell_call(const char *what, const struct log *log)
{
    size_t i;
    printf("log: %s: region %u, property %u", what, (unsigned)log->region, (unsigned)log->property);
    for (i = 0; i < RUNS; i++) printf(", %s%s at byte %zu of length %zu", (log->null >> i & 1) != 0 ? "no " : "", names[i], log->at[i], log->length[i]);
}

static void tell_difference(const char *what, const struct log *log, uint32_t number, uint32_t owed)
{
    size_t byte = 0;
    tell_call(what, log);
    if (number != owed) printf(": %u came back, not %u", (unsigned)number, (unsigned)owed);
    while (byte < AREAS * AREA && memory[byte] == expected[byte]) byte++;
    if (byte < AREAS * AREA) printf(": byte %zu of the memory is %02x, not %02x", byte, memory[byte], expected[byte]);
    printf("\n");
}

/* The call that is under way, for one that reads or writes where it may not. It is the archive's, where no stream is held. */
static const char *under_way;
static struct log lent_to_it;

static void tell_fault(int fault)
{
    (void)fault;
    tell_call(under_way, &lent_to_it);
    printf(": the call reads or writes beyond what it is lent\n");
    fflush(stdout);
    _Exit(1);
}

/* What comes back must be what is owed, and the memory what the single calls make of it, or as it was. */
static void hold(const char *what, const struct log *log, uint32_t owed)
{
    uint32_t number;
    prepare(log);
    memcpy(expected, memory, AREAS * AREA);
    if (owed == CLIMBOAT_ANSWERED) fill_expected(log);
    under_way = what;
    lent_to_it = *log;
    number = ask_log(log);
    count.calls++;
    count.by[owed]++;
    if (number == owed && memcmp(memory, expected, AREAS * AREA) == 0) return;
    if (count.differ++ < 5) tell_difference(what, log, number, owed);
}

static void hold_properties(void)
{
    uint32_t i, property, k;
    for (i = 0; i < REGIONS; i++) {
        for (property = CLIMBOAT_VOLUME; property <= CLIMBOAT_SPEED_OF_SOUND; property++) {
            for (k = 0; k < LOGS_PER_PROPERTY; k++) {
                struct log log = apart(regions[i], property, CLIMBOAT_LONGEST_LOG);
                draw_states(regions[i]);
                hold("drawn states", &log, CLIMBOAT_ANSWERED);
            }
        }
    }
}

static void hold_lengths(void)
{
    size_t length;
    draw_states(CLIMBOAT_REGION_2);
    for (length = 0; length <= MOST; length++) {
        struct log log = apart(CLIMBOAT_REGION_2, 1 + draw_below(7), length);
        hold("one length", &log, length <= CLIMBOAT_LONGEST_LOG ? CLIMBOAT_ANSWERED : CLIMBOAT_LOG_LENGTHS);
    }
}

/* The runs of the set have another length than the rest: 13, with each set of runs null too, or 21 where the region has no name. */
static void hold_other_length(size_t length, size_t other, unsigned set)
{
    struct log log = apart(CLIMBOAT_REGION_1, CLIMBOAT_VOLUME, length);
    size_t i;
    for (i = 0; i < RUNS; i++) {
        if ((set >> i & 1) != 0) log.length[i] = other;
    }
    for (log.null = 0; log.null <= EVERY_RUN; log.null++) hold("lengths that differ", &log, CLIMBOAT_LOG_LENGTHS);
    log.null = 0;
    log.at[VALUES] = log.at[NUMBERS] = log.at[P];
    hold("lengths that differ, of runs that are one", &log, CLIMBOAT_LOG_LENGTHS);
    log.region = CLIMBOAT_NO_REGION;
    hold("lengths that differ, and no region", &log, CLIMBOAT_NOTHING_NAMED);
}

static void hold_lengths_that_differ(void)
{
    static const size_t lengths[] = {0, 1, 2, 96, CLIMBOAT_LONGEST_LOG - 1, CLIMBOAT_LONGEST_LOG, MOST};
    size_t i, k;
    unsigned set;
    draw_states(CLIMBOAT_REGION_1);
    for (i = 0; i < sizeof lengths / sizeof lengths[0]; i++) {
        /* below 0 it wraps to SIZE_MAX, which is there already */
        const size_t others[] = {lengths[i] + 1, lengths[i] - 1, 0, SIZE_MAX, SIZE_MAX / sizeof(double) + 1};
        for (k = 0; k < sizeof others / sizeof others[0]; k++) {
            for (set = 1; set < EVERY_RUN && others[k] != lengths[i]; set++) hold_other_length(lengths[i], others[k], set);
        }
    }
}

/* Of one length that is right: with no place a run may be null, with places it may not, whatever is named. */
static void hold_nulls(void)
{
    static const size_t lengths[] = {0, 1, 7, CLIMBOAT_LONGEST_LOG, MOST};
    size_t i;
    draw_states(CLIMBOAT_REGION_5);
    for (i = 0; i < sizeof lengths / sizeof lengths[0]; i++) {
        struct log log = apart(CLIMBOAT_REGION_5, CLIMBOAT_ENTHALPY, lengths[i]);
        uint32_t owed = lengths[i] == 0 ? CLIMBOAT_ANSWERED : lengths[i] == MOST ? CLIMBOAT_LOG_LENGTHS : CLIMBOAT_RUNS_NOT_LENT;
        for (log.null = 1; log.null <= EVERY_RUN; log.null++) {
            hold("runs that are null", &log, owed);
            log.property = CLIMBOAT_NO_PROPERTY;
            hold("runs that are null, and no property", &log, owed == CLIMBOAT_RUNS_NOT_LENT ? owed : CLIMBOAT_NOTHING_NAMED);
            log.property = CLIMBOAT_ENTHALPY;
        }
    }
}

/* Two runs, the other so many bytes behind the one or before it. p and T may share memory, and are then asked as they lie there; any other two may only touch. */
static void hold_distance(size_t one, size_t other, size_t length, long distance)
{
    struct log log = apart(CLIMBOAT_REGION_2, CLIMBOAT_ENTROPY, length);
    long one_bytes = (long)(length * sizes[one]), other_bytes = (long)(length * sizes[other]);
    bool share = distance < one_bytes && -distance < other_bytes;
    bool inputs = one == P && other == T;
    /* a double is not read where none may lie */
    if (inputs && distance % (long)sizeof(double) != 0) return;
    log.at[one] = 6 * AREA;
    log.at[other] = (size_t)((long)log.at[one] + distance);
    hold("two runs beside each other", &log, share && !inputs ? CLIMBOAT_RUNS_NOT_LENT : CLIMBOAT_ANSWERED);
}

/* Every two runs: at one start; a byte or a place in; at the end, where they touch, and a byte or a place before; within each other; the one before the other, and behind. */
static void hold_shared(void)
{
    static const size_t lengths[] = {2, 96, CLIMBOAT_LONGEST_LOG};
    size_t i, k, one, other;
    draw_states(CLIMBOAT_REGION_2);
    for (i = 0; i < sizeof lengths / sizeof lengths[0]; i++) {
        for (one = 0; one < RUNS; one++) {
            for (other = one + 1; other < RUNS; other++) {
                long one_size = (long)sizes[one], other_size = (long)sizes[other], one_end = (long)lengths[i] * one_size, other_end = (long)lengths[i] * other_size;
                const long distances[] = {-other_end - 8, -other_end, 1 - other_end, other_size - other_end, -other_end / 2, -other_size, -1, 0, 1, one_size, one_end / 4, one_end / 2,
                                          one_end - one_size, one_end - 1, one_end, one_end + 8};
                for (k = 0; k < sizeof distances / sizeof distances[0]; k++) hold_distance(one, other, lengths[i], distances[k]);
            }
        }
    }
}

/* Numbers that name something and numbers that do not, with lengths that are right, too large, and none. */
static void hold_numbers(void)
{
    static const uint32_t numbers[] = {0, 1, 2, 3, 4, 5, 6, 7, 8, 9, 13, UINT32_C(0x80000001), UINT32_MAX};
    static const size_t lengths[] = {0, 3, MOST};
    const size_t many = sizeof numbers / sizeof numbers[0];
    size_t i, k, l;
    draw_states(CLIMBOAT_REGION_1);
    for (i = 0; i < many; i++) {
        for (k = 0; k < many; k++) {
            struct question single = {CLIMBOAT_KIND_PT, numbers[i], numbers[k], 0, 0.0, 0.0};
            for (l = 0; l < sizeof lengths / sizeof lengths[0]; l++) {
                struct log log = apart(numbers[i], numbers[k], lengths[l]);
                uint32_t owed = lengths[l] == MOST ? CLIMBOAT_LOG_LENGTHS : CLIMBOAT_ANSWERED;
                hold("numbers of regions and properties", &log, names_nothing(&single) ? CLIMBOAT_NOTHING_NAMED : owed);
            }
        }
    }
}

/* Whether places of every region were answered, and refused by 1, 2 and 3: of what does not come up nothing is shown. */
static bool came_up(void)
{
    uint32_t i, number;
    for (i = 0; i < REGIONS; i++) {
        for (number = CLIMBOAT_ANSWERED; number <= CLIMBOAT_P_OUT_OF_RANGE; number++) {
            if (count.refused[regions[i]][number] == 0) return false;
        }
    }
    return true;
}

static unsigned of_number(uint32_t number)
{
    return (unsigned)(count.refused[CLIMBOAT_REGION_1][number] + count.refused[CLIMBOAT_REGION_2][number] + count.refused[CLIMBOAT_REGION_5][number]);
}

int main(void)
{
    signal(SIGSEGV, tell_fault);
    hold_properties();
    hold_lengths();
    hold_lengths_that_differ();
    hold_nulls();
    hold_shared();
    hold_numbers();
    if (count.differ != 0 || !came_up()) {
        printf("log: %u of %u calls are not as expected%s\n", (unsigned)count.differ, (unsigned)count.calls, came_up() ? "" : ", or a region has none answered, or none refused by 1, 2 or 3");
        return 1;
    }
    printf("log: %u calls, every length from 0 to %u among them, with %u places, of which %u answered, %u refused by 1, %u by 2 and %u by 3: each as climboat_pT has it, bit for bit; ",
           (unsigned)count.calls, MOST, (unsigned)count.places, of_number(CLIMBOAT_ANSWERED), of_number(CLIMBOAT_NOT_FINITE), of_number(CLIMBOAT_T_OUT_OF_RANGE),
           of_number(CLIMBOAT_P_OUT_OF_RANGE));
    printf("%u refused by 13, %u by 21, %u by 22 with nothing written; no other byte was changed\n", (unsigned)count.by[CLIMBOAT_LOG_LENGTHS], (unsigned)count.by[CLIMBOAT_NOTHING_NAMED],
           (unsigned)count.by[CLIMBOAT_RUNS_NOT_LENT]);
    return 0;
}
