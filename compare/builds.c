/* Times the public calls, or some formulas, of two builds of Climboat, before and after, in turn and on the same inputs: compare/builds links it with both.
 * Each figure is the median of nine passes, in nanoseconds for a call. With the word "answers" it counts instead how many records, or results of formulas, are not the same in both. */
#define _POSIX_C_SOURCE 199309L
#include <math.h>
#include <stdbool.h>
#include <stdint.h>
#include <stdio.h>
#include <stdlib.h>
#include <string.h>
#include <time.h>

enum { STATES = 20000, SEARCHED = 2000, PASSES = 9, LIMIT = 20000, QUESTIONS = 100000 };

typedef void property_call(uint32_t region, uint32_t property, double p, double T, uint32_t *numbers, double *doubles);
typedef void line_call(double x, uint32_t *numbers, double *doubles);
typedef void search_call(uint32_t region, double fixed, double target, uint32_t limit, uint32_t *numbers, double *doubles);
typedef double formula_call(double x);

struct build {
    property_call *pT;
    line_call *lines[4];
    search_call *searches[4];
    formula_call *formulas[5];
};

/* Weak, since an archive has the calls or the formulas: what it does not have is null. */
#define DECLARED(build) \
    extern __attribute__((weak)) property_call build##_pT; \
    extern __attribute__((weak)) line_call build##_saturation_pressure, build##_saturation_temperature, build##_B23_pressure, build##_B23_temperature; \
    extern __attribute__((weak)) search_call build##_pv2T, build##_Tv2p, build##_Th2p, build##_Ts2p; \
    extern __attribute__((weak)) formula_call build##_formula_float_sqrt, build##_formula_float_fourth_root, build##_formula_float_ln; \
    extern __attribute__((weak)) formula_call build##_formula_saturation_pressure, build##_formula_saturation_temperature
#define OFFERED(build) \
    { build##_pT, { build##_saturation_pressure, build##_saturation_temperature, build##_B23_pressure, build##_B23_temperature }, { build##_pv2T, build##_Tv2p, build##_Th2p, build##_Ts2p }, \
      { build##_formula_float_sqrt, build##_formula_float_fourth_root, build##_formula_float_ln, build##_formula_saturation_pressure, build##_formula_saturation_temperature } }

DECLARED(before);
DECLARED(after);
static const struct build before = OFFERED(before), after = OFFERED(after);

/* By their places in struct build. */
enum line { SATURATION_PRESSURE, SATURATION_TEMPERATURE, B23_PRESSURE, B23_TEMPERATURE };
enum search { PV, TV, TH, TS };
enum formula { SQUARE_ROOT, FOURTH_ROOT, LOGARITHM, PRESSURE_FORMULA, TEMPERATURE_FORMULA };

/* By their numbers in a (p,T) call. */
enum property { V = 1, U, S, H, CP, CV, W };

enum form { PROPERTY, LINE, SEARCH, FORMULA };

/* A call with all but its inputs: which property, line, search or formula it is, and of which region. */
struct call {
    const char *name;
    enum form form;
    uint32_t which, region;
};

static const struct call calls[] = {
    { "region 1 (p,T) to v", PROPERTY, V, 1 }, { "region 1 (p,T) to u", PROPERTY, U, 1 }, { "region 1 (p,T) to s", PROPERTY, S, 1 }, { "region 1 (p,T) to h", PROPERTY, H, 1 },
    { "region 1 (p,T) to cp", PROPERTY, CP, 1 }, { "region 1 (p,T) to cv", PROPERTY, CV, 1 }, { "region 1 (p,T) to w", PROPERTY, W, 1 },
    { "region 2 (p,T) to v", PROPERTY, V, 2 }, { "region 2 (p,T) to u", PROPERTY, U, 2 }, { "region 2 (p,T) to s", PROPERTY, S, 2 }, { "region 2 (p,T) to h", PROPERTY, H, 2 },
    { "region 2 (p,T) to cp", PROPERTY, CP, 2 }, { "region 2 (p,T) to cv", PROPERTY, CV, 2 }, { "region 2 (p,T) to w", PROPERTY, W, 2 },
    { "saturation pressure", LINE, SATURATION_PRESSURE, 0 }, { "saturation temperature", LINE, SATURATION_TEMPERATURE, 0 },
    { "B23 pressure", LINE, B23_PRESSURE, 0 }, { "B23 temperature", LINE, B23_TEMPERATURE, 0 },
    { "region 1 (p,v) to T", SEARCH, PV, 1 }, { "region 1 (T,v) to p", SEARCH, TV, 1 }, { "region 1 (T,h) to p", SEARCH, TH, 1 }, { "region 1 (T,s) to p", SEARCH, TS, 1 },
    { "region 2 (p,v) to T", SEARCH, PV, 2 }, { "region 2 (T,v) to p", SEARCH, TV, 2 }, { "region 2 (T,h) to p", SEARCH, TH, 2 }, { "region 2 (T,s) to p", SEARCH, TS, 2 },
    { "region 5 (p,T) to v", PROPERTY, V, 5 }, { "region 5 (p,T) to u", PROPERTY, U, 5 }, { "region 5 (p,T) to s", PROPERTY, S, 5 }, { "region 5 (p,T) to h", PROPERTY, H, 5 },
    { "region 5 (p,T) to cp", PROPERTY, CP, 5 }, { "region 5 (p,T) to cv", PROPERTY, CV, 5 }, { "region 5 (p,T) to w", PROPERTY, W, 5 },
    { "region 5 (T,v) to p", SEARCH, TV, 5 }, { "region 5 (T,h) to p", SEARCH, TH, 5 }, { "region 5 (T,s) to p", SEARCH, TS, 5 },
    { "square root", FORMULA, SQUARE_ROOT, 0 }, { "fourth root", FORMULA, FOURTH_ROOT, 0 }, { "logarithm", FORMULA, LOGARITHM, 0 },
    { "saturation pressure, formula alone", FORMULA, PRESSURE_FORMULA, 0 }, { "saturation temperature, formula alone", FORMULA, TEMPERATURE_FORMULA, 0 },
};

struct inputs {
    double first, second;
};

/* What a call is lent: the arrays of the wider record, of which an older build writes the beginning. */
static uint32_t numbers[8];
static double doubles[8];

static bool offers(const struct build *build, const struct call *call)
{
    return call->form == FORMULA ? build->formulas[call->which] != NULL : build->pT != NULL;
}

static void ask(const struct build *build, const struct call *call, struct inputs inputs)
{
    switch (call->form) {
    case PROPERTY: build->pT(call->region, call->which, inputs.first, inputs.second, numbers, doubles); break;
    case LINE: build->lines[call->which](inputs.first, numbers, doubles); break;
    case SEARCH: build->searches[call->which](call->region, inputs.first, inputs.second, LIMIT, numbers, doubles); break;
    case FORMULA: doubles[0] = build->formulas[call->which](inputs.first); break;
    }
}

static bool answers(const struct build *build, const struct call *call, struct inputs inputs)
{
    ask(build, call, inputs);
    return call->form == FORMULA ? isfinite(doubles[0]) : numbers[0] == 0;
}

/* xorshift64* from a fixed seed, as in src/draw.rs: from 0 to 1. */
static double unit(void)
{
    static uint64_t state = 0x0c1b0a7000000045;
    state ^= state >> 12;
    state ^= state << 25;
    state ^= state >> 27;
    return (double)(state * 0x2545f4914f6cdd1d >> 11) / 9007199254740992.0;
}

static double between(double low, double high)
{
    return low + unit() * (high - low);
}

/* Of every magnitude from low to high alike. */
static double logarithmic(double low, double high)
{
    return exp(between(log(low), log(high)));
}

static double on_line(enum line line, double x)
{
    before.lines[line](x, numbers, doubles);
    return doubles[0];
}

/* A pressure and a temperature of a region; one that rounding puts outside is refused, and left out. */
static struct inputs state(uint32_t region)
{
    if (region == 5)
        return (struct inputs){ logarithmic(1.0e-8, 50.0), between(1073.15, 2273.15) };
    double T = between(273.15, region == 1 ? 623.15 : 1073.15);
    double boundary = T <= 623.15 ? on_line(SATURATION_PRESSURE, T) : T <= 863.15 ? on_line(B23_PRESSURE, T) : 100.0;
    double p = region == 1 ? between(boundary, 100.0) : logarithmic(1.0e-8, boundary);
    return (struct inputs){ p, T };
}

/* Whether the build has the call's region: an archive of before region 5 refuses it by 21. */
static bool has_region(const struct build *build, const struct call *call)
{
    if (call->form != PROPERTY && call->form != SEARCH)
        return true;
    build->pT(call->region, V, 1.0, call->region == 5 ? 1500.0 : 500.0, numbers, doubles);
    return numbers[0] != 21;
}

/* Whose states the targets of a search are of: those of before, if it has the region. */
static const struct build *targets_of(const struct call *call)
{
    return has_region(&before, call) ? &before : &after;
}

/* An input of the call, a search's from a state of its region. */
static struct inputs drawn(const struct call *call)
{
    static const struct inputs ranges[] = { { 273.15, 647.096 }, { 0.000611212677, 22.064 }, { 623.15, 863.15 }, { 16.5291643, 100.0 } };
    static const struct inputs of_formulas[] = { { 1.0e-8, 1.0e8 }, { 1.0e-8, 1.0e8 }, { 1.0e-8, 101.0 }, { 273.15, 647.096 }, { 0.000611212677, 22.064 } };
    static const enum property targets[] = { V, V, H, S };
    struct inputs at;
    if (call->form == FORMULA)
        return (struct inputs){ logarithmic(of_formulas[call->which].first, of_formulas[call->which].second), 0.0 };
    if (call->form == LINE)
        return (struct inputs){ between(ranges[call->which].first, ranges[call->which].second), 0.0 };
    at = state(call->region);
    if (call->form == PROPERTY)
        return at;
    targets_of(call)->pT(call->region, targets[call->which], at.first, at.second, numbers, doubles);
    return (struct inputs){ call->which == PV ? at.first : at.second, doubles[0] };
}

/* Draws inputs of the call, and lists those that every build answers that has its region; how many they are. */
static int prepared(const struct call *call, struct inputs *list)
{
    int wanted = call->form == SEARCH ? SEARCHED : STATES, count = 0;
    bool first = has_region(&before, call), second = has_region(&after, call);
    for (int n = 0; n < wanted; n++) {
        list[count] = drawn(call);
        if ((!first || answers(&before, call, list[count])) && (!second || answers(&after, call, list[count])))
            count++;
    }
    return count;
}

static double pass(const struct build *build, const struct call *call, const struct inputs *list, int count)
{
    struct timespec start, end;
    clock_gettime(CLOCK_MONOTONIC, &start);
    for (int n = 0; n < count; n++)
        ask(build, call, list[n]);
    clock_gettime(CLOCK_MONOTONIC, &end);
    return ((double)(end.tv_sec - start.tv_sec) * 1.0e9 + (double)(end.tv_nsec - start.tv_nsec)) / count;
}

static int ascending(const void *a, const void *b)
{
    double x = *(const double *)a, y = *(const double *)b;
    return (x > y) - (x < y);
}

static double median(double times[PASSES])
{
    qsort(times, PASSES, sizeof times[0], ascending);
    return times[PASSES / 2];
}

/* A cell of the timings: what is refused is not timed. */
static void print_cell(bool has, double time)
{
    if (has)
        printf(" %.1f ns |", time);
    else
        printf(" refused by 21 |");
}

/* A line of the timings, or false where no input is answered by both. */
static bool timed(const struct call *call)
{
    static struct inputs list[STATES];
    double times[2][PASSES], medians[2];
    bool first = has_region(&before, call), second = has_region(&after, call);
    int count = prepared(call, list);
    if (count == 0) {
        fprintf(stderr, "builds: %s: no input that both builds answer\n", call->name);
        return false;
    }
    for (int turn = 0; turn < PASSES; turn++) {
        times[0][turn] = pass(&before, call, list, count);
        times[1][turn] = pass(&after, call, list, count);
    }
    medians[0] = median(times[0]);
    medians[1] = median(times[1]);
    printf("| %s |", call->name);
    print_cell(first, medians[0]);
    print_cell(second, medians[1]);
    if (first && second)
        printf(" %.2f |\n", medians[1] / medians[0]);
    else
        printf(" - |\n");
    return true;
}

/* The places of a record that are counted by themselves. */
enum place { NUMBER = 0, STEPS = 2, VALUE = 0 };

struct record {
    uint32_t numbers[8];
    uint64_t bits[8];
};

/* Where a build wrote nothing, a record has all bits set, as no answer has. */
static struct record record(const struct build *build, const struct call *call, struct inputs inputs)
{
    struct record record;
    memset(numbers, 0xff, sizeof numbers);
    memset(doubles, 0xff, sizeof doubles);
    ask(build, call, inputs);
    memcpy(record.numbers, numbers, sizeof numbers);
    memcpy(record.bits, doubles, sizeof doubles);
    return record;
}

static double value(const struct record *record)
{
    double x;
    memcpy(&x, &record->bits[VALUE], sizeof x);
    return x;
}

/* Whether any column differs; one that an older build does not write is left out. */
static bool differ(const struct record *a, const struct record *b)
{
    for (int n = 0; n < 8; n++) {
        if (a->numbers[n] != b->numbers[n] && a->numbers[n] != UINT32_MAX && b->numbers[n] != UINT32_MAX)
            return true;
        if (a->bits[n] != b->bits[n] && a->bits[n] != UINT64_MAX && b->bits[n] != UINT64_MAX)
            return true;
    }
    return false;
}

/* A line of the answers, refusals included; the distance is of two values under one number. */
static void counted(const struct call *call)
{
    int records = 0, by_number = 0, unnamed = 0, by_steps = 0, by_value = 0;
    double largest = 0.0;
    for (int n = 0; n < QUESTIONS; n++) {
        struct inputs inputs = drawn(call);
        struct record a = record(&before, call, inputs), b = record(&after, call, inputs);
        records += differ(&a, &b);
        by_number += a.numbers[NUMBER] != b.numbers[NUMBER];
        unnamed += (a.numbers[NUMBER] == 21) != (b.numbers[NUMBER] == 21);
        by_steps += a.numbers[STEPS] != b.numbers[STEPS];
        by_value += a.bits[VALUE] != b.bits[VALUE];
        if (a.bits[VALUE] != b.bits[VALUE] && a.numbers[NUMBER] == b.numbers[NUMBER])
            largest = fmax(largest, fabs(value(&b) - value(&a)) / fabs(value(&a)));
    }
    printf("| %s | %d | %d | %d | %d | %d | %d | %.2g |\n", call->name, QUESTIONS, records, by_number, unnamed, by_steps, by_value, largest);
}

int main(int count, char **words)
{
    bool counting = count == 2 && strcmp(words[1], "answers") == 0;
    int rows = 0;
    for (size_t n = 0; n < sizeof calls / sizeof calls[0]; n++) {
        if (!offers(&before, &calls[n]) || !offers(&after, &calls[n]))
            continue;
        if (rows++ == 0)
            puts(counting ? "| call | questions | differ in any column | in number | of these by 21 in one build alone | in steps | in value | largest relative distance of the value |\n|---|---|---|---|---|---|---|---|"
                          : "| call | before | after | after/before |\n|---|---|---|---|");
        if (counting)
            counted(&calls[n]);
        else if (!timed(&calls[n]))
            return 1;
    }
    if (rows == 0)
        fprintf(stderr, "builds: the two archives are not of one crate\n");
    return rows == 0;
}
