/* The questions of the C checks: asking, writing, what an answer says that it is of, and the generator. */
#include "questions.h"
#include <float.h>
#include <math.h>
#include <stdio.h>
#include <string.h>

const uint32_t regions[REGIONS] = {CLIMBOAT_REGION_1, CLIMBOAT_REGION_2, CLIMBOAT_REGION_5};

/* The saturation line and B23 have one input, and no region. */
bool has_two_inputs(enum climboat_kind kind)
{
    return kind == CLIMBOAT_KIND_PT || target_of(kind) != CLIMBOAT_NO_PROPERTY;
}

bool has_region(enum climboat_kind kind, uint32_t region)
{
    size_t i;
    if (!has_two_inputs(kind) || (kind == CLIMBOAT_KIND_PV && region == CLIMBOAT_REGION_5)) return false;
    for (i = 0; i < REGIONS; i++) {
        if (regions[i] == region) return true;
    }
    return false;
}

uint32_t target_of(enum climboat_kind kind)
{
    switch (kind) {
    case CLIMBOAT_KIND_PV:
    case CLIMBOAT_KIND_TV: return CLIMBOAT_VOLUME;
    case CLIMBOAT_KIND_TH: return CLIMBOAT_ENTHALPY;
    case CLIMBOAT_KIND_TS: return CLIMBOAT_ENTROPY;
    default: return CLIMBOAT_NO_PROPERTY;
    }
}

bool has_every_search(search_counts counts)
{
    uint32_t i, kind;
    for (i = 0; i < REGIONS; i++) {
        for (kind = CLIMBOAT_KIND_PV; kind <= CLIMBOAT_KIND_TS; kind++) {
            if (has_region((enum climboat_kind)kind, regions[i]) && counts[regions[i]][kind] == 0) return false;
        }
    }
    return true;
}

bool is_bisection(const struct climboat_answer *answer)
{
    return (answer->kind == CLIMBOAT_KIND_PV && answer->region == CLIMBOAT_REGION_1) || (answer->kind == CLIMBOAT_KIND_TV && answer->region == CLIMBOAT_REGION_2);
}

struct climboat_answer found_at(const struct climboat_answer *answer, double end)
{
    uint32_t target = target_of(answer->kind);
    return answer->kind == CLIMBOAT_KIND_PV ? climboat_pT(answer->region, target, answer->first, end) : climboat_pT(answer->region, target, end, answer->first);
}

/* Bytes are compared, so that inputs and zeros count by their bits. */
_Static_assert(sizeof(struct climboat_answer) == 8 * sizeof(uint32_t) + 7 * sizeof(double), "eight numbers and seven doubles, without a gap");

bool same_answer(const struct climboat_answer *a, const struct climboat_answer *b)
{
    return memcmp(a, b, sizeof *a) == 0;
}

struct climboat_answer ask(const struct question *q)
{
    switch (q->kind) {
    case CLIMBOAT_KIND_PT: return climboat_pT(q->region, q->property, q->first, q->second);
    case CLIMBOAT_KIND_SATURATION_PRESSURE: return climboat_saturation_pressure(q->first);
    case CLIMBOAT_KIND_SATURATION_TEMPERATURE: return climboat_saturation_temperature(q->first);
    case CLIMBOAT_KIND_B23_PRESSURE: return climboat_B23_pressure(q->first);
    case CLIMBOAT_KIND_B23_TEMPERATURE: return climboat_B23_temperature(q->first);
    case CLIMBOAT_KIND_PV: return climboat_pv2T(q->region, q->first, q->second, q->limit);
    case CLIMBOAT_KIND_TV: return climboat_Tv2p(q->region, q->first, q->second, q->limit);
    case CLIMBOAT_KIND_TH: return climboat_Th2p(q->region, q->first, q->second, q->limit);
    default: return climboat_Ts2p(q->region, q->first, q->second, q->limit);
    }
}

void write_call(char *text, size_t size, const struct question *q)
{
    static const char *const names[KINDS] = {"pT", "saturation_pressure", "saturation_temperature", "B23_pressure", "B23_temperature", "pv2T", "Tv2p", "Th2p", "Ts2p"};
    const char *name = names[q->kind - 1];
    if (q->kind == CLIMBOAT_KIND_PT) {
        snprintf(text, size, "climboat_%s(%u, %u, %.17g, %.17g)", name, (unsigned)q->region, (unsigned)q->property, q->first, q->second);
    } else if (has_two_inputs(q->kind)) {
        snprintf(text, size, "climboat_%s(%u, %.17g, %.17g, %u)", name, (unsigned)q->region, q->first, q->second, (unsigned)q->limit);
    } else {
        snprintf(text, size, "climboat_%s(%.17g)", name, q->first);
    }
}

/* What the answer is to say: the number that was given, or 0 where the call takes none or it names none of the call's. */
static uint32_t region_told(const struct question *q)
{
    return has_region(q->kind, q->region) ? q->region : CLIMBOAT_NO_REGION;
}

static uint32_t property_told(const struct question *q)
{
    bool named = q->property >= CLIMBOAT_VOLUME && q->property <= CLIMBOAT_SPEED_OF_SOUND;
    return q->kind == CLIMBOAT_KIND_PT && named ? q->property : CLIMBOAT_NO_PROPERTY;
}

bool names_nothing(const struct question *q)
{
    bool without_region = has_two_inputs(q->kind) && region_told(q) == CLIMBOAT_NO_REGION;
    return without_region || (q->kind == CLIMBOAT_KIND_PT && property_told(q) == CLIMBOAT_NO_PROPERTY);
}

bool is_of(const struct climboat_answer *answer, const struct question *q)
{
    static const double zero = 0.0;
    const double *second = has_two_inputs(q->kind) ? &q->second : &zero;
    /* bytes are compared: NaN equals nothing, and 0 equals -0 */
    return answer->kind == q->kind && answer->region == region_told(q) && answer->property == property_told(q) && answer->room == 0 &&
           memcmp(&answer->first, &q->first, sizeof q->first) == 0 && memcmp(&answer->second, second, sizeof *second) == 0;
}

/* The generator (splitmix64). */
uint64_t draw(void)
{
    static uint64_t state = 97;
    uint64_t z = state += UINT64_C(0x9e3779b97f4a7c15);
    z = (z ^ (z >> 30)) * UINT64_C(0xbf58476d1ce4e5b9);
    z = (z ^ (z >> 27)) * UINT64_C(0x94d049bb133111eb);
    return z ^ (z >> 31);
}

uint32_t draw_below(uint32_t bound)
{
    return (uint32_t)(draw() >> 32) % bound;
}

static double of_bits(uint64_t bits)
{
    double x;
    memcpy(&x, &bits, sizeof x);
    return x;
}

static double draw_between(double low, double high)
{
    return low + (high - low) * ((double)(draw() >> 11) * 0x1p-53);
}

double draw_exponents(int lower, int upper)
{
    uint64_t exponent = (uint64_t)(1023 + lower) + draw_below((uint32_t)(upper - lower + 1));
    return of_bits(exponent << 52 | draw() >> 12);
}

double draw_subnormal(void)
{
    uint64_t sign = draw() >> 63 << 63, mantissa = draw() >> 12;
    return of_bits(sign | mantissa >> draw_below(52));
}

/* Where a range, a region or the doubles themselves end. */
static double draw_edge(void)
{
    static const double edges[] = {NAN,    -NAN,   INFINITY, -INFINITY, 0.0,    -0.0,    0x1p-1074, -0x1p-1074, DBL_MIN,        -DBL_MIN,          DBL_MAX, -DBL_MAX, 1.0,
                                   273.15, 623.15, 647.096,  863.15,    1073.15, 1.0e-8, 22.064,    16.5291643, 0.000611212677, 0.000611212677444, 100.0,   0.001,    50.0,
                                   2273.15};
    double edge = edges[draw_below(sizeof edges / sizeof edges[0])];
    uint64_t bits;
    memcpy(&bits, &edge, sizeof bits);
    return of_bits(bits + draw_below(5) - 2);
}

/* One draw in eight is no state of water: an edge or its neighbour, a subnormal, a tiny or huge double, any bits. */
static double draw_or(double ordinary)
{
    switch (draw_below(32)) {
    case 0: return draw_edge();
    case 1: return draw_subnormal();
    case 2: return draw_exponents(-1022, 1023);
    case 3: return of_bits(draw());
    default: return ordinary;
    }
}

/* The second of a search's pair: for most the property of a state of the region, so that there is something to find. */
static double draw_target(uint32_t property, uint32_t region, double p, double T)
{
    struct climboat_answer there = climboat_pT(region, property, p, T);
    if (climboat_is_answered(there)) return there.value;
    return property == CLIMBOAT_VOLUME ? draw_exponents(-11, 24) : draw_between(-10.0, property == CLIMBOAT_ENTROPY ? 12.0 : 7500.0);
}

static double ordinary_p(const struct question *q)
{
    if (q->kind == CLIMBOAT_KIND_B23_TEMPERATURE) return draw_between(16.5291643, 100.0);
    if (q->kind == CLIMBOAT_KIND_SATURATION_TEMPERATURE) return draw_exponents(-11, 4);
    return q->region == CLIMBOAT_REGION_1 ? draw_exponents(-3, 6) : draw_exponents(-27, q->region == CLIMBOAT_REGION_5 ? 5 : 6);
}

static double ordinary_T(const struct question *q)
{
    if (q->kind == CLIMBOAT_KIND_B23_PRESSURE) return draw_between(623.15, 863.15);
    if (q->kind == CLIMBOAT_KIND_SATURATION_PRESSURE) return draw_between(273.15, 647.096);
    if (q->region == CLIMBOAT_REGION_5) return draw_between(1073.15, 2273.15);
    return draw_between(273.15, q->region == CLIMBOAT_REGION_1 ? 623.15 : 1073.15);
}

static bool takes_p_first(enum climboat_kind kind)
{
    return kind == CLIMBOAT_KIND_PT || kind == CLIMBOAT_KIND_PV || kind == CLIMBOAT_KIND_SATURATION_TEMPERATURE || kind == CLIMBOAT_KIND_B23_TEMPERATURE;
}

/* p and T of a state that the question's call may answer. */
static void draw_ordinary(const struct question *q, double *p, double *T)
{
    *p = ordinary_p(q);
    *T = ordinary_T(q);
    if (q->region == CLIMBOAT_REGION_2 && draw_below(16) == 0) {
        /* the corner where terms of the equation become subnormal */
        *p = draw_exponents(-27, -20);
        *T = draw_between(1040.0, 1073.15);
    }
}

void draw_state(uint32_t region, double *p, double *T)
{
    struct question q = {CLIMBOAT_KIND_PT, region, CLIMBOAT_NO_PROPERTY, 0, 0.0, 0.0};
    draw_ordinary(&q, p, T);
    *p = draw_or(*p);
    *T = draw_or(*T);
}

struct question draw_question(void)
{
    static const uint32_t limits[] = {0, 1, 40, CLIMBOAT_STEP_LIMIT, CLIMBOAT_STEP_LIMIT, CLIMBOAT_STEP_LIMIT, CLIMBOAT_LARGEST_STEP_LIMIT, CLIMBOAT_LARGEST_STEP_LIMIT + 1};
    struct question q;
    double p, T;
    q.kind = (enum climboat_kind)(1 + draw_below(KINDS));
    /* (p,v) has all but the last */
    q.region = regions[draw_below(q.kind == CLIMBOAT_KIND_PV ? REGIONS - 1 : REGIONS)];
    q.property = 1 + draw_below(7);
    q.limit = limits[draw_below(sizeof limits / sizeof limits[0])];
    draw_ordinary(&q, &p, &T);
    q.first = draw_or(takes_p_first(q.kind) ? p : T);
    q.second = q.kind == CLIMBOAT_KIND_PT ? draw_or(T) : 0.0;
    if (target_of(q.kind) != CLIMBOAT_NO_PROPERTY) q.second = draw_or(draw_target(target_of(q.kind), q.region, p, T));
    /* now and then a number that names nothing, and for (p,v) also that of a region that it has not */
    if (draw_below(128) == 0) q.region = q.kind == CLIMBOAT_KIND_PV && draw_below(2) == 0 ? CLIMBOAT_REGION_5 : 3 * draw_below(2);
    if (draw_below(128) == 0) q.property = 8 * draw_below(2);
    return q;
}
