/* Climboat for C11 and C++: what temperature, what pressure, what volume, for water and steam (IAPWS-IF97 regions 1, 2 and 5), or a numbered refusal.
 * Link libclimboat.a (tools/staticlib climboat). Units: MPa, K, m^3/kg, kJ/kg, kJ/(kg K), m/s.
 * Every answer and every refusal says what it is of: the call, the region, the property and both inputs, which come back bit for bit, a NaN's pattern too. The proofs know one NaN
 * only: that patterns with every bit of the payload, quiet and signalling, come back as they went in is measured by bindings/c/run, on the processor that it runs on.
 * Any two doubles may be given, NaN and infinities included: no call traps, allocates or keeps state.
 * The floating-point environment: this holds, and an answer is the proved one, in IEEE 754's default environment: every exception masked, rounding to nearest, subnormals kept.
 * No call changes a control bit; sticky flags may be raised. A program that is linked with -ffast-math starts with flush-to-zero on, and breaks that: as measured (bindings/c/run),
 * a volume that is itself subnormal is then refused by 4 instead of by another number, and nothing else differs. In another rounding mode most answers differ, and some become refusals.
 * In both, as measured, no call traps. An exception that the caller has unmasked raises the caller's own signal in a call, as in any arithmetic. */
#ifndef CLIMBOAT_H
#define CLIMBOAT_H

#include <stdbool.h>
#include <stddef.h>
#include <stdint.h>

#ifdef __cplusplus
extern "C" {
#endif

/* The version of Climboat, and what it follows. */
#define CLIMBOAT_VERSION "0.7.0"
#define CLIMBOAT_FOLLOWS "seuif97 2.3.8 and IAPWS R7-97(2012)"

/* The region, always named by the caller; CLIMBOAT_NO_REGION and any other number are refused by CLIMBOAT_NOTHING_NAMED. Every call that names one takes all three, but for climboat_pv2T,
 * which takes 1 and 2 alone. A point on the saturation line belongs to region 1 or 2, and one at 1073.15 K to region 2 or 5, as named; the release's equations differ a little there. */
enum climboat_region {
    CLIMBOAT_NO_REGION = 0, /* in an answer: the call has none, or was given a number that names none of the call's */
    CLIMBOAT_REGION_1 = 1,  /* liquid water: 273.15 to 623.15 K, from saturation pressure to 100 MPa */
    CLIMBOAT_REGION_2 = 2,  /* steam: 273.15 to 1073.15 K, from 1.0e-8 MPa to saturation pressure, B23 or 100 MPa */
    CLIMBOAT_REGION_5 = 5   /* steam: 1073.15 to 2273.15 K, from 1.0e-8 to 50 MPa */
};

/* The property of a climboat_pT call; CLIMBOAT_NO_PROPERTY and any other number are refused by CLIMBOAT_NOTHING_NAMED. */
enum climboat_property {
    CLIMBOAT_NO_PROPERTY = 0,     /* in an answer: the call has none, or was given a number that names none */
    CLIMBOAT_VOLUME = 1,          /* v, m^3/kg */
    CLIMBOAT_INTERNAL_ENERGY = 2, /* u, kJ/kg */
    CLIMBOAT_ENTROPY = 3,         /* s, kJ/(kg K); in regions 2 and 5 it has ln p in it, which is proved to be less than 2^-48 off */
    CLIMBOAT_ENTHALPY = 4,        /* h, kJ/kg */
    CLIMBOAT_CP = 5,              /* cp, kJ/(kg K) */
    CLIMBOAT_CV = 6,              /* cv, kJ/(kg K) */
    CLIMBOAT_SPEED_OF_SOUND = 7   /* w, m/s */
};

/* The call that an answer or a refusal is of, with its inputs in their order. A kind keeps its number; further kinds get further numbers. */
enum climboat_kind {
    CLIMBOAT_KIND_PT = 1,                     /* climboat_pT: p and T */
    CLIMBOAT_KIND_SATURATION_PRESSURE = 2,    /* climboat_saturation_pressure: T */
    CLIMBOAT_KIND_SATURATION_TEMPERATURE = 3, /* climboat_saturation_temperature: p */
    CLIMBOAT_KIND_B23_PRESSURE = 4,           /* climboat_B23_pressure: T */
    CLIMBOAT_KIND_B23_TEMPERATURE = 5,        /* climboat_B23_temperature: p */
    CLIMBOAT_KIND_PV = 6,                     /* climboat_pv2T: p and v */
    CLIMBOAT_KIND_TV = 7,                     /* climboat_Tv2p: T and v */
    CLIMBOAT_KIND_TH = 8,                     /* climboat_Th2p: T and h */
    CLIMBOAT_KIND_TS = 9                      /* climboat_Ts2p: T and s */
};

/* Why a value is given. */
enum climboat_reason {
    CLIMBOAT_NO_REASON = 0,      /* a refusal */
    CLIMBOAT_VALUE = 1,          /* the call does not search */
    CLIMBOAT_EXACT_END = 2,      /* the residual at an end of the bracket is zero */
    CLIMBOAT_SMALL_RESIDUAL = 3, /* the residual is within its tolerance */
    CLIMBOAT_NARROW = 4          /* the bracket is within its tolerance */
};

/* Whether a found value lies inside its region by the (p,T) rule; outside is still an answer, on which nothing is to be decided (climboat_is_inside). */
enum climboat_mark {
    CLIMBOAT_UNMARKED = 0, /* a refusal, or a call that does not search */
    CLIMBOAT_INSIDE = 1,
    CLIMBOAT_OUTSIDE = 2
};

/* The numbers of refusals. */
enum climboat_refusal {
    CLIMBOAT_ANSWERED = 0,            /* no refusal */
    CLIMBOAT_NOT_FINITE = 1,          /* an input is NaN or infinite */
    CLIMBOAT_T_OUT_OF_RANGE = 2,      /* the temperature is out of range */
    CLIMBOAT_P_OUT_OF_RANGE = 3,      /* the pressure is out of range */
    CLIMBOAT_V_NOT_POSITIVE = 4,      /* the volume is not above zero */
    CLIMBOAT_EMPTY_BRACKET = 5,       /* the lower end is not below the upper end */
    CLIMBOAT_RESIDUAL_NOT_FINITE = 6, /* a residual that was evaluated is not finite */
    CLIMBOAT_SAME_SIGN = 7,           /* both ends have residuals of one sign; it does not mean that there is no such state */
    CLIMBOAT_STEPS_SPENT = 8,         /* the step limit was reached; value is the last point, not an answer */
    CLIMBOAT_RESULT_NOT_FINITE = 9,   /* a property, saturation or B23 result is not finite */
    CLIMBOAT_POINT_OUTSIDE = 10,      /* the next point is outside the bracket */
    CLIMBOAT_LIMIT_TOO_LARGE = 11,    /* the step limit is above CLIMBOAT_LARGEST_STEP_LIMIT */
    CLIMBOAT_LOG_LENGTHS = 13,        /* climboat_pT_log alone: the four runs have not one length, or one above CLIMBOAT_LONGEST_LOG */
    CLIMBOAT_NOTHING_NAMED = 21,      /* the number given for a region or a property names none that the call has: climboat_pv2T has no region 5 */
    CLIMBOAT_RUNS_NOT_LENT = 22       /* climboat_pT_log alone: a run that has places is null, or one that is written shares memory with another */
};

/* CLIMBOAT_STEP_LIMIT is the step limit that the vessels use, CLIMBOAT_LARGEST_STEP_LIMIT the largest that a search takes: one above it is refused by 11. Up to it a larger limit never
 * changes an answer or a refusal other than 8: every column of the record stays, bit for bit. 8 alone may turn into something else: an answer, 6 or 10. */
#define CLIMBOAT_STEP_LIMIT 20000u
#define CLIMBOAT_LARGEST_STEP_LIMIT 65535u

/* The most places that climboat_pT_log fills in one call: a longer log is refused by 13. */
#define CLIMBOAT_LONGEST_LOG 4096u

/* What every call answers, and what that is of. number is CLIMBOAT_ANSWERED, or a refusal's number; value counts only where it is CLIMBOAT_ANSWERED.
 * A residual compares the target of a search, its second input, with what is found at an end of the bracket by the same property's formula: above 0 the target is the larger. */
struct climboat_answer {
    uint32_t number;         /* enum climboat_refusal */
    uint32_t reason;         /* enum climboat_reason */
    uint32_t steps;          /* evaluations after the two ends; 0 without a search. A limit is enough for this answer from steps on, of (p,v) in region 1 and (T,v) in region 2, from
                                steps + 1 on, of the other searches, and from 0 on for an exact end; under every smaller one it is refused by 8 */
    uint32_t mark;           /* enum climboat_mark */
    double value;            /* the answer; 0 for a refusal, but for 8 the last point */
    double lower;            /* the bracket at the search's last test, lower end first; 0 and 0 without one */
    double upper;
    double lower_residual;   /* at each end (target - found)/target, of (p,v) in region 1 and (T,v) in region 2, or target - found, of the other searches; */
    double upper_residual;   /* 0 and 0 without a bracket; for 6 one that is not finite is given as 0 */
    double first;            /* the call's first input as it was given, bit for bit */
    double second;           /* its second input likewise; 0 for the saturation line and B23, which have one */
    uint32_t region;         /* enum climboat_region; 0 for the saturation line and B23, and for 21 where the number given names no region of the call's */
    enum climboat_kind kind; /* the call, never 0 */
    uint32_t property;       /* enum climboat_property; 0 for every call but climboat_pT, and for 21 where the number given names no property */
    uint32_t room;           /* always 0; where an enum has four bytes it leaves the struct without a gap, whose bytes could be anything */
};

/* What the archive exports: each call writes number, reason, steps, mark, region, kind, property, 0 and value, lower, upper, both residuals, first, second, 0 into two lent arrays.
 * Use the functions below instead. A name keeps the sizes of its arrays: the record with four numbers and three doubles, up to version 0.2.0, had other names (climboat_pT_record),
 * which have left the archive. A program that was built with an older header does not link any more, and the linker says which name is missing; it is never overrun. */
void climboat_pT_columns(uint32_t region, uint32_t property, double p, double T, uint32_t numbers[8], double doubles[8]);
void climboat_saturation_pressure_columns(double T, uint32_t numbers[8], double doubles[8]);
void climboat_saturation_temperature_columns(double p, uint32_t numbers[8], double doubles[8]);
void climboat_B23_pressure_columns(double T, uint32_t numbers[8], double doubles[8]);
void climboat_B23_temperature_columns(double p, uint32_t numbers[8], double doubles[8]);
void climboat_pv2T_columns(uint32_t region, double p, double v, uint32_t limit, uint32_t numbers[8], double doubles[8]);
void climboat_Tv2p_columns(uint32_t region, double T, double v, uint32_t limit, uint32_t numbers[8], double doubles[8]);
void climboat_Th2p_columns(uint32_t region, double T, double h, uint32_t limit, uint32_t numbers[8], double doubles[8]);
void climboat_Ts2p_columns(uint32_t region, double T, double s, uint32_t limit, uint32_t numbers[8], double doubles[8]);

/* The archive's log. It takes for granted what C does not say: that each run has as many places as its length says, that none is null, and that none which is written shares memory with
 * another. Call climboat_pT_log, which looks. */
uint32_t climboat_pT_log_runs(uint32_t region, uint32_t property, const double *p, size_t p_length, const double *T, size_t T_length, double *values, size_t values_length, uint32_t *numbers,
                              size_t numbers_length);

/* What a call is lent, and what it wrote there as an answer. */
struct climboat_record {
    uint32_t numbers[8];
    double doubles[8];
};

static inline struct climboat_answer climboat_answer_of(const struct climboat_record *record)
{
    struct climboat_answer answer;
    answer.number = record->numbers[0];
    answer.reason = record->numbers[1];
    answer.steps = record->numbers[2];
    answer.mark = record->numbers[3];
    answer.value = record->doubles[0];
    answer.lower = record->doubles[1];
    answer.upper = record->doubles[2];
    answer.lower_residual = record->doubles[3];
    answer.upper_residual = record->doubles[4];
    answer.first = record->doubles[5];
    answer.second = record->doubles[6];
    answer.region = record->numbers[4];
    answer.kind = (enum climboat_kind)record->numbers[5];
    answer.property = record->numbers[6];
    answer.room = record->numbers[7];
    return answer;
}

/* A property (enum climboat_property) of a region (enum climboat_region) at p in MPa and T in K. */
static inline struct climboat_answer climboat_pT(uint32_t region, uint32_t property, double p, double T)
{
    struct climboat_record record;
    climboat_pT_columns(region, property, p, T, record.numbers, record.doubles);
    return climboat_answer_of(&record);
}

/* Whether two runs of at least one byte share one. The distance between their starts is compared, not where they end: a sum could wrap. */
static inline bool climboat_runs_share(const void *one, size_t one_bytes, const void *other, size_t other_bytes)
{
    uintptr_t a = (uintptr_t)one, b = (uintptr_t)other;
    return a < b ? b - a < one_bytes : a - b < other_bytes;
}

/* Whether four runs of this many places, from 1 to CLIMBOAT_LONGEST_LOG, are there, and each of the two that are written lies apart from all others. */
static inline bool climboat_are_lent(const double *p, const double *T, const double *values, const uint32_t *numbers, size_t places)
{
    size_t doubles_bytes = places * sizeof(double), numbers_bytes = places * sizeof(uint32_t);
    if (p == NULL || T == NULL || values == NULL || numbers == NULL) return false;
    return !climboat_runs_share(p, doubles_bytes, values, doubles_bytes) && !climboat_runs_share(T, doubles_bytes, values, doubles_bytes) &&
           !climboat_runs_share(p, doubles_bytes, numbers, numbers_bytes) && !climboat_runs_share(T, doubles_bytes, numbers, numbers_bytes) &&
           !climboat_runs_share(values, doubles_bytes, numbers, numbers_bytes);
}

/* A whole log at once: a property of a region at every p[k] in MPa and T[k] in K. values[k] and numbers[k] become the value and the number that climboat_pT gives there: the value is 0 where it
 * refuses, the number 0 where it answers, and no refusal stops the rest. The four lengths are in places; that a run has so many is the one thing that cannot be looked at here. What comes back is
 *    0  both runs are filled, whatever was refused; with length 0 there is nothing to fill, and a run may be null
 *   13  CLIMBOAT_LOG_LENGTHS: the four lengths differ, or exceed CLIMBOAT_LONGEST_LOG
 *   21  CLIMBOAT_NOTHING_NAMED, before 13: the number of the region or of the property names none
 *   22  CLIMBOAT_RUNS_NOT_LENT, before 21: the lengths are right, and a run that has places is null, or values or numbers shares memory with another run. p and T may share theirs.
 * Whatever comes back that is not 0, nothing was written. A longer log goes in runs of CLIMBOAT_LONGEST_LOG:
 *
 *   for (size_t from = 0, n; from < length; from += n) {
 *       n = length - from < CLIMBOAT_LONGEST_LOG ? length - from : CLIMBOAT_LONGEST_LOG;
 *       uint32_t number = climboat_pT_log(CLIMBOAT_REGION_1, CLIMBOAT_VOLUME, p + from, n, T + from, n, values + from, n, numbers + from, n);
 *       if (number != 0) return number;
 *   } */
static inline uint32_t climboat_pT_log(uint32_t region, uint32_t property, const double *p, size_t p_length, const double *T, size_t T_length, double *values, size_t values_length,
                                       uint32_t *numbers, size_t numbers_length)
{
    /* lent in the place of runs that are not handed on: each is what the archive takes a run for */
    const double no_input = 0.0;
    double no_value = 0.0;
    uint32_t no_number = 0;
    bool one_length = T_length == p_length && values_length == p_length && numbers_length == p_length;
    if (!one_length || p_length > CLIMBOAT_LONGEST_LOG) return climboat_pT_log_runs(region, property, &no_input, 1, &no_input, 0, &no_value, 0, &no_number, 0);
    if (p_length == 0) return climboat_pT_log_runs(region, property, &no_input, 0, &no_input, 0, &no_value, 0, &no_number, 0);
    if (!climboat_are_lent(p, T, values, numbers, p_length)) return CLIMBOAT_RUNS_NOT_LENT;
    return climboat_pT_log_runs(region, property, p, p_length, T, T_length, values, values_length, numbers, numbers_length);
}

/* The saturation pressure in MPa at T in K, from 273.15 to 647.096 K. */
static inline struct climboat_answer climboat_saturation_pressure(double T)
{
    struct climboat_record record;
    climboat_saturation_pressure_columns(T, record.numbers, record.doubles);
    return climboat_answer_of(&record);
}

/* The saturation temperature in K at p in MPa, from 0.000611212677 to 22.064 MPa. */
static inline struct climboat_answer climboat_saturation_temperature(double p)
{
    struct climboat_record record;
    climboat_saturation_temperature_columns(p, record.numbers, record.doubles);
    return climboat_answer_of(&record);
}

/* The pressure in MPa of the boundary B23 at T in K, from 623.15 to 863.15 K. */
static inline struct climboat_answer climboat_B23_pressure(double T)
{
    struct climboat_record record;
    climboat_B23_pressure_columns(T, record.numbers, record.doubles);
    return climboat_answer_of(&record);
}

/* The temperature in K of the boundary B23 at p in MPa, from 16.5291643 to 100 MPa. */
static inline struct climboat_answer climboat_B23_temperature(double p)
{
    struct climboat_record record;
    climboat_B23_temperature_columns(p, record.numbers, record.doubles);
    return climboat_answer_of(&record);
}

/* (p,v) to T: the temperature in K at p in MPa and v in m^3/kg, in at most limit steps. Regions 1 and 2 alone: CLIMBOAT_REGION_5 is refused by CLIMBOAT_NOTHING_NAMED. */
static inline struct climboat_answer climboat_pv2T(uint32_t region, double p, double v, uint32_t limit)
{
    struct climboat_record record;
    climboat_pv2T_columns(region, p, v, limit, record.numbers, record.doubles);
    return climboat_answer_of(&record);
}

/* (T,v) to p: the pressure in MPa at T in K and v in m^3/kg, in at most limit steps. The ends of a narrow answer of region 2 are less than a millionth of the upper one apart, in a low vacuum too;
 * those of region 5, by Brent's rule, are up to 1.2e-7 times the pressure plus 1.0e-8 MPa apart, which in a low vacuum is a larger part of it. */
static inline struct climboat_answer climboat_Tv2p(uint32_t region, double T, double v, uint32_t limit)
{
    struct climboat_record record;
    climboat_Tv2p_columns(region, T, v, limit, record.numbers, record.doubles);
    return climboat_answer_of(&record);
}

/* (T,h) to p: the pressure in MPa at T in K and h in kJ/kg, in at most limit steps. */
static inline struct climboat_answer climboat_Th2p(uint32_t region, double T, double h, uint32_t limit)
{
    struct climboat_record record;
    climboat_Th2p_columns(region, T, h, limit, record.numbers, record.doubles);
    return climboat_answer_of(&record);
}

/* (T,s) to p: the pressure in MPa at T in K and s in kJ/(kg K), in at most limit steps. */
static inline struct climboat_answer climboat_Ts2p(uint32_t region, double T, double s, uint32_t limit)
{
    struct climboat_record record;
    climboat_Ts2p_columns(region, T, s, limit, record.numbers, record.doubles);
    return climboat_answer_of(&record);
}

/* Whether the answer is a value, and not a refusal. A value may lie outside its region: decide on climboat_is_inside. */
static inline bool climboat_is_answered(struct climboat_answer answer)
{
    return answer.number == CLIMBOAT_ANSWERED;
}

/* Whether the answer is a value, and not a refusal, and is not marked outside. This, not climboat_is_answered, is what a decision is to be made on.
 * A call that does not search gives no mark: its point is inside, or it is refused. */
static inline bool climboat_is_inside(struct climboat_answer answer)
{
    return climboat_is_answered(answer) && answer.mark != CLIMBOAT_OUTSIDE;
}

/* What a refusal's number means, in a sentence. */
static inline const char *climboat_sentence(uint32_t number)
{
    switch (number) {
    case CLIMBOAT_ANSWERED: return "answered";
    case CLIMBOAT_NOT_FINITE: return "an input is NaN or infinite";
    case CLIMBOAT_T_OUT_OF_RANGE: return "the temperature is out of range";
    case CLIMBOAT_P_OUT_OF_RANGE: return "the pressure is out of range";
    case CLIMBOAT_V_NOT_POSITIVE: return "the volume is not above zero";
    case CLIMBOAT_EMPTY_BRACKET: return "the lower end of the search is not below its upper end";
    case CLIMBOAT_RESIDUAL_NOT_FINITE: return "a residual that the search evaluated is not finite";
    case CLIMBOAT_SAME_SIGN: return "the residuals at both ends of the search have the same sign; this does not mean that there is no such state";
    case CLIMBOAT_STEPS_SPENT: return "the step limit was reached before an answer";
    case CLIMBOAT_RESULT_NOT_FINITE: return "a property, saturation or B23 result is not finite";
    case CLIMBOAT_POINT_OUTSIDE: return "the next point of the search is outside its bracket";
    case CLIMBOAT_LIMIT_TOO_LARGE: return "the step limit is above 65535";
    case CLIMBOAT_LOG_LENGTHS: return "the four runs of a log have not one length, or one above 4096";
    case CLIMBOAT_NOTHING_NAMED: return "the number given for a region or a property names none that this call has; (p,v) has regions 1 and 2 alone";
    case CLIMBOAT_RUNS_NOT_LENT: return "a run of a log that has places is null, or one that is written shares memory with another";
    default: return "no refusal has this number";
    }
}

#ifdef __cplusplus
}
#endif

#endif
