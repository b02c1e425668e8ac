/* What an answer or a refusal is of, in words and units for a line of a log, from the record alone. It is not in climboat.h, which a controller without <stdio.h> includes too. */
#ifndef QUESTION_H
#define QUESTION_H

#include <climboat.h>
#include <stdio.h>

/* The place that is asked about: the line, or the region as the caller named it. */
static inline const char *place_of(struct climboat_answer answer)
{
    switch (answer.kind) {
    case CLIMBOAT_KIND_SATURATION_PRESSURE:
    case CLIMBOAT_KIND_SATURATION_TEMPERATURE: return "the saturation line";
    case CLIMBOAT_KIND_B23_PRESSURE:
    case CLIMBOAT_KIND_B23_TEMPERATURE: return "B23";
    default: break;
    }
    switch (answer.region) {
    case CLIMBOAT_REGION_1: return "region 1";
    case CLIMBOAT_REGION_2: return "region 2";
    case CLIMBOAT_REGION_5: return "region 5";
    default: return "no region";
    }
}

/* The place and the inputs, such as "region 1, p = 3 MPa, T = 300 K". As snprintf it writes no more than size bytes, and returns how long the whole is. 17 digits tell each double from all others. */
static inline int write_question(char *text, size_t size, struct climboat_answer answer)
{
    const char *place = place_of(answer);
    switch (answer.kind) {
    case CLIMBOAT_KIND_PT: return snprintf(text, size, "%s, p = %.17g MPa, T = %.17g K", place, answer.first, answer.second);
    case CLIMBOAT_KIND_SATURATION_PRESSURE:
    case CLIMBOAT_KIND_B23_PRESSURE: return snprintf(text, size, "%s, T = %.17g K", place, answer.first);
    case CLIMBOAT_KIND_SATURATION_TEMPERATURE:
    case CLIMBOAT_KIND_B23_TEMPERATURE: return snprintf(text, size, "%s, p = %.17g MPa", place, answer.first);
    case CLIMBOAT_KIND_PV: return snprintf(text, size, "%s, p = %.17g MPa, v = %.17g m^3/kg", place, answer.first, answer.second);
    case CLIMBOAT_KIND_TV: return snprintf(text, size, "%s, T = %.17g K, v = %.17g m^3/kg", place, answer.first, answer.second);
    case CLIMBOAT_KIND_TH: return snprintf(text, size, "%s, T = %.17g K, h = %.17g kJ/kg", place, answer.first, answer.second);
    case CLIMBOAT_KIND_TS: return snprintf(text, size, "%s, T = %.17g K, s = %.17g kJ/(kg K)", place, answer.first, answer.second);
    }
    return snprintf(text, size, "a call that climboat.h does not know");
}

/* A quantity by its letter, with its unit. */
struct quantity {
    const char *letter;
    const char *unit;
};

/* What is asked for there: the value's letter and unit. */
static inline struct quantity sought_by(struct climboat_answer answer)
{
    static const struct quantity p = {"p", "MPa"}, T = {"T", "K"};
    static const struct quantity properties[] = {{"no property", ""}, {"v", "m^3/kg"}, {"u", "kJ/kg"}, {"s", "kJ/(kg K)"}, {"h", "kJ/kg"}, {"cp", "kJ/(kg K)"}, {"cv", "kJ/(kg K)"}, {"w", "m/s"}};
    switch (answer.kind) {
    case CLIMBOAT_KIND_PT: return properties[answer.property];
    case CLIMBOAT_KIND_SATURATION_TEMPERATURE:
    case CLIMBOAT_KIND_B23_TEMPERATURE:
    case CLIMBOAT_KIND_PV: return T;
    default: return p;
    }
}

/* What the residuals of a search are in: the unit of its target, or, where they are divided by the target, no unit. */
static inline const char *residual_unit(struct climboat_answer answer)
{
    switch (answer.kind) {
    case CLIMBOAT_KIND_PV: return answer.region == CLIMBOAT_REGION_1 ? "(relative)" : "m^3/kg";
    case CLIMBOAT_KIND_TV: return answer.region == CLIMBOAT_REGION_2 ? "(relative)" : "m^3/kg";
    case CLIMBOAT_KIND_TH: return "kJ/kg";
    case CLIMBOAT_KIND_TS: return "kJ/(kg K)";
    default: return "";
    }
}

#endif
