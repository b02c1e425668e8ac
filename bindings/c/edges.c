/* Where region 5 begins and stops, each end with the double beyond it, by (p,T) and by the searches; and what (p,v), which has no region 5, says to it. */
#include "questions.h"
#include <math.h>
#include <stdio.h>

/* A question, and the number that its answer is to have. */
struct edge {
    struct question question;
    uint32_t number;
};

#define PT(region, p, T) {CLIMBOAT_KIND_PT, region, CLIMBOAT_VOLUME, 0, p, T}
#define SEARCH(kind, region, first, second) {kind, region, CLIMBOAT_NO_PROPERTY, CLIMBOAT_STEP_LIMIT, first, second}

static const double cold = 1073.15, hot = 2273.15, low = 1.0e-8, high = 50.0;

static struct {
    unsigned asked;
    unsigned differ;
} count;

/* The answer must have the number and be of the question, and carry a value or a bracket exactly where it is no refusal. */
static void hold(const struct edge *edge)
{
    struct climboat_answer a = ask(&edge->question);
    bool carries = a.value != 0.0 || a.steps != 0 || a.lower != 0.0 || a.upper != 0.0 || a.lower_residual != 0.0 || a.upper_residual != 0.0;
    char text[200];
    count.asked++;
    if (a.number == edge->number && is_of(&a, &edge->question) && carries == climboat_is_answered(a)) return;
    count.differ++;
    write_call(text, sizeof text, &edge->question);
    printf("edges: %s: number %u, not %u; region %u, value %.17g\n", text, (unsigned)a.number, (unsigned)edge->number, (unsigned)a.region, a.value);
}

static void hold_states(void)
{
    const struct edge edges[] = {
        /* at 1073.15 K the named region decides */
        {PT(CLIMBOAT_REGION_2, 0.5, cold), CLIMBOAT_ANSWERED},
        {PT(CLIMBOAT_REGION_5, 0.5, cold), CLIMBOAT_ANSWERED},
        {PT(CLIMBOAT_REGION_2, 0.5, nextafter(cold, hot)), CLIMBOAT_T_OUT_OF_RANGE},
        {PT(CLIMBOAT_REGION_5, 0.5, nextafter(cold, 0.0)), CLIMBOAT_T_OUT_OF_RANGE},
        {PT(CLIMBOAT_REGION_5, 0.5, hot), CLIMBOAT_ANSWERED},
        {PT(CLIMBOAT_REGION_5, 0.5, nextafter(hot, INFINITY)), CLIMBOAT_T_OUT_OF_RANGE},
        {PT(CLIMBOAT_REGION_5, high, 1500.0), CLIMBOAT_ANSWERED},
        {PT(CLIMBOAT_REGION_5, nextafter(high, INFINITY), 1500.0), CLIMBOAT_P_OUT_OF_RANGE},
        {PT(CLIMBOAT_REGION_5, low, 1500.0), CLIMBOAT_ANSWERED},
        {PT(CLIMBOAT_REGION_5, nextafter(low, 0.0), 1500.0), CLIMBOAT_P_OUT_OF_RANGE},
        /* 1, then 2, then 3 */
        {PT(CLIMBOAT_REGION_5, 0.0, NAN), CLIMBOAT_NOT_FINITE},
        {PT(CLIMBOAT_REGION_5, 0.0, 300.0), CLIMBOAT_T_OUT_OF_RANGE},
        {PT(CLIMBOAT_REGION_5, 0.0, 1500.0), CLIMBOAT_P_OUT_OF_RANGE},
    };
    size_t i;
    for (i = 0; i < sizeof edges / sizeof edges[0]; i++) hold(&edges[i]);
}

static void hold_searches(void)
{
    const struct edge edges[] = {
        {SEARCH(CLIMBOAT_KIND_TV, CLIMBOAT_REGION_5, cold, 1.0), CLIMBOAT_ANSWERED},
        {SEARCH(CLIMBOAT_KIND_TV, CLIMBOAT_REGION_5, hot, 1.0), CLIMBOAT_ANSWERED},
        /* 2 before 4 */
        {SEARCH(CLIMBOAT_KIND_TV, CLIMBOAT_REGION_5, nextafter(cold, 0.0), -1.0), CLIMBOAT_T_OUT_OF_RANGE},
        {SEARCH(CLIMBOAT_KIND_TH, CLIMBOAT_REGION_5, nextafter(hot, INFINITY), 5000.0), CLIMBOAT_T_OUT_OF_RANGE},
        {SEARCH(CLIMBOAT_KIND_TS, CLIMBOAT_REGION_5, nextafter(cold, 0.0), 9.0), CLIMBOAT_T_OUT_OF_RANGE},
        {SEARCH(CLIMBOAT_KIND_TV, CLIMBOAT_REGION_5, 1500.0, 0.0), CLIMBOAT_V_NOT_POSITIVE},
        {SEARCH(CLIMBOAT_KIND_TH, CLIMBOAT_REGION_5, 1500.0, 0.0), CLIMBOAT_SAME_SIGN},
        /* before anything else is looked at */
        {SEARCH(CLIMBOAT_KIND_PV, CLIMBOAT_REGION_5, 0.5, 1.0), CLIMBOAT_NOTHING_NAMED},
        {SEARCH(CLIMBOAT_KIND_PV, CLIMBOAT_REGION_5, NAN, 1.0), CLIMBOAT_NOTHING_NAMED},
    };
    size_t i;
    for (i = 0; i < sizeof edges / sizeof edges[0]; i++) hold(&edges[i]);
}

int main(void)
{
    hold_states();
    hold_searches();
    if (count.differ != 0) {
        printf("edges: %u of %u answers are not as expected\n", count.differ, count.asked);
        return 1;
    }
    printf("edges: region 5 begins and stops at 1073.15 and 2273.15 K, 1.0e-8 and 50 MPa, and (p,v) refuses it by 21, in %u questions\n", count.asked);
    return 0;
}
