/* The residuals of a record, held to what its reader computes again: from climboat_pT at each end of the bracket that is reported, bit for bit, by nothing but what the record says.
 * Without a bracket both are 0. */
#include "questions.h"
#include <math.h>
#include <stdio.h>
#include <string.h>

#define DRAWN_QUESTIONS 100000u
#define DRAWN_TINY_VOLUMES 20000u

static struct {
    uint32_t outcomes;
    uint32_t by_number[CLIMBOAT_NOTHING_NAMED + 1];
    uint32_t ends;           /* whose residual was computed again */
    search_counts by_search; /* these ends */
    uint32_t left_out;       /* ends that lie where climboat_pT refuses */
    uint32_t lower_alone;    /* refused by 6 with the lower end's residual finite */
    uint32_t upper_alone;
    uint32_t neither;
    uint32_t differ;
} count;

static bool same_bits(double a, double b)
{
    return memcmp(&a, &b, sizeof a) == 0;
}

/* Bisection takes it as a part of the target. */
static double residual(const struct climboat_answer *a, double found)
{
    double apart = a->second - found;
    return is_bisection(a) ? apart / a->second : apart;
}

/* Whether this is the residual at the end; for 6 one that is not finite is given as 0. */
static bool is_given(const struct climboat_answer *a, double end, double given)
{
    struct climboat_answer found = found_at(a, end);
    double again;
    if (!climboat_is_answered(found)) {
        count.left_out++;
        return true;
    }
    count.ends++;
    count.by_search[a->region][a->kind]++;
    again = residual(a, found.value);
    if (a->number == CLIMBOAT_RESIDUAL_NOT_FINITE && !isfinite(again)) again = 0.0;
    return same_bits(given, again);
}

/* A search's answer, and 6, 8 and 10, report a bracket. */
static bool has_bracket(const struct climboat_answer *a)
{
    switch (a->number) {
    case CLIMBOAT_ANSWERED: return a->reason != CLIMBOAT_VALUE;
    case CLIMBOAT_RESIDUAL_NOT_FINITE:
    case CLIMBOAT_STEPS_SPENT:
    case CLIMBOAT_POINT_OUTSIDE: return true;
    default: return false;
    }
}

static bool are_given(const struct climboat_answer *a)
{
    bool lower, upper;
    if (!has_bracket(a)) return same_bits(a->lower_residual, 0.0) && same_bits(a->upper_residual, 0.0);
    lower = is_given(a, a->lower, a->lower_residual);
    upper = is_given(a, a->upper, a->upper_residual);
    return lower && upper && isfinite(a->lower_residual) && isfinite(a->upper_residual);
}

static void count_number(const struct climboat_answer *a)
{
    bool lower = a->lower_residual != 0.0, upper = a->upper_residual != 0.0;
    count.outcomes++;
    if (a->number <= CLIMBOAT_NOTHING_NAMED) count.by_number[a->number]++;
    if (a->number != CLIMBOAT_RESIDUAL_NOT_FINITE) return;
    count.lower_alone += lower && !upper;
    count.upper_alone += upper && !lower;
    count.neither += !lower && !upper;
}

static void hold(const struct question *q)
{
    struct climboat_answer a = ask(q);
    char text[200];
    count_number(&a);
    if (are_given(&a) || count.differ++ >= 5) return;
    write_call(text, sizeof text, q);
    printf("residuals: %s: number %u, between %.17g and %.17g, residuals %.17g and %.17g\n", text, (unsigned)a.number, a.lower, a.upper, a.lower_residual, a.upper_residual);
}

/* A drawn question; a search also under limits that it meets early. */
static void hold_drawn(void)
{
    static const uint32_t limits[] = {0, 1, 5};
    struct question q = draw_question();
    size_t i;
    hold(&q);
    if (target_of(q.kind) == CLIMBOAT_NO_PROPERTY) return;
    for (i = 0; i < sizeof limits / sizeof limits[0]; i++) {
        q.limit = limits[i];
        hold(&q);
    }
}

/* Volumes so small that what is found, as a part of them, overflows at one end or at both: (p,v) in region 1 and (T,v) in region 2. */
static void hold_tiny_volume(void)
{
    double v = draw_below(2) == 0 ? fabs(draw_subnormal()) : draw_exponents(-1022, -985);
    struct question pv = {CLIMBOAT_KIND_PV, CLIMBOAT_REGION_1, CLIMBOAT_NO_PROPERTY, CLIMBOAT_STEP_LIMIT, draw_exponents(-3, 6), v};
    struct question Tv = {CLIMBOAT_KIND_TV, CLIMBOAT_REGION_2, CLIMBOAT_NO_PROPERTY, CLIMBOAT_STEP_LIMIT, draw_exponents(8, 9), v};
    hold(&pv);
    hold(&Tv);
}

/* Whether every number that can be given was given, and 6 in each of its ways, and ends of every search were computed again: of what does not come up nothing is shown. No question is known that is refused by 9 or 10. */
static bool came_up(void)
{
    static const uint32_t numbers[] = {0, 1, 2, 3, 4, 5, 6, 7, 8, 11, 21};
    size_t i;
    for (i = 0; i < sizeof numbers / sizeof numbers[0]; i++) {
        if (count.by_number[numbers[i]] == 0) return false;
    }
    return has_every_search(count.by_search) && count.lower_alone != 0 && count.upper_alone != 0 && count.neither != 0;
}

int main(void)
{
    uint32_t i;
    for (i = 0; i < DRAWN_QUESTIONS; i++) hold_drawn();
    for (i = 0; i < DRAWN_TINY_VOLUMES; i++) hold_tiny_volume();
    printf("residuals: %u outcomes, %u of them answered, %u refused by 8, %u by 6 (the lower end's finite in %u, the upper end's in %u, neither in %u): ", (unsigned)count.outcomes,
           (unsigned)count.by_number[CLIMBOAT_ANSWERED], (unsigned)count.by_number[CLIMBOAT_STEPS_SPENT], (unsigned)count.by_number[CLIMBOAT_RESIDUAL_NOT_FINITE],
           (unsigned)count.lower_alone, (unsigned)count.upper_alone, (unsigned)count.neither);
    if (count.differ != 0 || !came_up()) {
        printf("%u differ from what climboat_pT gives%s\n", (unsigned)count.differ, came_up() ? "" : ", and not every number or search came up");
        return 1;
    }
    printf("at %u ends what climboat_pT gives again, bit for bit, %u ends left out since it refuses there; without a bracket 0 and 0\n", (unsigned)count.ends, (unsigned)count.left_out);
    return 0;
}
