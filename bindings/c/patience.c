/* What the step limit of a search may change: nothing but 8. Each drawn search is asked under the largest limit; its step count then says which limits are enough, under which the
 * record is the same, and which are not, under which it is 8. The first difference ends the check. */
#include "questions.h"
#include <stdio.h>
#include <stdlib.h>

#define DRAWN_SEARCHES 100000u

static struct {
    uint32_t searches;
    uint32_t asked;
    uint32_t exact_ends; /* under the largest limit */
    uint32_t answers;    /* after steps there, and so 8 under one step less than enough */
    uint32_t six;        /* refused by 6 there, likewise */
    uint32_t ten;        /* refused by 10 there, likewise */
    uint32_t unsettled;  /* 8 even there */
    uint32_t too_large;
    search_counts with_steps;
} count;

static void fail(const char *what, const struct question *q, const struct climboat_answer *a, const struct climboat_answer *largest)
{
    char text[200];
    write_call(text, sizeof text, q);
    printf("patience: %s: %s: number %u, reason %u, steps %u, value %.17g, between %.17g and %.17g", text, what, (unsigned)a->number, (unsigned)a->reason, (unsigned)a->steps, a->value,
           a->lower, a->upper);
    printf("; under %u number %u, reason %u, steps %u, value %.17g, between %.17g and %.17g\n", CLIMBOAT_LARGEST_STEP_LIMIT, (unsigned)largest->number, (unsigned)largest->reason,
           (unsigned)largest->steps, largest->value, largest->lower, largest->upper);
    exit(1);
}

/* The least limit that is enough for an outcome that is not 8. */
static uint32_t enough(const struct climboat_answer *a)
{
    switch (a->number) {
    case CLIMBOAT_ANSWERED:
        if (a->reason == CLIMBOAT_EXACT_END) return 0;
        /* Brent's search tests the limit before its stop */
        return is_bisection(a) ? a->steps : a->steps + 1;
    case CLIMBOAT_RESIDUAL_NOT_FINITE: return a->steps;
    case CLIMBOAT_POINT_OUTSIDE: return a->steps + 1;
    default: return 0;
    }
}

/* Asks again under a limit, and holds the outcome to that under the largest one, which is not 8. */
static void hold_under(struct question q, uint32_t limit, const struct climboat_answer *largest)
{
    struct climboat_answer a;
    q.limit = limit;
    a = ask(&q);
    count.asked++;
    if (limit >= enough(largest)) {
        if (!same_answer(&a, largest)) fail("not the same record, though the limit is enough", &q, &a, largest);
    } else if (a.number != CLIMBOAT_STEPS_SPENT || a.steps != limit || !is_of(&a, &q)) {
        fail("not refused by 8 with all its steps, though the limit is not enough", &q, &a, largest);
    }
}

/* Refused by 11, with nothing in the record but what was asked; a number that names none of the call's is refused before. */
static void hold_too_large(struct question q, const struct climboat_answer *largest)
{
    struct climboat_answer a, owed = {0};
    q.limit = CLIMBOAT_LARGEST_STEP_LIMIT + 1;
    a = ask(&q);
    count.asked++;
    owed.number = names_nothing(&q) ? CLIMBOAT_NOTHING_NAMED : CLIMBOAT_LIMIT_TOO_LARGE;
    owed.first = a.first;
    owed.second = a.second;
    owed.region = a.region;
    owed.kind = a.kind;
    if (!is_of(&a, &q) || !same_answer(&a, &owed)) fail("not refused by 11 with nothing but what was asked", &q, &a, largest);
    count.too_large += a.number == CLIMBOAT_LIMIT_TOO_LARGE;
}

static void count_settled(const struct climboat_answer *a)
{
    count.exact_ends += a->reason == CLIMBOAT_EXACT_END;
    if (enough(a) == 0) return;
    count.answers += a->number == CLIMBOAT_ANSWERED;
    count.six += a->number == CLIMBOAT_RESIDUAL_NOT_FINITE;
    count.ten += a->number == CLIMBOAT_POINT_OUTSIDE;
    count.with_steps[a->region][a->kind]++;
}

static void hold(struct question q)
{
    struct climboat_answer largest;
    uint32_t least;
    q.limit = CLIMBOAT_LARGEST_STEP_LIMIT;
    largest = ask(&q);
    count.searches++;
    count.asked++;
    hold_too_large(q, &largest);
    if (largest.number == CLIMBOAT_STEPS_SPENT) {
        count.unsettled++;
        return;
    }
    least = enough(&largest);
    count_settled(&largest);
    hold_under(q, least, &largest);
    hold_under(q, least + draw_below(CLIMBOAT_LARGEST_STEP_LIMIT - least + 1), &largest);
    hold_under(q, CLIMBOAT_STEP_LIMIT, &largest);
    if (least == 0) return;
    hold_under(q, least - 1, &largest);
    hold_under(q, draw_below(least), &largest);
}

/* The same search for what an end of its starting bracket has: there it ends without a step. */
static void hold_at_end(struct question q)
{
    struct climboat_answer start, found;
    q.limit = 0;
    start = ask(&q);
    if (start.number != CLIMBOAT_STEPS_SPENT) return;
    found = found_at(&start, draw_below(2) == 0 ? start.lower : start.upper);
    if (!climboat_is_answered(found)) return;
    q.second = found.value;
    hold(q);
}

/* Whether every search took steps, in each region that it has, and one ended exactly: of what does not come up nothing is shown. */
static bool came_up(void)
{
    return has_every_search(count.with_steps) && count.exact_ends != 0 && count.too_large != 0;
}

int main(void)
{
    while (count.searches < DRAWN_SEARCHES) {
        struct question q = draw_question();
        if (target_of(q.kind) == CLIMBOAT_NO_PROPERTY) continue;
        hold(q);
        if (draw_below(16) == 0) hold_at_end(q);
    }
    printf("patience: %u searches asked under %u limits: ", (unsigned)count.searches, (unsigned)count.asked);
    if (!came_up()) {
        printf("not every search came up with steps, or none with an exact end\n");
        return 1;
    }
    printf("under one that is enough the record that %u gives, bit for bit, under a smaller one 8; under one less than enough 8 stood for %u answers, %u refusals by 6 and %u by 10; ",
           CLIMBOAT_LARGEST_STEP_LIMIT, (unsigned)count.answers, (unsigned)count.six, (unsigned)count.ten);
    printf("%u exact ends under every limit; 8 even under %u %u times; refused by 11 under %u %u times\n", (unsigned)count.exact_ends, CLIMBOAT_LARGEST_STEP_LIMIT,
           (unsigned)count.unsettled, CLIMBOAT_LARGEST_STEP_LIMIT + 1, (unsigned)count.too_large);
    return 0;
}
