/* What the C checks ask: a question of the nine calls, how it is asked and written, whether an answer says that it is of it, and a fixed generator: every run asks the same ones. */
#ifndef QUESTIONS_H
#define QUESTIONS_H

#include <climboat.h>
#include <stddef.h>

#define KINDS 9u
#define REGIONS 3u

/* Every region, by its number. */
extern const uint32_t regions[REGIONS];

/* One call with its inputs; the region, the property, the limit and the second input count where the call has them. */
struct question {
    enum climboat_kind kind;
    uint32_t region;
    uint32_t property;
    uint32_t limit;
    double first;
    double second;
};

bool has_two_inputs(enum climboat_kind kind);

/* Whether the call has the region of this number: those that name a region have all of them, but for (p,v), which has no region 5. */
bool has_region(enum climboat_kind kind, uint32_t region);

/* A count for each region and kind, by their numbers; and whether every search has one above 0 in each region that it has. */
typedef uint32_t search_counts[CLIMBOAT_REGION_5 + 1][KINDS + 1];
bool has_every_search(search_counts counts);

/* The property that a search has as its target; CLIMBOAT_NO_PROPERTY for a call that does not search. */
uint32_t target_of(enum climboat_kind kind);

/* Whether an answer's search is one by bisection; the other searches are Brent's. */
bool is_bisection(const struct climboat_answer *answer);

/* The target's property at an end of an answer's bracket. */
struct climboat_answer found_at(const struct climboat_answer *answer, double end);

/* Whether every column is the same, bit for bit. */
bool same_answer(const struct climboat_answer *a, const struct climboat_answer *b);

struct climboat_answer ask(const struct question *q);

/* The question as the call that asks it. */
void write_call(char *text, size_t size, const struct question *q);

/* Whether the region or the property is given by a number that names none of the call's. */
bool names_nothing(const struct question *q);

/* Whether the answer says that it is of the question, with the same inputs bit for bit. */
bool is_of(const struct climboat_answer *answer, const struct question *q);

/* The draws: of 64 bits, below a bound, of any mantissa with an exponent from the lower to the upper one, of a subnormal, of p and T of a region (one in eight of each is an edge, or any
 * double), and of a question. */
uint64_t draw(void);
uint32_t draw_below(uint32_t bound);
double draw_exponents(int lower, int upper);
double draw_subnormal(void);
void draw_state(uint32_t region, double *p, double *T);
struct question draw_question(void);

#endif
