/* What an answer or a refusal says that it is of: kind, region, property and both inputs, bit for bit. The proofs know one NaN only; here each of its patterns is a value of its own.
 * Patterns are made from bits and compared as bytes: arithmetic may make a signalling NaN quiet, and so might a compiler that hands a double on. */
#include "questions.h"
#include <inttypes.h>
#include <math.h>
#include <stdio.h>
#include <string.h>

#define DRAWN_PATTERNS 4000000u
#define DRAWN_QUESTIONS 200000u

#define SIGN UINT64_C(0x8000000000000000)
#define INFINITE UINT64_C(0x7ff0000000000000)
#define QUIET UINT64_C(0x0008000000000000)
#define PAYLOAD_BITS 51

static struct {
    uint32_t asked;
    uint32_t answered;
    uint32_t nothing_named;
    uint32_t with_nan;
    uint32_t patterns; /* those that are listed, not drawn */
    uint32_t differ;
} count;

/* Whether the answer has the number that the inputs decide by themselves, in the order of the table, or none of these three. */
static bool is_numbered(const struct climboat_answer *a, const struct question *q)
{
    bool finite = isfinite(q->first) && (!has_two_inputs(q->kind) || isfinite(q->second));
    if (names_nothing(q)) return a->number == CLIMBOAT_NOTHING_NAMED;
    if (target_of(q->kind) != CLIMBOAT_NO_PROPERTY && q->limit > CLIMBOAT_LARGEST_STEP_LIMIT) return a->number == CLIMBOAT_LIMIT_TOO_LARGE;
    if (!finite) return a->number == CLIMBOAT_NOT_FINITE;
    return a->number != CLIMBOAT_NOTHING_NAMED && a->number != CLIMBOAT_LIMIT_TOO_LARGE && a->number != CLIMBOAT_NOT_FINITE;
}

static uint64_t bits_at(const double *place)
{
    uint64_t bits;
    memcpy(&bits, place, sizeof bits);
    return bits;
}

static void tell_difference(const struct climboat_answer *a, const struct question *q)
{
    char text[200];
    write_call(text, sizeof text, q);
    printf("given back: %s, inputs %016" PRIx64 " %016" PRIx64 ":", text, bits_at(&q->first), bits_at(&q->second));
    printf(" number %u, kind %u, region %u, property %u, inputs %016" PRIx64 " %016" PRIx64 "\n", (unsigned)a->number, (unsigned)a->kind, (unsigned)a->region, (unsigned)a->property,
           bits_at(&a->first), bits_at(&a->second));
}

static void hold(const struct question *q)
{
    struct climboat_answer a = ask(q);
    count.asked++;
    count.answered += climboat_is_answered(a);
    count.nothing_named += a.number == CLIMBOAT_NOTHING_NAMED;
    count.with_nan += isnan(q->first) || (has_two_inputs(q->kind) && isnan(q->second));
    if (is_of(&a, q) && is_numbered(&a, q)) return;
    if (count.differ++ < 5) tell_difference(&a, q);
}

/* A question with ordinary inputs. */
static struct question ordinary(enum climboat_kind kind, uint32_t region, uint32_t property, uint32_t limit)
{
    static const double inputs[KINDS][2] = {{3.0, 300.0}, {500.0, 0.0}, {1.0, 0.0}, {700.0, 0.0}, {50.0, 0.0}, {0.2, 0.00103}, {500.0, 0.1}, {500.0, 2900.0}, {500.0, 7.2}};
    struct question q = {kind, region, property, limit, inputs[kind - 1][0], inputs[kind - 1][1]};
    return q;
}

static uint64_t drawn_pattern(void)
{
    uint64_t bits = draw() | INFINITE;
    return (bits & ~(SIGN | INFINITE)) == 0 ? bits | 1 : bits;
}

/* Where bits are put: at one place of the call, or at its first with a drawn NaN at its second. */
enum place { FIRST, SECOND, BOTH };

static uint32_t places(enum climboat_kind kind)
{
    return has_two_inputs(kind) ? BOTH + 1 : FIRST + 1;
}

static void hold_at(struct question q, enum place place, uint64_t bits)
{
    uint64_t other = drawn_pattern();
    memcpy(place == SECOND ? &q.second : &q.first, &bits, sizeof bits);
    if (place == BOTH) memcpy(&q.second, &other, sizeof other);
    hold(&q);
}

/* At every place of a call, also with a step limit that is too large. */
static void hold_places(enum climboat_kind kind, uint32_t region, uint64_t bits)
{
    uint32_t place;
    for (place = 0; place < places(kind); place++) {
        uint32_t property = 1 + draw_below(7);
        hold_at(ordinary(kind, region, property, CLIMBOAT_STEP_LIMIT), (enum place)place, bits);
        hold_at(ordinary(kind, region, property, CLIMBOAT_LARGEST_STEP_LIMIT + 1), (enum place)place, bits);
    }
}

/* At every place of every call, with no region and with each: 21, 11 and what the bits themselves come to. */
static void hold_everywhere(uint64_t bits)
{
    uint32_t kind, i;
    for (kind = 1; kind <= KINDS; kind++) {
        hold_places((enum climboat_kind)kind, CLIMBOAT_NO_REGION, bits);
        for (i = 0; i < REGIONS; i++) hold_places((enum climboat_kind)kind, regions[i], bits);
    }
}

static void hold_drawn(void)
{
    enum climboat_kind kind = (enum climboat_kind)(1 + draw_below(KINDS));
    struct question q = ordinary(kind, draw_below(CLIMBOAT_REGION_5 + 1), draw_below(9), draw_below(CLIMBOAT_LARGEST_STEP_LIMIT + 2));
    hold_at(q, (enum place)draw_below(places(kind)), drawn_pattern());
}

/* A payload as a quiet NaN and as a signalling one, which a payload of 0 would make an infinity; of either sign. */
static void hold_payload(uint64_t payload)
{
    uint64_t sign;
    for (sign = 0; sign < 2; sign++) {
        hold_everywhere(sign << 63 | INFINITE | QUIET | payload);
        count.patterns++;
        if (payload == 0) continue;
        hold_everywhere(sign << 63 | INFINITE | payload);
        count.patterns++;
    }
}

/* None, all ones, every bit and every pair of bits; the least is bit 0, the largest all ones. */
static void hold_payloads(void)
{
    int i, k;
    hold_payload(0);
    hold_payload(QUIET - 1);
    for (i = 0; i < PAYLOAD_BITS; i++) {
        hold_payload(UINT64_C(1) << i);
        for (k = 0; k < i; k++) hold_payload(UINT64_C(1) << i | UINT64_C(1) << k);
    }
}

/* Infinities, zeros, and the ends of the subnormals and of the other doubles, of either sign. */
static void hold_edges(void)
{
    static const uint64_t edges[] = {INFINITE, 0, 1, UINT64_C(0x000fffffffffffff), UINT64_C(0x0010000000000000), INFINITE - 1};
    size_t i;
    for (i = 0; i < sizeof edges / sizeof edges[0]; i++) {
        hold_everywhere(edges[i]);
        hold_everywhere(SIGN | edges[i]);
    }
}

/* Numbers that name nothing, or a region that (p,v) has not, alone and together, beside those that name something. */
static void hold_numbers(void)
{
    static const uint32_t numbers[] = {0, 1, 2, 3, 4, 5, 6, 7, 8, 9, UINT32_C(0x80000001), UINT32_MAX};
    const size_t length = sizeof numbers / sizeof numbers[0];
    size_t i, k;
    uint32_t kind;
    for (kind = 1; kind <= KINDS; kind++) {
        for (i = 0; i < length; i++) {
            for (k = 0; k < length; k++) {
                struct question q = ordinary((enum climboat_kind)kind, numbers[i], numbers[k], CLIMBOAT_STEP_LIMIT);
                hold(&q);
            }
        }
    }
}

int main(void)
{
    uint32_t i;
    hold_payloads();
    hold_edges();
    hold_numbers();
    for (i = 0; i < DRAWN_PATTERNS; i++) hold_drawn();
    for (i = 0; i < DRAWN_QUESTIONS; i++) {
        struct question q = draw_question();
        hold(&q);
    }
    if (count.differ != 0) {
        printf("given back: %u of %u outcomes are not of what was asked\n", (unsigned)count.differ, (unsigned)count.asked);
        return 1;
    }
    printf("given back: %u questions over the nine calls, %u of them answered, %u refused by 21, %u with a NaN at one input or both (%u patterns one by one, %u drawn): ",
           (unsigned)count.asked, (unsigned)count.answered, (unsigned)count.nothing_named, (unsigned)count.with_nan, (unsigned)count.patterns, DRAWN_PATTERNS);
    printf("every outcome says what it is of, its inputs bit for bit\n");
    return 0;
}
