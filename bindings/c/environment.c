/* The floating-point environment around Climboat's nine calls: no call changes it, none traps in the default one, and every outcome is an answer or a refusal of the table that says
 * what it is of. How many outcomes differ in other environments is counted, bit for bit. */
#include "questions.h"
#include <fenv.h>
#include <math.h>
#include <signal.h>
#include <stdio.h>
#include <stdlib.h>
#include <string.h>

#if defined(__x86_64__)
#include <xmmintrin.h>
#endif

#define QUESTIONS 500000u

/* The control bits that a caller sets and a call must leave: not the sticky flags, which any arithmetic may raise. */
struct controls {
    int rounding;
    uint64_t word;
    uint64_t x87;
};

#if defined(__x86_64__)
#define HAS_FLUSH 1
/* MXCSR without its six flags: the masks, the rounding, flush-to-zero (bit 15) and denormals-are-zero (bit 6) */
static struct controls controls(void)
{
    struct controls now = {fegetround(), _mm_getcsr() & ~UINT32_C(0x3f), 0};
    uint16_t x87;
    __asm__ volatile("fnstcw %0" : "=m"(x87));
    now.x87 = x87;
    return now;
}

static void set_flush(void)
{
    _mm_setcsr(_mm_getcsr() | UINT32_C(0x8040));
}

/* every exception masked, to nearest, nothing flushed; in x87, where a call computes nothing, the masks */
static bool is_default(struct controls now)
{
    return now.rounding == FE_TONEAREST && now.word == 0x1f80 && (now.x87 & 0x3f) == 0x3f;
}
#elif defined(__aarch64__)
#define HAS_FLUSH 1
/* FPCR has no flags: those are in FPSR. Flush-to-zero, of operands and of results, is bit 24. */
static struct controls controls(void)
{
    struct controls now = {fegetround(), 0, 0};
    __asm__ volatile("mrs %0, fpcr" : "=r"(now.word));
    return now;
}

static void set_flush(void)
{
    __asm__ volatile("msr fpcr, %0" : : "r"(controls().word | UINT64_C(1) << 24));
}

static bool is_default(struct controls now)
{
    return now.rounding == FE_TONEAREST && now.word == 0;
}
#else
/* what <fenv.h> shows alone */
#define HAS_FLUSH 0
static struct controls controls(void)
{
    struct controls now = {fegetround(), 0, 0};
    return now;
}

static void set_flush(void)
{
}

static bool is_default(struct controls now)
{
    return now.rounding == FE_TONEAREST;
}
#endif

static bool same_controls(struct controls a, struct controls b)
{
    return a.rounding == b.rounding && a.word == b.word && a.x87 == b.x87;
}

static void fail(const char *what, const struct question *q, const char *where)
{
    char text[200];
    fesetenv(FE_DFL_ENV);
    write_call(text, sizeof text, q);
    printf("environment: %s %s; %s\n", text, what, where);
    exit(1);
}

/* A refusal that the table numbers, or a finite value with its reason and, where it was searched, its mark; either with residuals that are finite, and of the question that was asked. */
static bool is_outcome(const struct climboat_answer *a, const struct question *q)
{
    if (!is_of(a, q) || !isfinite(a->lower_residual) || !isfinite(a->upper_residual)) return false;
    if (a->number != CLIMBOAT_ANSWERED) {
        return (a->number <= CLIMBOAT_LIMIT_TOO_LARGE || a->number == CLIMBOAT_NOTHING_NAMED) && a->reason == CLIMBOAT_NO_REASON && a->mark == CLIMBOAT_UNMARKED;
    }
    if (a->reason == CLIMBOAT_VALUE) return a->mark == CLIMBOAT_UNMARKED && isfinite(a->value);
    return a->reason >= CLIMBOAT_EXACT_END && a->reason <= CLIMBOAT_NARROW && (a->mark == CLIMBOAT_INSIDE || a->mark == CLIMBOAT_OUTSIDE) && isfinite(a->value);
}

struct environment {
    const char *name;
    int rounding;
    bool flush;
};

/* what SIGFPE interrupted */
static const struct question *volatile asked;
static const char *volatile asked_in;

/* arithmetic that has trapped cannot go on, so this ends the test */
static void trapped(int signal_number)
{
    (void)signal_number;
    fail("trapped", asked, asked_in);
}

static void ask_all(struct environment there, const struct question *questions, struct climboat_answer *answers)
{
    struct controls before;
    uint32_t i;
    if (fesetround(there.rounding) != 0) fail("cannot be asked", questions, there.name);
    if (there.flush) set_flush();
    before = controls();
    asked_in = there.name;
    for (i = 0; i < QUESTIONS; i++) {
        asked = &questions[i];
        answers[i] = ask(&questions[i]);
        if (!same_controls(before, controls())) fail("left the environment changed", &questions[i], there.name);
    }
    fesetenv(FE_DFL_ENV);
    for (i = 0; i < QUESTIONS; i++) {
        if (!is_outcome(&answers[i], &questions[i])) fail("gave neither an answer nor a refusal of the table that says what it is of", &questions[i], there.name);
    }
}

/* How the outcomes of another environment differ from those of the default one, in any column, bit for bit. */
struct difference {
    uint32_t differ;
    uint32_t answers;     /* that are answers in the default one */
    uint32_t by_number;   /* answered in one and refused in the other, or refused by another number */
    uint32_t by_residual; /* in a residual and nothing else */
    uint32_t tiny_volume; /* at a volume that is subnormal: refused in both, in the other by 4 as if it were zero */
    char shortest[200];   /* the shortest question that differs */
};

static bool is_by_residual(const struct climboat_answer *our, struct climboat_answer their)
{
    their.lower_residual = our->lower_residual;
    their.upper_residual = our->upper_residual;
    return same_answer(our, &their);
}

static bool is_tiny_volume(const struct question *q, const struct climboat_answer *our, const struct climboat_answer *their)
{
    bool subnormal = target_of(q->kind) == CLIMBOAT_VOLUME && fpclassify(q->second) == FP_SUBNORMAL;
    return subnormal && !climboat_is_answered(*our) && their->number == CLIMBOAT_V_NOT_POSITIVE;
}

static struct difference compare(const struct question *questions, const struct climboat_answer *ours, const struct climboat_answer *theirs)
{
    struct difference d = {0, 0, 0, 0, 0, ""};
    char text[200];
    uint32_t i;
    for (i = 0; i < QUESTIONS; i++) {
        if (same_answer(&ours[i], &theirs[i])) continue;
        d.differ++;
        d.answers += climboat_is_answered(ours[i]);
        d.by_number += ours[i].number != theirs[i].number;
        d.by_residual += is_by_residual(&ours[i], theirs[i]);
        d.tiny_volume += is_tiny_volume(&questions[i], &ours[i], &theirs[i]);
        write_call(text, sizeof text, &questions[i]);
        if (d.shortest[0] == '\0' || strlen(text) < strlen(d.shortest)) memcpy(d.shortest, text, sizeof text);
    }
    return d;
}

static struct question questions[QUESTIONS];
static struct climboat_answer ours[QUESTIONS], theirs[QUESTIONS];

/* What is counted. Nothing is promised of another rounding mode but that its outcomes are outcomes; flush-to-zero stands last. */
static const struct environment others[] = {{"upward", FE_UPWARD, false},
                                            {"downward", FE_DOWNWARD, false},
                                            {"toward zero", FE_TOWARDZERO, false},
#if HAS_FLUSH
                                            {"with flush-to-zero", FE_TONEAREST, true},
#endif
};
#define OTHERS (sizeof others / sizeof others[0])

/* Two lines; false where flush-to-zero changes more than README.md says: nothing but the refusal of a volume that is subnormal. */
static bool tell(const struct difference differences[OTHERS])
{
    uint32_t i, answered = 0;
    size_t k;
    bool good = true;
    for (i = 0; i < QUESTIONS; i++) answered += climboat_is_answered(ours[i]);
    printf("environment: %u questions over the nine calls, %u of them answered, in every rounding mode and with flush-to-zero%s: ", QUESTIONS, (unsigned)answered,
           HAS_FLUSH ? "" : " (LEFT OUT: not known for this processor)");
    printf("no call changed a control bit or trapped, every outcome is an answer or a refusal of the table and says what it is of\n");
    printf("environment: not the default's outcome:");
    for (k = 0; k < OTHERS; k++) {
        const struct difference *d = &differences[k];
        printf("%s %s %u, %u of them answers, %u by number, %u in a residual alone", k ? ";" : "", others[k].name, (unsigned)d->differ, (unsigned)d->answers, (unsigned)d->by_number,
               (unsigned)d->by_residual);
        if (!others[k].flush) continue;
        printf(", %u a subnormal volume that is refused by 4, such as %s", (unsigned)d->tiny_volume, d->shortest);
        good = d->differ == d->tiny_volume;
    }
    printf("\n");
    return good;
}

int main(void)
{
    struct environment defaults = {"the default", FE_TONEAREST, false};
    struct difference differences[OTHERS];
    uint32_t i;
    size_t k;
    if (!is_default(controls())) {
        printf("environment: this program does not start in the default environment\n");
        return 1;
    }
    signal(SIGFPE, trapped);
    for (i = 0; i < QUESTIONS; i++) questions[i] = draw_question();
    ask_all(defaults, questions, ours);
    for (k = 0; k < OTHERS; k++) {
        ask_all(others[k], questions, theirs);
        differences[k] = compare(questions, ours, theirs);
    }
    /* the same questions again, after all of that: no call keeps anything */
    ask_all(defaults, questions, theirs);
    if (!is_default(controls()) || compare(questions, ours, theirs).differ != 0) {
        printf("environment: asked again, the outcomes are not the same\n");
        return 1;
    }
    if (!tell(differences)) {
        printf("environment: flush-to-zero changes more than the refusal of a subnormal volume\n");
        return 1;
    }
    return 0;
}
