/* A vessel's door check in C: what is in it, is it below boiling, and what a refusal looks like. Each line says what it is of, from the record: no number stands on its own. */
#include "question.h"
#include <math.h>

static void tell(struct climboat_answer answer)
{
    struct quantity sought = sought_by(answer);
    char question[160];
    write_question(question, sizeof question, answer);
    if (!climboat_is_answered(answer)) {
        printf("%s: %s, refused by %u, %s\n", question, sought.letter, (unsigned)answer.number, climboat_sentence(answer.number));
        return;
    }
    printf("%s: %s = %.17g %s\n", question, sought.letter, answer.value, sought.unit);
}

static void tell_bracket(struct climboat_answer answer)
{
    printf("  after %u steps between %.17g and %.17g %s, where the residuals are %.17g and %.17g %s\n", (unsigned)answer.steps, answer.lower, answer.upper, sought_by(answer).unit,
           answer.lower_residual, answer.upper_residual, residual_unit(answer));
}

static void tell_search(struct climboat_answer answer)
{
    static const char *const reasons[] = {"", "value", "exact end", "small residual", "narrow"};
    tell(answer);
    if (climboat_is_answered(answer)) {
        printf("  %s, %s the region\n", reasons[answer.reason], answer.mark == CLIMBOAT_INSIDE ? "inside" : "outside");
    }
    /* an answer has a bracket, and so have the refusals 6, 8 and 10; the others have 0 and 0 */
    if (answer.lower < answer.upper) {
        tell_bracket(answer);
    }
}

/* Pressure and specific volume are measured; the door may be opened below boiling at the pressure of the air. It stays shut on a value outside the region. */
static void door_check(double p, double v)
{
    struct climboat_answer temperature = climboat_pv2T(CLIMBOAT_REGION_1, p, v, CLIMBOAT_STEP_LIMIT);
    struct climboat_answer boiling = climboat_saturation_temperature(0.101325);
    tell_search(temperature);
    tell(boiling);
    if (climboat_is_inside(temperature) && climboat_is_inside(boiling)) {
        printf("door: %s\n", temperature.value < boiling.value ? "below boiling" : "boiling, keep it shut");
    } else if (climboat_is_answered(temperature) && climboat_is_answered(boiling)) {
        printf("door: a value outside the region, keep it shut\n");
    } else {
        printf("door: no reading, keep it shut\n");
    }
}

/* Three readings of a log in one call, as water: water; steam, since the pressure is below saturation; and a sensor that gave no number. What is refused costs its own place alone. */
static void tell_log(void)
{
    static const double p[] = {0.2, 0.1, NAN}, T[] = {354.7, 400.0, 354.9};
    double values[3];
    uint32_t numbers[3];
    size_t k;
    uint32_t number = climboat_pT_log(CLIMBOAT_REGION_1, CLIMBOAT_VOLUME, p, 3, T, 3, values, 3, numbers, 3);
    if (number != CLIMBOAT_ANSWERED) {
        printf("the log, refused by %u, %s\n", (unsigned)number, climboat_sentence(number));
        return;
    }
    for (k = 0; k < 3; k++) {
        printf("place %u of the log, region 1, p = %.17g MPa, T = %.17g K: v", (unsigned)k, p[k], T[k]);
        if (numbers[k] == CLIMBOAT_ANSWERED) {
            printf(" = %.17g m^3/kg\n", values[k]);
        } else {
            printf(", refused by %u, %s\n", (unsigned)numbers[k], climboat_sentence(numbers[k]));
        }
    }
}

int main(void)
{
    uint32_t property;
    /* the first column of the release's Table 5, all seven properties */
    for (property = CLIMBOAT_VOLUME; property <= CLIMBOAT_SPEED_OF_SOUND; property++) tell(climboat_pT(CLIMBOAT_REGION_1, property, 3.0, 300.0));
    tell(climboat_pT(CLIMBOAT_REGION_2, CLIMBOAT_ENTHALPY, 0.0035, 700.0));
    tell(climboat_pT(CLIMBOAT_REGION_5, CLIMBOAT_ENTHALPY, 0.5, 1500.0));
    tell(climboat_saturation_temperature(1.0));
    tell(climboat_saturation_pressure(500.0));
    tell(climboat_B23_pressure(700.0));
    tell(climboat_B23_temperature(50.0));
    door_check(0.2, 0.00103);
    door_check(1.0, 0.0009996);
    tell_search(climboat_Ts2p(CLIMBOAT_REGION_2, 500.0, 7.2, 40));
    tell_search(climboat_Th2p(CLIMBOAT_REGION_2, 500.0, 2900.0, CLIMBOAT_STEP_LIMIT));
    tell_search(climboat_Tv2p(CLIMBOAT_REGION_2, 500.0, 0.1, 5));
    tell_search(climboat_Tv2p(CLIMBOAT_REGION_5, 1500.0, 1.3845, CLIMBOAT_STEP_LIMIT));
    tell_search(climboat_pv2T(CLIMBOAT_REGION_5, 0.5, 1.3845, CLIMBOAT_STEP_LIMIT));
    tell(climboat_pT(CLIMBOAT_REGION_1, CLIMBOAT_VOLUME, NAN, 300.0));
    tell(climboat_pT(3, CLIMBOAT_VOLUME, 3.0, 300.0));
    tell(climboat_pT(CLIMBOAT_REGION_1, 8, 3.0, 300.0));
    tell(climboat_Tv2p(CLIMBOAT_REGION_1, 300.0, 0.001, CLIMBOAT_LARGEST_STEP_LIMIT + 1));
    tell_log();
    return 0;
}
