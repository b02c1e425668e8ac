/* What a decision is made on in C: climboat_is_inside, for a value that is marked inside or outside, for one without a mark, and for a refusal. */
#include <climboat.h>
#include <stdio.h>

struct expected {
    const char *what;
    struct climboat_answer answer;
    uint32_t number;
    uint32_t mark;
    bool inside;
};

/* Exit status 1 and a line for each that differs. */
static int check(const struct expected *rows, size_t count)
{
    int status = 0;
    size_t i;
    for (i = 0; i < count; i++) {
        const struct expected *row = &rows[i];
        if (row->answer.number != row->number || row->answer.mark != row->mark || climboat_is_inside(row->answer) != row->inside) {
            printf("inside: %s: number %u, mark %u, inside %d\n", row->what, (unsigned)row->answer.number, (unsigned)row->answer.mark, climboat_is_inside(row->answer));
            status = 1;
        }
    }
    return status;
}

int main(void)
{
    /* the second is water that boils at 0.09 MPa: 369.837 K, which alone, below boiling at the pressure of the air, would open a door; in region 5 every pressure that is found is inside */
    const struct expected rows[] = {
        {"water in the vessel", climboat_pv2T(CLIMBOAT_REGION_1, 0.2, 0.00103, CLIMBOAT_STEP_LIMIT), CLIMBOAT_ANSWERED, CLIMBOAT_INSIDE, true},
        {"water at boiling", climboat_pv2T(CLIMBOAT_REGION_1, 0.09, 0.0010408989121683818, CLIMBOAT_STEP_LIMIT), CLIMBOAT_ANSWERED, CLIMBOAT_OUTSIDE, false},
        {"steam beyond saturation", climboat_Tv2p(CLIMBOAT_REGION_2, 500.0, 0.07, CLIMBOAT_STEP_LIMIT), CLIMBOAT_ANSWERED, CLIMBOAT_OUTSIDE, false},
        {"steam in the furnace", climboat_Ts2p(CLIMBOAT_REGION_5, 1500.0, 9.0, CLIMBOAT_STEP_LIMIT), CLIMBOAT_ANSWERED, CLIMBOAT_INSIDE, true},
        {"a call without a search", climboat_saturation_temperature(0.101325), CLIMBOAT_ANSWERED, CLIMBOAT_UNMARKED, true},
        {"a refusal", climboat_pv2T(CLIMBOAT_REGION_1, 1.0, 0.0009996, CLIMBOAT_STEP_LIMIT), CLIMBOAT_SAME_SIGN, CLIMBOAT_UNMARKED, false},
        {"a pair that the region has not", climboat_pv2T(CLIMBOAT_REGION_5, 0.5, 1.3845, CLIMBOAT_STEP_LIMIT), CLIMBOAT_NOTHING_NAMED, CLIMBOAT_UNMARKED, false},
        {"steps spent, with a last point", climboat_Tv2p(CLIMBOAT_REGION_2, 500.0, 0.1, 5), CLIMBOAT_STEPS_SPENT, CLIMBOAT_UNMARKED, false},
    };
    size_t count = sizeof rows / sizeof rows[0];
    int status = check(rows, count);
    if (status == 0) {
        printf("inside: climboat_is_inside is as the mark says, and false for a refusal, in %u cases\n", (unsigned)count);
    }
    return status;
}
