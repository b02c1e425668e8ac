/* A program as the header of version 0.2.0 builds it: it lends four numbers and three doubles under the names of then. It must not link: the wider record would overrun its arrays. */
#include <stdint.h>

void climboat_pT_record(uint32_t region, uint32_t property, double p, double T, uint32_t numbers[4], double doubles[3]);
void climboat_saturation_pressure_record(double T, uint32_t numbers[4], double doubles[3]);
void climboat_saturation_temperature_record(double p, uint32_t numbers[4], double doubles[3]);
void climboat_B23_pressure_record(double T, uint32_t numbers[4], double doubles[3]);
void climboat_B23_temperature_record(double p, uint32_t numbers[4], double doubles[3]);
void climboat_pv2T_record(uint32_t region, double p, double v, uint32_t limit, uint32_t numbers[4], double doubles[3]);
void climboat_Tv2p_record(uint32_t region, double T, double v, uint32_t limit, uint32_t numbers[4], double doubles[3]);
void climboat_Th2p_record(uint32_t region, double T, double h, uint32_t limit, uint32_t numbers[4], double doubles[3]);
void climboat_Ts2p_record(uint32_t region, double T, double s, uint32_t limit, uint32_t numbers[4], double doubles[3]);

int main(void)
{
    uint32_t numbers[4];
    double doubles[3];
    climboat_pT_record(1, 1, 3.0, 300.0, numbers, doubles);
    climboat_saturation_pressure_record(500.0, numbers, doubles);
    climboat_saturation_temperature_record(1.0, numbers, doubles);
    climboat_B23_pressure_record(700.0, numbers, doubles);
    climboat_B23_temperature_record(50.0, numbers, doubles);
    climboat_pv2T_record(1, 0.2, 0.00103, 20000, numbers, doubles);
    climboat_Tv2p_record(2, 500.0, 0.1, 20000, numbers, doubles);
    climboat_Th2p_record(2, 500.0, 2900.0, 20000, numbers, doubles);
    climboat_Ts2p_record(2, 500.0, 7.2, 20000, numbers, doubles);
    return 0;
}
