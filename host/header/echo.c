/*
 * Order 2: "the service desk wants the other two". Levels into RxDA, of which channel A echoes each pulse by pulse,
 * and in automatic echo receives the byte. Prints what it saw, and ends with 0 if all was as it should be.
 */
#include "tried.h"

#define TICKS_A_PULSE (DUART_TICKS_A_SECOND / (16 * 38400))
#define PULSES_A_FRAME 160

static void set_up(uint8_t mode)
{
    step(duart_write(DUART_CRA, DUART_CR_POINT_TO_MR1));
    step(duart_write(DUART_MRA, DUART_MR1_8_BITS | DUART_MR1_NO_PARITY));
    step(duart_write(DUART_MRA, mode | DUART_MR2_STOP_1));
    step(duart_write(DUART_CSRA, DUART_CSR(DUART_BAUD_38400_SET1, DUART_BAUD_38400_SET1)));
    step(duart_write(DUART_CRA, DUART_CR_ENABLE_RECEIVER | DUART_CR_ENABLE_TRANSMITTER));
    duart_run(&chip, TICKS_A_PULSE);
}

/* A byte into RxDA, a start bit before it and a stop bit after it: TxDA takes its levels pulse by pulse. */
static int echoes(uint8_t mode, unsigned received)
{
    unsigned levels = 42 << 1 | 0x200, missed = 0, pulse;
    duart_seen seen;
    int wrong = 0;

    set_up(mode);
    wrong += differs("an echo mode: SRA, with TxRDY and TxEMT 0", step(duart_read(DUART_SRA)).data, 0);
    for (pulse = 0; pulse < PULSES_A_FRAME; pulse++) {
        bool high = levels >> pulse / 16 & 1;
        step(duart_pins(high ? DUART_ALL_HIGH : DUART_ALL_HIGH & ~DUART_RXDA));
        missed += duart_run(&chip, TICKS_A_PULSE).txda != high;
    }
    wrong += differs("pulses after which TxDA is not as RxDA", missed, 0);
    seen = step(duart_read(DUART_RBA));
    wrong += differs("bytes received", seen.fresh && seen.data == 42, received);
    return wrong;
}

int main(void)
{
    int wrong;

    duart_init(&chip);
    wrong = echoes(DUART_AUTOMATIC_ECHO, 1);
    wrong += echoes(DUART_REMOTE_LOOPBACK, 0);
    set_up(DUART_NORMAL);
    wrong += differs("normal mode: SRA", step(duart_read(DUART_SRA)).data, DUART_SR_TXEMT | DUART_SR_TXRDY);
    return wrong == 0 ? 0 : 1;
}
