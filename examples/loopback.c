/* Order 2: "The controller refuses to home until local loopback works". The controller's start-up test: every byte goes
 * round in both channels, with no error, while TxDA and TxDB stay high. Ends with 0 if it did. */
#include "duart.h"
#include <stdio.h>

#define TICKS_A_PULSE (DUART_TICKS_A_SECOND / (16 * 38400))
#define PULSES_A_FRAME 160 /* a start bit, 8 data bits and a stop bit, 16 pulses each */

/* `channel` is DUART_CHANNEL_A or DUART_CHANNEL_B. */
static void set_up(duart_device *chip, uint8_t channel)
{
    const unsigned both = DUART_CR_ENABLE_RECEIVER | DUART_CR_ENABLE_TRANSMITTER;
    duart_step(chip, duart_write(channel + DUART_CRA, DUART_CR_POINT_TO_MR1));
    duart_step(chip, duart_write(channel + DUART_MRA, DUART_MR1_8_BITS | DUART_MR1_NO_PARITY));
    duart_step(chip, duart_write(channel + DUART_MRA, DUART_LOCAL_LOOPBACK | DUART_MR2_STOP_1));
    duart_step(chip, duart_write(channel + DUART_CSRA, DUART_CSR(DUART_BAUD_38400_SET1, DUART_BAUD_38400_SET1)));
    duart_step(chip, duart_write(channel + DUART_CRA, both));
    duart_run(chip, TICKS_A_PULSE); /* a receiver just enabled must sample a high, else the first byte is lost */
}

/* Whether the byte has come, fresh and with no error mark or overrun. */
static bool has_come(duart_device *chip, uint8_t channel, uint8_t byte)
{
    unsigned status = duart_step(chip, duart_read(channel + DUART_SRA)).data;
    duart_seen seen = duart_step(chip, duart_read(channel + DUART_RBA));
    return (status & (DUART_SR_ERRORS | DUART_SR_RXRDY)) == DUART_SR_RXRDY && seen.fresh && seen.data == byte;
}

/* Whether both lines stay high while a frame goes round. */
static bool stays_high(duart_device *chip)
{
    unsigned pulse, high = 0;
    for (pulse = 0; pulse < PULSES_A_FRAME; pulse++) {
        duart_ran ran = duart_run(chip, TICKS_A_PULSE);
        high += ran.txda && ran.txdb;
    }
    return high == PULSES_A_FRAME;
}

int main(void)
{
    duart_device chip;
    unsigned byte, wrong = 0;

    if (!duart_fits()) {
        return 1; /* this header is not the archive's */
    }
    duart_init(&chip);
    set_up(&chip, DUART_CHANNEL_A);
    set_up(&chip, DUART_CHANNEL_B);
    for (byte = 0; byte < 256; byte++) {
        duart_step(&chip, duart_write(DUART_TBA, byte));
        duart_step(&chip, duart_write(DUART_TBB, 255 - byte));
        wrong += !stays_high(&chip);
        wrong += !has_come(&chip, DUART_CHANNEL_A, byte) || !has_come(&chip, DUART_CHANNEL_B, 255 - byte);
    }
    puts(wrong == 0 ? "every byte came round in both channels" : "a byte was lost");
    return wrong == 0 ? 0 : 1;
}
