/* The driver of a height gauge on channel A, at 9,600 bits a second. It polls the receive buffer and adds up the
 * offsets that are fresh: the byte alone does not tell a new offset from the last one, for two heights may be equal.
 * What the driver resets is gone: a tooth that is made again gets no offset of before. Ends with 0 if all was so. */
#include "duart.h"
#include <stdio.h>

#define TICKS_A_BIT (DUART_TICKS_A_SECOND / 9600)

static unsigned set_up(duart_device *chip)
{
    unsigned refused = 0;
    duart_init(chip);
    refused += duart_step(chip, duart_write(DUART_MRA, DUART_MR1_8_BITS | DUART_MR1_NO_PARITY)).number;
    refused += duart_step(chip, duart_write(DUART_MRA, DUART_NORMAL | DUART_MR2_STOP_1)).number;
    refused += duart_step(chip, duart_write(DUART_CSRA, DUART_CSR(DUART_BAUD_9600, DUART_BAUD_9600))).number;
    return refused + duart_step(chip, duart_write(DUART_CRA, DUART_CR_ENABLE_RECEIVER)).number;
}

/* The sum of the fresh offsets, polled for more often than there can be some. */
static unsigned poll_gauge(duart_device *chip)
{
    unsigned polls, sum = 0;
    for (polls = 0; polls < 6; polls++) {
        duart_seen seen = duart_step(chip, duart_read(DUART_RBA));
        sum += seen.fresh ? seen.data : 0;
    }
    return sum;
}

/* The gauge moves RxDA: an idle bit, a start bit, the offset lowest bit first, a stop bit. */
static void gauge_sends(duart_device *chip, unsigned offset)
{
    unsigned bits = offset << 2 | 0x401, bit;
    for (bit = 0; bit < 11; bit++) {
        duart_step(chip, duart_pins(bits >> bit & 1 ? DUART_ALL_HIGH : DUART_ALL_HIGH & ~DUART_RXDA));
        duart_run(chip, TICKS_A_BIT);
    }
}

int main(void)
{
    duart_device chip;
    unsigned offset, wrong = 0;
    if (!duart_fits() || set_up(&chip) != 0) {
        return 1; /* this header is not the archive's, or a write was refused */
    }
    gauge_sends(&chip, 42);
    gauge_sends(&chip, 42);
    wrong += poll_gauge(&chip) != 42 + 42; /* each once */
    for (offset = 1; offset <= 4; offset++) {
        gauge_sends(&chip, offset); /* the queue holds three, and the fourth waits */
    }
    duart_step(&chip, duart_write(DUART_CRA, DUART_CR_RESET_RECEIVER | DUART_CR_ENABLE_RECEIVER));
    wrong += poll_gauge(&chip) != 0; /* the old ones are dropped */
    gauge_sends(&chip, 9);
    wrong += poll_gauge(&chip) != 9;
    puts(wrong == 0 ? "each offset was added once" : "an offset was lost, or added twice");
    return wrong == 0 ? 0 : 1;
}
