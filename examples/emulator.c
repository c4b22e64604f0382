/* An emulator's main loop (order 5): run until IRQ is asserted, acknowledge, serve, go on. Channel A sends to itself in
 * local loopback at 9,600 bits a second, and the timer beats every 5 ms. Ends with 0 if no byte and no beat is lost. */
#include "duart.h"
#include <stdio.h>

#define COUNT(list) (sizeof(list) / sizeof(list)[0])
#define COUNTDOWN 576 /* pulses of ticks/16; a beat is two countdowns */
#define BYTES 240     /* more than beats in a second */
#define VECTOR 0x41
static const duart_event set_up[] = {
    {DUART_WRITE, DUART_MRA, DUART_MR1_8_BITS | DUART_MR1_NO_PARITY},
    {DUART_WRITE, DUART_MRA, DUART_LOCAL_LOOPBACK | DUART_MR2_STOP_1},
    {DUART_WRITE, DUART_CSRA, DUART_CSR(DUART_BAUD_9600, DUART_BAUD_9600)},
    {DUART_WRITE, DUART_CTUR, COUNTDOWN >> 8},
    {DUART_WRITE, DUART_CTLR, COUNTDOWN & 0xff},
    {DUART_WRITE, DUART_ACR, DUART_ACR_SET1 | DUART_ACR_TIMER_TICKS_16},
    {DUART_WRITE, DUART_IVR, VECTOR},
    {DUART_WRITE, DUART_IMR, DUART_ISR_RX_A | DUART_ISR_COUNTER},
    {DUART_WRITE, DUART_CRA, DUART_CR_ENABLE_RECEIVER | DUART_CR_ENABLE_TRANSMITTER}};
static const duart_event look[] = {{DUART_ACKNOWLEDGE, 0, 0}, {DUART_READ, DUART_ISR, 0}, {DUART_READ, DUART_RBA, 0}};
static duart_device chip;
static unsigned bytes, beats, wrong;
/* The interrupt's program: who asked; the byte, if it is fresh, after which the next is sent. */
static void serve(void)
{
    duart_seen seen[COUNT(look)];
    wrong += duart_poll(&chip, look, COUNT(look), seen, COUNT(look)).count != COUNT(look) || seen[0].data != VECTOR;
    if (seen[2].fresh) {
        wrong += seen[2].data != ++bytes;
        wrong += bytes < BYTES && duart_step(&chip, duart_write(DUART_TBA, seen[2].data + 1)).number != DUART_ACCEPTED;
    }
    if (seen[1].data & DUART_ISR_COUNTER) {
        beats += 1;
        wrong += duart_step(&chip, duart_read(DUART_STOP_COUNTER)).irq; /* ISR bit 3 is cleared, the timer runs on */
    }
}

int main(void)
{
    duart_seen seen[COUNT(set_up)];
    unsigned left = DUART_TICKS_A_SECOND; /* the ticks before something outside happens: here, the end */
    if (!duart_fits()) {
        return 1; /* this header is not the archive's */
    }
    duart_init(&chip);
    wrong += duart_poll(&chip, set_up, COUNT(set_up), seen, COUNT(set_up)).count != COUNT(set_up);
    left -= duart_run(&chip, 24).ticks; /* a pulse: the receiver samples a high */
    duart_step(&chip, duart_write(DUART_TBA, 1));
    while (left > 0 && wrong == 0) {
        duart_ran ran = duart_run(&chip, left < DUART_MOST_TICKS ? left : DUART_MOST_TICKS);
        wrong += ran.number != DUART_ACCEPTED || ran.ticks == 0; /* the last interrupt is still asserted */
        left -= ran.ticks;
        if (ran.irq) {
            serve();
        }
    }
    printf("in a second %u bytes came round, and the timer beat %u times\n", bytes, beats);
    return wrong == 0 && bytes == BYTES && beats == DUART_TICKS_A_SECOND / (2 * 16 * COUNTDOWN) ? 0 : 1;
}
