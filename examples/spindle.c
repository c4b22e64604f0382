/*
 * Order 4: "our spindle watch depends on it". The timer counts ticks/16 and is started again at every turn of the
 * spindle. A turn that comes within one countdown finds the output high, and all is well. One that comes later finds it
 * low: the start takes it from low to high and sets ISR bit 3, so IRQ tells of a slow turn at the turn itself. A
 * spindle that stands still is told of by the timer, after two countdowns. A stop clears the bit. Ends with 0 if all
 * was so.
 */
#include "duart.h"
#include <stdio.h>

#define COUNTDOWN 4608 /* pulses: 20 ms, the longest turn at 3,000 turns a minute */
#define MILLISECOND (DUART_TICKS_A_SECOND / 1000)

static void set_up(duart_device *chip)
{
    duart_init(chip);
    duart_step(chip, duart_write(DUART_CTUR, COUNTDOWN >> 8));
    duart_step(chip, duart_write(DUART_CTLR, COUNTDOWN & 0xff));
    duart_step(chip, duart_write(DUART_ACR, DUART_ACR_TIMER_TICKS_16)); /* the timer runs, its output high */
    duart_step(chip, duart_write(DUART_IMR, DUART_ISR_COUNTER));
}

/* A turn of so many milliseconds ends, and the timer is started again: whether it was slow. */
static bool turns(duart_device *chip, unsigned milliseconds)
{
    bool slow;
    duart_run(chip, milliseconds * MILLISECOND);
    slow = duart_step(chip, duart_read(DUART_START_COUNTER)).irq;
    duart_step(chip, duart_read(DUART_STOP_COUNTER));
    return slow;
}

int main(void)
{
    duart_device chip;
    duart_ran ran;
    unsigned wrong = 0;

    if (!duart_fits()) {
        return 1; /* this header is not the archive's */
    }
    set_up(&chip);
    wrong += turns(&chip, 15);
    wrong += turns(&chip, 19);
    wrong += !turns(&chip, 25);
    wrong += turns(&chip, 15);
    ran = duart_run(&chip, DUART_MOST_TICKS); /* the spindle stands still */
    wrong += !ran.irq || ran.ticks / MILLISECOND != 40;
    puts(wrong == 0 ? "the slow turn was told of, and the standing spindle" : "a turn was mistaken");
    return wrong == 0 ? 0 : 1;
}
