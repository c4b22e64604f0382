/* Reads a capture from the mill (order 7): at 9,600 bits a second the height gauge sent "Up" into RxDA, and RxDB was held
 * low, a break. Ends with 0 if the characters are those. */
#include "duart.h"
#include <stdio.h>
#include <string.h>

/* Ends with a time after the last stop bit: what comes later is not read. */
static const char text[] =
    "$timescale 1 ns $end\n"
    "$scope module duart $end\n"
    "$var wire 1 ! RxDA $end\n"
    "$var wire 1 \" RxDB $end\n"
    "$upscope $end\n"
    "$enddefinitions $end\n"
    "#0\n1!\n1\"\n"
    "#104167\n0!\n#208333\n1!\n#312500\n0!\n#416667\n1!\n#520833\n0!\n#625000\n1!\n0\"\n"
    "#729167\n0!\n#833333\n1!\n#937500\n0!\n#1041667\n1!\n"
    "#1145833\n0!\n#1666667\n1!\n#1979167\n0!\n#2083333\n1!\n1\"\n"
    "#2187500\n";

static uint8_t log_a[DUART_CAPTURE_SPACE], log_b[DUART_CAPTURE_SPACE];

/* The filled part of a channel's log. */
static duart_capture_answer read_channel(bool channel_b)
{
    return duart_capture(DUART_MR1_8_BITS | DUART_MR1_NO_PARITY, false, DUART_BAUD_9600, (const uint8_t *)text,
                         strlen(text), (const uint8_t *)"RxDA", 4, (const uint8_t *)"RxDB", 4, log_a, sizeof log_a,
                         log_b, sizeof log_b, channel_b);
}

static void show(char channel, const uint8_t *log, size_t length)
{
    size_t n;
    for (n = 0; n < length; n += 2) {
        printf("%c %u %u%s\n", channel, log[n], log[n + 1], (log[n + 1] & DUART_SR_BREAK) != 0 ? " (a break)" : "");
    }
}

int main(void)
{
    static const uint8_t sent[4] = {'U', 0, 'p', 0}, held[2] = {0, DUART_SR_BREAK};
    duart_capture_answer a, b;

    if (!duart_fits()) {
        return 1; /* this header is not the archive's */
    }
    a = read_channel(false);
    b = read_channel(true);
    if (a.number != DUART_ACCEPTED || b.number != DUART_ACCEPTED) {
        return 1; /* DUART_OUTSIDE_SUBSET: the text has a line that is not in it */
    }
    show('A', log_a, a.length);
    show('B', log_b, b.length);
    return a.length == sizeof sent && memcmp(log_a, sent, sizeof sent) == 0 && b.length == sizeof held &&
                   memcmp(log_b, held, sizeof held) == 0
               ? 0
               : 1;
}
