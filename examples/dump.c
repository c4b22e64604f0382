/* Shows it on the analyser (order 6): both channels send a byte at 9,600 bits a second, IRQ tells of each that goes out,
 * and the value change dump of it is written to standard output. `./a.out > duart.vcd && gtkwave duart.vcd` shows it.
 * Ends with 0 if the start bits and the stop bits stand where they should. */
#include "duart.h"
#include <stdio.h>
#include <string.h>

#define COUNT(list) (sizeof(list) / sizeof(list)[0])
#define PULSE 24            /* ticks: the first pulse of the transmitters' clocks, at which the characters start */
#define FRAME (10 * 384)    /* a start bit, 8 data bits and a stop bit */
static const duart_event set_up[] = {
    {DUART_WRITE, DUART_MRA, DUART_MR1_8_BITS | DUART_MR1_NO_PARITY},
    {DUART_WRITE, DUART_MRA, DUART_NORMAL | DUART_MR2_STOP_1},
    {DUART_WRITE, DUART_CSRA, DUART_CSR(DUART_BAUD_9600, DUART_BAUD_9600)},
    {DUART_WRITE, DUART_MRB, DUART_MR1_8_BITS | DUART_MR1_NO_PARITY},
    {DUART_WRITE, DUART_MRB, DUART_NORMAL | DUART_MR2_STOP_1},
    {DUART_WRITE, DUART_CSRB, DUART_CSR(DUART_BAUD_9600, DUART_BAUD_9600)},
    {DUART_WRITE, DUART_IMR, DUART_ISR_TXRDY_A | DUART_ISR_TXRDY_B},
    {DUART_WRITE, DUART_CRA, DUART_CR_ENABLE_TRANSMITTER},
    {DUART_WRITE, DUART_CRB, DUART_CR_ENABLE_TRANSMITTER},
    {DUART_WRITE, DUART_TBA, 'U'},
    {DUART_WRITE, DUART_TBB, 'A'}};

static duart_event events[COUNT(set_up) + PULSE + FRAME + 1];
static uint8_t text[DUART_DUMP_SPACE(COUNT(events)) + 1]; /* a zero byte after it makes it a string */

static int shows(const char *lines)
{
    return strstr((const char *)text, lines) != NULL;
}

int main(void)
{
    duart_dump_answer dump;
    size_t n;

    if (!duart_fits()) {
        return 1; /* this header is not the archive's */
    }
    memcpy(events, set_up, sizeof set_up);
    for (n = COUNT(set_up); n < COUNT(events) - 1; n++) {
        events[n] = duart_tick();
    }
    events[n] = duart_write(DUART_SET_OP, 0x01); /* a dump ends with its last change: OP0 falls after the stop bits */
    dump = duart_dump(duart_fresh(), events, COUNT(events), text, sizeof text - 1);
    if (dump.number != DUART_ACCEPTED) {
        return 1;
    }
    fwrite(text, 1, dump.length, stdout);
    return shows("\n#0\n1!\n1\"\n1#\n") && shows("\n#6510\n0!\n0\"\n0#\n") && shows("\n#944010\n1!\n1\"\n") &&
                   shows("\n#1048177\n0$\n")
               ? 0
               : 1;
}
