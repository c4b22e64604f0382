/*
 * The names of include/duart.h by their numbers: each list in document 01's order, in which bits are one each and codes
 * count up. names.c and codes.c try what a name does, which may hide a bit too many in it. Prints what it saw, and ends
 * with 0 if all was as it should be.
 */
#include "tried.h"

#define COUNT(list) (sizeof(list) / sizeof(list)[0])
/* The names of a list are `first`, and each `by` more than the one before it. */
#define COUNT_UP(what, list, first, by) differs(what, counting(list, COUNT(list), first, by), COUNT(list))
/* The names of a list are one bit each, from bit `first` on. */
#define ARE_BITS(what, list, first) differs(what, single(list, COUNT(list), first), COUNT(list))

static unsigned counting(const uint8_t *list, unsigned count, unsigned first, unsigned by)
{
    unsigned n, right = 0;
    for (n = 0; n < count; n++) {
        right += list[n] == first + n * by;
    }
    return right;
}

static unsigned single(const uint8_t *list, unsigned count, unsigned first)
{
    unsigned n, right = 0;
    for (n = 0; n < count; n++) {
        right += list[n] == 1u << (first + n);
    }
    return right;
}

static const uint8_t read_registers[] = {
    DUART_MRA, DUART_SRA, DUART_CRA, DUART_RBA, DUART_IPCR, DUART_ISR, DUART_CUR, DUART_CLR, DUART_MRB, DUART_SRB,
    DUART_CRB, DUART_RBB, DUART_IVR, DUART_INPUT_PORT, DUART_START_COUNTER, DUART_STOP_COUNTER};
static const uint8_t written_registers[] = {
    DUART_MRA, DUART_CSRA, DUART_CRA, DUART_TBA, DUART_ACR, DUART_IMR, DUART_CTUR, DUART_CTLR, DUART_MRB, DUART_CSRB,
    DUART_CRB, DUART_TBB, DUART_IVR, DUART_OPCR, DUART_SET_OP, DUART_RESET_OP};
static const uint8_t channels[] = {DUART_CHANNEL_A, DUART_CHANNEL_B};
static const uint8_t set1[] = {
    DUART_BAUD_50_SET1, DUART_BAUD_110, DUART_BAUD_134_5, DUART_BAUD_200_SET1, DUART_BAUD_300, DUART_BAUD_600,
    DUART_BAUD_1200, DUART_BAUD_1050_SET1, DUART_BAUD_2400, DUART_BAUD_4800, DUART_BAUD_7200_SET1, DUART_BAUD_9600,
    DUART_BAUD_38400_SET1, DUART_CLOCK_TIMER, DUART_CLOCK_16X, DUART_CLOCK_1X};
static const uint8_t set2[] = {
    DUART_BAUD_75_SET2, DUART_BAUD_110, DUART_BAUD_134_5, DUART_BAUD_150_SET2, DUART_BAUD_300, DUART_BAUD_600,
    DUART_BAUD_1200, DUART_BAUD_2000_SET2, DUART_BAUD_2400, DUART_BAUD_4800, DUART_BAUD_1800_SET2, DUART_BAUD_9600,
    DUART_BAUD_19200_SET2, DUART_CLOCK_TIMER, DUART_CLOCK_16X, DUART_CLOCK_1X};
static const uint8_t commands[] = {
    DUART_CR_POINT_TO_MR1, DUART_CR_RESET_RECEIVER, DUART_CR_RESET_TRANSMITTER, DUART_CR_CLEAR_ERRORS,
    DUART_CR_CLEAR_BREAK_CHANGE, DUART_CR_START_BREAK, DUART_CR_STOP_BREAK};
static const uint8_t parities[] = {
    DUART_MR1_EVEN_PARITY, DUART_MR1_ODD_PARITY, DUART_MR1_LOW_PARITY, DUART_MR1_HIGH_PARITY, DUART_MR1_NO_PARITY};
static const uint8_t widths[] = {DUART_MR1_5_BITS, DUART_MR1_6_BITS, DUART_MR1_7_BITS, DUART_MR1_8_BITS};
static const uint8_t modes[] = {DUART_NORMAL, DUART_AUTOMATIC_ECHO, DUART_LOCAL_LOOPBACK, DUART_REMOTE_LOOPBACK};
static const uint8_t stops[] = {DUART_MR2_STOP_1, DUART_MR2_STOP_2};
static const uint8_t sets[] = {DUART_ACR_SET1, DUART_ACR_SET2};
static const uint8_t counted[] = {
    DUART_ACR_COUNTER_IP2, DUART_ACR_COUNTER_TXCA, DUART_ACR_COUNTER_TXCB, DUART_ACR_COUNTER_TICKS_16,
    DUART_ACR_TIMER_IP2, DUART_ACR_TIMER_IP2_16, DUART_ACR_TIMER_TICKS, DUART_ACR_TIMER_TICKS_16};
static const uint8_t sampler[] = {DUART_SAMPLER_HUNTING, DUART_SAMPLER_LOW, DUART_SAMPLER_STARTED,
                                  DUART_SAMPLER_LOW_STOP, DUART_SAMPLER_BREAK};
static const uint8_t transmitter[] = {DUART_TRANSMITTER_IDLE, DUART_TRANSMITTER_CHARACTER, DUART_TRANSMITTER_BREAK,
                                      DUART_TRANSMITTER_AFTER_BREAK};
static const uint8_t kinds[] = {DUART_CHIP_RESET, DUART_READ, DUART_WRITE, DUART_ACKNOWLEDGE, DUART_PINS, DUART_TICK};
static const uint8_t answers[] = {
    DUART_ACCEPTED, DUART_UNSOUND, DUART_REGISTER_ABOVE_15, DUART_FORBIDDEN_READ, DUART_FORBIDDEN_COMMAND,
    DUART_NOT_MODELLED, DUART_NOT_ASSERTED, DUART_NEW_UNSOUND, DUART_SPACE_SHORT, DUART_OVER_LIMIT,
    DUART_OUTSIDE_SUBSET, DUART_TIME_NOT_LATER};

static const uint8_t mr1[] = {DUART_MR1_BLOCK, DUART_MR1_FFULL};
static const uint8_t cts[] = {DUART_MR2_CTS};
static const uint8_t sr[] = {DUART_SR_RXRDY, DUART_SR_FFULL, DUART_SR_TXRDY, DUART_SR_TXEMT, DUART_SR_OVERRUN,
                             DUART_SR_PARITY, DUART_SR_FRAMING, DUART_SR_BREAK};
static const uint8_t enables[] = {DUART_CR_ENABLE_RECEIVER, DUART_CR_DISABLE_RECEIVER, DUART_CR_ENABLE_TRANSMITTER,
                                  DUART_CR_DISABLE_TRANSMITTER};
static const uint8_t ipcr[] = {
    DUART_IPCR_LEVEL_IP0, DUART_IPCR_LEVEL_IP1, DUART_IPCR_LEVEL_IP2, DUART_IPCR_LEVEL_IP3,
    DUART_IPCR_CHANGE_IP0, DUART_IPCR_CHANGE_IP1, DUART_IPCR_CHANGE_IP2, DUART_IPCR_CHANGE_IP3};
static const uint8_t acr[] = {DUART_ACR_IP0, DUART_ACR_IP1, DUART_ACR_IP2, DUART_ACR_IP3};
static const uint8_t timer[] = {DUART_ACR_TIMER};
static const uint8_t isr[] = {DUART_ISR_TXRDY_A, DUART_ISR_RX_A, DUART_ISR_BREAK_CHANGE_A, DUART_ISR_COUNTER,
                              DUART_ISR_TXRDY_B, DUART_ISR_RX_B, DUART_ISR_BREAK_CHANGE_B, DUART_ISR_INPUT_CHANGE};
static const uint8_t op3[] = {DUART_OPCR_OP3_COUNTER};
static const uint8_t opcr[] = {DUART_OPCR_OP4_RX_A, DUART_OPCR_OP5_RX_B, DUART_OPCR_OP6_TXRDY_A,
                               DUART_OPCR_OP7_TXRDY_B};
static const uint8_t pins[] = {DUART_IP0, DUART_IP1, DUART_IP2, DUART_IP3, DUART_IP4, DUART_IP5, DUART_RXDA,
                               DUART_RXDB};

static int codes(void)
{
    int wrong = 0;

    wrong += COUNT_UP("registers read", read_registers, 0, 1);
    wrong += COUNT_UP("registers written", written_registers, 0, 1);
    wrong += COUNT_UP("channels", channels, 0, 8);
    wrong += COUNT_UP("rates, set 1", set1, 0, 1);
    wrong += COUNT_UP("rates, set 2", set2, 0, 1);
    wrong += COUNT_UP("commands", commands, 0x10, 0x10);
    wrong += COUNT_UP("parities", parities, 0, 4);
    wrong += COUNT_UP("data bits", widths, 0, 1);
    wrong += COUNT_UP("modes", modes, 0, 0x40);
    wrong += COUNT_UP("stop codes", stops, 7, 8);
    wrong += COUNT_UP("sets of rates", sets, 0, 0x80);
    wrong += COUNT_UP("counter/timer modes", counted, 0, 0x10);
    wrong += COUNT_UP("phases of a sampler", sampler, 0, 1);
    wrong += COUNT_UP("phases of a transmitter", transmitter, 0, 1);
    wrong += COUNT_UP("kinds of event", kinds, 0, 1);
    wrong += COUNT_UP("answers", answers, 0, 1);
    return wrong;
}

static int bits(void)
{
    int wrong = 0;

    wrong += ARE_BITS("MR1", mr1, 5);
    wrong += ARE_BITS("MR2, CTS", cts, 4);
    wrong += ARE_BITS("SR", sr, 0);
    wrong += ARE_BITS("CR", enables, 0);
    wrong += ARE_BITS("IPCR", ipcr, 0);
    wrong += ARE_BITS("ACR", acr, 0);
    wrong += ARE_BITS("ACR, the timer modes", timer, 6);
    wrong += ARE_BITS("ISR", isr, 0);
    wrong += ARE_BITS("OPCR", op3, 2);
    wrong += ARE_BITS("OPCR, bits 7-4", opcr, 4);
    wrong += ARE_BITS("pins", pins, 0);
    return wrong;
}

int main(void)
{
    int wrong = codes() + bits();

    return wrong == 0 ? 0 : 1;
}
