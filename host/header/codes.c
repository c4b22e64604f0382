/*
 * The names of include/duart.h for rates and clocks, what the counter/timer counts, formats and phases, tried on the
 * archive by what each of them does. Prints what it saw, and ends with 0 if all was as it should be.
 */
#include "tried.h"

#define COUNT(list) (sizeof(list) / sizeof(list)[0])

/* A code, its set, and the half bauds of its name. */
typedef struct rate {
    uint8_t code;
    uint8_t set;
    unsigned half_bauds;
} rate;

static const rate rates[] = {
    {DUART_BAUD_50_SET1, DUART_ACR_SET1, 100},      {DUART_BAUD_75_SET2, DUART_ACR_SET2, 150},
    {DUART_BAUD_110, DUART_ACR_SET1, 220},          {DUART_BAUD_110, DUART_ACR_SET2, 220},
    {DUART_BAUD_134_5, DUART_ACR_SET1, 269},        {DUART_BAUD_134_5, DUART_ACR_SET2, 269},
    {DUART_BAUD_200_SET1, DUART_ACR_SET1, 400},     {DUART_BAUD_150_SET2, DUART_ACR_SET2, 300},
    {DUART_BAUD_300, DUART_ACR_SET1, 600},          {DUART_BAUD_300, DUART_ACR_SET2, 600},
    {DUART_BAUD_600, DUART_ACR_SET1, 1200},         {DUART_BAUD_600, DUART_ACR_SET2, 1200},
    {DUART_BAUD_1200, DUART_ACR_SET1, 2400},        {DUART_BAUD_1200, DUART_ACR_SET2, 2400},
    {DUART_BAUD_1050_SET1, DUART_ACR_SET1, 2100},   {DUART_BAUD_2000_SET2, DUART_ACR_SET2, 4000},
    {DUART_BAUD_2400, DUART_ACR_SET1, 4800},        {DUART_BAUD_2400, DUART_ACR_SET2, 4800},
    {DUART_BAUD_4800, DUART_ACR_SET1, 9600},        {DUART_BAUD_4800, DUART_ACR_SET2, 9600},
    {DUART_BAUD_7200_SET1, DUART_ACR_SET1, 14400},  {DUART_BAUD_1800_SET2, DUART_ACR_SET2, 3600},
    {DUART_BAUD_9600, DUART_ACR_SET1, 19200},       {DUART_BAUD_9600, DUART_ACR_SET2, 19200},
    {DUART_BAUD_38400_SET1, DUART_ACR_SET1, 76800}, {DUART_BAUD_19200_SET2, DUART_ACR_SET2, 38400},
};

/* The ticks to the transmitter's first pulse, at which TxDA goes low, are a period: 16 are near a bit of the name. */
static int bauds(void)
{
    unsigned n, near = 0, exact = 0;
    int wrong = 0;

    for (n = 0; n < COUNT(rates); n++) {
        unsigned ticks = 1;
        long miss;
        duart_init(&chip);
        step(duart_write(DUART_ACR, rates[n].set));
        step(duart_write(DUART_CRA, DUART_CR_ENABLE_TRANSMITTER));
        step(duart_write(DUART_CSRA, DUART_CSR(0, rates[n].code)));
        step(duart_write(DUART_TBA, 0xff));
        while (step(duart_tick()).txda) {
            ticks += 1;
        }
        miss = 8L * (long)ticks * (long)rates[n].half_bauds - DUART_TICKS_A_SECOND;
        near += (miss < 0 ? -miss : miss) * 1000 <= 3L * DUART_TICKS_A_SECOND; /* 1,050 bauds are 0.26% off */
        exact += miss == 0;
    }
    wrong += differs("codes that have the rate of their name", near, COUNT(rates));
    wrong += differs("all but 110, 134.5, 1,050 and 2,000 exactly", exact, COUNT(rates) - 6);
    return wrong;
}

/* Sixteen ticks, or sixteen falls and rises of some pins. */
static void sixteen(uint8_t pins)
{
    int n;
    for (n = 0; n < 16; n++) {
        if (pins == 0) {
            step(duart_tick());
        } else {
            step(duart_pins(DUART_ALL_HIGH & ~pins));
            step(duart_pins(DUART_ALL_HIGH));
        }
    }
}

/* What the counter/timer has counted after 16 ticks, or 16 pulses of IP2, of TxCA (IP3) or of TxCB (IP5). */
static unsigned counted(uint8_t acr, uint8_t pins)
{
    duart_init(&chip);
    step(duart_write(DUART_CSRA, DUART_CSR(0, DUART_CLOCK_1X)));
    step(duart_write(DUART_CSRB, DUART_CSR(0, DUART_CLOCK_1X)));
    step(duart_write(DUART_CTLR, 100));
    step(duart_write(DUART_ACR, acr));
    step(duart_read(DUART_START_COUNTER));
    sixteen(pins);
    return 100u - step(duart_read(DUART_CLR)).data;
}

static int counters(void)
{
    static const uint8_t pins[] = {0, DUART_IP2, DUART_IP3, DUART_IP5};
    static const struct {
        uint8_t acr;
        uint8_t counts[4];
    } modes[] = {{DUART_ACR_COUNTER_IP2, {0, 16, 0, 0}}, {DUART_ACR_COUNTER_TXCA, {0, 0, 16, 0}},
                 {DUART_ACR_COUNTER_TXCB, {0, 0, 0, 16}}, {DUART_ACR_COUNTER_TICKS_16, {1, 0, 0, 0}},
                 {DUART_ACR_TIMER_IP2, {0, 16, 0, 0}}, {DUART_ACR_TIMER_IP2_16, {0, 1, 0, 0}},
                 {DUART_ACR_TIMER_TICKS, {16, 0, 0, 0}}, {DUART_ACR_TIMER_TICKS_16, {1, 0, 0, 0}}};
    unsigned mode, n, right = 0;

    for (mode = 0; mode < COUNT(modes); mode++) {
        for (n = 0; n < COUNT(pins); n++) {
            right += counted(modes[mode].acr, pins[n]) == modes[mode].counts[n];
        }
        right += ((modes[mode].acr & DUART_ACR_TIMER) != 0) == (mode >= 4);
    }
    return differs("what the counter/timer counts, by its name", right, 5 * COUNT(modes));
}

/* The pulses of a frame, and the level of its 8th bit after the start: parity, with 7 data bits. */
static int formats(void)
{
    static const uint8_t bits[] = {DUART_MR1_5_BITS, DUART_MR1_6_BITS, DUART_MR1_7_BITS, DUART_MR1_8_BITS};
    static const uint8_t parity[] = {DUART_MR1_EVEN_PARITY, DUART_MR1_ODD_PARITY, DUART_MR1_LOW_PARITY,
                                     DUART_MR1_HIGH_PARITY};
    uint8_t levels[DUART_MOST_LEVELS];
    unsigned n;
    int wrong = 0;

    for (n = 0; n < 4; n++) {
        uint8_t mr1 = bits[n] | DUART_MR1_NO_PARITY;
        unsigned one = duart_frame(mr1, DUART_MR2_STOP_1, 0, levels, sizeof levels).length;
        wrong += differs("pulses, one stop bit", one, 16 * (n + 7) + (n == 0 ? 8 : 0));
        wrong += differs("two", duart_frame(mr1, DUART_MR2_STOP_2, 0, levels, sizeof levels).length, 16 * (n + 8));
        mr1 = parity[n] | DUART_MR1_7_BITS;
        wrong += differs("with parity", duart_frame(mr1, DUART_MR2_STOP_1, 65, levels, sizeof levels).length, 160);
        wrong += differs("the parity bit of 65", levels[8 * 16], n % 2);
    }
    n = duart_frame(DUART_MR1_8_BITS | DUART_MR1_EVEN_PARITY, DUART_MR2_STOP_2, 0, levels, sizeof levels).length;
    wrong += differs("the longest frame", n, DUART_MOST_LEVELS);
    return wrong;
}

/* Pulses of an external 16X clock on IP4 with a level on RxDA: the receiver's phase then. */
static unsigned sampled(unsigned pulses, bool high)
{
    const uint8_t pins = DUART_ALL_HIGH & ~(high ? DUART_IP4 : DUART_IP4 | DUART_RXDA);
    for (; pulses > 0; pulses--) {
        step(duart_pins(pins));
        step(duart_pins(pins | DUART_IP4));
    }
    return chip.a.sampler.phase;
}

static int sampler_phases(void)
{
    int wrong = 0;

    duart_init(&chip);
    step(duart_write(DUART_MRA, DUART_MR1_8_BITS | DUART_MR1_NO_PARITY));
    step(duart_write(DUART_CSRA, DUART_CSR(DUART_CLOCK_16X, DUART_CLOCK_16X)));
    step(duart_write(DUART_CRA, DUART_CR_ENABLE_RECEIVER));
    wrong += differs("high", sampled(1, true), DUART_SAMPLER_HUNTING);
    wrong += differs("low at p", sampled(8, false), DUART_SAMPLER_LOW);
    wrong += differs("low at p+8", sampled(1, false), DUART_SAMPLER_STARTED);
    wrong += differs("eight low bits", sampled(8 * 16, false), DUART_SAMPLER_STARTED);
    wrong += differs("a low stop", sampled(16, false), DUART_SAMPLER_BREAK);
    wrong += differs("eight highs", sampled(8, true), DUART_SAMPLER_HUNTING);
    sampled(9, false);
    sampled(8 * 16, true);
    wrong += differs("a low stop after high bits", sampled(16, false), DUART_SAMPLER_LOW_STOP);
    return wrong;
}

/* The transmitter on a 1X clock, the falling edges of IP3, with CTS on IP0: its phase after each. */
static int transmitter_phases(void)
{
    const uint8_t *phase = &chip.front.a.transmitter.phase;
    int wrong = 0;

    duart_init(&chip);
    step(duart_read(DUART_MRA));
    step(duart_write(DUART_MRA, DUART_MR2_CTS | DUART_MR2_STOP_1));
    step(duart_write(DUART_CSRA, DUART_CSR(DUART_CLOCK_1X, DUART_CLOCK_1X)));
    step(duart_write(DUART_CRA, DUART_CR_ENABLE_TRANSMITTER));
    step(duart_write(DUART_TBA, 42));
    step(duart_pins(DUART_ALL_HIGH & ~DUART_IP3));
    wrong += differs("CTS high", *phase, DUART_TRANSMITTER_IDLE);
    step(duart_pins(DUART_ALL_HIGH & ~DUART_IP0));
    step(duart_pins(DUART_ALL_HIGH & ~DUART_IP0 & ~DUART_IP3));
    wrong += differs("CTS low", *phase, DUART_TRANSMITTER_CHARACTER);
    step(duart_write(DUART_CRA, DUART_CR_START_BREAK));
    sixteen(DUART_IP3);
    wrong += differs("a break", *phase, DUART_TRANSMITTER_BREAK);
    step(duart_write(DUART_CRA, DUART_CR_STOP_BREAK));
    wrong += differs("its end", *phase, DUART_TRANSMITTER_AFTER_BREAK);
    return wrong;
}

int main(void)
{
    int wrong = bauds() + counters() + formats() + sampler_phases() + transmitter_phases();

    return wrong == 0 ? 0 : 1;
}
