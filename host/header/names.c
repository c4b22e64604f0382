/*
 * The names of include/duart.h for registers, bits and commands, tried on the archive by what each of them does. Prints
 * what it saw, and ends with 0 if all was as it should be.
 */
#include "tried.h"

#include <string.h>

/* A write, and the field that it must have reached; the byte was not there before. */
static int reaches(const char *what, uint8_t reg, uint8_t byte, const uint8_t *field)
{
    return differs(what, step(duart_write(reg, byte)).number + (*field != byte), 0);
}

static int writes(void)
{
    int wrong = 0;

    duart_init(&chip);
    wrong += reaches("MR1A", DUART_MRA, 0x13, &chip.front.a.mr1);
    wrong += reaches("MR2A", DUART_MRA, 0x07, &chip.front.a.mr2);
    wrong += reaches("CSRA", DUART_CSRA, DUART_CSR(DUART_BAUD_9600, DUART_CLOCK_TIMER), &chip.front.a.csr);
    wrong += differs("its halves", chip.front.a.csr, 0xbd);
    wrong += reaches("MR1B", DUART_MRB, 0x12, &chip.front.b.mr1);
    wrong += reaches("MR2B", DUART_MRB, 0x0f, &chip.front.b.mr2);
    wrong += reaches("CSRB", DUART_CSRB, 0xcc, &chip.front.b.csr);
    wrong += reaches("ACR", DUART_ACR, DUART_ACR_SET2, &chip.front.acr);
    wrong += reaches("IMR", DUART_IMR, 0x21, &chip.front.imr);
    wrong += reaches("IVR", DUART_IVR, 0x41, &chip.front.ivr);
    wrong += reaches("OPCR", DUART_OPCR, DUART_OPCR_OP3_COUNTER, &chip.front.outputs.opcr);
    wrong += reaches("set OP", DUART_SET_OP, 0x81, &chip.front.outputs.bits);
    step(duart_write(DUART_RESET_OP, 0x01));
    wrong += differs("reset OP", chip.front.outputs.bits, 0x80);
    step(duart_write(DUART_CTUR, 0x12));
    step(duart_write(DUART_CTLR, 0x34));
    wrong += differs("preload", chip.front.timer.preload, 0x1234);
    step(duart_write(DUART_CRA, DUART_CR_ENABLE_TRANSMITTER));
    step(duart_write(DUART_CRB, DUART_CR_ENABLE_TRANSMITTER));
    wrong += reaches("TBA", DUART_TBA, 42, &chip.front.a.transmitter.holding);
    wrong += reaches("TBB", DUART_TBB, 43, &chip.front.b.transmitter.holding);
    return wrong;
}

static int reads(void)
{
    int wrong = 0;

    duart_init(&chip);
    chip.a.overrun = true;
    chip.a.queue.count = chip.b.queue.count = 1;
    chip.a.queue.first.byte = 42;
    chip.b.queue.first.byte = 43;
    chip.front.timer.count = 0x1234;
    step(duart_pins(DUART_ALL_HIGH & ~DUART_IP1));
    wrong += differs("SRA", step(duart_read(DUART_SRA)).data, DUART_SR_OVERRUN | DUART_SR_RXRDY);
    wrong += differs("SRB", step(duart_read(DUART_SRB)).data, DUART_SR_RXRDY);
    wrong += differs("ISR", step(duart_read(DUART_ISR)).data, DUART_ISR_RX_A | DUART_ISR_RX_B);
    wrong += differs("RBA", step(duart_read(DUART_RBA)).data, 42);
    wrong += differs("RBB", step(duart_read(DUART_RBB)).data, 43);
    wrong += differs("the count, high", step(duart_read(DUART_CUR)).data, 0x12);
    wrong += differs("the count, low", step(duart_read(DUART_CLR)).data, 0x34);
    wrong += differs("IVR", step(duart_read(DUART_IVR)).data, 15);
    wrong += differs("input port", step(duart_read(DUART_INPUT_PORT)).data, 0xff & ~DUART_IP1);
    wrong += differs("IPCR", step(duart_read(DUART_IPCR)).data, DUART_IPCR_CHANGE_IP1 | DUART_IPCR_LEVEL_IP0 |
                                                                  DUART_IPCR_LEVEL_IP2 | DUART_IPCR_LEVEL_IP3);
    step(duart_read(DUART_START_COUNTER));
    wrong += differs("started", chip.front.timer.running, 1);
    step(duart_read(DUART_STOP_COUNTER));
    wrong += differs("stopped", chip.front.timer.running, 0);
    return wrong;
}

/* Each bit of SRA from the one field that sets it. */
static int status(void)
{
    int wrong = 0;

    duart_init(&chip);
    chip.a.queue.count = 1;
    chip.a.queue.first.marks.broken = true;
    wrong += differs("SR, a break", step(duart_read(DUART_SRA)).data, DUART_SR_BREAK | DUART_SR_RXRDY);
    memset(&chip.a.queue.first.marks, 0, sizeof chip.a.queue.first.marks);
    chip.a.queue.first.marks.framing = true;
    wrong += differs("SR, framing", step(duart_read(DUART_SRA)).data, DUART_SR_FRAMING | DUART_SR_RXRDY);
    chip.a.queue.first.marks.framing = false;
    chip.a.queue.first.marks.parity = true;
    wrong += differs("SR, parity", step(duart_read(DUART_SRA)).data, DUART_SR_PARITY | DUART_SR_RXRDY);
    chip.a.queue.count = 3;
    chip.front.a.mr1 = DUART_MR1_BLOCK;
    wrong += differs("SR, a full queue", step(duart_read(DUART_SRA)).data, DUART_SR_FFULL | DUART_SR_RXRDY);
    chip.a.sums.parity = true;
    wrong += differs("SR, a block", step(duart_read(DUART_SRA)).data & DUART_SR_ERRORS, DUART_SR_PARITY);
    chip.a.queue.count = 0;
    chip.a.sums.parity = false;
    chip.front.a.transmitter.enabled = true;
    wrong += differs("SR, empty", step(duart_read(DUART_SRA)).data, DUART_SR_TXEMT | DUART_SR_TXRDY);
    chip.front.a.transmitter.phase = DUART_TRANSMITTER_CHARACTER;
    wrong += differs("SR, ready", step(duart_read(DUART_SRA)).data, DUART_SR_TXRDY);
    return wrong;
}

/* Each bit of ISR from the one field that sets it, and what shows it on OP. */
static int interrupts(void)
{
    const uint8_t opcr = DUART_OPCR_OP7_TXRDY_B | DUART_OPCR_OP6_TXRDY_A | DUART_OPCR_OP5_RX_B | DUART_OPCR_OP4_RX_A;
    duart_device fresh = duart_fresh();
    int wrong = 0;

    fresh.front.outputs.opcr = opcr | DUART_OPCR_OP3_COUNTER;
    chip = fresh, chip.a.change = true;
    wrong += differs("ISR, break A", step(duart_read(DUART_ISR)).data, DUART_ISR_BREAK_CHANGE_A);
    chip = fresh, chip.b.change = true;
    wrong += differs("ISR, break B", step(duart_read(DUART_ISR)).data, DUART_ISR_BREAK_CHANGE_B);
    chip = fresh, chip.front.timer.ready = true;
    wrong += differs("ISR, counter", step(duart_read(DUART_ISR)).data, DUART_ISR_COUNTER);
    wrong += differs("OP, counter", step(duart_tick()).op, 0xff & ~0x08);
    chip = fresh, chip.front.a.transmitter.enabled = true;
    wrong += differs("ISR, TxRDYA", step(duart_read(DUART_ISR)).data, DUART_ISR_TXRDY_A);
    wrong += differs("OP, TxRDYA", step(duart_tick()).op, 0xff & ~0x40);
    chip = fresh, chip.front.b.transmitter.enabled = true;
    wrong += differs("ISR, TxRDYB", step(duart_read(DUART_ISR)).data, DUART_ISR_TXRDY_B);
    wrong += differs("OP, TxRDYB", step(duart_tick()).op, 0xff & ~0x80);
    chip = fresh, chip.b.queue.count = 2;
    wrong += differs("ISR, RxRDYB", step(duart_read(DUART_ISR)).data, DUART_ISR_RX_B);
    wrong += differs("OP, RxRDYB", step(duart_tick()).op, 0xff & ~0x20);
    wrong += differs("MR1, FFULL", step(duart_write(DUART_MRB, DUART_MR1_FFULL)).number, DUART_ACCEPTED);
    wrong += differs("ISR, not full", step(duart_read(DUART_ISR)).data, 0);
    chip = fresh, chip.a.queue.count = 2;
    wrong += differs("OP, RxRDYA", step(duart_tick()).op, 0xff & ~0x10);
    return wrong;
}

/* A change of each of IP3 to IP0: its flag, its level, and ISR bit 7 by its own bit of ACR alone. */
static int changes(void)
{
    static const uint8_t pin[] = {DUART_IP0, DUART_IP1, DUART_IP2, DUART_IP3};
    static const uint8_t flag[] = {DUART_IPCR_CHANGE_IP0, DUART_IPCR_CHANGE_IP1, DUART_IPCR_CHANGE_IP2,
                                   DUART_IPCR_CHANGE_IP3};
    static const uint8_t level[] = {DUART_IPCR_LEVEL_IP0, DUART_IPCR_LEVEL_IP1, DUART_IPCR_LEVEL_IP2,
                                    DUART_IPCR_LEVEL_IP3};
    static const uint8_t told[] = {DUART_ACR_IP0, DUART_ACR_IP1, DUART_ACR_IP2, DUART_ACR_IP3};
    int n, wrong = 0;

    for (n = 0; n < 4; n++) {
        duart_init(&chip);
        step(duart_pins(0));
        step(duart_read(DUART_IPCR));
        step(duart_pins(pin[n]));
        step(duart_write(DUART_ACR, 0x0f & ~told[n]));
        wrong += differs("ISR, others asked for", step(duart_read(DUART_ISR)).data, 0);
        step(duart_write(DUART_ACR, told[n]));
        wrong += differs("ISR, its change asked for", step(duart_read(DUART_ISR)).data, DUART_ISR_INPUT_CHANGE);
        wrong += differs("IPCR", step(duart_read(DUART_IPCR)).data, flag[n] | level[n]);
    }
    return wrong;
}

static int commands(void)
{
    int wrong = 0;

    duart_init(&chip);
    step(duart_write(DUART_CRA, DUART_CR_ENABLE_RECEIVER | DUART_CR_ENABLE_TRANSMITTER));
    wrong += differs("enabled", chip.front.a.enabled + chip.front.a.transmitter.enabled, 2);
    step(duart_write(DUART_CRA, DUART_CR_DISABLE_RECEIVER));
    wrong += differs("receiver disabled", chip.front.a.enabled + 2 * chip.front.a.transmitter.enabled, 2);
    step(duart_write(DUART_CRA, DUART_CR_START_BREAK));
    wrong += differs("a break asked", chip.front.a.transmitter.asked, 1);
    step(duart_write(DUART_CRA, DUART_CR_STOP_BREAK));
    wrong += differs("dropped", chip.front.a.transmitter.asked, 0);
    step(duart_write(DUART_TBA, 42));
    step(duart_write(DUART_CRA, DUART_CR_DISABLE_TRANSMITTER));
    wrong += differs("transmitter disabled", chip.front.a.transmitter.enabled, 0);
    wrong += differs("its byte kept", chip.front.a.transmitter.full, 1);
    step(duart_write(DUART_CRA, DUART_CR_RESET_TRANSMITTER));
    wrong += differs("reset, none kept", chip.front.a.transmitter.full + chip.front.a.transmitter.enabled, 0);
    step(duart_read(DUART_MRA));
    step(duart_write(DUART_CRA, DUART_CR_POINT_TO_MR1));
    wrong += differs("pointer moved", chip.front.a.moved, 0);
    chip.a.change = chip.a.overrun = true;
    chip.a.queue.count = 4;
    step(duart_write(DUART_CRA, DUART_CR_RESET_RECEIVER));
    wrong += differs("receiver reset, none held", chip.a.queue.count, 0);
    wrong += differs("overrun and change stay", chip.a.overrun + chip.a.change, 2);
    step(duart_write(DUART_CRA, DUART_CR_CLEAR_ERRORS));
    wrong += differs("errors cleared: overrun and change", chip.a.overrun + 2 * chip.a.change, 2);
    step(duart_write(DUART_CRA, DUART_CR_CLEAR_BREAK_CHANGE));
    wrong += differs("break change", chip.a.change, 0);
    return wrong;
}

/* A mask, and the bits that it is to hold together. */
static int masks(void)
{
    int wrong = 0;

    wrong += differs("modes", DUART_MR2_MODE, DUART_AUTOMATIC_ECHO | DUART_LOCAL_LOOPBACK | DUART_NORMAL);
    wrong += differs("stop codes", DUART_MR2_STOP_CODE, DUART_MR2_STOP_1 | DUART_MR2_STOP_2);
    wrong += differs("no bit of MR2, of ACR", DUART_NORMAL + (DUART_ACR_SET1 | DUART_ACR_COUNTER_IP2), 0);
    wrong += differs("errors", DUART_SR_ERRORS,
                     DUART_SR_BREAK | DUART_SR_FRAMING | DUART_SR_PARITY | DUART_SR_OVERRUN);
    wrong += differs("all pins", DUART_ALL_HIGH, DUART_IP0 | DUART_IP1 | DUART_IP2 | DUART_IP3 | DUART_IP4 | DUART_IP5 |
                                                     DUART_RXDA | DUART_RXDB);
    return wrong;
}

int main(void)
{
    int wrong = masks() + writes() + reads() + status() + interrupts() + changes() + commands();

    return wrong == 0 ? 0 : 1;
}
