/*
 * What include/duart.h says of refusals, of the fields of a device and an answer, of the modes, of sound devices, of
 * frame requests, of polls, of runs and of dumps, tried on the archive: no compiler holds the header to the proved
 * source. Prints what it saw, and ends with 0 if all was as it should be.
 */
#include "tried.h"

#include <string.h>

/* Each field of an answer where the others are of another value: IRQ by the byte that channel A holds, OP0 low. */
static int answers(void)
{
    duart_seen seen;
    int wrong = 0;

    wrong += differs("the archive has this header's ABI number", duart_fits(), 1);
    wrong += differs("IMR", step(duart_write(DUART_IMR, DUART_ISR_RX_A)).number, DUART_ACCEPTED);
    wrong += differs("set OP bit 0", step(duart_write(DUART_SET_OP, 0x01)).number, DUART_ACCEPTED);
    chip.a.queue.count = 2;
    chip.a.queue.first.byte = 42;
    chip.front.b.transmitter.txd = false;
    seen = step(duart_read(DUART_RBA));
    wrong += differs("number", seen.number, DUART_ACCEPTED);
    wrong += differs("data", seen.data, 42);
    wrong += differs("fresh", seen.fresh, 1);
    wrong += differs("irq", seen.irq, 1);
    wrong += differs("txda", seen.txda, 1);
    wrong += differs("txdb", seen.txdb, 0);
    wrong += differs("op", seen.op, 0xfe);
    wrong += differs("a status read is stale", step(duart_read(DUART_SRA)).fresh, 0);
    wrong += differs("a register above 15", step(duart_read(19)).number, DUART_REGISTER_ABOVE_15);
    wrong += differs("an unknown kind", step(duart_event_of(99, DUART_RBA, 0)).number, DUART_REGISTER_ABOVE_15);
    wrong += differs("a read of the command", step(duart_read(DUART_CRA)).number, DUART_FORBIDDEN_READ);
    wrong += differs("enable and disable", step(duart_write(DUART_CRA, 0x03)).number, DUART_FORBIDDEN_COMMAND);
    wrong += differs("a setting", step(duart_write(DUART_OPCR, 0x08)).number, DUART_NOT_MODELLED);
    wrong += differs("the vector", step(duart_acknowledge()).data, 15);
    wrong += differs("bytes of an answer", (unsigned)sizeof seen, 7);
    return wrong;
}

static int devices(void)
{
    int wrong = 0;

    wrong += differs("IMR's field", chip.front.imr, 0x02);
    wrong += differs("the last byte read", chip.a.last, 42);
    wrong += differs("IVR", step(duart_write(DUART_IVR, 0x41)).number, DUART_ACCEPTED);
    wrong += differs("its field", chip.front.ivr, 0x41);
    wrong += differs("a chip reset", step(duart_chip_reset()).number, DUART_ACCEPTED);
    wrong += differs("IVR then", chip.front.ivr, 15);
    wrong += differs("an acknowledge then", step(duart_acknowledge()).number, DUART_NOT_ASSERTED);
    wrong += differs("bytes of a device", (unsigned)sizeof chip, 200);
    wrong += differs("sound", duart_is_sound(&chip), 1);
    chip.a.queue.count = 200;
    wrong += differs("sound with 200 held", duart_is_sound(&chip), 0);
    wrong += differs("a tick then", step(duart_tick()).number, DUART_UNSOUND);
    wrong += differs("a read then", step(duart_read(DUART_RBA)).number, DUART_UNSOUND);
    wrong += differs("is stale", step(duart_read(DUART_RBA)).fresh, 0);
    wrong += differs("still held", chip.a.queue.count, 200);
    return wrong;
}

/* The field `echo`, the modes and what is left of answer 5 for MR2. */
static int modes(void)
{
    int wrong = 0;

    duart_init(&chip);
    wrong += differs("nothing echoed", chip.front.a.echo, 1);
    chip.front.a.enabled = true;
    chip.front.a.echo = false;
    chip.front.a.mr2 = DUART_AUTOMATIC_ECHO;
    wrong += differs("txda, a low echoed", step(duart_read(DUART_IVR)).txda, 0);
    chip.front.a.mr2 = DUART_REMOTE_LOOPBACK;
    wrong += differs("in remote loopback", step(duart_read(DUART_IVR)).txda, 0);
    chip.front.a.mr2 = DUART_LOCAL_LOOPBACK;
    wrong += differs("in local loopback", step(duart_read(DUART_IVR)).txda, 1);
    chip.front.a.moved = true;
    wrong += differs("MR2 bit 5", step(duart_write(DUART_MRA, 0x20)).number, DUART_NOT_MODELLED);
    wrong += differs("MR2 bits 7-6", step(duart_write(DUART_MRA, DUART_REMOTE_LOOPBACK)).number, DUART_ACCEPTED);
    wrong += differs("sound", duart_is_sound(&chip), 1);
    chip.front.a.mr2 = 0x20;
    wrong += differs("sound with MR2 bit 5", duart_is_sound(&chip), 0);
    return wrong;
}

static int frames(void)
{
    uint8_t levels[DUART_MOST_LEVELS];
    duart_frame_answer frame;
    int wrong = 0;

    memset(levels, 7, sizeof levels);
    frame = duart_frame(0x13, 0x07, 85, levels, sizeof levels);
    wrong += differs("a frame's pulses", frame.length, 160);
    wrong += differs("its last level", levels[159], 1);
    wrong += differs("the space past it", levels[160], 7);
    frame = duart_frame(0x13, 0x07, 85, levels, 159);
    wrong += differs("too little space", frame.number, DUART_SPACE_SHORT);
    wrong += differs("a frame of no pulses", frame.length, 0);
    frame = duart_frame(0x13, DUART_REMOTE_LOOPBACK | 0x07, 85, levels, sizeof levels);
    wrong += differs("a frame's pulses, whatever the mode", frame.length, 160);
    frame = duart_frame(0x13, 0x27, 85, levels, sizeof levels);
    wrong += differs("a frame with MR2 bit 5", frame.number, DUART_NOT_MODELLED);
    return wrong;
}

/* Refused before any event, ended by a refused one, and done to the end; `many` is a tick and chip resets. */
static int polls(void)
{
    static const duart_event events[4] = {
        {DUART_WRITE, DUART_IVR, 0x41}, {DUART_READ, DUART_IVR, 0}, {DUART_READ, DUART_CRA, 0}, {DUART_TICK, 0, 0}};
    static const duart_event many[DUART_MOST_EVENTS + 1] = {{DUART_TICK, 0, 0}};
    static duart_seen space[DUART_MOST_EVENTS + 1];
    duart_polled polled;
    int wrong = 0;

    duart_init(&chip);
    memset(space, 1, sizeof space);
    polled = duart_poll(&chip, events, 4, space, 3);
    wrong += differs("a poll with three places for four", polled.number, DUART_SPACE_SHORT);
    wrong += differs("its answers", (unsigned)polled.count, 0);
    wrong += differs("nothing is written", space[0].data, 1);
    wrong += differs("IVR is as it was", chip.front.ivr, 15);
    polled = duart_poll(&chip, events, 4, space, 5);
    wrong += differs("a poll that a refused read ends", polled.number, DUART_ACCEPTED);
    wrong += differs("its answers", (unsigned)polled.count, 3);
    wrong += differs("data of the second", space[1].data, 0x41);
    wrong += differs("number of the third", space[2].number, DUART_FORBIDDEN_READ);
    wrong += differs("number of the fourth, not written", space[3].number, 1);
    wrong += differs("IVR's field", chip.front.ivr, 0x41);
    polled = duart_poll(&chip, many, DUART_MOST_EVENTS + 1, space, DUART_MOST_EVENTS);
    wrong += differs("a poll of 4097 with 4096 places", polled.number, DUART_SPACE_SHORT);
    polled = duart_poll(&chip, many, DUART_MOST_EVENTS + 1, space, DUART_MOST_EVENTS + 1);
    wrong += differs("with 4097 places", polled.number, DUART_OVER_LIMIT);
    polled = duart_poll(&chip, many, DUART_MOST_EVENTS, space, DUART_MOST_EVENTS);
    wrong += differs("a poll of 4096, its answers", (unsigned)polled.count, 4096);
    polled = duart_poll(&chip, events, 0, space, 0);
    wrong += differs("an empty poll", polled.number + (unsigned)polled.count, 0);
    chip.a.queue.count = 200;
    polled = duart_poll(&chip, events, 4, space, 3);
    wrong += differs("a poll of an unsound device", polled.number, DUART_UNSOUND);
    wrong += differs("bytes of its answer", (unsigned)sizeof polled, 16);
    return wrong;
}

/* A timer on ticks that asserts IRQ after four of them, with TxDB low and OP0 low. */
static int runs(void)
{
    duart_ran ran;
    int wrong = 0;

    duart_init(&chip);
    step(duart_write(DUART_CTLR, 2));
    step(duart_write(DUART_ACR, DUART_ACR_TIMER_TICKS));
    step(duart_write(DUART_IMR, DUART_ISR_COUNTER));
    step(duart_write(DUART_SET_OP, 0x01));
    chip.front.b.transmitter.txd = false;
    ran = duart_run(&chip, 3);
    wrong += differs("a run of three ticks", ran.ticks, 3);
    wrong += differs("irq", ran.irq, 0);
    ran = duart_run(&chip, DUART_MOST_TICKS);
    wrong += differs("a run that IRQ ends", ran.number, DUART_ACCEPTED);
    wrong += differs("its ticks", ran.ticks, 1);
    wrong += differs("irq", ran.irq, 1);
    wrong += differs("txda", ran.txda, 1);
    wrong += differs("txdb", ran.txdb, 0);
    wrong += differs("op", ran.op, 0xfe);
    ran = duart_run(&chip, 10);
    wrong += differs("ticks with IRQ asserted already", ran.ticks, 0);
    ran = duart_run(&chip, DUART_MOST_TICKS + 1);
    wrong += differs("a budget over its limit", ran.number, DUART_OVER_LIMIT);
    wrong += differs("irq, as the device drives it", ran.irq, 1);
    chip.a.queue.count = 200;
    ran = duart_run(&chip, DUART_MOST_TICKS + 1);
    wrong += differs("a run of an unsound device", ran.number, DUART_UNSOUND);
    wrong += differs("its lines", ran.irq + ran.txda + ran.txdb + ran.op, 0);
    wrong += differs("bytes of its answer", (unsigned)sizeof ran, 12);
    return wrong;
}

/* A tick, OP0 and OP7 low, and a refused read that ends it; then lists at the limit and over it, `many` being chip resets. */
static int dumps(void)
{
    static const duart_event events[4] = {
        {DUART_TICK, 0, 0}, {DUART_WRITE, DUART_SET_OP, 0x81}, {DUART_READ, DUART_CRA, 0}, {DUART_TICK, 0, 0}};
    static const char changes[] = "\n1+\n#271\n0$\n0+\n";
    static duart_event many[DUART_MOST_DUMPED + 1];
    uint8_t space[DUART_DUMP_SPACE(4)];
    duart_dump_answer dump;
    int wrong = 0;

    duart_init(&chip);
    memset(space, 7, sizeof space);
    dump = duart_dump(chip, events, 4, space, 382);
    wrong += differs("a dump with a byte too little", dump.number, DUART_SPACE_SHORT);
    wrong += differs("its length", (unsigned)dump.length, 0);
    wrong += differs("nothing is written", space[0] + space[381], 14);
    dump = duart_dump(chip, events, 4, space, 383);
    wrong += differs("a dump that a refused read ends", dump.number, DUART_ACCEPTED);
    wrong += differs("its length", (unsigned)dump.length, 383);
    wrong += differs("its last lines", memcmp(space + 383 - strlen(changes), changes, strlen(changes)) == 0, 1);
    wrong += differs("the space past it", space[383], 7);
    wrong += differs("the device is as it was", chip.front.outputs.bits, 0);
    dump = duart_dump_bytes(chip, (const uint8_t *)events, 5, space, sizeof space);
    wrong += differs("a tick and two bytes, the length", (unsigned)dump.length, (unsigned)DUART_DUMP_SPACE(0));
    wrong += differs("a tick's time and its values, at most", (unsigned)(DUART_DUMP_SPACE(1) - DUART_DUMP_SPACE(0)), 44);
    dump = duart_dump(chip, many, DUART_MOST_DUMPED, space, sizeof space);
    wrong += differs("a dump of 1000000, its length", (unsigned)dump.length, 372);
    dump = duart_dump(chip, many, DUART_MOST_DUMPED + 1, space, sizeof space);
    wrong += differs("a dump of 1000001", dump.number, DUART_OVER_LIMIT);
    dump = duart_dump(chip, many, SIZE_MAX / 3 + 1, space, 0);
    wrong += differs("a dump of more than a size holds the bytes of", dump.number, DUART_OVER_LIMIT);
    chip.a.queue.count = 200;
    dump = duart_dump(chip, many, DUART_MOST_DUMPED + 1, space, 0);
    wrong += differs("a dump of an unsound device", dump.number, DUART_UNSOUND);
    wrong += differs("bytes of its answer", (unsigned)sizeof dump, 16);
    return wrong;
}

static const char captured[] =
    "$timescale 1 ns $end\n$scope module duart $end\n$var wire 1 ! RxDA $end\n$var wire 1 \" RxDB $end\n"
    "$upscope $end\n$enddefinitions $end\n#0\n1!\n#104167\n0!\n0\"\n#208334\n1!\n#1250000\n1\"\n#1250001\n";
static uint8_t log_a[DUART_CAPTURE_SPACE], log_b[DUART_CAPTURE_SPACE];

/* The first `size` bytes of the capture above, read by a code and by two names into the first bytes of the logs. */
static duart_capture_answer capture(uint8_t code, size_t size, const char *a, const char *b, size_t size_a, size_t size_b)
{
    memset(log_a, 7, sizeof log_a);
    memset(log_b, 7, sizeof log_b);
    return duart_capture(DUART_MR1_8_BITS | DUART_MR1_NO_PARITY, false, code, (const uint8_t *)captured, size,
                         (const uint8_t *)a, strlen(a), (const uint8_t *)b, strlen(b), log_a, size_a, log_b, size_b,
                         false);
}

/* A 255 on one line and a break on the other, at 9,600 bits a second. */
static int captures(void)
{
    size_t all = strlen(captured);
    duart_capture_answer told;
    int wrong = 0;

    told = capture(DUART_BAUD_9600, all, "RxDA", "RxDB", DUART_CAPTURE_SPACE, DUART_CAPTURE_SPACE);
    wrong += differs("a capture", told.number, DUART_ACCEPTED);
    wrong += differs("the part of A's log", (unsigned)told.length, 2);
    wrong += differs("A's character", log_a[0], 255);
    wrong += differs("its marks", log_a[1], 0);
    wrong += differs("the log past it", log_a[2] + log_b[2], 14);
    wrong += differs("B's character", log_b[0], 0);
    wrong += differs("its marks, a break", log_b[1], DUART_SR_BREAK);
    told = capture(DUART_BAUD_9600, all, "RxDA", "RxDB", 2, 2);
    wrong += differs("logs that are just enough", told.number, DUART_ACCEPTED);
    told = capture(DUART_BAUD_9600, all, "RxDA", "RxDB", 2, 1);
    wrong += differs("a log that is a byte short, not the named one", told.number, DUART_SPACE_SHORT);
    wrong += differs("its length", (unsigned)told.length, 0);
    wrong += differs("nothing is written", log_a[0] + log_b[0], 14);
    told = capture(DUART_CLOCK_TIMER, 0, "", "", 0, 0);
    wrong += differs("a code above 12, before all else", told.number, DUART_NOT_MODELLED);
    told = capture(DUART_BAUD_9600, all - 1, "RxDA", "RxDB", 2, 2);
    wrong += differs("a text without its last LF", told.number, DUART_OUTSIDE_SUBSET);
    told = capture(DUART_BAUD_9600, all, "RxDA", "RxD", 2, 2);
    wrong += differs("a wire that is missing", told.number, DUART_OUTSIDE_SUBSET);
    told = capture(DUART_BAUD_9600, 0, "RxDA", "RxDB", 2, 2);
    wrong += differs("no text", told.number, DUART_OUTSIDE_SUBSET);
    wrong += differs("bytes of its answer", (unsigned)sizeof told, 16);
    wrong += differs("the most a log needs", DUART_CAPTURE_SPACE, 46810);
    return wrong;
}

/* The same times twice over, which is no capture: the second time 0 is not later. */
static int repeated(void)
{
    static uint8_t text[2 * sizeof captured];
    const char *times = strstr(captured, "#0");
    size_t size = strlen(captured);
    duart_capture_answer told;

    memcpy(text, captured, size);
    memcpy(text + size, times, strlen(times));
    told = duart_capture(DUART_MR1_8_BITS, true, DUART_BAUD_38400_SET1, text, size + strlen(times),
                         (const uint8_t *)"RxDA", 4, (const uint8_t *)"RxDA", 4, log_a, 0, log_b, 0, true);
    return differs("a time that is not later", told.number, DUART_TIME_NOT_LATER);
}

int main(void)
{
    int wrong;

    duart_init(&chip);
    wrong = answers();
    wrong += devices();
    wrong += modes();
    wrong += frames();
    wrong += polls();
    wrong += runs();
    wrong += dumps();
    wrong += captures();
    wrong += repeated();
    return wrong == 0 ? 0 : 1;
}
