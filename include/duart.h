/*
 * The MC68681 serial chip (DUART), proved: what a board maker links.
 *
 * `host/built duart` writes target/staticlib/libduart.a, which holds the nine functions below. Each is proved to
 * meet its contract (crates/duart/src/duart.rt) for every argument, so a caller owes no more than this:
 *
 *  - pointers lead to what they say, and are used by no other thread during the call;
 *  - every field of a struct is a value of its type. A bool is 0 or 1 and nothing else: a device that was filled from a
 *    file or from the network byte by byte must have its bools tested first.
 *
 * A device is made by duart_fresh() and altered by duart_step(), duart_poll() and duart_run() only. One that was made
 * in another way is still answered: with number 1 where it is unsound (docs/SOUND.md lists the ranges), and it is
 * left as it was.
 *
 * Nothing here allocates, blocks, keeps a pointer or holds state of its own: two devices are two chips.
 *
 * In this order: the structs of a device; the names of registers, bits and codes; events and answers; where each field
 * lies; the nine functions; helpers, which are written in C here and call those.
 */
#ifndef DUART_H
#define DUART_H

#include <stdbool.h>
#include <stddef.h>
#include <stdint.h>

#ifdef __cplusplus
extern "C" {
#endif

/* The number of the layout of what crosses: every landing that changes a struct below raises it. A program that was
 * compiled against another header than the archive's sees it by duart_fits(). */
#define DUART_ABI 1

/* ---- counts: crystal ticks, 16X or 1X pulses and whole bits are three counts that the manual keeps apart ---- */

typedef struct duart_ticks {
    uint64_t count;
} duart_ticks;

typedef struct duart_pulses {
    uint8_t count;
} duart_pulses;

typedef struct duart_bits {
    uint8_t count;
} duart_bits;

/* ---- a receiver ---- */

/* What MR1 chooses of a character's form. */
typedef struct duart_format {
    duart_bits width; /* data bits, 5 to 8 */
    uint8_t parity;   /* 0 with parity, 1 forced, 2 none: MR1 bits 4-3 */
    bool odd;         /* odd, or forced high: MR1 bit 2 */
} duart_format;

/* The form and the clock that a receiver takes at a character's low pulse p. */
typedef struct duart_setting {
    duart_format format;
    bool sixteen; /* 16X rather than 1X */
} duart_setting;

/* The phases of a sampler. */
enum {
    DUART_SAMPLER_HUNTING = 0,
    DUART_SAMPLER_LOW = 1,      /* from a low at pulse p to p+8 */
    DUART_SAMPLER_STARTED = 2,  /* a confirmed start */
    DUART_SAMPLER_LOW_STOP = 3, /* after a low stop */
    DUART_SAMPLER_BREAK = 4     /* waiting for a break's end */
};

/* What a receiver does with its line. */
typedef struct duart_sampler {
    uint8_t phase;     /* DUART_SAMPLER_HUNTING and those below it */
    bool high;         /* hunting: the last sample was high */
    duart_pulses left; /* pulses still to come before the one that decides */
    duart_setting setting;
    duart_bits taken; /* samples taken since the confirmed start */
    uint16_t value;   /* those samples, the first one lowest */
} duart_sampler;

/* The error marks of a received character. */
typedef struct duart_marks {
    bool broken;
    bool framing;
    bool parity;
} duart_marks;

typedef struct duart_character {
    uint8_t byte;
    duart_marks marks;
} duart_character;

/* The queue of three and the waiting place. */
typedef struct duart_queue {
    uint8_t count; /* 0 to 3 in the queue, 4 where one waits besides */
    duart_character first;
    duart_character second;
    duart_character third;
    duart_character waiting;
} duart_queue;

typedef struct duart_receiver {
    duart_sampler sampler;
    duart_queue queue;
    bool overrun;
    duart_marks sums; /* of all that became oldest, for block errors */
    bool change;      /* break change */
    uint8_t last;     /* the last byte read */
} duart_receiver;

/* ---- all of the chip but its receivers ---- */

/* The character that is being sent. */
typedef struct duart_shifter {
    uint16_t frame; /* the bits before the stop, the first one lowest, and high past them */
    bool sixteen;   /* 16X rather than 1X */
    duart_pulses length;
    duart_pulses sent;
} duart_shifter;

/* The phases of a transmitter. */
enum {
    DUART_TRANSMITTER_IDLE = 0,
    DUART_TRANSMITTER_CHARACTER = 1,
    DUART_TRANSMITTER_BREAK = 2,
    DUART_TRANSMITTER_AFTER_BREAK = 3 /* the high bit after a break */
};

typedef struct duart_transmitter {
    bool enabled;
    bool full; /* the holding place is full */
    uint8_t holding;
    uint8_t phase; /* DUART_TRANSMITTER_IDLE and those below it */
    duart_shifter shifter;
    duart_pulses left; /* after a break: pulses still to come before the one that completes the bit */
    bool asked;        /* a break is asked and has not begun */
    bool txd; /* the transmitter's own level: in normal mode TxD, in local loopback what the receiver samples */
} duart_transmitter;

/* The phases of a channel's dividers. */
typedef struct duart_phases {
    duart_ticks receiver;
    duart_ticks transmitter;
    duart_pulses sixteenths; /* of the transmitter's 16X pulses, which make its 1X clock */
} duart_phases;

/* One channel's registers, transmitter and clocks. */
typedef struct duart_side {
    uint8_t mr1;
    uint8_t mr2; /* bits 7-6 are the mode, DUART_MR2_MODE */
    bool moved;  /* the pointer has moved from MR1 to MR2 */
    uint8_t csr;
    bool enabled; /* the receiver's enable */
    bool echo;    /* the level that the echo modes put on TxD, high where nothing has been echoed */
    duart_transmitter transmitter;
    duart_phases phases;
} duart_side;

/* The counter/timer. */
typedef struct duart_timer {
    uint16_t preload;
    uint16_t count;
    bool running;
    bool output; /* the level of the timer output */
    bool ready;  /* ISR bit 3 */
    duart_ticks ticks;
    duart_pulses edges;
} duart_timer;

typedef struct duart_inputs {
    uint8_t levels;  /* bits 0-5 IP0-IP5, 6 RxDA, 7 RxDB */
    uint8_t changes; /* the change flags of IP3 to IP0 */
} duart_inputs;

typedef struct duart_outputs {
    uint8_t bits;
    uint8_t opcr;
} duart_outputs;

typedef struct duart_front {
    duart_side a;
    duart_side b;
    duart_timer timer;
    duart_inputs inputs;
    duart_outputs outputs;
    uint8_t acr;
    uint8_t imr;
    uint8_t ivr;
} duart_front;

/* The whole chip, 200 bytes. It may be copied, kept and compared field by field; it holds no pointer. */
typedef struct duart_device {
    duart_front front;
    duart_receiver a;
    duart_receiver b;
} duart_device;

/* ---- the registers ---- */

/* What one number is for a read and for a write where they differ. The names are the data sheet's. */
enum {
    DUART_MRA = 0,            /* MR1A, and MR2A from the first access on: DUART_CR_POINT_TO_MR1 goes back */
    DUART_SRA = 1,            /* read: status */
    DUART_CSRA = 1,           /* write: clock select, DUART_CSR(receiver, transmitter) */
    DUART_CRA = 2,            /* write: command; a read is refused with 3 */
    DUART_RBA = 3,            /* read: receive buffer */
    DUART_TBA = 3,            /* write: transmit buffer */
    DUART_IPCR = 4,           /* read: input port change */
    DUART_ACR = 4,            /* write: auxiliary control */
    DUART_ISR = 5,            /* read: interrupt status */
    DUART_IMR = 5,            /* write: interrupt mask */
    DUART_CUR = 6,            /* read: the count, high byte */
    DUART_CTUR = 6,           /* write: the preload, high byte */
    DUART_CLR = 7,            /* read: the count, low byte */
    DUART_CTLR = 7,           /* write: the preload, low byte */
    DUART_MRB = 8,            /* channel B: as DUART_MRA to DUART_TBA, each with DUART_CHANNEL_B added */
    DUART_SRB = 9,
    DUART_CSRB = 9,
    DUART_CRB = 10,
    DUART_RBB = 11,
    DUART_TBB = 11,
    DUART_IVR = 12,           /* interrupt vector */
    DUART_INPUT_PORT = 13,    /* read: the levels of DUART_IP0 to DUART_IP5; bits 7 and 6 read 1 */
    DUART_OPCR = 13,          /* write: output port configuration */
    DUART_START_COUNTER = 14, /* read: start the counter/timer */
    DUART_SET_OP = 14,        /* write: set output bits, which takes their pins low */
    DUART_STOP_COUNTER = 15,  /* read: clear ISR bit 3 and stop the counter; a timer runs on */
    DUART_RESET_OP = 15,      /* write: reset output bits, which takes their pins high */
    DUART_CHANNEL_A = 0,      /* what is added to a register of channel A's */
    DUART_CHANNEL_B = 8
};

/* ---- the bits of registers: one list each, of which those that go together are joined by | ---- */

/* MR1: the parity, the data bits. Bit 7 and bits 4-3 = 11 are refused with 5. */
enum {
    DUART_MR1_FFULL = 0x40, /* ISR tells of a full queue instead of RxRDY */
    DUART_MR1_BLOCK = 0x20, /* SR 7-5 sum up the marks of a block, and are not those of the oldest */
    DUART_MR1_EVEN_PARITY = 0x00,
    DUART_MR1_ODD_PARITY = 0x04,
    DUART_MR1_LOW_PARITY = 0x08,  /* forced low */
    DUART_MR1_HIGH_PARITY = 0x0c, /* forced high */
    DUART_MR1_NO_PARITY = 0x10,
    DUART_MR1_5_BITS = 0x00,
    DUART_MR1_6_BITS = 0x01,
    DUART_MR1_7_BITS = 0x02,
    DUART_MR1_8_BITS = 0x03
};

/*
 * MR2: the mode of the channel, CTS, the stop code. Bit 5 is refused with 5. A stop code c is 9+c sixteenths of a bit
 * for c up to 7 and 17+c above it; for 5 data bits 17+c always. With a 1X clock: one bit, two if bit 3 is set.
 *
 * Order 2 says of the modes:
 *
 *  - local loopback: "the receiver takes the transmitter's level and its clock, TxD stays high, RxD is ignored, CTS
 *    still counts";
 *  - automatic echo: "no character or break starts; at each pulse of an enabled receiver TxD takes the sampled level
 *    (high while disabled), the receiver works as usual, TxRDY and TxEMT read 0";
 *  - remote loopback: "the same echo, and no character is put together";
 *  - all four: "A mode change drops what is being sent (a break too; the holding place stays) or put together, leaves
 *    an enabled receiver as just enabled, and holds TxD high until the next pulse." The same two bits written again
 *    are no mode change.
 *
 * What a start-up test meets first: in local loopback a byte that is written before one pulse of the transmitter's
 * clock has passed since mode and enable is not received, because a receiver just enabled must sample a high before a
 * low counts (a later low of it may be taken for a start, and another character comes). Let one pulse pass, then
 * write. The receiver must be enabled, as in normal mode. examples/loopback.c is such a test.
 */
enum {
    DUART_NORMAL = 0x00,
    DUART_AUTOMATIC_ECHO = 0x40,
    DUART_LOCAL_LOOPBACK = 0x80,
    DUART_REMOTE_LOOPBACK = 0xc0,
    DUART_MR2_MODE = 0xc0,      /* where the mode stands */
    DUART_MR2_CTS = 0x10,       /* a character starts only while CTS is low: IP0 for A, IP1 for B */
    DUART_MR2_STOP_CODE = 0x0f, /* where the stop code stands */
    DUART_MR2_STOP_1 = 0x07,    /* one stop bit; with 5 data bits one and a half */
    DUART_MR2_STOP_2 = 0x0f     /* two stop bits */
};

/* SR. Bits 7-5 are the marks of the oldest character, or the sums of a block. */
enum {
    DUART_SR_BREAK = 0x80,
    DUART_SR_FRAMING = 0x40,
    DUART_SR_PARITY = 0x20,
    DUART_SR_OVERRUN = 0x10,
    DUART_SR_TXEMT = 0x08, /* enabled, holding place and shifter empty */
    DUART_SR_TXRDY = 0x04, /* enabled and holding place empty */
    DUART_SR_FFULL = 0x02, /* three in the queue */
    DUART_SR_RXRDY = 0x01, /* queue not empty */
    DUART_SR_ERRORS = 0xf0 /* the four of bits 7-4 */
};

/*
 * CSR: the clock codes of a receiver, bits 7-4, and of a transmitter, bits 3-0. A name without SET1 or SET2 is the
 * same code in both sets; ACR bit 7 chooses the set for both channels. A second has DUART_TICKS_A_SECOND ticks of the
 * crystal. A pin that is a clock gives a pulse at its rising edges to a receiver, at its falling ones to a transmitter.
 */
#define DUART_CSR(receiver, transmitter) ((receiver) << 4 | (transmitter))
enum {
    DUART_BAUD_50_SET1 = 0,
    DUART_BAUD_75_SET2 = 0,
    DUART_BAUD_110 = 1,
    DUART_BAUD_134_5 = 2,
    DUART_BAUD_200_SET1 = 3,
    DUART_BAUD_150_SET2 = 3,
    DUART_BAUD_300 = 4,
    DUART_BAUD_600 = 5,
    DUART_BAUD_1200 = 6,
    DUART_BAUD_1050_SET1 = 7,
    DUART_BAUD_2000_SET2 = 7,
    DUART_BAUD_2400 = 8,
    DUART_BAUD_4800 = 9,
    DUART_BAUD_7200_SET1 = 10,
    DUART_BAUD_1800_SET2 = 10,
    DUART_BAUD_9600 = 11,
    DUART_BAUD_38400_SET1 = 12,
    DUART_BAUD_19200_SET2 = 12,
    DUART_CLOCK_TIMER = 13, /* the timer's toggle to high is a 16X pulse; none in counter mode */
    DUART_CLOCK_16X = 14,   /* a pin: of a receiver A IP4, B IP2, of a transmitter A IP3, B IP5 */
    DUART_CLOCK_1X = 15     /* the same pins, one pulse a bit */
};
#define DUART_TICKS_A_SECOND 3686400

/* CR: one of bits 6-4, done first, with enable or disable of the transmitter and of the receiver (not both: 4). */
enum {
    DUART_CR_ENABLE_RECEIVER = 0x01,
    DUART_CR_DISABLE_RECEIVER = 0x02,
    DUART_CR_ENABLE_TRANSMITTER = 0x04,
    DUART_CR_DISABLE_TRANSMITTER = 0x08,
    DUART_CR_POINT_TO_MR1 = 0x10,
    DUART_CR_RESET_RECEIVER = 0x20,    /* disabled; queue, waiting place and assembly cleared; overrun mark stays */
    DUART_CR_RESET_TRANSMITTER = 0x30, /* disabled, all dropped, TxD high */
    DUART_CR_CLEAR_ERRORS = 0x40,      /* overrun, block sums and the oldest character's marks */
    DUART_CR_CLEAR_BREAK_CHANGE = 0x50,
    DUART_CR_START_BREAK = 0x60,
    DUART_CR_STOP_BREAK = 0x70
};

/* IPCR: the change flags, which a read clears, and the levels. */
enum {
    DUART_IPCR_CHANGE_IP3 = 0x80,
    DUART_IPCR_CHANGE_IP2 = 0x40,
    DUART_IPCR_CHANGE_IP1 = 0x20,
    DUART_IPCR_CHANGE_IP0 = 0x10,
    DUART_IPCR_LEVEL_IP3 = 0x08,
    DUART_IPCR_LEVEL_IP2 = 0x04,
    DUART_IPCR_LEVEL_IP1 = 0x02,
    DUART_IPCR_LEVEL_IP0 = 0x01
};

/*
 * ACR: the set of rates, what the counter/timer counts, and the changes that ISR bit 7 tells of.
 *
 * A read of DUART_START_COUNTER is a start and one of DUART_STOP_COUNTER a stop, which clears ISR bit 3. In the timer
 * modes order 4 says of the start: "a start that takes the output from low to high does set ISR bit 3". With the
 * output high, and in the counter modes, it neither sets nor clears it; a change of ACR bits 6-4 raises the output
 * too and sets no bit. Neither is a pulse of DUART_CLOCK_TIMER. examples/spindle.c goes by it.
 */
enum {
    DUART_ACR_SET1 = 0x00,
    DUART_ACR_SET2 = 0x80,
    DUART_ACR_COUNTER_IP2 = 0x00,      /* rising edges */
    DUART_ACR_COUNTER_TXCA = 0x10,     /* the 1X clock of A's transmitter */
    DUART_ACR_COUNTER_TXCB = 0x20,
    DUART_ACR_COUNTER_TICKS_16 = 0x30, /* every 16th tick */
    DUART_ACR_TIMER_IP2 = 0x40,
    DUART_ACR_TIMER_IP2_16 = 0x50,
    DUART_ACR_TIMER_TICKS = 0x60,
    DUART_ACR_TIMER_TICKS_16 = 0x70,
    DUART_ACR_TIMER = 0x40, /* set in the timer modes */
    DUART_ACR_IP3 = 0x08,
    DUART_ACR_IP2 = 0x04,
    DUART_ACR_IP1 = 0x02,
    DUART_ACR_IP0 = 0x01
};

/* ISR, and IMR: IRQ is asserted when they share a set bit. */
enum {
    DUART_ISR_INPUT_CHANGE = 0x80, /* some flag of IPCR is set whose ACR bit is set */
    DUART_ISR_BREAK_CHANGE_B = 0x40,
    DUART_ISR_RX_B = 0x20, /* RxRDY, or FFULL by DUART_MR1_FFULL */
    DUART_ISR_TXRDY_B = 0x10,
    DUART_ISR_COUNTER = 0x08,
    DUART_ISR_BREAK_CHANGE_A = 0x04,
    DUART_ISR_RX_A = 0x02,
    DUART_ISR_TXRDY_A = 0x01
};

/* OPCR: which pins show the complement of an ISR bit. Bits 1-0, and bit 3, are refused with 5. */
enum {
    DUART_OPCR_OP7_TXRDY_B = 0x80,
    DUART_OPCR_OP6_TXRDY_A = 0x40,
    DUART_OPCR_OP5_RX_B = 0x20,
    DUART_OPCR_OP4_RX_A = 0x10,
    DUART_OPCR_OP3_COUNTER = 0x04 /* in the timer modes the timer output */
};

/* The pins of a pins event, the levels of DUART_INPUT_PORT (IP0 to IP5 alone), and their number when all are high. */
enum {
    DUART_IP0 = 0x01,
    DUART_IP1 = 0x02,
    DUART_IP2 = 0x04,
    DUART_IP3 = 0x08,
    DUART_IP4 = 0x10,
    DUART_IP5 = 0x20,
    DUART_RXDA = 0x40,
    DUART_RXDB = 0x80,
    DUART_ALL_HIGH = 0xff
};

/* ---- one event, one answer ---- */

/* The kinds of event. A kind above DUART_TICK is a read of register 255: refused, nothing altered. */
enum {
    DUART_CHIP_RESET = 0,
    DUART_READ = 1,        /* register `reg` */
    DUART_WRITE = 2,       /* register `reg` with `byte` */
    DUART_ACKNOWLEDGE = 3, /* an interrupt acknowledge */
    DUART_PINS = 4,        /* all pins at once; `byte`: DUART_IP0 to DUART_RXDB, 1 is high */
    DUART_TICK = 5         /* one tick of the 3.6864 MHz crystal */
};

/* An event: duart_tick() and the makers beside it make one. Write 0 into what a kind does not use. */
typedef struct duart_event {
    uint8_t kind;
    uint8_t reg;
    uint8_t byte;
} duart_event;

/* The numbers of an answer. */
enum {
    DUART_ACCEPTED = 0,
    DUART_UNSOUND = 1,           /* the state given is unsound */
    DUART_REGISTER_ABOVE_15 = 2, /* register above 15 */
    DUART_FORBIDDEN_READ = 3,    /* read of register 2 or 10 */
    DUART_FORBIDDEN_COMMAND = 4, /* command whose bits 3-2 or 1-0 are 11 */
    DUART_NOT_MODELLED = 5,      /* a write, or a frame request, that chooses a setting which is not modelled: MR1 bit 7
                                    or bits 4-3 = 11, MR2 bit 5, OPCR bits 1-0 not 00 or bit 3; a capture's MR1, or
                                    its code above 12 */
    DUART_NOT_ASSERTED = 6,      /* an acknowledge while IRQ is not asserted */
    DUART_NEW_UNSOUND = 7,       /* the new state would be unsound: proved never to be given */
    DUART_SPACE_SHORT = 8,       /* a frame request's space is shorter than the frame, a poll's than its list, a
                                    dump's than its text, or a capture's log than its channel's characters */
    DUART_OVER_LIMIT = 9,        /* a poll's or a dump's list, or a run's budget, is over its limit */
    DUART_OUTSIDE_SUBSET = 10,   /* a capture's text is outside the subset, or has no wire of a name given */
    DUART_TIME_NOT_LATER = 11    /* a time of a capture is not later than the one before */
};

/*
 * What is seen of an answer. Refused: data 0, stale, and the lines as the device drives them (for 1, all lines 0).
 *
 * Order 1: "The receive buffer read shall also say fresh or stale: fresh exactly when RxRDY was set before it." RxRDY
 * is bit 0 of that channel's SR: MR1 bit 6 and the receiver's enable play no part. A fresh read took the byte, be it
 * equal to the last or not; a stale one repeats the last byte and changes nothing. A refused read and any other event
 * are stale.
 */
typedef struct duart_seen {
    uint8_t number;
    uint8_t data; /* the data byte, 0 where none is read */
    bool fresh;   /* an accepted read of DUART_RBA or DUART_RBB, and RxRDY of that channel was set before it */
    bool irq;     /* asserted */
    bool txda;    /* the level of the pin: high in local loopback, what is echoed in the echo modes */
    bool txdb;
    uint8_t op; /* bit n is the level of OPn */
} duart_seen;

/* A frame request's answer: the number, and how many levels were written, 0 if refused. */
typedef struct duart_frame_answer {
    uint8_t number;
    uint8_t length;
} duart_frame_answer;

/* ---- a whole poll at once, and ticks until IRQ ---- */

/* The limits of a poll's list and of a run's budget, both still allowed, and the longest frame. */
#define DUART_MOST_EVENTS 4096
#define DUART_MOST_TICKS 1000000
#define DUART_MOST_LEVELS 192

/* A poll's answer: the call's own number, and how many answers were written, 0 if it is refused. */
typedef struct duart_polled {
    uint8_t number;
    size_t count;
} duart_polled;

/* A run's answer: the number, how many ticks it took, 0 if it is refused, and the lines then (for 1, all lines 0). */
typedef struct duart_ran {
    uint8_t number;
    uint32_t ticks;
    bool irq; /* asserted */
    bool txda;
    bool txdb;
    uint8_t op; /* bit n is the level of OPn */
} duart_ran;

/* ---- a value change dump ---- */

/* The limit of a dump's list, still allowed; and so many bytes are enough for the text of `count` events, whatever they
 * are: 336 of the lines before time 0, 36 of time 0, and for each tick at most 11 of its time and 33 of its values. */
#define DUART_MOST_DUMPED 1000000
#define DUART_DUMP_SPACE(count) (336 + 36 + (11 + 33) * (size_t)(count))

/* A dump's answer: the number, and how many bytes of text were written, 0 if it is refused. */
typedef struct duart_dump_answer {
    uint8_t number;
    size_t length;
} duart_dump_answer;

/* ---- a capture ---- */

/* No line of any text gives more bytes than this, whatever it is read by, two for each of 23,405 characters: a log of so
 * many is never too short. */
#define DUART_CAPTURE_SPACE (2 * 23405)

/* A capture's answer: the number, and how many bytes of the named channel's log were filled, 0 if it is refused. */
typedef struct duart_capture_answer {
    uint8_t number;
    size_t length;
} duart_capture_answer;

/* ---- where each field lies ---- */

/* STRUCT(name, size) of each struct and FIELD(name, field, offset) of each of its fields, as they lie in the archive.
 * Who declares them in another language may expand it to compare, as host/layout/layout.c does. */
#define DUART_LAYOUT(STRUCT, FIELD) \
    STRUCT(ticks, 8) FIELD(ticks, count, 0) \
    STRUCT(pulses, 1) FIELD(pulses, count, 0) \
    STRUCT(bits, 1) FIELD(bits, count, 0) \
    STRUCT(format, 3) FIELD(format, width, 0) FIELD(format, parity, 1) FIELD(format, odd, 2) \
    STRUCT(setting, 4) FIELD(setting, format, 0) FIELD(setting, sixteen, 3) \
    STRUCT(sampler, 10) FIELD(sampler, phase, 0) FIELD(sampler, high, 1) FIELD(sampler, left, 2) \
        FIELD(sampler, setting, 3) FIELD(sampler, taken, 7) FIELD(sampler, value, 8) \
    STRUCT(marks, 3) FIELD(marks, broken, 0) FIELD(marks, framing, 1) FIELD(marks, parity, 2) \
    STRUCT(character, 4) FIELD(character, byte, 0) FIELD(character, marks, 1) \
    STRUCT(queue, 17) FIELD(queue, count, 0) FIELD(queue, first, 1) FIELD(queue, second, 5) FIELD(queue, third, 9) \
        FIELD(queue, waiting, 13) \
    STRUCT(receiver, 34) FIELD(receiver, sampler, 0) FIELD(receiver, queue, 10) FIELD(receiver, overrun, 27) \
        FIELD(receiver, sums, 28) FIELD(receiver, change, 31) FIELD(receiver, last, 32) \
    STRUCT(shifter, 6) FIELD(shifter, frame, 0) FIELD(shifter, sixteen, 2) FIELD(shifter, length, 3) \
        FIELD(shifter, sent, 4) \
    STRUCT(transmitter, 14) FIELD(transmitter, enabled, 0) FIELD(transmitter, full, 1) \
        FIELD(transmitter, holding, 2) FIELD(transmitter, phase, 3) FIELD(transmitter, shifter, 4) \
        FIELD(transmitter, left, 10) FIELD(transmitter, asked, 11) FIELD(transmitter, txd, 12) \
    STRUCT(phases, 24) FIELD(phases, receiver, 0) FIELD(phases, transmitter, 8) FIELD(phases, sixteenths, 16) \
    STRUCT(side, 48) FIELD(side, mr1, 0) FIELD(side, mr2, 1) FIELD(side, moved, 2) FIELD(side, csr, 3) \
        FIELD(side, enabled, 4) FIELD(side, echo, 5) FIELD(side, transmitter, 6) FIELD(side, phases, 24) \
    STRUCT(timer, 24) FIELD(timer, preload, 0) FIELD(timer, count, 2) FIELD(timer, running, 4) \
        FIELD(timer, output, 5) FIELD(timer, ready, 6) FIELD(timer, ticks, 8) FIELD(timer, edges, 16) \
    STRUCT(inputs, 2) FIELD(inputs, levels, 0) FIELD(inputs, changes, 1) \
    STRUCT(outputs, 2) FIELD(outputs, bits, 0) FIELD(outputs, opcr, 1) \
    STRUCT(front, 128) FIELD(front, a, 0) FIELD(front, b, 48) FIELD(front, timer, 96) FIELD(front, inputs, 120) \
        FIELD(front, outputs, 122) FIELD(front, acr, 124) FIELD(front, imr, 125) FIELD(front, ivr, 126) \
    STRUCT(device, 200) FIELD(device, front, 0) FIELD(device, a, 128) FIELD(device, b, 162) \
    STRUCT(event, 3) FIELD(event, kind, 0) FIELD(event, reg, 1) FIELD(event, byte, 2) \
    STRUCT(seen, 7) FIELD(seen, number, 0) FIELD(seen, data, 1) FIELD(seen, fresh, 2) FIELD(seen, irq, 3) \
        FIELD(seen, txda, 4) FIELD(seen, txdb, 5) FIELD(seen, op, 6) \
    STRUCT(frame_answer, 2) FIELD(frame_answer, number, 0) FIELD(frame_answer, length, 1) \
    STRUCT(polled, 16) FIELD(polled, number, 0) FIELD(polled, count, 8) \
    STRUCT(ran, 12) FIELD(ran, number, 0) FIELD(ran, ticks, 4) FIELD(ran, irq, 8) FIELD(ran, txda, 9) \
        FIELD(ran, txdb, 10) FIELD(ran, op, 11) \
    STRUCT(dump_answer, 16) FIELD(dump_answer, number, 0) FIELD(dump_answer, length, 8) \
    STRUCT(capture_answer, 16) FIELD(capture_answer, number, 0) FIELD(capture_answer, length, 8)

/* Does not compile where one lies otherwise, say packed, or where two fields of a struct are exchanged. */
#define DUART_HAS_SIZE(name, size) typedef char duart_size_of_##name[sizeof(duart_##name) == (size) ? 1 : -1];
#define DUART_LIES_AT(name, field, offset) \
    typedef char duart_offset_of_##name##_##field[offsetof(duart_##name, field) == (offset) ? 1 : -1];
DUART_LAYOUT(DUART_HAS_SIZE, DUART_LIES_AT)
#undef DUART_HAS_SIZE
#undef DUART_LIES_AT

/* ---- the nine functions of the archive ---- */

/* The state after a chip reset with all pins high. */
duart_device duart_fresh(void);

/* DUART_ABI of the header that is the archive's own. */
uint32_t duart_abi(void);

/* Takes one event: the device holds the new state then, or is as it was where the number is not 0. */
duart_seen duart_step(duart_device *device, duart_event event);

/*
 * Takes the `count` events at `events`, up to DUART_MOST_EVENTS, in one call, "equal to the same events one by one"
 * (order 5), and writes their answers into the first of the `space` places at `answers`, which may be more. "It ends at
 * the first refused event; answers up to and including that one are written, later ones stay, the count says how many
 * were written, and the call itself answers 0." So a poll that went through has a count of `count` and a last answer
 * whose number is 0; the lines stand in the last answer. An empty list is answered 0 and alters nothing.
 *
 * Refused, in this order and before any event: 1 the device is unsound, 8 `space` is below `count` (also where a
 * refused event would have ended the list within it), 9 the list is over its limit. Then nothing is written, the
 * count is 0 and the device is as it was. The pointers are not NULL, also where a count is 0; the two lists and the
 * device do not overlap.
 */
duart_polled duart_poll(duart_device *device, const duart_event *events, size_t count, duart_seen *answers,
                        size_t space);

/*
 * "runs ticks until IRQ is asserted or a budget of up to 1,000,000 is spent, and reports how many ticks it took: zero
 * if IRQ is asserted already, otherwise the number of single ticks to that state" (order 5). Device and lines are as
 * after so many DUART_TICK, stretches in which nothing happens being passed over. IRQ in the last tick of the budget,
 * or not at all: the ticks are the budget, and `irq` tells which. A budget of 0 takes no tick.
 *
 * Refused, in this order: 1 the device is unsound, 9 the budget is over DUART_MOST_TICKS (also where IRQ is asserted
 * already). Then the ticks are 0 and the device is as it was. examples/emulator.c is a main loop that goes by it.
 */
duart_ran duart_run(duart_device *device, uint32_t budget);

/*
 * Writes the levels of a frame, one byte 0 or 1 for each 16X pulse, at most DUART_MOST_LEVELS, into the first bytes
 * of the `size` bytes at `space`; those past it stay. Refused (5, 8): length 0 and nothing written. `space` is not
 * NULL, also where `size` is 0. MR2 bits 7-6 and 4, the mode and CTS, are allowed and not used.
 */
duart_frame_answer duart_frame(uint8_t mr1, uint8_t mr2, uint8_t byte, uint8_t *space, size_t size);

/* Whether every field is in the range that docs/SOUND.md lists, with the rule on the waiting place. */
bool duart_sound(duart_device device);

/* duart_dump(), which has the words for it, of a list that is handed over as bytes: `kind`, `reg` and `byte` of each
 * event, one event after the other. A rest of one or two bytes is no event. */
duart_dump_answer duart_dump_bytes(duart_device device, const uint8_t *events, size_t events_size, uint8_t *space,
                                   size_t size);

/*
 * "Turn each line, up to the last time, into characters by document 01's receiver, just enabled, phase 0, for a given MR1,
 * ACR bit 7 and CSR code 0 to 12" (order 7), of a value change dump of the real chip's two RxD lines. Both logs are filled
 * from their front with "two bytes a character (data, marks as SR 7-5)", the marks being DUART_SR_BREAK, which then is
 * alone, DUART_SR_FRAMING and DUART_SR_PARITY; bytes past that stay. The length is that of log_b's filled part if
 * `channel_b`, else of log_a's. One MR1 (its bits 6 and 5 are allowed and not used), set and code hold for both channels;
 * `name_a` is the wire of channel A, `name_b` that of B, which may be the same.
 *
 * The text is as duart_dump() writes it, with 1 to 16 wires, "names of 1 to 32 characters and one-character codes, ! to ~,
 * each once", "then times up to 4,000,000,000 ns, no leading zeros, each with any value lines of those codes, the last of a
 * code counting": byte for byte the lines of the header `$timescale 1 ns $end`, `$scope module duart $end`,
 * `$var wire 1 ! RxDA $end` and its like, `$upscope $end`, `$enddefinitions $end`, each ended by LF, then lines such as
 * `#271` and `1!` alone. No more than that is read: what most tools write ($date, $version, `1ns`, $dumpvars, x and z) has
 * to be put into this form first.
 *
 * A line is high before its first value. A receiver just enabled must sample a high before a low counts. A character is
 * read where its stop sample, in the middle of the stop bit, comes no later than the text's last time: so let the text end
 * with a time after the last stop bit; it needs no value.
 *
 * Refused, in this order: 5 MR1 or the code, 10 a text outside the subset or a named wire that it has not, 11 a time that
 * is not later than the one before, 8 either log is shorter than its channel's characters, whichever is named
 * (DUART_CAPTURE_SPACE is always enough). Then the length is 0 and both logs are as they were. The pointers are not NULL,
 * also where a size is 0; neither log overlaps the other, the text or a name. examples/capture.c reads one.
 */
duart_capture_answer duart_capture(uint8_t mr1, bool acr7, uint8_t code, const uint8_t *text, size_t text_size,
                                   const uint8_t *name_a, size_t name_a_size, const uint8_t *name_b, size_t name_b_size,
                                   uint8_t *log_a, size_t log_a_size, uint8_t *log_b, size_t log_b_size, bool channel_b);

/* ---- helpers ---- */

/* Whether this header is the archive's: to be asked once, at a program's start. */
static inline bool duart_fits(void)
{
    return duart_abi() == DUART_ABI;
}

/* Makes the state after a chip reset with all pins high. */
static inline void duart_init(duart_device *device)
{
    *device = duart_fresh();
}

/* duart_sound() of a device that stays where it is. */
static inline bool duart_is_sound(const duart_device *device)
{
    return duart_sound(*device);
}

/* An event of any kind; the makers below are of one kind each. */
static inline duart_event duart_event_of(uint8_t kind, uint8_t reg, uint8_t byte)
{
    duart_event event;
    event.kind = kind;
    event.reg = reg;
    event.byte = byte;
    return event;
}

static inline duart_event duart_chip_reset(void)
{
    return duart_event_of(DUART_CHIP_RESET, 0, 0);
}

static inline duart_event duart_read(uint8_t reg)
{
    return duart_event_of(DUART_READ, reg, 0);
}

static inline duart_event duart_write(uint8_t reg, uint8_t byte)
{
    return duart_event_of(DUART_WRITE, reg, byte);
}

static inline duart_event duart_acknowledge(void)
{
    return duart_event_of(DUART_ACKNOWLEDGE, 0, 0);
}

/* The levels of all pins: DUART_IP0 to DUART_RXDB, or DUART_ALL_HIGH less some of them. */
static inline duart_event duart_pins(uint8_t levels)
{
    return duart_event_of(DUART_PINS, 0, levels);
}

static inline duart_event duart_tick(void)
{
    return duart_event_of(DUART_TICK, 0, 0);
}

/*
 * What a logic analyser would show of this device taking the `count` events at `events`, up to DUART_MOST_DUMPED: "a
 * value change dump (IEEE 1364)" of "TxDA, TxDB, IRQ as line level (asserted is 0) and OP0 to OP7, all values at time
 * 0, then only times with changes" (order 6), which GTKWave and sigrok read. It is written into the first of the `size`
 * bytes at `space`; those past it stay, and no zero byte ends it. The device is taken by value and not altered.
 *
 * Times are in nanoseconds: "Tick n, from 1, stands at the whole part of n x 625,000 / 2,304 ns", n counting the ticks
 * of this list. "Events without a tick share the time of the last one; at each time only the last values count, written
 * where they differ from those written before." Those before the first tick stand at time 0. The text ends with the
 * last change: where the level after it is to be seen, let some change follow, say of an OP pin, as examples/dump.c
 * does.
 *
 * "It stops before a refused event": the text is that of the list cut there, and the number is 0. Refused, in this
 * order: 1 the device is unsound, 9 the list is over its limit, 8 `size` is below the length of this very text
 * (DUART_DUMP_SPACE(count) is always enough). Then the length is 0 and `space` is as it was. The pointers are not NULL,
 * also where a count or a size is 0; the list and the space do not overlap.
 */
static inline duart_dump_answer duart_dump(duart_device device, const duart_event *events, size_t count, uint8_t *space,
                                           size_t size)
{
    /* a longer list is refused before any of it is read: one event too many says as much, and 3 times that is a size */
    size_t most = count <= DUART_MOST_DUMPED ? count : DUART_MOST_DUMPED + 1;
    return duart_dump_bytes(device, (const uint8_t *)events, 3 * most, space, size);
}

#ifdef __cplusplus
}
#endif

#endif
