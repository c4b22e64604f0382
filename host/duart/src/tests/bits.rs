//! Each bit's name, asked of the archive: a device with that one thing set, and what a register or a pin then shows.

use crate::bits::{acr, command, ipcr, isr, mr1, mr2, opcr, pins, sr};
use crate::{frame, mode, Device, Duart, Event, Register};

type Set = fn(&mut Device);

fn with(set: Set) -> Duart {
    let mut device = *Duart::fresh().device();
    set(&mut device);
    Duart::from_device(device)
}

fn read(set: Set, register: Register) -> u8 {
    with(set).step(Event::read(register)).expect("it is sound").data
}

#[test]
fn of_sr() {
    let rows: [(Set, sr::Bits); 7] = [
        (|device| device.a.queue.count = 1, sr::RX_RDY),
        (|device| device.a.queue.count = 3, sr::RX_RDY | sr::FFULL),
        (|device| device.a.overrun = true, sr::OVERRUN),
        (|device| (device.a.queue.count, device.a.queue.first.marks.broken) = (1, true), sr::RX_RDY | sr::BREAK),
        (|device| (device.a.queue.count, device.a.queue.first.marks.framing) = (1, true), sr::RX_RDY | sr::FRAMING),
        (|device| (device.a.queue.count, device.a.queue.first.marks.parity) = (1, true), sr::RX_RDY | sr::PARITY),
        (|device| device.front.a.transmitter.enabled = true, sr::TX_RDY | sr::TX_EMT),
    ];
    for (set, bits) in rows {
        assert_eq!((read(set, Register::SRA), read(set, Register::SRB)), (bits.byte(), 0));
    }
    let sending: Set = |device| (device.front.b.transmitter.enabled, device.front.b.transmitter.phase) = (true, 1);
    assert_eq!(read(sending, Register::SRB), sr::TX_RDY.byte());
}

#[test]
fn of_isr_and_opcr() {
    let rows: [(Set, isr::Bits, Option<opcr::Bits>); 8] = [
        (|device| device.front.a.transmitter.enabled = true, isr::TX_RDY_A, Some(opcr::OP6_TX_RDY_A)),
        (|device| device.front.b.transmitter.enabled = true, isr::TX_RDY_B, Some(opcr::OP7_TX_RDY_B)),
        (|device| device.a.queue.count = 1, isr::RX_A, Some(opcr::OP4_RX_A)),
        (|device| device.b.queue.count = 1, isr::RX_B, Some(opcr::OP5_RX_B)),
        (|device| device.a.change = true, isr::BREAK_CHANGE_A, None),
        (|device| device.b.change = true, isr::BREAK_CHANGE_B, None),
        (|device| device.front.timer.ready = true, isr::COUNTER, None),
        (
            |device| (device.front.inputs.changes, device.front.acr) = (4, acr::CHANGE_IP2.byte()),
            isr::INPUT_CHANGE,
            None,
        ),
    ];
    let chosen = opcr::OP7_TX_RDY_B | opcr::OP6_TX_RDY_A | opcr::OP5_RX_B | opcr::OP4_RX_A;
    for (set, bit, pin) in rows {
        assert_eq!(read(set, Register::ISR), bit.byte());
        let seen = with(set).step(Event::write(Register::OPCR, chosen)).expect("a modelled OPCR");
        assert_eq!(seen.op, !pin.map_or(0, opcr::Bits::byte), "the pin is low where {bit:?} of ISR is set");
    }
    let full: Set = |device| (device.front.a.mr1, device.a.queue.count) = (mr1::FFULL_INTERRUPT.byte(), 2);
    assert_eq!(read(full, Register::ISR), 0);
}

/// The parity and stop bits that a frame has: 16 pulses a bit.
#[test]
fn of_mr1_and_mr2() {
    let mut levels = [9; 192];
    let mut length =
        |mr1: mr1::Bits, mr2: mr2::Bits| frame(mr1.byte(), mr2.byte(), 0, &mut levels).expect("a modelled setting");
    let widths = [mr1::DATA_BITS_5, mr1::DATA_BITS_6, mr1::DATA_BITS_7, mr1::DATA_BITS_8];
    for (more, width) in widths.into_iter().enumerate().skip(1) {
        assert_eq!(length(mr1::NO_PARITY | width, mr2::ONE_STOP_BIT), 16 * (1 + 5 + more + 1));
        assert_eq!(length(mr1::WITH_PARITY | width, mr2::TWO_STOP_BITS), 16 * (1 + 5 + more + 1 + 2));
    }
    assert_eq!(length(mr1::NO_PARITY | mr1::DATA_BITS_5, mr2::ONE_STOP_BIT), 16 * (1 + 5) + 24);
    let mut parity_bit = |parity: mr1::Bits| {
        let mr1 = parity | mr1::DATA_BITS_8;
        frame(mr1.byte(), mr2::ONE_STOP_BIT.byte(), 0x01, &mut levels).expect("a modelled setting");
        levels[9 * 16]
    };
    assert_eq!((parity_bit(mr1::WITH_PARITY), parity_bit(mr1::WITH_PARITY | mr1::ODD)), (1, 0));
    assert_eq!((parity_bit(mr1::FORCED_PARITY), parity_bit(mr1::FORCED_PARITY | mr1::ODD)), (0, 1));
    let modes = [mr2::NORMAL, mr2::AUTOMATIC_ECHO, mr2::LOCAL_LOOPBACK, mr2::REMOTE_LOOPBACK];
    let bytes = [mode::NORMAL, mode::AUTOMATIC_ECHO, mode::LOCAL_LOOPBACK, mode::REMOTE_LOOPBACK];
    assert_eq!(modes.map(mr2::Bits::byte), bytes);
    assert_eq!(modes.into_iter().fold(mr2::NORMAL, mr2::Bits::or), mr2::MODE);
    assert_eq!(((mr2::MODE | mr2::CTS | mr2::STOP_CODE).byte(), mr1::BLOCK_ERRORS.byte()), (0xdf, 0x20));
}

#[test]
fn of_block_errors_and_cts() {
    let block: Set = |device| (device.front.a.mr1, device.a.sums.parity) = (mr1::BLOCK_ERRORS.byte(), true);
    assert_eq!(read(block, Register::SRA), sr::PARITY.byte());
    let set: Set = |device| (device.front.a.mr2, device.front.a.csr) = (mr2::CTS.byte(), 0xff);
    let mut chip = with(set);
    let starts = [pins::IP0.byte(), 0].map(|level| {
        for event in [
            Event::write(Register::CRA, command::RESET_TRANSMITTER | command::ENABLE_TRANSMITTER),
            Event::write(Register::TBA, 0),
            Event::Pins(pins::IP3.byte() | level),
            Event::Pins(level),
        ] {
            assert!(chip.step(event).is_ok());
        }
        !chip.device().front.a.transmitter.full
    });
    assert_eq!(starts, [false, true], "IP0 is the CTS of A, and a character starts while it is low");
}

/// A command on a device that has everything set: what it leaves.
#[test]
fn of_commands() {
    let all: Set = |device| {
        (device.front.a.moved, device.front.a.enabled, device.front.a.transmitter.enabled) = (true, true, true);
        (device.a.queue.count, device.a.overrun, device.a.change) = (2, true, true);
    };
    let left = |command: command::Bits| {
        let mut chip = with(all);
        assert!(chip.step(Event::write(Register::CRA, command)).is_ok());
        let (side, receiver) = (&chip.device().front.a, &chip.device().a);
        let held = [receiver.queue.count > 0, receiver.overrun, receiver.change];
        ([side.moved, side.enabled, side.transmitter.enabled], held, side.transmitter.asked)
    };
    let (on, held) = ([true; 3], [true; 3]);
    assert_eq!(left(command::ENABLE_RECEIVER | command::ENABLE_TRANSMITTER), (on, held, false));
    assert_eq!(left(command::POINT_TO_MR1), ([false, true, true], held, false));
    assert_eq!(left(command::RESET_RECEIVER), ([true, false, true], [false, true, true], false));
    assert_eq!(left(command::RESET_TRANSMITTER), ([true, true, false], held, false));
    assert_eq!(left(command::RESET_ERRORS), (on, [true, false, true], false));
    assert_eq!(left(command::RESET_BREAK_CHANGE), (on, [true, true, false], false));
    assert_eq!(left(command::START_BREAK), (on, held, true));
    assert_eq!(left(command::STOP_BREAK), (on, held, false));
    assert_eq!(left(command::DISABLE_TRANSMITTER), ([true, true, false], held, false));
    assert_eq!(left(command::DISABLE_RECEIVER), ([true, false, true], held, false));
}

/// The counter/timer's modes: which pulse takes 1 from the count.
#[test]
fn of_acr() {
    let pulse = |chip: &mut Duart, event: Event, times: usize| {
        (0..times).for_each(|_| assert!(chip.step(event).is_ok()));
        chip.device().front.timer.count
    };
    let counts = |mode: acr::Bits| {
        let mut chip = with(|device| device.front.timer.preload = 9);
        let start =
            [Event::write(Register::ACR, mode), Event::read(Register::START_COUNTER), Event::Pins(!pins::IP2.byte())];
        start.into_iter().for_each(|event| assert!(chip.step(event).is_ok()));
        let ticks = [pulse(&mut chip, Event::Tick, 1), pulse(&mut chip, Event::Tick, 15)];
        (ticks, pulse(&mut chip, Event::Pins(0xff), 1))
    };
    assert_eq!(counts(acr::COUNTER_IP2), ([9, 9], 8));
    assert_eq!(counts(acr::COUNTER_TICKS_16), ([9, 8], 8));
    assert_eq!(counts(acr::TIMER_IP2), ([9, 9], 8));
    assert_eq!(counts(acr::TIMER_IP2_16), ([9, 9], 9));
    assert_eq!(counts(acr::TIMER_TICKS), ([8, 2], 2)); // 9 to 1, loaded again, 8 to 2
    assert_eq!(counts(acr::TIMER_TICKS_16), ([9, 8], 8));
    assert_eq!([acr::COUNTER_TXCA, acr::COUNTER_TXCB].map(counts), [([9, 9], 9); 2]);
    let changes = [acr::CHANGE_IP0, acr::CHANGE_IP1, acr::CHANGE_IP2, acr::CHANGE_IP3];
    let pins = [pins::IP0, pins::IP1, pins::IP2, pins::IP3];
    assert_eq!(changes.map(acr::Bits::byte), pins.map(pins::Bits::byte));
    assert_eq!((acr::MODE | acr::RATES_1).byte(), 0xf0);
}

#[test]
fn bits_of_one_register_go_together() {
    const BOTH: sr::Bits = sr::BREAK.or(sr::FRAMING);
    assert_eq!((BOTH, u8::from(BOTH)), (sr::FRAMING | sr::BREAK, 0xc0));
    assert!(BOTH.are_in(0xd1) && !BOTH.are_in(0x91) && sr::BREAK.are_in(0x91));
}

/// In document 01's order bits are one each and codes count up. What a name does may hide a bit too many in it.
#[test]
fn each_list_has_document_01s_numbers() {
    let one_each = [0, 1, 2, 3, 4, 5, 6, 7].map(|bit| 1 << bit);
    let nibbles = [0x00, 0x10, 0x20, 0x30, 0x40, 0x50, 0x60, 0x70];
    let bits = {
        use sr::*;
        [RX_RDY, FFULL, TX_RDY, TX_EMT, OVERRUN, PARITY, FRAMING, BREAK].map(Bits::byte)
    };
    assert_eq!(bits, one_each);
    let bits = {
        use isr::*;
        [TX_RDY_A, RX_A, BREAK_CHANGE_A, COUNTER, TX_RDY_B, RX_B, BREAK_CHANGE_B, INPUT_CHANGE].map(Bits::byte)
    };
    assert_eq!(bits, one_each);
    let bits = {
        use ipcr::*;
        [IP0, IP1, IP2, IP3, CHANGE_IP0, CHANGE_IP1, CHANGE_IP2, CHANGE_IP3].map(Bits::byte)
    };
    assert_eq!(bits, one_each);
    let bits = {
        use pins::*;
        [IP0, IP1, IP2, IP3, IP4, IP5, RXDA, RXDB].map(Bits::byte)
    };
    assert_eq!(bits, one_each);
    let (modes, others) = {
        use acr::*;
        let counters = [COUNTER_IP2, COUNTER_TXCA, COUNTER_TXCB, COUNTER_TICKS_16].map(Bits::byte);
        let timers = [TIMER_IP2, TIMER_IP2_16, TIMER_TICKS, TIMER_TICKS_16].map(Bits::byte);
        let others = [CHANGE_IP0, CHANGE_IP1, CHANGE_IP2, CHANGE_IP3, MODE, RATES_1].map(Bits::byte);
        ([counters, timers].concat(), others)
    };
    assert_eq!((modes, others), (nibbles.to_vec(), [0x01, 0x02, 0x04, 0x08, 0x70, 0x80]));
}

#[test]
fn each_list_of_what_is_written_has_document_01s_numbers() {
    let (first, then) = {
        use command::*;
        let first = [POINT_TO_MR1, RESET_RECEIVER, RESET_TRANSMITTER, RESET_ERRORS, RESET_BREAK_CHANGE];
        let breaks = [START_BREAK, STOP_BREAK].map(Bits::byte);
        let then = [ENABLE_RECEIVER, DISABLE_RECEIVER, ENABLE_TRANSMITTER, DISABLE_TRANSMITTER].map(Bits::byte);
        ((first.map(Bits::byte), breaks), then)
    };
    assert_eq!((first, then), (([0x10, 0x20, 0x30, 0x40, 0x50], [0x60, 0x70]), [1, 2, 4, 8]));
    let (widths, others) = {
        use mr1::*;
        let others = [WITH_PARITY, ODD, FORCED_PARITY, NO_PARITY, BLOCK_ERRORS, FFULL_INTERRUPT].map(Bits::byte);
        ([DATA_BITS_5, DATA_BITS_6, DATA_BITS_7, DATA_BITS_8].map(Bits::byte), others)
    };
    assert_eq!((widths, others), ([0, 1, 2, 3], [0x00, 0x04, 0x08, 0x10, 0x20, 0x40]));
    let (modes, others) = {
        use mr2::*;
        let modes = [NORMAL, AUTOMATIC_ECHO, LOCAL_LOOPBACK, REMOTE_LOOPBACK, MODE].map(Bits::byte);
        (modes, [CTS, ONE_STOP_BIT, TWO_STOP_BITS, STOP_CODE].map(Bits::byte))
    };
    assert_eq!((modes, others), ([0x00, 0x40, 0x80, 0xc0, 0xc0], [0x10, 0x07, 0x0f, 0x0f]));
    let bits = {
        use opcr::*;
        [OP3_TIMER, OP4_RX_A, OP5_RX_B, OP6_TX_RDY_A, OP7_TX_RDY_B].map(Bits::byte)
    };
    assert_eq!(bits, [0x04, 0x10, 0x20, 0x40, 0x80]);
}
