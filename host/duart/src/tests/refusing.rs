//! A refused call is an error, and a record beside it.

use crate::{frame, frame_raw, Duart, Event, FrameAnswer, Refusal, Refused, Register};

/// TxRDYA may interrupt, so that IRQ is asserted; four OP pins are low.
fn asserting() -> Duart {
    let mut chip = Duart::fresh();
    for (register, byte) in [(Register::SET_OUTPUT_BITS, 0x0f), (Register::IMR, 0x01), (Register::CRA, 0x04)] {
        assert!(chip.step(Event::write(register, byte)).is_ok());
    }
    chip
}

#[test]
fn a_step_is_its_record() {
    let events = [
        Event::ChipReset,
        Event::Read(12),
        Event::Read(10),
        Event::Write(2, 0x0c),
        Event::Acknowledge,
        Event::Pins(7),
        Event::Tick,
    ];
    for event in events {
        let (mut chip, mut raw, mut record) = (asserting(), asserting(), asserting());
        let seen = raw.step_raw(event);
        assert_eq!(record.step_record(event.into()), seen);
        match chip.step(event) {
            Ok(accepted) => assert_eq!((accepted, seen.number), (seen, 0)),
            Err(refused) => assert_eq!((refused.seen, refused.refusal.number()), (seen, seen.number)),
        }
        assert!(chip == raw && raw == record);
    }
}

#[test]
fn a_refused_event_has_lines_and_alters_nothing() {
    let mut chip = asserting();
    let before = chip.clone();
    let Refused { refusal, seen } = chip.step(Event::Read(16)).expect_err("16 is no register");
    assert_eq!((refusal, seen.data, seen.fresh), (Refusal::RegisterAbove15, 0, false));
    assert_eq!((seen.irq, seen.txda, seen.op), (true, true, 0xf0));
    assert_eq!(chip, before);
}

#[test]
fn an_unsound_chip_refuses_with_1_and_all_lines_0() {
    let mut device = *Duart::fresh().device();
    device.front.a.mr1 = 0x80;
    let mut chip = Duart::from_device(device);
    let refused = chip.step(Event::ChipReset).expect_err("it is unsound");
    assert_eq!((refused.refusal, refused.seen.txda, refused.seen.op), (Refusal::Unsound, false, 0));
    assert!(!chip.is_sound() && !device.is_sound());
}

#[test]
fn a_frame_is_its_record() {
    let mut space = [9; 192];
    assert_eq!(frame(0x13, 0x07, 85, &mut space), Ok(160));
    assert_eq!(frame_raw(0x13, 0x07, 85, &mut space), FrameAnswer { number: 0, length: 160 });
    assert_eq!(frame(0x80, 0x07, 85, &mut space), Err(Refusal::NotModelled));
    assert_eq!(frame(0x13, 0x07, 85, &mut space[..159]), Err(Refusal::SpaceShort));
    assert_eq!(frame_raw(0x13, 0x07, 85, &mut []), FrameAnswer { number: 8, length: 0 });
}

/// A copy is asked for, and is another chip then.
#[test]
fn a_clone_is_another_chip() {
    let mut chip = Duart::fresh();
    let other = chip.clone();
    assert!(chip.step(Event::write(Register::IVR, 1)).is_ok());
    assert_ne!(chip, other);
    assert_eq!(other, Duart::default());
}

trait AmbiguousWhereCopy<Way> {
    fn asked() -> bool {
        true
    }
}

impl<T> AmbiguousWhereCopy<()> for T {}
impl<T: Copy> AmbiguousWhereCopy<u8> for T {}

/// It would not compile if a chip were `Copy`: the compiler could not tell which of the two ways is meant.
#[test]
fn a_chip_is_not_copied_unseen() {
    assert!(<Duart as AmbiguousWhereCopy<_>>::asked());
}
