//! Saved chips, and bytes that are none. Which bytes are bools is asked of the reading itself, and not said twice.

use super::{device_in, Field, NotRestored, Reading, ABI, NUMBER_BYTES, SAVED_BYTES};
use crate::device::{Bits, Device, Pulses, Queue, Receiver, Side, Ticks};
use crate::{Duart, Event};

/// splitmix64.
struct Draws(u64);

impl Draws {
    fn draw(&mut self) -> u64 {
        self.0 = self.0.wrapping_add(0x9e37_79b9_7f4a_7c15);
        let mixed = (self.0 ^ (self.0 >> 30)).wrapping_mul(0xbf58_476d_1ce4_e5b9);
        let mixed = (mixed ^ (mixed >> 27)).wrapping_mul(0x94d0_49bb_1331_11eb);
        mixed ^ (mixed >> 31)
    }

    fn byte(&mut self) -> u8 {
        self.draw().to_le_bytes()[7]
    }
}

/// Where the fields stand.
pub(crate) fn saved_places() -> std::ops::Range<usize> {
    NUMBER_BYTES..SAVED_BYTES
}

fn is_bool(place: usize) -> bool {
    let mut bytes = Duart::fresh().save();
    bytes[place] = 2;
    device_in(&bytes) == Err(NotRestored::NotABool { place, byte: 2 })
}

/// Any value of each field's type.
pub(crate) fn wild(seed: u64) -> Device {
    let mut draws = Draws(seed);
    let mut bytes = Duart::fresh().save();
    for place in saved_places() {
        let byte = draws.byte();
        bytes[place] = if is_bool(place) { byte & 1 } else { byte };
    }
    device_in(&bytes).expect("each bool is 0 or 1")
}

/// Any value of each field's range, as docs/SOUND.md has them.
pub(crate) fn drawn(seed: u64) -> Device {
    let mut device = wild(seed);
    bring_side_into_range(&mut device.front.a);
    bring_side_into_range(&mut device.front.b);
    bring_receiver_into_range(&mut device.a);
    bring_receiver_into_range(&mut device.b);
    device.front.timer.ticks = Ticks(device.front.timer.ticks.0 % 16);
    device.front.timer.edges = Pulses(device.front.timer.edges.0 % 16);
    device.front.inputs.changes %= 16;
    device.front.outputs.opcr &= 0xf4;
    device
}

fn bring_side_into_range(side: &mut Side) {
    side.mr1 &= if side.mr1 & 0x18 == 0x18 { 0x77 } else { 0x7f };
    side.mr2 &= 0xdf;
    side.transmitter.phase %= 4;
    side.transmitter.shifter.length.0 %= 193;
    side.transmitter.shifter.sent.0 %= 193;
    side.transmitter.left.0 %= 16;
    side.phases.receiver = Ticks(side.phases.receiver.0 % 4608);
    side.phases.transmitter = Ticks(side.phases.transmitter.0 % 4608);
    side.phases.sixteenths.0 %= 16;
}

fn bring_receiver_into_range(receiver: &mut Receiver) {
    let sampler = &mut receiver.sampler;
    sampler.phase %= 5;
    sampler.left.0 %= 16;
    sampler.setting.format.width = Bits(5 + sampler.setting.format.width.0 % 4);
    sampler.setting.format.parity %= 3;
    sampler.taken.0 %= 10;
    sampler.value %= 512;
    let most = if sampler.phase == 2 { 3 } else { 4 };
    receiver.queue = Queue { count: receiver.queue.count % (most + 1), ..receiver.queue };
}

/// The same but for one byte of a saved device.
pub(crate) fn with_byte(device: &Device, place: usize) -> Device {
    let mut bytes = Duart::from_device(*device).save();
    bytes[place] ^= 1;
    device_in(&bytes).expect("a bool stays one")
}

#[test]
fn the_fields_fill_the_bytes() {
    let bytes = Duart::fresh().save();
    let mut reading = Reading { bytes: &bytes, place: NUMBER_BYTES };
    let mut device = wild(1);
    assert_eq!((device.walk(&mut reading), reading.place), (Ok(()), SAVED_BYTES));
    assert_eq!(device, *Duart::fresh().device());
    let bools = saved_places().filter(|place| is_bool(*place)).count();
    assert_eq!(bools, 2 * 8 + 3 + 2 * (3 + 5 * 3 + 2), "all bools of two sides, the timer and two receivers");
}

#[test]
fn the_bytes_are_in_the_headers_order_lowest_first() {
    let mut device = *Duart::fresh().device();
    device.front.a.mr1 = 0x13;
    device.front.a.transmitter.shifter.frame.0 = 0x1234;
    device.front.timer.preload = 0x0240;
    (device.front.acr, device.front.imr) = (0x70, 0x0a);
    device.b.last = 0x99;
    let bytes = Duart::from_device(device).save();
    assert_eq!(bytes[..5], [1, 0, 0, 0, 0x13]);
    assert_eq!(bytes[14..16], [0x34, 0x12], "the frame after six bytes of the side and four of the transmitter");
    assert_eq!(bytes[74..76], [0x40, 0x02], "the timer after two sides of 35");
    assert_eq!(bytes[94..97], [0x70, 0x0a, 15], "ACR, IMR, IVR");
    assert_eq!(bytes[162], 0x99);
}

#[test]
fn a_drawn_chip_comes_back() {
    for seed in 0..400 {
        let chip = Duart::from_device(drawn(seed));
        assert!(chip.is_sound());
        let restored = Duart::restore(&chip.save());
        assert_eq!(restored.as_ref(), Ok(&chip));
        assert_eq!(restored.map(|restored| restored.save()), Ok(chip.save()));
    }
}

/// A chip that is saved in the midst of its work goes on as the one that was not.
#[test]
fn a_chip_at_work_comes_back() {
    let mut draws = Draws(7);
    let mut chip = Duart::fresh();
    for _ in 0..4_000 {
        let bytes = [(); 3].map(|()| draws.byte());
        let event = match bytes[0] % 4 {
            0 => Event::Write(bytes[1] % 16, bytes[2]),
            1 => Event::Read(bytes[1] % 16),
            2 => Event::Pins(bytes[1]),
            _ => Event::Tick,
        };
        let mut restored = Duart::restore(&chip.save()).expect("a reached chip is sound");
        assert_eq!(restored.step(event), chip.step(event));
        assert_eq!(restored, chip);
    }
}

#[test]
fn another_abi_number_is_refused_before_all_else() {
    let mut bytes = Duart::fresh().save().to_vec();
    for number in [0, 2, 0x0100_0001, u32::MAX] {
        bytes[..4].copy_from_slice(&number.to_le_bytes());
        assert_eq!(Duart::restore(&bytes), Err(NotRestored::OtherAbi(number)));
        assert_eq!(Duart::restore(&bytes[..4]), Err(NotRestored::OtherAbi(number)), "a length of its own");
    }
    assert_eq!(ABI, 1);
}

#[test]
fn a_wrong_length_is_refused() {
    let mut bytes = Duart::fresh().save().to_vec();
    for length in 0..SAVED_BYTES {
        assert_eq!(Duart::restore(&bytes[..length]), Err(NotRestored::WrongLength(length)));
    }
    bytes.push(0);
    assert_eq!(Duart::restore(&bytes), Err(NotRestored::WrongLength(SAVED_BYTES + 1)));
}

#[test]
fn a_bool_that_is_none_is_refused_at_its_place() {
    for place in saved_places().filter(|place| is_bool(*place)) {
        for byte in [2, 3, 0x80, 0xff] {
            let mut bytes = Duart::from_device(drawn(3)).save();
            bytes[place] = byte;
            assert_eq!(Duart::restore(&bytes), Err(NotRestored::NotABool { place, byte }));
        }
    }
}

#[test]
fn an_unsound_device_is_refused() {
    for seed in 0..200 {
        let chip = Duart::from_device(wild(seed));
        let restored = Duart::restore(&chip.save());
        assert_eq!(restored, if chip.is_sound() { Ok(chip) } else { Err(NotRestored::Unsound) });
    }
    let mut device = *Duart::fresh().device();
    device.a.queue.count = 4;
    assert!(Duart::restore(&Duart::from_device(device).save()).is_ok());
    device.a.sampler.phase = 2; // the rule on the waiting place
    assert_eq!(Duart::restore(&Duart::from_device(device).save()), Err(NotRestored::Unsound));
}

#[test]
fn each_says_why() {
    assert_eq!(NotRestored::OtherAbi(2).to_string(), "saved with the ABI number 2, and this is 1");
    assert_eq!(NotRestored::WrongLength(9).to_string(), "9 bytes, and a saved chip has 163");
    assert_eq!(NotRestored::NotABool { place: 6, byte: 2 }.to_string(), "byte 6 is a bool, and it is 2");
    assert_eq!(NotRestored::Unsound.to_string(), "the saved device is unsound");
}

#[cfg(any(core_error, feature = "std"))]
#[test]
fn each_is_an_error() {
    let error: Box<dyn std::error::Error> = NotRestored::Unsound.into();
    assert_eq!(error.to_string(), "the saved device is unsound");
}
