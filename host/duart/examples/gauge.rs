//! The driver of the height gauge on channel A polls the receive buffer and adds up the offsets that are new. The
//! canine that is made again: offsets are still in the receiver, one of them in its waiting place, when the program
//! resets it and enables it again; then the new offset comes, and it is added once. 9600 bits a second, 8 data bits, no
//! parity, one stop bit.

use duart::bits::{command, mr1, mr2};
use duart::{Duart, Event, Refused, Register};

/// 3,686,400 ticks a second, 9600 bits a second: code 11, 24 ticks a 16X pulse.
const TICKS_A_BIT: u32 = 384;
const RXDA: u8 = 1 << 6;

/// The level of RxDA for one bit's time; every other pin is high.
fn hold(chip: &mut Duart, high: bool) -> Result<(), Refused> {
    chip.step(Event::Pins(if high { 0xff } else { 0xff & !RXDA }))?;
    for _ in 0..TICKS_A_BIT {
        chip.step(Event::Tick)?;
    }
    Ok(())
}

/// The gauge's side of the line: a start bit, the offset lowest bit first, a stop bit.
fn send(chip: &mut Duart, offset: u8) -> Result<(), Refused> {
    let bits = (u16::from(offset) << 1) | 0x200;
    (0..10).try_for_each(|bit| hold(chip, (bits >> bit) & 1 == 1))
}

fn write(chip: &mut Duart, register: Register, byte: impl Into<u8>) -> Result<(), Refused> {
    chip.step(Event::write(register, byte)).map(|_| ())
}

/// The offsets that are new, polled for more often than there can be any. The byte does not tell an old one from a new
/// one: two heights may be equal.
fn poll(chip: &mut Duart) -> Result<Vec<u8>, Refused> {
    let mut offsets = Vec::new();
    for _ in 0..6 {
        let seen = chip.step(Event::read(Register::RBA))?;
        offsets.extend(seen.fresh.then_some(seen.data));
    }
    Ok(offsets)
}

fn main() -> Result<(), Refused> {
    let mut chip = Duart::fresh();
    write(&mut chip, Register::MRA, mr1::NO_PARITY | mr1::DATA_BITS_8)?;
    write(&mut chip, Register::MRA, mr2::ONE_STOP_BIT)?;
    write(&mut chip, Register::CSRA, 0xbb)?; // code 11 for the receiver and the transmitter
    write(&mut chip, Register::CRA, command::ENABLE_RECEIVER)?;
    hold(&mut chip, true)?; // the receiver must see a high line first
    assert_eq!(poll(&mut chip)?, [], "the gauge has sent nothing");

    send(&mut chip, 42)?;
    send(&mut chip, 42)?;
    assert_eq!(poll(&mut chip)?, [42, 42], "two equal offsets are two");

    for old in [1, 2, 3, 4] {
        send(&mut chip, old)?; // the queue holds three, and the fourth waits
    }
    write(&mut chip, Register::CRA, command::RESET_RECEIVER)?;
    write(&mut chip, Register::CRA, command::ENABLE_RECEIVER)?;
    assert_eq!(poll(&mut chip)?, [], "an old offset is left");

    hold(&mut chip, true)?;
    send(&mut chip, 9)?;
    let offsets: Vec<u8> = [poll(&mut chip)?, poll(&mut chip)?].concat();
    assert_eq!(offsets, [9], "the new offset is not added once");
    println!("after the reset the gauge says {offsets:?}");
    Ok(())
}
