//! The start-up test of channel A, and what the service desk tries. Order 2: "The controller refuses to home until
//! local loopback works; the service desk wants the other two." 38,400 bits a second, 8 data bits, no parity, one stop
//! bit.

use duart::{mode, Duart, Event, Refused, Seen};

/// 3,686,400 ticks a second, 16 * 38,400 pulses a second: code 12.
const TICKS_A_PULSE: u32 = 6;
/// A start bit, 8 data bits and a stop bit.
const PULSES_A_FRAME: u32 = 160;
const RXDA: u8 = 1 << 6;
const ONE_STOP_BIT: u8 = 0x07;

/// The time of one pulse of both clocks. The answer to its last tick has the lines after the pulse.
fn pulse(chip: &mut Duart) -> Result<Seen, Refused> {
    for _ in 1..TICKS_A_PULSE {
        chip.step(Event::Tick)?;
    }
    chip.step(Event::Tick)
}

fn write(chip: &mut Duart, register: u8, byte: u8) -> Result<(), Refused> {
    chip.step(Event::Write(register, byte)).map(|_| ())
}

/// The pointer is at MR2. The mode change leaves the receiver as just enabled.
fn enter(chip: &mut Duart, mode: u8) -> Result<(), Refused> {
    write(chip, 0, mode | ONE_STOP_BIT)
}

/// The byte that has come, if one has: a stale read brings none.
fn received(chip: &mut Duart) -> Result<Option<u8>, Refused> {
    let seen = chip.step(Event::Read(3))?;
    Ok(seen.fresh.then_some(seen.data))
}

/// The byte is sent in local loopback: what comes round, TxDA being high all the time.
fn round(chip: &mut Duart, byte: u8) -> Result<Option<u8>, Refused> {
    write(chip, 3, byte)?;
    for _ in 0..PULSES_A_FRAME {
        assert!(pulse(chip)?.txda, "TxD stays high");
    }
    received(chip)
}

/// The byte is sent into RxDA: after each pulse TxDA has the level of RxDA.
fn echo(chip: &mut Duart, byte: u8) -> Result<(), Refused> {
    let levels = (u32::from(byte) << 1) | 0x200;
    for count in 0..PULSES_A_FRAME {
        let high = (levels >> (count / 16)) & 1 == 1;
        chip.step(Event::Pins(if high { 0xff } else { 0xff & !RXDA }))?;
        assert_eq!(pulse(chip)?.txda, high, "pulse {count}");
    }
    Ok(())
}

fn main() -> Result<(), Refused> {
    let mut chip = Duart::fresh();
    write(&mut chip, 0, 0x13)?; // MR1A: 8 data bits, no parity
    write(&mut chip, 1, 0xcc)?; // CSRA: code 12 for the receiver and the transmitter
    enter(&mut chip, mode::LOCAL_LOOPBACK)?;
    write(&mut chip, 2, 0x05)?; // command: enable both sides
    let early = round(&mut chip, 255)?;
    assert_eq!(early, None, "no pulse has passed: the receiver has sampled no high before the start bit");
    for byte in 0..=255 {
        assert_eq!(round(&mut chip, byte)?, Some(byte));
    }

    enter(&mut chip, mode::AUTOMATIC_ECHO)?;
    pulse(&mut chip)?; // RxDA is high: the receiver must sample that before a start bit
    assert_eq!(chip.step(Event::Read(1))?.data, 0, "TxRDY and TxEMT read 0");
    echo(&mut chip, 42)?;
    assert_eq!(received(&mut chip)?, Some(42));

    enter(&mut chip, mode::REMOTE_LOOPBACK)?;
    pulse(&mut chip)?;
    echo(&mut chip, 43)?;
    assert_eq!(received(&mut chip)?, None, "no character is put together");

    enter(&mut chip, mode::NORMAL)?;
    assert_eq!(chip.step(Event::Read(1))?.data, 0x0c, "TxRDY and TxEMT");
    println!("256 bytes came round, and channel A echoed in both echo modes");
    Ok(())
}
