//! The device's state, field by field as the archive lays it out. The ranges that a sound device keeps stand in
//! docs/SOUND.md; any value of each field's type is safe to hand to the archive, which answers 1 where the device is
//! unsound.

/// Crystal ticks.
#[repr(C)]
#[derive(Clone, Copy, Debug, PartialEq, Eq)]
pub struct Ticks(pub u64);

/// 16X or 1X pulses.
#[repr(C)]
#[derive(Clone, Copy, Debug, PartialEq, Eq)]
pub struct Pulses(pub u8);

/// Whole bits.
#[repr(C)]
#[derive(Clone, Copy, Debug, PartialEq, Eq)]
pub struct Bits(pub u8);

/// The bits of a frame before its stop, the first one lowest, and high past them.
#[repr(C)]
#[derive(Clone, Copy, Debug, PartialEq, Eq)]
pub struct FrameBits(pub u16);

/// What MR1 chooses of a character's form.
#[repr(C)]
#[derive(Clone, Copy, Debug, PartialEq, Eq)]
pub struct Format {
    /// data bits, 5 to 8
    pub width: Bits,
    /// 0 with parity, 1 forced, 2 none
    pub parity: u8,
    /// odd, or forced high
    pub odd: bool,
}

/// The form and clock that a receiver takes at a character's low pulse p.
#[repr(C)]
#[derive(Clone, Copy, Debug, PartialEq, Eq)]
pub struct Setting {
    pub format: Format,
    /// 16X rather than 1X
    pub sixteen: bool,
}

/// What a receiver does with its line.
#[repr(C)]
#[derive(Clone, Copy, PartialEq, Eq)]
pub struct Sampler {
    /// 0 hunting, 1 from p to p+8, 2 a confirmed start under way, 3 after a low stop, 4 the wait for a break's end
    pub phase: u8,
    /// hunting: the last sample was high
    pub high: bool,
    /// the pulses still to come before the one that decides
    pub left: Pulses,
    pub setting: Setting,
    /// samples taken since the confirmed start
    pub taken: Bits,
    /// those samples, the first one lowest
    pub value: u16,
}

/// The error marks of a received character.
#[repr(C)]
#[derive(Clone, Copy, Debug, PartialEq, Eq)]
pub struct Marks {
    pub broken: bool,
    pub framing: bool,
    pub parity: bool,
}

/// A received character.
#[repr(C)]
#[derive(Clone, Copy, Debug, PartialEq, Eq)]
pub struct Character {
    pub byte: u8,
    pub marks: Marks,
}

/// The queue of three and the waiting place.
#[repr(C)]
#[derive(Clone, Copy, Debug, PartialEq, Eq)]
pub struct Queue {
    /// 0 to 3 in the queue, 4 where one waits besides
    pub count: u8,
    pub first: Character,
    pub second: Character,
    pub third: Character,
    pub waiting: Character,
}

/// One channel's receiver.
#[repr(C)]
#[derive(Clone, Copy, Debug, PartialEq, Eq)]
pub struct Receiver {
    pub sampler: Sampler,
    pub queue: Queue,
    pub overrun: bool,
    /// the marks of all that became oldest, for block errors
    pub sums: Marks,
    /// break change
    pub change: bool,
    /// the last byte read
    pub last: u8,
}

/// The character that is being sent.
#[repr(C)]
#[derive(Clone, Copy, Debug, PartialEq, Eq)]
pub struct Shifter {
    pub frame: FrameBits,
    /// 16X rather than 1X
    pub sixteen: bool,
    /// all the frame's pulses, the stop's among them
    pub length: Pulses,
    /// those that have come
    pub sent: Pulses,
}

/// One channel's transmitter.
#[repr(C)]
#[derive(Clone, Copy, PartialEq, Eq)]
pub struct Transmitter {
    pub enabled: bool,
    /// the holding place is full
    pub full: bool,
    pub holding: u8,
    /// 0 idle, 1 sending a character, 2 sending a break, 3 the high bit after it
    pub phase: u8,
    pub shifter: Shifter,
    /// after a break: the pulses still to come before the one that completes the bit
    pub left: Pulses,
    /// a break is asked and has not begun
    pub asked: bool,
    /// the transmitter's own level: in normal mode TxD, in local loopback what the receiver samples
    pub txd: bool,
}

/// The phases of a channel's dividers.
#[repr(C)]
#[derive(Clone, Copy, Debug, PartialEq, Eq)]
pub struct Phases {
    pub receiver: Ticks,
    pub transmitter: Ticks,
    /// of the transmitter's 16X pulses, which make its 1X clock
    pub sixteenths: Pulses,
}

/// One channel's registers, transmitter and clocks.
#[repr(C)]
#[derive(Clone, Copy, Debug, PartialEq, Eq)]
pub struct Side {
    pub mr1: u8,
    /// bits 7-6 are the [mode](crate::mode)
    pub mr2: u8,
    /// the pointer has moved from MR1 to MR2
    pub moved: bool,
    pub csr: u8,
    /// the receiver's enable
    pub enabled: bool,
    /// the level that the echo modes put on TxD, high where nothing has been echoed
    pub echo: bool,
    pub transmitter: Transmitter,
    pub phases: Phases,
}

/// The counter/timer.
#[repr(C)]
#[derive(Clone, Copy, Debug, PartialEq, Eq)]
pub struct Timer {
    pub preload: u16,
    pub count: u16,
    pub running: bool,
    /// the level of the timer output
    pub output: bool,
    /// ISR bit 3
    pub ready: bool,
    /// the /16 phase of the crystal's ticks
    pub ticks: Ticks,
    /// the /16 phase of IP2's rising edges
    pub edges: Pulses,
}

/// The input pins.
#[repr(C)]
#[derive(Clone, Copy, Debug, PartialEq, Eq)]
pub struct Inputs {
    /// bits 0-5 IP0-IP5, 6 RxDA, 7 RxDB
    pub levels: u8,
    /// the change flags of IP3 to IP0
    pub changes: u8,
}

/// The output bits and OPCR.
#[repr(C)]
#[derive(Clone, Copy, Debug, PartialEq, Eq)]
pub struct Outputs {
    pub bits: u8,
    pub opcr: u8,
}

/// All of the chip but its receivers.
#[repr(C)]
#[derive(Clone, Copy, Debug, PartialEq, Eq)]
pub struct Front {
    pub a: Side,
    pub b: Side,
    pub timer: Timer,
    pub inputs: Inputs,
    pub outputs: Outputs,
    pub acr: u8,
    pub imr: u8,
    pub ivr: u8,
}

/// The whole chip.
#[repr(C)]
#[derive(Clone, Copy, PartialEq, Eq)]
pub struct Device {
    pub front: Front,
    pub a: Receiver,
    pub b: Receiver,
}
