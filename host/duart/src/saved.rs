//! A device in bytes: the ABI number, then every field in the order of include/duart.h, whole numbers with their lowest
//! byte first, a bool as 0 or 1, and nothing between them.

use crate::device::{
    Bits, Character, Device, Format, FrameBits, Front, Inputs, Marks, Outputs, Phases, Pulses, Queue, Receiver, Sampler,
    Setting, Shifter, Side, Ticks, Timer, Transmitter,
};
use crate::Duart;
use core::fmt;

#[cfg(core_error)]
use core::error::Error;
#[cfg(all(not(core_error), feature = "std"))]
use std::error::Error;

/// The layout of what crosses to the archive and the form of a saved device: another number is another layout. The
/// archive's own is a proved constant, and whatever makes a chip compares the two ([`Duart::fresh`]).
pub const ABI: u32 = 1;

/// The ABI number's bytes.
const NUMBER_BYTES: usize = 4;

/// The bytes of a saved chip: the ABI number and 159 of fields.
pub const SAVED_BYTES: usize = NUMBER_BYTES + 159;

/// Why bytes are no saved chip, looked for in this order.
#[derive(Clone, Copy, Debug, PartialEq, Eq)]
pub enum NotRestored {
    /// They were saved in the form of another ABI number.
    OtherAbi(u32),
    /// They are not [`SAVED_BYTES`], but so many. Fewer than four have no number either.
    WrongLength(usize),
    /// A bool is neither 0 nor 1.
    NotABool {
        /// where the byte stands
        place: usize,
        byte: u8,
    },
    /// The device is unsound (docs/SOUND.md).
    Unsound,
}

impl fmt::Display for NotRestored {
    fn fmt(&self, to: &mut fmt::Formatter) -> fmt::Result {
        match self {
            NotRestored::OtherAbi(number) => write!(to, "saved with the ABI number {number}, and this is {ABI}"),
            NotRestored::WrongLength(length) => write!(to, "{length} bytes, and a saved chip has {SAVED_BYTES}"),
            NotRestored::NotABool { place, byte } => write!(to, "byte {place} is a bool, and it is {byte}"),
            NotRestored::Unsound => to.write_str("the saved device is unsound"),
        }
    }
}

#[cfg(any(core_error, feature = "std"))]
impl Error for NotRestored {}

impl Duart {
    /// The chip in bytes, to be kept in a file. An unsound one is saved too, and not restored.
    ///
    /// ```
    /// use duart::{Duart, Event, NotRestored, SAVED_BYTES};
    ///
    /// let mut chip = Duart::fresh();
    /// chip.step(Event::Write(12, 0x41)).unwrap();
    /// let mut bytes: [u8; SAVED_BYTES] = chip.save();
    /// assert_eq!(Duart::restore(&bytes), Ok(chip));
    /// bytes[0] = 2;
    /// assert_eq!(Duart::restore(&bytes), Err(NotRestored::OtherAbi(2)));
    /// ```
    #[must_use]
    pub fn save(&self) -> [u8; SAVED_BYTES] {
        let mut bytes = [0; SAVED_BYTES];
        bytes[..NUMBER_BYTES].copy_from_slice(&ABI.to_le_bytes());
        let mut device = *self.device();
        let walked = device.walk(&mut Writing { bytes: &mut bytes, place: NUMBER_BYTES });
        debug_assert_eq!(walked, Ok(()), "a bool of a device is 0 or 1");
        bytes
    }

    /// The chip that was saved. The bytes may be from anywhere: what is not a sound device of this ABI is refused.
    ///
    /// # Panics
    ///
    /// As [`Duart::fresh`]: bytes of this ABI and an archive of another.
    pub fn restore(bytes: &[u8]) -> Result<Duart, NotRestored> {
        let number = bytes.get(..NUMBER_BYTES).and_then(|number| number.try_into().ok()).map(u32::from_le_bytes);
        match number {
            Some(number) if number != ABI => return Err(NotRestored::OtherAbi(number)),
            _ => {}
        }
        let bytes = bytes.try_into().map_err(|_| NotRestored::WrongLength(bytes.len()))?;
        let device = device_in(bytes)?;
        if !device.is_sound() {
            return Err(NotRestored::Unsound);
        }
        Ok(Duart::from_device(device))
    }
}

/// The device, sound or not.
fn device_in(bytes: &[u8; SAVED_BYTES]) -> Result<Device, NotRestored> {
    let mut device = *Duart::fresh().device();
    device.walk(&mut Reading { bytes, place: NUMBER_BYTES })?;
    Ok(device)
}

// ------------------------------------------------------------ one walk over the fields, to write them and to read them

/// What is done with each field's bytes on the way.
trait Walker {
    /// Takes the bytes that a field has, and gives those that it is to have.
    fn pass<const N: usize>(&mut self, own: [u8; N]) -> [u8; N];
    /// Where the next byte stands.
    fn place(&self) -> usize;
}

struct Writing<'a> {
    bytes: &'a mut [u8; SAVED_BYTES],
    place: usize,
}

impl Walker for Writing<'_> {
    fn pass<const N: usize>(&mut self, own: [u8; N]) -> [u8; N] {
        self.bytes[self.place..self.place + N].copy_from_slice(&own);
        self.place += N;
        own
    }

    fn place(&self) -> usize {
        self.place
    }
}

struct Reading<'a> {
    bytes: &'a [u8; SAVED_BYTES],
    place: usize,
}

impl Walker for Reading<'_> {
    fn pass<const N: usize>(&mut self, mut own: [u8; N]) -> [u8; N] {
        own.copy_from_slice(&self.bytes[self.place..self.place + N]);
        self.place += N;
        own
    }

    fn place(&self) -> usize {
        self.place
    }
}

trait Field {
    fn walk(&mut self, walker: &mut impl Walker) -> Result<(), NotRestored>;
}

impl Field for bool {
    fn walk(&mut self, walker: &mut impl Walker) -> Result<(), NotRestored> {
        let place = walker.place();
        let [byte] = walker.pass([u8::from(*self)]);
        *self = match byte {
            0 => false,
            1 => true,
            _ => return Err(NotRestored::NotABool { place, byte }),
        };
        Ok(())
    }
}

macro_rules! numbers {
    ($($number:ident),*) => {$(
        impl Field for $number {
            fn walk(&mut self, walker: &mut impl Walker) -> Result<(), NotRestored> {
                *self = $number::from_le_bytes(walker.pass(self.to_le_bytes()));
                Ok(())
            }
        }
    )*};
}

macro_rules! counts {
    ($($count:ident),*) => {$(
        impl Field for $count {
            fn walk(&mut self, walker: &mut impl Walker) -> Result<(), NotRestored> {
                self.0.walk(walker)
            }
        }
    )*};
}

/// All fields are named, so that the compiler sees where one is forgotten.
macro_rules! structs {
    ($($name:ident { $($field:ident),* })*) => {$(
        impl Field for $name {
            fn walk(&mut self, walker: &mut impl Walker) -> Result<(), NotRestored> {
                let $name { $($field),* } = self;
                $($field.walk(walker)?;)*
                Ok(())
            }
        }
    )*};
}

numbers!(u8, u16, u64);
counts!(Ticks, Pulses, Bits, FrameBits);
structs! {
    Format { width, parity, odd }
    Setting { format, sixteen }
    Sampler { phase, high, left, setting, taken, value }
    Marks { broken, framing, parity }
    Character { byte, marks }
    Queue { count, first, second, third, waiting }
    Receiver { sampler, queue, overrun, sums, change, last }
    Shifter { frame, sixteen, length, sent }
    Transmitter { enabled, full, holding, phase, shifter, left, asked, txd }
    Phases { receiver, transmitter, sixteenths }
    Side { mr1, mr2, moved, csr, enabled, echo, transmitter, phases }
    Timer { preload, count, running, output, ready, ticks, edges }
    Inputs { levels, changes }
    Outputs { bits, opcr }
    Front { a, b, timer, inputs, outputs, acr, imr, ivr }
    Device { front, a, b }
}

#[cfg(test)]
#[path = "tests/saved.rs"]
pub(crate) mod tests;
