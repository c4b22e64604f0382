//! The proved MC68681 serial chip, for Rust.
//!
//! The archive `libduart.a` holds the chip as `host/built duart` compiles it from the proved source; this crate
//! declares its nine names and gives them a safe face. What each call promises is the contract of the Rattle function
//! of that name: every call on every device and every event ends with an answer, a refused event leaves the device as
//! it was, and a refused frame request, poll, dump or capture leaves the space as it was.
//!
//! ```
//! use duart::{Duart, Event, Refusal, Refused, Register};
//!
//! # fn main() -> Result<(), Refused> {
//! let mut chip = Duart::fresh();
//! assert_eq!(chip.step(Event::read(Register::IVR))?.data, 15); // IVR after a chip reset
//! assert!(!chip.step(Event::read(Register::RBA))?.fresh); // nothing has come: the byte is not new
//! let refused = chip.step(Event::Read(2)).unwrap_err(); // a forbidden read is refused by number
//! assert_eq!((refused.refusal, refused.seen.op), (Refusal::ForbiddenRead, 0xff)); // and has the lines all the same
//! # Ok(())
//! # }
//! ```
//!
//! Each call that can be refused stands here twice: `step`, `poll`, `run_until_irq`, `dump`, `frame` and `capture` answer
//! a [`Result`]; `step_raw`, `poll_raw`, `run_until_irq_raw`, `dump_raw`, `frame_raw` and `capture_raw` the record as the
//! archive gives it, whose number is 0 where it is accepted. The compiler warns where either is dropped:
//!
//! ```compile_fail
//! #![deny(unused_must_use)]
//! duart::Duart::fresh().step(duart::Event::Tick);
//! ```
//!
//! ```compile_fail
//! #![deny(unused_must_use)]
//! duart::Duart::fresh().step_raw(duart::Event::Tick);
//! ```
//!
//! The crate needs `core` alone, and no allocator. Its errors are `core::error::Error`; a rustc before 1.81 has no such
//! thing, and there the feature `std`, which is on by default, makes them `std`'s.

#![cfg_attr(not(test), no_std)]

#[cfg(all(not(core_error), feature = "std"))]
extern crate std;

mod archive;
pub mod bits;
mod calls;
mod capture;
mod debug;
pub mod device;
mod dump;
mod event;
mod layout;
pub mod mode;
mod refusal;
mod register;
mod saved;
mod show;
mod state;

pub use calls::{Polled, Ran, MOST_EVENTS, MOST_TICKS};
pub use capture::{capture, capture_raw, characters, Capture, CaptureAnswer, Channel, Characters, Received, CAPTURE_SPACE};
pub use device::Device;
pub use dump::{dump_space, DumpAnswer, MOST_DUMPED};
pub use event::{Event, EventRecord, FrameAnswer, Seen};
pub use refusal::{Refusal, Refused};
pub use register::Register;
pub use saved::{NotRestored, ABI, SAVED_BYTES};
pub use state::{SamplerState, TransmitterState};

/// One chip. Two are two: where another is wanted, `clone` says so.
///
/// `{}` shows it in lines, by the names of its registers and states; `{:?}` shows every field.
#[derive(Clone, PartialEq, Eq)]
pub struct Duart {
    device: Device,
}

impl Duart {
    /// The state after a chip reset with all pins high.
    ///
    /// # Panics
    ///
    /// Where the archive has another [`ABI`] number, as each maker of a chip does, and each call that needs none
    /// ([`frame`], [`capture`](fn@capture), [`Device::is_sound`]): its structs are others than those declared here.
    #[must_use]
    pub fn fresh() -> Duart {
        assert_fits();
        Duart { device: archive::fresh() }
    }

    /// A chip in any state whatever. Where the state is unsound, each event is answered 1 and alters nothing.
    ///
    /// # Panics
    ///
    /// As [`Duart::fresh`].
    #[must_use]
    pub fn from_device(device: Device) -> Duart {
        assert_fits();
        Duart { device }
    }

    /// One event, one answer. A refused event is an error, with its number and its record; the chip is as it was.
    pub fn step(&mut self, event: Event) -> Result<Seen, Refused> {
        self.step_raw(event).accepted()
    }

    /// The same, answered by the record alone.
    #[must_use = "its number says whether the event was refused"]
    pub fn step_raw(&mut self, event: Event) -> Seen {
        self.step_record(event.into())
    }

    /// The same for a record, as it stands in a list or comes from elsewhere.
    #[must_use = "its number says whether the event was refused"]
    pub fn step_record(&mut self, event: EventRecord) -> Seen {
        archive::step(&mut self.device, event)
    }

    /// The state, to be kept or looked at. [`Duart::save`] writes it into bytes.
    #[must_use]
    pub fn device(&self) -> &Device {
        &self.device
    }

    /// Every field in the range that docs/SOUND.md lists, and the rule on the waiting place.
    #[must_use]
    pub fn is_sound(&self) -> bool {
        self.device.is_sound()
    }
}

/// Compares the archive's number of the layout with that of the declarations here, before a struct crosses.
fn assert_fits() {
    assert_eq!(archive::abi(), ABI, "the archive was made for other declarations than these");
}

impl Default for Duart {
    fn default() -> Duart {
        Duart::fresh()
    }
}

/// Writes the levels of a frame, one byte 0 or 1 for each 16X pulse, over the front of `space`, and answers how many. A
/// refused request (5, 8) writes nothing. MR2 bits 7-6 and 4, the mode and CTS, are allowed and not used.
///
/// # Panics
///
/// As [`Duart::fresh`].
///
/// ```
/// use duart::{frame, Refusal};
///
/// let mut space = [9; 192];
/// assert_eq!(frame(0x13, 0x07, 85, &mut space), Ok(160)); // document 01's case 4
/// assert_eq!((space[15], space[16], space[160]), (0, 1, 9));
/// assert_eq!(frame(0x13, 0x07, 85, &mut space[..159]), Err(Refusal::SpaceShort));
/// ```
pub fn frame(mr1: u8, mr2: u8, byte: u8, space: &mut [u8]) -> Result<usize, Refusal> {
    let answer = frame_raw(mr1, mr2, byte, space);
    match Refusal::of_number(answer.number) {
        None => Ok(answer.length.into()),
        Some(refusal) => Err(refusal),
    }
}

/// The same, answered by the record.
///
/// # Panics
///
/// As [`Duart::fresh`].
#[must_use = "its number says whether the request was refused"]
pub fn frame_raw(mr1: u8, mr2: u8, byte: u8, space: &mut [u8]) -> FrameAnswer {
    assert_fits();
    archive::frame(mr1, mr2, byte, space)
}

#[cfg(test)]
mod tests;
