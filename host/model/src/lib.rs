//! The mill controller's serial chip, written from document 01 and the orders of document 02 alone and
//! not from the Rattle definitions: what a programmer would write who wants a model of the chip. Nothing
//! in it is proved, and nothing that is proved leans on it; it is there to be compared.
//!
//! A comment in double quotes is a sentence (or a part of one) of document 01, word for word; where an
//! order is named before it, of that order.

pub mod calls;
pub mod capture;
pub mod channel;
pub mod character;
pub mod chip;
pub mod clock;
pub mod counter_timer;
pub mod dump;
pub mod format;
pub mod frame;
pub mod level;
pub mod mode;
pub mod pins;
pub mod ports;
pub mod queue;
pub mod receiver;
pub mod request;
pub mod transmitter;

mod capture_text;
mod interrupts;
mod refusals;
mod registers;

#[cfg(test)]
mod tests;

pub use calls::{Polled, Ran};
pub use capture::{capture, Captured};
pub use chip::{Chip, Event, Seen};
pub use dump::Dumped;
pub use request::{frame, FrameAnswer};
