//! One channel in one event, as far as the sights of order 2 ask.

use crate::modes::{mode_of, receiver_of, side_of};
use crate::script::Channel;
use duart::device::{Device, Receiver, Side};
use duart::mode;

/// One channel in one event: before it and after it.
#[derive(Clone, Copy)]
pub struct Moment<'a> {
    pub channel: Channel,
    pub was: &'a Side,
    pub is: &'a Side,
    pub held: &'a Receiver,
    pub holds: &'a Receiver,
    /// The pins before and after.
    pins: [u8; 2],
}

impl Moment<'_> {
    pub fn of<'a>(before: &'a Device, after: &'a Device, channel: Channel) -> Moment<'a> {
        Moment {
            channel,
            was: side_of(before, channel),
            is: side_of(after, channel),
            held: receiver_of(before, channel),
            holds: receiver_of(after, channel),
            pins: [before.front.inputs.levels, after.front.inputs.levels],
        }
    }

    pub fn is_sending(&self) -> bool {
        matches!(self.was.transmitter.phase, 1..=3)
    }

    /// More than hunting: from p on, after a low stop, in the wait for a break's end.
    pub fn is_receiving(&self) -> bool {
        self.was.enabled && matches!(self.held.sampler.phase, 1..=4)
    }

    pub fn transmitter_code(&self) -> u8 {
        self.was.csr & 15
    }

    /// In local loopback the transmitter's.
    pub fn receiver_code(&self) -> u8 {
        match mode_of(self.was) {
            mode::LOCAL_LOOPBACK => self.was.csr & 15,
            _ => self.was.csr >> 4,
        }
    }

    /// A divider is between two pulses.
    pub fn is_within_period(&self) -> bool {
        self.was.phases.receiver.0 > 0 || self.was.phases.transmitter.0 > 0
    }

    pub fn has_arrival(&self) -> bool {
        self.holds.queue.count > self.held.queue.count
    }

    fn has(&self, a: u8, b: u8, place: usize) -> bool {
        let bit = if self.channel == Channel::A { a } else { b };
        self.pins[place] & bit != 0
    }

    /// The transmitter's clock pin, IP3 or IP5, falls.
    pub fn falls(&self) -> bool {
        self.has(0x08, 0x20, 0) && !self.has(0x08, 0x20, 1)
    }

    /// The receiver's clock pin, IP4 or IP2, rises.
    pub fn rises(&self) -> bool {
        !self.has(0x10, 0x04, 0) && self.has(0x10, 0x04, 1)
    }

    pub fn rxd_is_high(&self) -> bool {
        self.has(0x40, 0x80, 1)
    }

    pub fn rxd_moves(&self) -> bool {
        self.has(0x40, 0x80, 0) != self.has(0x40, 0x80, 1)
    }

    pub fn cts_is_high(&self) -> bool {
        self.has(0x01, 0x02, 1)
    }

    /// Both sides go by pins, and both have their edge in this event.
    pub fn has_both_edges(&self) -> bool {
        self.was.enabled && self.was.csr & 0xee == 0xee && self.falls() && self.rises()
    }
}
