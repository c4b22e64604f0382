//! The nine names of the archive, as include/duart.h declares them. No compiler checks these lines against the Rattle source;
//! the differential test would show where they differ.

use crate::device::Device;
use crate::{Capture, CaptureAnswer, DumpAnswer, EventRecord, FrameAnswer, Polled, Ran, Seen};
use core::mem::size_of;
use core::slice;

extern "C" {
    fn duart_abi() -> u32;
    fn duart_fresh() -> Device;
    fn duart_step(device: *mut Device, event: EventRecord) -> Seen;
    fn duart_poll(device: *mut Device, events: *const EventRecord, count: usize, answers: *mut Seen, space: usize) -> Polled;
    fn duart_run(device: *mut Device, budget: u32) -> Ran;
    fn duart_frame(mr1: u8, mr2: u8, byte: u8, space: *mut u8, length: usize) -> FrameAnswer;
    fn duart_sound(device: Device) -> bool;
    fn duart_dump_bytes(device: Device, events: *const u8, events_size: usize, space: *mut u8, size: usize) -> DumpAnswer;
    fn duart_capture(
        mr1: u8,
        acr7: bool,
        code: u8,
        text: *const u8,
        text_size: usize,
        name_a: *const u8,
        name_a_size: usize,
        name_b: *const u8,
        name_b_size: usize,
        log_a: *mut u8,
        log_a_size: usize,
        log_b: *mut u8,
        log_b_size: usize,
        channel_b: bool,
    ) -> CaptureAnswer;
}

pub fn abi() -> u32 {
    // SAFETY: it takes nothing and returns a number.
    unsafe { duart_abi() }
}

pub fn fresh() -> Device {
    // SAFETY: it takes nothing and returns plain data.
    unsafe { duart_fresh() }
}

pub fn step(device: &mut Device, event: EventRecord) -> Seen {
    // SAFETY: the device is lent for the call alone; each of its fields is a value of its type, which is all that the
    // proved function asks.
    unsafe { duart_step(device, event) }
}

pub fn poll(device: &mut Device, events: &[EventRecord], answers: &mut [Seen]) -> Polled {
    // SAFETY: each pointer and length are those of one slice, and a slice's pointer is not null; the three are lent for the
    // call alone, two of them exclusively, so they do not overlap. What is written are answers, each field a value of its type.
    unsafe { duart_poll(device, events.as_ptr(), events.len(), answers.as_mut_ptr(), answers.len()) }
}

pub fn run(device: &mut Device, budget: u32) -> Ran {
    // SAFETY: as for `step`.
    unsafe { duart_run(device, budget) }
}

pub fn frame(mr1: u8, mr2: u8, byte: u8, space: &mut [u8]) -> FrameAnswer {
    // SAFETY: the pointer and the length are those of one slice, lent for the call alone.
    unsafe { duart_frame(mr1, mr2, byte, space.as_mut_ptr(), space.len()) }
}

pub fn sound(device: Device) -> bool {
    // SAFETY: plain data in, plain data out.
    unsafe { duart_sound(device) }
}

pub fn dump(device: Device, events: &[u8], space: &mut [u8]) -> DumpAnswer {
    // SAFETY: plain data in, plain data out; each pointer and length are those of one slice, lent for the call alone, the
    // second exclusively, so they do not overlap.
    unsafe { duart_dump_bytes(device, events.as_ptr(), events.len(), space.as_mut_ptr(), space.len()) }
}

pub fn capture(asked: &Capture, log_a: &mut [u8], log_b: &mut [u8], channel_b: bool) -> CaptureAnswer {
    let Capture { mr1, acr7, code, text, name_a, name_b } = *asked;
    // SAFETY: each pointer and length are those of one slice, and a slice's pointer is not null; all are lent for the call
    // alone, the logs exclusively, so neither log overlaps anything. The names and the text are only read.
    unsafe {
        duart_capture(
            mr1,
            acr7,
            code,
            text.as_ptr(),
            text.len(),
            name_a.as_ptr(),
            name_a.len(),
            name_b.as_ptr(),
            name_b.len(),
            log_a.as_mut_ptr(),
            log_a.len(),
            log_b.as_mut_ptr(),
            log_b.len(),
            channel_b,
        )
    }
}

const RECORD_BYTES: usize = 3;
const _: () = assert!(size_of::<EventRecord>() == RECORD_BYTES);

/// A list as a dump reads it: of each record its kind, register and byte, in the order of its fields (layout.rs).
pub fn bytes_of(events: &[EventRecord]) -> &[u8] {
    // SAFETY: a record is three bytes with nothing between them, and the whole list is no more than a slice can be.
    unsafe { slice::from_raw_parts(events.as_ptr().cast(), RECORD_BYTES * events.len()) }
}
