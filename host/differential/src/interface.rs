//! The sizes of what crosses into the archive, as include/duart.h has them. That each field is where the archive
//! has it is shown by the drawn devices, whose soundness the archive tells from their fields.

use std::mem::size_of;

const _: () = assert!(size_of::<duart::Device>() == 200);
const _: () = assert!(size_of::<duart::Seen>() == 7);
const _: () = assert!(size_of::<duart::EventRecord>() == 3);
const _: () = assert!(size_of::<duart::FrameAnswer>() == 2);
const _: () = assert!(size_of::<duart::Polled>() == 16);
const _: () = assert!(size_of::<duart::Ran>() == 12);
const _: () = assert!(size_of::<duart::DumpAnswer>() == 16);
const _: () = assert!(size_of::<duart::CaptureAnswer>() == 16);
