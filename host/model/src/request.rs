//! The frame request: "A separate request writes a frame's levels, one byte 0 or 1 per 16X pulse, at
//! most 192, from MR1, MR2 and a byte; space past it stays."

use crate::format::{ClockKind, Format, Setting};
use crate::frame::Frame;
use crate::refusals::{mr1_is_modelled, mr2_is_modelled, ACCEPTED, NOT_MODELLED, SPACE_TOO_SHORT};

#[derive(Clone, Copy, Debug, PartialEq, Eq)]
pub struct FrameAnswer {
    pub number: u8,
    pub length: u8,
}

impl FrameAnswer {
    /// "It answers the number and the length, 0 if refused."
    fn refused(number: u8) -> FrameAnswer {
        FrameAnswer { number, length: 0 }
    }
}

pub fn frame(mr1: u8, mr2: u8, byte: u8, space: &mut [u8]) -> FrameAnswer {
    if !mr1_is_modelled(mr1) || !mr2_is_modelled(mr2) {
        return FrameAnswer::refused(NOT_MODELLED);
    }
    let setting = Setting {
        format: Format::from_registers(mr1, mr2),
        clock_kind: ClockKind::SixteenX,
    };
    let frame = Frame::of(byte, setting);
    let length = frame.length();
    if space.len() < usize::from(length) {
        return FrameAnswer::refused(SPACE_TOO_SHORT);
    }
    for (place, pulse) in space.iter_mut().zip(0..length) {
        *place = u8::from(frame.level(pulse).is_high());
    }
    FrameAnswer {
        number: ACCEPTED,
        length,
    }
}
